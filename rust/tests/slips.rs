//! Slips: what an enquiry tells is what the commit leaves, and a commit takes no slip but the table's own.
use kiln::{file_counts, level_places, places, Point, QuarterBox, Refusal, Slip, Table};

// A table of 3 by 2 whose coefficients differ, and a refined copy of it.
fn tables() -> [Table; 2] {
    let mut numbers: Vec<i64> = (0..level_places(3, 2, 0) as i64).map(|k| k * k * 71 % 4_001 - 2_000).collect();
    numbers.resize(places(3, 2), 0);
    let plain = Table::from_parts(3, 2, &[0], &numbers).unwrap();
    let raised = |table: &Table, [u0, v0, u1, v1]: [usize; 4], level| {
        table.insert(QuarterBox::new(u0, v0, u1, v1), level).unwrap()
    };
    let finer = raised(&raised(&plain, [2, 1, 9, 6], 1), [5, 2, 12, 7], 3);
    [plain, finer]
}

// Some of the boxes of 3 by 2, each with a level.
fn boxes() -> impl Iterator<Item = (QuarterBox, usize)> {
    let sides = |count| (0..count).flat_map(move |low| (low + 1..=count).map(move |high| (low, high)));
    let all = sides(12).flat_map(move |(u0, u1)| sides(8).map(move |(v0, v1)| QuarterBox::new(u0, v0, u1, v1)));
    all.enumerate().step_by(7).map(|(k, raised)| (raised, k % 3 + 1))
}

// The numbers of a slip beside its box and level.
fn told(slip: &mut Slip) -> [&mut usize; 6] {
    let [a, b, c, d] = &mut slip.active;
    [&mut slip.length, a, b, c, d, &mut slip.visited]
}

#[test]
fn what_was_told_is_what_is_left_and_no_figure_moves() {
    let (mut tried, mut grown) = (0, 0);
    for table in tables() {
        let was = table.clone();
        for (raised, level) in boxes() {
            let slip = table.enquire(raised, level).unwrap();
            assert_eq!((slip.raised, slip.level), (raised, level));
            let finer = table.commit(&slip).unwrap();
            let counts = [0, 1, 2, 3].map(|level| finer.activity(level).unwrap().iter().filter(|&&on| on).count());
            assert_eq!((finer.tree().len(), counts), (slip.length, slip.active), "{slip}");
            assert_eq!(file_counts(&finer.to_file()), Some(slip.active));
            let under = finer.least_level(raised).unwrap();
            assert!(under.visited == slip.visited && usize::from(under.least) >= level, "{slip}");
            for point in (0..=384).step_by(64).flat_map(|u| [0, 77, 256].map(|v| Point::new(u, v))) {
                assert_eq!(finer.exact(point), table.exact(point));
            }
            // The same by one step, and once more from the table that it made.
            assert_eq!(table.insert(raised, level).as_ref(), Ok(&finer));
            assert_eq!((finer.enquire(raised, level), finer.commit(&slip)), (Ok(slip), Ok(finer)));
            tried += 1;
            grown += usize::from(slip.length > table.tree().len());
        }
        assert_eq!(table, was);
    }
    assert!(tried > 800 && grown > 400, "{tried}, {grown}");
}

#[test]
fn a_slip_with_another_number_is_refused() {
    for table in tables() {
        let slip = table.enquire(QuarterBox::new(1, 0, 7, 5), 2).unwrap();
        assert!(table.commit(&slip).is_ok());
        for k in 0..6 {
            let was = *told(&mut { slip })[k];
            for wrong in [was + 1, was.wrapping_sub(1), usize::MAX] {
                let mut other = slip;
                *told(&mut other)[k] = wrong;
                assert_eq!(table.commit(&other), Err(Refusal::Slip), "{other}");
            }
        }
        for (raised, level) in [(QuarterBox::new(1, 0, 7, 6), 2), (QuarterBox::new(0, 0, 7, 5), 2), (slip.raised, 3)] {
            assert_eq!(table.commit(&Slip { raised, level, ..slip }), Err(Refusal::Slip));
        }
    }
}

#[test]
fn a_slips_own_box_and_level_are_judged_first() {
    let table = &tables()[1];
    let raised = QuarterBox::new(1, 0, 7, 5);
    let none = Slip { raised, level: 1, length: 0, active: [0; 4], visited: 0 };
    for past in [QuarterBox::new(0, 0, 13, 8), QuarterBox::new(0, 0, 12, 9), QuarterBox::new(3, 0, 3, 8)] {
        assert_eq!(table.enquire(past, 1), Err(Refusal::QuarterBox));
        for level in [0, 1, 4] {
            assert_eq!(table.commit(&Slip { raised: past, level, ..none }), Err(Refusal::QuarterBox));
        }
    }
    for level in [0, 4, usize::MAX] {
        assert_eq!(table.enquire(raised, level), Err(Refusal::Level));
        assert_eq!(table.commit(&Slip { level, ..none }), Err(Refusal::Level));
    }
    assert_eq!(table.commit(&none), Err(Refusal::Slip));
}

#[test]
fn an_old_slip_is_refused_and_one_of_the_same_regions_serves() {
    let [plain, mut finer] = tables();
    let slip = finer.enquire(QuarterBox::new(0, 0, 2, 2), 3).unwrap();
    finer.set(0, -3, -3, 31_999).unwrap();
    assert_eq!(finer.commit(&slip).unwrap().tree().len(), slip.length);
    let zero = Table::from_parts(3, 2, finer.tree(), &vec![0; places(3, 2)]).unwrap();
    assert_eq!(zero.commit(&slip).unwrap().tree().len(), slip.length);
    let other = finer.insert(QuarterBox::new(0, 6, 2, 8), 3).unwrap();
    for table in [&plain, &other] {
        assert_eq!(table.commit(&slip), Err(Refusal::Slip));
        let anew = table.enquire(slip.raised, slip.level).unwrap();
        assert_ne!(anew, slip);
        assert_eq!(table.commit(&anew).unwrap().tree().len(), anew.length);
    }
}

#[test]
fn a_slip_shows_each_of_its_numbers() {
    let raised = QuarterBox::new(1, 2, 3, 4);
    let slip = Slip { raised, level: 5, length: 6, active: [7, 8, 9, 10], visited: 11 };
    assert_eq!(
        slip.to_string(),
        "level 5 box 1,2 to 3,4: tree of 6 bytes, 7 + 8 + 9 + 10 functions active, 11 nodes visited"
    );
}
