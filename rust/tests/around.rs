//! The coefficients around a point: which they are, by another way than the crate's, and that they hold the reading
//! between them.
use kiln::{place_of, places, ActiveFunction, Point, QuarterBox, Refusal, Table, DENOMINATOR};

macro_rules! sample {
    ($name:literal) => {
        Table::from_file(include_bytes!(concat!(env!("CARGO_MANIFEST_DIR"), "/../tables/", $name, ".table"))).unwrap()
    };
}

fn sample_tables() -> Vec<Table> {
    vec![
        sample!("bench-s"),
        sample!("bench-s-level-1"),
        sample!("kiln-unrefined"),
        sample!("kiln-refined-near-top-heat"),
    ]
}

// Numbers that look random and are the same in every run (xorshift).
struct Numbers(u64);

impl Numbers {
    fn below(&mut self, end: u64) -> u64 {
        self.0 ^= self.0 << 13;
        self.0 ^= self.0 >> 7;
        self.0 ^= self.0 << 17;
        self.0 % end
    }
}

// A table of `w` by `h` with some boxes at each level and a coefficient of any size at each active function.
fn generated_table(w: usize, h: usize, numbers: &mut Numbers) -> Table {
    let mut table = Table::fresh(w, h, 0).unwrap();
    for level in [1, 2, 3, 3, 2] {
        let mut span = |side: usize| {
            let (a, b) = (numbers.below(4 * side as u64) as usize, numbers.below(4 * side as u64) as usize);
            (a.min(b), a.max(b) + 1)
        };
        let ((u0, u1), (v0, v1)) = (span(w), span(h));
        table = table.insert(QuarterBox::new(u0, v0, u1, v1), level).unwrap();
    }
    for (level, i, j) in functions(w, h) {
        let limit = 32_000 << (6 * level);
        let number = numbers.below(2 * limit + 1) as i64 - limit as i64;
        match table.set(level, i, j, number) {
            Ok(()) => assert_eq!(table.coefficient(level, i, j), Some(number)),
            refused => assert_eq!((refused, table.coefficient(level, i, j)), (Err(Refusal::Function), Some(0))),
        }
    }
    table
}

fn generated_tables() -> Vec<Table> {
    let mut numbers = Numbers(0x9E37_79B9_7F4A_7C15);
    [(1, 1), (2, 1), (1, 3), (3, 2), (8, 8)].map(|(w, h)| generated_table(w, h, &mut numbers)).into()
}

// Every function of a sheet, in the order of the coefficients.
fn functions(w: usize, h: usize) -> Vec<(usize, i64, i64)> {
    let ends = |side: usize, level: usize| -3..(side << level) as i64;
    let in_level = |level| ends(h, level).flat_map(move |j| ends(w, level).map(move |i| (level, i, j)));
    (0..=3).flat_map(in_level).collect()
}

// A function is active when the least level under its support, cut to the sheet, is its own.
fn active(table: &Table, (level, i, j): (usize, i64, i64)) -> bool {
    let cut = |index: i64, side: usize| {
        // In eighths of a cell an edge of level 3 is a whole number; two make a quarter.
        let (low, high) = ((8 * index) >> level, (8 * (index + 4)) >> level);
        let (low, high) = (low.max(0), high.min(8 * side as i64));
        (low as usize / 2, (high as usize + 1) / 2)
    };
    let ((u0, u1), (v0, v1)) = (cut(i, table.width()), cut(j, table.height()));
    usize::from(table.least_level(QuarterBox::new(u0, v0, u1, v1)).unwrap().least) == level
}

// Corners and edges of the sheet, knots of every level with the steps beside them, and points anywhere.
fn points(w: usize, h: usize) -> Vec<Point> {
    let mut numbers = Numbers(0x2545_F491_4F6C_DD1D);
    let mut place = |side: usize| {
        let end = 128 * side as u64;
        let knot = 16 * numbers.below(8 * side as u64 + 1);
        let anywhere = numbers.below(end + 1);
        let choices = [0, end, knot, knot, (knot + 1).min(end), knot.saturating_sub(1), anywhere, anywhere];
        choices[numbers.below(8) as usize] as usize
    };
    let mut points = vec![Point::new(0, 0), Point::new(128 * w, 0), Point::new(0, 128 * h)];
    points.push(Point::new(128 * w, 128 * h));
    points.extend((0..400).map(|_| Point::new(place(w), place(h))));
    points
}

fn indices(around: &[ActiveFunction]) -> Vec<(usize, i64, i64)> {
    around.iter().map(|function| (function.level, function.i, function.j)).collect()
}

#[test]
fn around_a_point_are_the_active_functions_that_hold_it_in_the_order_of_the_coefficients() {
    for table in sample_tables().into_iter().chain(generated_tables()) {
        let (w, h) = (table.width(), table.height());
        let active: Vec<_> = functions(w, h).into_iter().filter(|&function| active(&table, function)).collect();
        assert!(!active.is_empty());
        for point in points(w, h) {
            let around = table.around(point).unwrap();
            // In whole 1/1,024 of a cell every edge of every level is a whole number.
            let inside = |level: usize, index: i64, steps: usize| {
                let (low, high) = (index * (1_024 >> level), (index + 4) * (1_024 >> level));
                (low + 1..high).contains(&(8 * steps as i64))
            };
            let holding =
                active.iter().filter(|&&(level, i, j)| inside(level, i, point.u) && inside(level, j, point.v));
            assert_eq!(indices(&around), holding.copied().collect::<Vec<_>>(), "{point:?} of {w} by {h}");
            for function in around {
                let number = table.coefficient(function.level, function.i, function.j);
                assert_eq!(Some(function.number), number);
            }
        }
    }
}

#[test]
fn each_exact_reading_lies_between_the_least_and_the_greatest_around_its_point() {
    let mut strictly = 0;
    for table in sample_tables().into_iter().chain(generated_tables()) {
        for point in points(table.width(), table.height()) {
            let reading = table.exact(point).unwrap();
            let watts: Vec<i64> = table.around(point).unwrap().into_iter().map(ActiveFunction::exact).collect();
            let (least, greatest) = (*watts.iter().min().unwrap(), *watts.iter().max().unwrap());
            assert!(least <= reading && reading <= greatest, "{least} {reading} {greatest} at {point:?}");
            strictly += usize::from(least < reading && reading < greatest);
        }
    }
    // The claim is not met by tables that are flat.
    assert!(strictly > 2_000, "{strictly}");
}

#[test]
fn refining_moves_what_is_around_a_point_and_not_the_reading() {
    let table = sample!("kiln-refined-near-top-heat");
    let (w, h) = (table.width(), table.height());
    let finer = table.insert(QuarterBox::new(0, 0, 4 * w, 4 * h), 3).unwrap();
    for point in points(w, h) {
        assert_eq!(finer.exact(point), table.exact(point));
        assert!(finer.around(point).unwrap().iter().all(|function| function.level == 3));
    }
}

#[test]
fn a_point_on_a_knot_is_not_inside_the_supports_that_end_there() {
    let table = Table::fresh(2, 2, 0).unwrap();
    let along = |u, v, range_u: [i64; 2], range_v: [i64; 2]| {
        let around = indices(&table.around(Point::new(u, v)).unwrap());
        let all = (range_v[0]..=range_v[1]).flat_map(|j| (range_u[0]..=range_u[1]).map(move |i| (0, i, j)));
        assert_eq!(around, all.collect::<Vec<_>>(), "at {u} {v}");
    };
    along(0, 0, [-3, -1], [-3, -1]);
    along(1, 0, [-3, 0], [-3, -1]);
    along(127, 64, [-3, 0], [-3, 0]);
    along(128, 64, [-2, 0], [-3, 0]);
    along(129, 128, [-2, 1], [-2, 0]);
    along(255, 256, [-2, 1], [-1, 1]);
    along(256, 256, [-1, 1], [-1, 1]);

    // Raised to level 3, the knots are 16 steps apart, also at the far edge.
    let fine = table.insert(QuarterBox::new(0, 0, 8, 8), 3).unwrap();
    let first_and_last = |u, v| {
        let around = indices(&fine.around(Point::new(u, v)).unwrap());
        (around.len(), around[0], around[around.len() - 1])
    };
    assert_eq!(first_and_last(256, 256), (9, (3, 13, 13), (3, 15, 15)));
    assert_eq!(first_and_last(15, 16), (12, (3, -3, -2), (3, 0, 0)));
    assert_eq!(first_and_last(17, 255), (16, (3, -2, 12), (3, 1, 15)));
}

#[test]
fn a_coefficient_whose_support_ends_at_the_point_bounds_nothing_there() {
    let mut table = Table::fresh(1, 1, 10).unwrap();
    table.set(0, 0, -1, 32_000).unwrap();
    table.set(0, -3, -1, -32_000).unwrap();
    let between = |u| {
        let around = table.around(Point::new(u, 64)).unwrap();
        let watts = around.iter().map(|function| function.watts());
        (watts.clone().fold(f64::INFINITY, f64::min), watts.fold(f64::NEG_INFINITY, f64::max))
    };
    assert_eq!(between(0), (-32_000.0, 10.0));
    assert_eq!(between(1), (-32_000.0, 32_000.0));
    assert_eq!(between(127), (-32_000.0, 32_000.0));
    assert_eq!(between(128), (10.0, 32_000.0));
}

#[test]
fn each_function_has_a_place_of_its_own_and_no_other_index_has_one() {
    for (w, h) in (1..=8).flat_map(|w| (1..=8).map(move |h| (w, h))) {
        let places_of: Vec<_> = functions(w, h).into_iter().map(|(level, i, j)| place_of(w, h, level, i, j)).collect();
        assert_eq!(places_of, (0..places(w, h)).map(Some).collect::<Vec<_>>());
        for level in 0..=3 {
            let (past_i, past_j) = ((w << level) as i64, (h << level) as i64);
            for outside in [i64::MIN, -4, i64::MAX, i64::MAX - 3] {
                assert_eq!(place_of(w, h, level, outside, 0), None);
                assert_eq!(place_of(w, h, level, 0, outside), None);
            }
            assert_eq!((place_of(w, h, level, past_i, 0), place_of(w, h, level, 0, past_j)), (None, None));
        }
        assert_eq!((place_of(w, h, 4, 0, 0), place_of(w, h, usize::MAX, 0, 0)), (None, None));
        assert_eq!((place_of(0, h, 0, 0, 0), place_of(w, usize::MAX, 0, 0, 0)), (None, None));
    }
}

#[test]
fn every_size_of_coefficient_is_exact_in_watts() {
    for level in 0..=3 {
        let fine = Table::fresh(1, 1, 0).unwrap();
        let mut table = if level == 0 { fine } else { fine.insert(QuarterBox::new(0, 0, 4, 4), level).unwrap() };
        let (unit, limit) = (64_i64.pow(level as u32), 32_000 * 64_i64.pow(level as u32));
        for number in [-limit, -limit + 1, -1, 0, 1, limit - 1, limit] {
            table.set(level, -3, -3, number).unwrap();
            let function = table.around(Point::new(0, 0)).unwrap()[0];
            assert_eq!((function.level, function.i, function.j), (level, -3, -3));
            assert_eq!((function.number, function.denominator()), (number, unit));
            assert_eq!(i128::from(function.exact()) * i128::from(unit), i128::from(number) * i128::from(DENOMINATOR));
            // Watts times the unit, a power of two, is exact in an f64.
            assert_eq!((function.watts() * unit as f64) as i64, number);
        }
    }
}

#[test]
fn a_point_off_the_sheet_has_nothing_around_it() {
    let table = Table::fresh(2, 1, 0).unwrap();
    for point in [(257, 0), (0, 129), (usize::MAX, 0), (0, usize::MAX), (1 << 63, 1 << 63)] {
        assert_eq!(table.around(Point::new(point.0, point.1)), Err(Refusal::Point));
    }
}
