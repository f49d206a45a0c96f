//! What only the raw functions show: numbers without a name, outputs of another length than the crate lends, and what a
//! window's calls leave.
use super::{add_record, read_grid, unless_refused, window_figures, write_file, write_grid};
use std::num::NonZeroU8;

#[test]
fn every_number_but_0_is_an_error_value() {
    assert_eq!(unless_refused(0, 7), Ok(7));
    for number in 1..=u8::MAX {
        assert_eq!(unless_refused(number, 7).map_err(NonZeroU8::get), Err(number));
    }
}

// The file of a sheet of 1 by 1 has 112 bytes, and a note of n bytes adds 3 + n: the crate lends more for it, so
// only this shows the refusal.
#[test]
fn a_file_output_that_is_too_short_is_refused_and_left() {
    let numbers = [[5; 16].as_slice(), &[0; 195]].concat();
    let longest: Vec<u8> = (0..64).collect();
    for note in [None, Some(&longest[..0]), Some(&longest[..7]), Some(&longest[..])] {
        let end = note.map_or(vec![], |note| [&[32, 0, note.len() as u8], note].concat());
        let due = 112 + end.len();
        for lent in 0..=due + 2 {
            let mut file = vec![9; lent];
            let saved = write_file([1, 1], &[0], &numbers, note, &mut file).map_err(NonZeroU8::get);
            if lent < due {
                assert_eq!((saved, file), (Err(18), vec![9; lent]));
            } else {
                assert_eq!((saved, &file[109..112], &file[112..due]), (Ok(due), &[19, 0, 0][..], &end[..]));
                assert!(file[due..].iter().all(|&byte| byte == 9));
            }
        }
    }
}

// "1 to 5, 14, 18": a bad table before a note above 64 bytes, and that before an output that is too short.
#[test]
fn a_table_is_judged_before_a_note_and_that_before_the_output() {
    let good = [[5; 16].as_slice(), &[0; 195]].concat();
    let over = [[32_001; 16].as_slice(), &[0; 195]].concat();
    let note = [7; 65];
    for (numbers, note, due) in
        [(&over, Some(&note[..]), 4), (&over, None, 4), (&good, Some(&note), 14), (&good, Some(&note[1..]), 18)]
    {
        let mut file = [9; 111];
        assert_eq!(write_file([1, 1], &[0], numbers, note, &mut file).map_err(NonZeroU8::get), Err(due));
        assert_eq!(file, [9; 111]);
    }
    assert_eq!(write_file([1, 1], &[0], &good, Some(&note), &mut [9; 500]).map_err(NonZeroU8::get), Err(14));
}

// The grid of a sheet of 1 by 1 has 8 + 5 × 121 bytes.
#[test]
fn a_grid_output_that_is_too_short_is_refused_and_left() {
    let numbers = [[5; 16].as_slice(), &[0; 195]].concat();
    for lent in [0, 1, 8, 612, 613, 614, 700] {
        let mut grid = vec![9; lent];
        let written = write_grid([1, 1], &[0], &numbers, &mut grid).map_err(NonZeroU8::get);
        if lent < 613 {
            assert_eq!((written, grid), (Err(18), vec![9; lent]));
        } else {
            // 5 watts are 5 × 64^3 = 0x140000.
            assert_eq!((written, &grid[..8]), (Ok(613), &[1, 0, 2, 1, 1, 19, 2, 93][..]));
            assert_eq!(grid[8..613], [0, 0, 0x14, 0, 0].repeat(121));
            assert!(grid[613..].iter().all(|&byte| byte == 9));
        }
    }
}

// "1 to 5", then 18; of a grid its own causes, then 2, then 21, then 16.
#[test]
fn a_grid_is_judged_before_the_tree_and_that_before_the_output() {
    let over = [[32_001; 16].as_slice(), &[0; 195]].concat();
    assert_eq!(write_grid([1, 1], &[0], &over, &mut [9; 612]).map_err(NonZeroU8::get), Err(4));
    assert_eq!(write_grid([0, 1], &[0], &over, &mut [9; 612]).map_err(NonZeroU8::get), Err(1));
    let grid = [&[1, 0, 2, 1, 1, 19, 2, 93][..], &[0, 0, 0x14, 0, 0].repeat(121)].concat();
    let mut bent = grid.clone();
    bent[612] = 1;
    let (flat, equal): (&[u8], &[u8]) = (&[0], &[4, 0, 0, 0, 0]);
    for places in [0, 210, 211, 212] {
        for (grid, tree, due) in [(&grid[..612], equal, 12), (&bent, equal, 2), (&bent, flat, 21), (&grid, flat, 16)] {
            let mut numbers = vec![7; places];
            let read = read_grid(grid, tree, &mut numbers).map_err(NonZeroU8::get);
            if (due, places) == (16, 211) {
                assert_eq!((read, numbers), (Ok((1, 1)), [[5; 16].as_slice(), &[0; 195]].concat()));
            } else {
                assert_eq!((read, numbers), (Err(due), vec![7; places]));
            }
        }
    }
}

// "a window of 0 or above 1,440 places, or more held than places, or the oldest outside them", in the order of the
// places, the records held and the oldest's place.
const NO_WINDOWS: [[usize; 3]; 8] = [
    [0, 0, 0],
    [1_441, 0, 0],
    [1_441, 1_441, 1_440],
    [4, 5, 0],
    [4, usize::MAX, 0],
    [4, 4, 4],
    [4, 0, 4],
    [4, 0, usize::MAX],
];

// "22 ...; 23 ..., after 22": the crate makes no window that is refused, so only this shows 22 before 23. "refused ones
// included": what is refused leaves slice and state.
#[test]
fn a_refused_record_leaves_the_slice_and_both_numbers_of_the_state() {
    let mut records = [7; 1_441];
    for [places, held, oldest] in NO_WINDOWS {
        for watts in [0, 32_000, 32_001, i64::MIN] {
            let mut state = (held, oldest);
            let added = add_record(&mut records[..places], &mut state.0, &mut state.1, watts).map_err(NonZeroU8::get);
            assert_eq!((added, state), (Err(22), (held, oldest)));
        }
    }
    for [places, held, oldest] in [[1, 0, 0], [1, 1, 0], [4, 0, 3], [4, 2, 3], [4, 4, 1], [1_440, 1_440, 1_439]] {
        for watts in [32_001, -32_001, 1 << 32, i64::MIN, i64::MAX] {
            let mut state = (held, oldest);
            let added = add_record(&mut records[..places], &mut state.0, &mut state.1, watts).map_err(NonZeroU8::get);
            assert_eq!((added, state), (Err(23), (held, oldest)));
        }
    }
    assert_eq!(records, [7; 1_441]);
}

// "With none held the total is 0 and the other two are marked missing": nothing that could be taken for a figure is
// written there. What is refused leaves all four.
#[test]
fn figures_that_are_missing_or_refused_are_left() {
    let mut records = [7; 1_441];
    for (places, oldest) in [(1, 0), (4, 0), (4, 3), (1_440, 1_439)] {
        let mut figures = (61, 62, 63, 64);
        assert_eq!(window_figures(&records[..places], 0, oldest, &mut figures), Ok(()));
        assert_eq!(figures, (0, 1, 63, 64));
        records[oldest] = -5;
        assert_eq!(window_figures(&records[..places], 1, oldest, &mut figures), Ok(()));
        assert_eq!(figures, (-5, 0, -5, -5));
        records[oldest] = 7;
    }
    for [places, held, oldest] in NO_WINDOWS {
        let mut figures = (61, 62, 63, 64);
        let told = window_figures(&records[..places], held, oldest, &mut figures).map_err(NonZeroU8::get);
        assert_eq!((told, figures), (Err(22), (61, 62, 63, 64)));
    }
}
