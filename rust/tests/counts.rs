//! The counts in a table file: those of the activity, read off without loading, and what a wrong one or none does.
use kiln::{file_counts, places, QuarterBox, Refusal, Table};

const HEAD: usize = 3;
const FIELD: usize = HEAD + 8;

// Tables of several sheets: flat, of one level throughout, and with regions of each level.
fn tables() -> Vec<Table> {
    let flat = |w, h| Table::fresh(w, h, 5).unwrap();
    let refined = |w, h, boxes: &[([usize; 4], usize)]| {
        boxes.iter().fold(flat(w, h), |table, &([u0, v0, u1, v1], level)| {
            table.insert(QuarterBox::new(u0, v0, u1, v1), level).unwrap()
        })
    };
    vec![
        flat(1, 1),
        flat(8, 8),
        refined(1, 1, &[([0, 0, 4, 4], 1)]),
        refined(2, 1, &[([0, 0, 4, 4], 1)]),
        refined(8, 4, &[([20, 0, 32, 16], 1), ([25, 0, 32, 16], 2), ([26, 4, 30, 12], 3)]),
        refined(3, 5, &[([0, 1, 9, 17], 2), ([3, 3, 8, 16], 3)]),
        Table::from_parts(8, 8, &[3], &vec![0; places(8, 8)]).unwrap(),
    ]
}

// The active functions of each level.
fn active(table: &Table) -> [usize; 4] {
    [0, 1, 2, 3].map(|level| table.activity(level).unwrap().into_iter().filter(|&active| active).count())
}

// Where the counts stand in a table's file: after the sides, and the tree's head and body.
fn counts_at(table: &Table) -> usize {
    5 + HEAD + table.tree().len()
}

#[test]
fn a_file_says_how_many_functions_are_active() {
    for table in tables() {
        let (file, at) = (table.to_file(), counts_at(&table));
        assert_eq!(file_counts(&file), Some(active(&table)));
        assert_eq!(file[at..at + HEAD], [3, 0, 8]);
        for (cut, counts) in (0..=file.len()).map(|cut| (cut, file_counts(&file[..cut]))) {
            assert_eq!(counts.is_some(), cut >= at + FIELD, "cut at {cut}");
        }
    }
    // "8 by 8, tree 3: 4,489 active."; "2 by 1 ...: 16 active at level 0, 10 at level 1".
    assert_eq!(active(&tables()[6]), [0, 0, 0, 4_489]);
    assert_eq!(active(&tables()[3]), [16, 10, 0, 0]);
}

#[test]
fn a_file_without_counts_makes_the_same_table_and_is_saved_with_them() {
    for table in tables() {
        let (file, at) = (table.to_file(), counts_at(&table));
        let older = [&file[..at], &file[at + FIELD..]].concat();
        assert_eq!(file_counts(&older), None);
        for loaded in [Table::from_file(&older).unwrap(), Table::from_file(&file).unwrap()] {
            assert_eq!(loaded, table);
            assert_eq!(loaded.to_file(), file);
        }
    }
}

#[test]
fn a_count_with_any_bit_turned_over_is_refused_and_still_read_off() {
    for table in tables() {
        let (file, at) = (table.to_file(), counts_at(&table) + HEAD);
        for bit in 0..64 {
            let mut damaged = file.clone();
            damaged[at + bit / 8] ^= 1 << (bit % 8);
            assert_eq!(Table::from_file(&damaged), Err(Refusal::FileCount));
            let mut told = active(&table);
            told[bit / 16] ^= 1 << (bit % 8 + if bit % 16 < 8 { 8 } else { 0 });
            assert_eq!(file_counts(&damaged), Some(told));
        }
    }
}

#[test]
fn nothing_is_read_off_bytes_that_are_no_such_field() {
    let file = Table::fresh(1, 1, 5).unwrap().to_file();
    assert_eq!(file_counts(&file), Some([16, 0, 0, 0]));
    // The tree's tag and length, then the counts' own.
    for (place, byte) in [(5, 1), (6, 1), (6, 255), (7, 0), (7, 2), (7, 255), (9, 16), (10, 1), (11, 7), (11, 9)] {
        let mut other = file.clone();
        other[place] = byte;
        assert_eq!(file_counts(&other), None, "byte {place} is {byte}");
    }
    assert_eq!(file_counts(&[]), None);
    assert_eq!(file_counts(&[2; 100]), None);
    assert_eq!(file_counts(&[255; 100]), None);
    // It tells what stands there, whatever comes before the tree and whatever the tree is; one of no bytes too.
    let told = [&[9; 5][..], &[2, 0, 0, 3, 0, 8, 255, 255, 0, 1, 1, 0, 18, 52]].concat();
    assert_eq!(file_counts(&told), Some([65_535, 1, 256, 0x1234]));
}
