//! The note of a table file: with it, with another and with none a controller loads the same table; a test stand is
//! given the note as a part of the file and keeps it.
use kiln::{places, QuarterBox, Refusal, Table, FILE_BYTES, NOTE_BYTES};
use std::ptr;

// Tables of several sheets: flat, with regions of several levels, and of level 3 throughout.
fn tables() -> Vec<Table> {
    let flat = |w, h| Table::fresh(w, h, -5).unwrap();
    let refined = flat(8, 4).insert(QuarterBox::new(20, 0, 32, 16), 1).unwrap();
    vec![
        flat(1, 1),
        flat(2, 1).insert(QuarterBox::new(0, 0, 4, 4), 1).unwrap(),
        refined.insert(QuarterBox::new(26, 4, 30, 12), 3).unwrap(),
        Table::from_parts(8, 8, &[3], &vec![0; places(8, 8)]).unwrap(),
    ]
}

// Notes of no bytes, of few and of as many as there may be, some of them like fields of a file.
fn notes() -> Vec<Vec<u8>> {
    let mut notes = vec![
        vec![],
        vec![0],
        vec![32],
        vec![32, 0, 0],
        vec![19, 0, 0],
        vec![32, 0, 1, 7],
        b"Kiln 7, new elements".to_vec(),
        vec![255; NOTE_BYTES],
        (0..64).collect(),
        (192..=255).collect(),
    ];
    notes.extend((0..=NOTE_BYTES).map(|length| vec![b'x'; length]));
    notes
}

// A file's bytes with a note's field after them.
fn noted(file: &[u8], note: &[u8]) -> Vec<u8> {
    [file, &[32, 0, u8::try_from(note.len()).unwrap()], note].concat()
}

#[test]
fn a_note_is_the_end_of_the_file_that_was_lent() {
    for table in tables() {
        for note in notes() {
            let file = table.to_file_with_note(Some(&note)).unwrap();
            assert_eq!(file, noted(&table.to_file(), &note));
            let (loaded, part) = Table::from_file_with_note(&file).unwrap();
            assert_eq!((&loaded, part), (&table, Some(&note[..])));
            // The same bytes of memory, also where they are none.
            assert!(ptr::eq(part.unwrap(), &file[file.len() - note.len()..]));
        }
    }
}

#[test]
fn without_a_note_none_is_told() {
    for table in tables() {
        let file = table.to_file();
        assert_eq!(table.to_file_with_note(None).unwrap(), file);
        assert_eq!(Table::from_file_with_note(&file), Ok((table, None)));
    }
}

#[test]
fn a_controller_loads_the_same_table_whatever_the_note_is() {
    for table in tables() {
        let bare = table.to_file();
        for note in notes() {
            let file = noted(&bare, &note);
            assert_eq!(Table::from_file(&file).as_ref(), Ok(&table));
            // The note is gone from what is saved then.
            assert_eq!(Table::from_file(&file).unwrap().to_file(), bare);
        }
    }
}

#[test]
fn saving_after_the_stand_has_loaded_keeps_the_note() {
    for table in tables() {
        let bare = table.to_file();
        // Without counts, as versions before 0.3.0 wrote it: they are added, and the note stays.
        let counts_at = 5 + 3 + table.tree().len();
        let older = [&bare[..counts_at], &bare[counts_at + 3 + 8..]].concat();
        for note in notes() {
            let file = noted(&bare, &note);
            for lent in [&file, &noted(&older, &note)] {
                let (loaded, part) = Table::from_file_with_note(lent).unwrap();
                assert_eq!(loaded.to_file_with_note(part).unwrap(), file);
            }
        }
        let (loaded, part) = Table::from_file_with_note(&bare).unwrap();
        assert_eq!(loaded.to_file_with_note(part).unwrap(), bare);
    }
}

// The note borrows the file and not the table: the table is changed and dropped while the note is held, and the note
// is returned with the file's lifetime. That this compiles is the test.
fn note_after(file: &[u8], change: impl FnOnce(&mut Table)) -> Option<&[u8]> {
    let (mut table, note) = Table::from_file_with_note(file).unwrap();
    change(&mut table);
    drop(table);
    note
}

#[test]
fn the_note_outlasts_the_table_that_was_loaded_with_it() {
    let file = tables()[0].to_file_with_note(Some(b"flat")).unwrap();
    let mut kept = None;
    let note = note_after(&file, |table| {
        table.set(0, -3, -3, 77).unwrap();
        kept = Some(table.to_file());
    });
    assert_eq!(note, Some(&b"flat"[..]));
    assert_eq!(Table::from_file(&kept.unwrap()).unwrap().coefficient(0, -3, -3), Some(77));
}

#[test]
fn a_note_of_above_64_bytes_is_not_saved() {
    for table in tables() {
        // 256 and 65,536 more than a length that is taken: two bytes would say the same of the latter.
        for length in [65, 66, 128, 255, 256, 256 + 64, 65_535, 65_536, 65_536 + 64] {
            let saved = table.to_file_with_note(Some(&vec![7; length]));
            assert_eq!(saved, Err(Refusal::FileFieldLength), "a note of {length} bytes");
        }
    }
}

// What both loaders are refused with, which must be one cause.
fn refusal(file: &[u8]) -> Refusal {
    let refusal = Table::from_file(file).unwrap_err();
    assert_eq!(Table::from_file_with_note(file), Err(refusal));
    refusal
}

#[test]
fn what_follows_the_last_level_is_judged_in_byte_order() {
    for table in tables() {
        let bare = table.to_file();
        let ends_in = |end: &[u8]| [&bare[..], end].concat();
        // Another byte than the tag is no field, however few bytes are left.
        for byte in (0..=255).filter(|&byte| byte != 32) {
            for end in [&[byte][..], &[byte, 0], &[byte, 0, 0], &[byte, 0, 1, 7]] {
                assert_eq!(refusal(&ends_in(end)), Refusal::FileGoesOn, "{end:?}");
            }
        }
        // The head whole, its length 0 to 64, then the body whole, then the end.
        for end in [&[32][..], &[32, 0], &[32, 255], &[32, 0, 1], &[32, 0, 64, 1, 2, 3]] {
            assert_eq!(refusal(&ends_in(end)), Refusal::FileEnds, "{end:?}");
        }
        for length in (65..=u16::MAX).step_by(131).chain([65, 255, 256, 320, u16::MAX]) {
            let [high, low] = length.to_be_bytes();
            assert_eq!(refusal(&ends_in(&[32, high, low])), Refusal::FileFieldLength);
            let body = vec![7; usize::from(length)];
            assert_eq!(refusal(&[&ends_in(&[32, high, low]), &body[..]].concat()), Refusal::FileFieldLength);
        }
        for note in notes() {
            let file = noted(&bare, &note);
            assert!((bare.len() + 1..file.len()).all(|cut| refusal(&file[..cut]) == Refusal::FileEnds));
            for more in [&[0][..], &[32], &[32, 0, 0], &[19, 0, 0]] {
                assert_eq!(refusal(&[&file[..], more].concat()), Refusal::FileGoesOn);
            }
        }
    }
}

#[test]
fn a_note_before_the_last_level_is_another_tag_than_the_one_due() {
    let bare = tables()[0].to_file();
    // The heads of a sheet of 1 by 1: sides, tree, counts, and levels 0 to 3.
    for at in [0, 5, 9, 20, 103, 106, 109] {
        assert_eq!(refusal(&[&bare[..at], &[32, 0, 0], &bare[at..]].concat()), Refusal::FileTag, "at byte {at}");
    }
}

#[test]
fn contents_before_the_note_are_judged_before_it() {
    let file = noted(&tables()[0].to_file(), b"x");
    // A side, the tree, a count and a coefficient, each before a note that is cut, too long or goes on.
    for (place, byte, due) in [
        (3, 9, Refusal::Side),
        (8, 1, Refusal::Tree),
        (13, 15, Refusal::FileCount),
        (23, 127, Refusal::CoefficientLimit),
    ] {
        let mut damaged = file.clone();
        damaged[place] = byte;
        assert_eq!(refusal(&damaged[..damaged.len() - 1]), due);
        assert_eq!(refusal(&[&damaged[..], &[0]].concat()), due);
        damaged[114] = 65;
        assert_eq!(refusal(&damaged), due);
    }
}

#[test]
fn the_first_bytes_of_a_long_input_decide() {
    // Past the longest file both loaders are refused with the number that its first bytes give.
    for table in tables() {
        for (end, due) in [
            (&[32, 0, 64][..], Refusal::FileGoesOn),
            (&[32, 0, 0], Refusal::FileGoesOn),
            (&[0], Refusal::FileGoesOn),
            (&[32, 0, 65], Refusal::FileFieldLength),
        ] {
            let mut long = [&table.to_file()[..], end].concat();
            long.resize(FILE_BYTES + 100, 32);
            assert_eq!(refusal(&long), due);
            assert_eq!(refusal(&long[..FILE_BYTES + 1]), due);
        }
    }
}
