//! Table files: tables loaded from them and saved to them, with a note or without.
use crate::ffi;
use crate::refusal::Refusal;
use crate::sizes::{told_places, FILE_BYTES, TREE_BYTES};
use crate::table::Table;

impl Table {
    /// The table of a table file, loaded as a controller does: a note is passed over, so that a file makes the same
    /// table with a note, with another and with none.
    ///
    /// A file that lacks the counts of active functions, as versions before 0.3.0 wrote it, makes the same table as
    /// one that has them.
    ///
    /// Refused: a file that is cut short, has another tag or length than the one due, goes on after its last field,
    /// has sides, a tree or coefficients that no acceptable table has, or counts that are not those of its tree; the
    /// first of these in byte order.
    ///
    /// ```
    /// use kiln::{Point, Refusal, Table, DENOMINATOR};
    ///
    /// // Columns of -1,000, 0, 1,000 and 2,000 watts on a sheet of 1 by 1, without counts.
    /// let mut file = vec![1, 0, 2, 1, 1, 2, 0, 1, 0, 16, 0, 80];
    /// for number in [-1_000_i64, 0, 1_000, 2_000].repeat(4) {
    ///     file.extend(&number.to_be_bytes()[3..]);
    /// }
    /// file.extend([17, 0, 0, 18, 0, 0, 19, 0, 0]);
    /// let table = Table::from_file(&file)?;
    /// assert_eq!((table.width(), table.height(), table.tree()), (1, 1, &[0][..]));
    /// assert_eq!(table.exact(Point::new(64, 5))?, 500 * DENOMINATOR);
    /// // The corners that the corner program prints for it.
    /// assert_eq!(table.display(Point::new(0, 128))?, 0);
    /// assert_eq!(table.display(Point::new(128, 128))?, 1_000);
    ///
    /// // The counts, 16 of level 0 and no others, follow the tree.
    /// let counted = |counts: [u8; 8]| [&file[..9], &[3, 0, 8], &counts, &file[9..]].concat();
    /// assert_eq!(Table::from_file(&counted([0, 16, 0, 0, 0, 0, 0, 0]))?, table);
    /// assert_eq!(Table::from_file(&counted([0, 15, 0, 0, 0, 0, 0, 0])), Err(Refusal::FileCount));
    /// assert_eq!(Table::from_file(&counted([0, 16, 0, 0, 0, 0, 1, 0])), Err(Refusal::FileCount));
    ///
    /// // A note comes last; after the last level only its tag may stand.
    /// let ends_in = |end: &[u8]| Table::from_file(&[&file[..], end].concat());
    /// assert_eq!(ends_in(&[32, 0, 2, 79, 75])?, table);
    /// assert_eq!(ends_in(&[32, 0, 2, 79]), Err(Refusal::FileEnds));
    /// assert_eq!(ends_in(&[32, 0, 65]), Err(Refusal::FileFieldLength));
    /// assert_eq!(ends_in(&[32, 0, 2, 79, 75, 33]), Err(Refusal::FileGoesOn));
    /// assert_eq!(ends_in(&[33]), Err(Refusal::FileGoesOn));
    ///
    /// let whole = file.len();
    /// assert!((0..whole).all(|cut| Table::from_file(&file[..cut]) == Err(Refusal::FileEnds)));
    /// file.push(0);
    /// assert_eq!(Table::from_file(&file), Err(Refusal::FileGoesOn));
    /// file[0] = 2;
    /// assert_eq!(Table::from_file(&file), Err(Refusal::FileTag));
    /// # Ok::<(), Refusal>(())
    /// ```
    pub fn from_file(file: &[u8]) -> Result<Table, Refusal> {
        let (mut tree, mut numbers) = outputs(file);
        let (length, w, h) = ffi::read_file(file, &mut tree, &mut numbers)?;
        tree.truncate(length);
        Ok(Table::written(w, h, tree, numbers))
    }

    /// The table of a table file with the file's note, loaded as a test stand does. The note is that part of the file
    /// and no copy of it. It is `None` where no note stands there, and `Some` of no bytes for a note of no bytes.
    ///
    /// Refused: what [`from_file`](Table::from_file) refuses, with the same cause.
    ///
    /// ```
    /// use kiln::{QuarterBox, Refusal, Table};
    ///
    /// let file = Table::fresh(8, 4, 1_500)?.to_file_with_note(Some(b"kiln 7, new elements"))?;
    /// let (table, note) = Table::from_file_with_note(&file)?;
    /// assert_eq!(note, Some(&b"kiln 7, new elements"[..]));
    /// assert!(std::ptr::eq(note.unwrap(), &file[file.len() - 20..]));
    ///
    /// // Refined and saved again, the table keeps it.
    /// let finer = table.insert(QuarterBox::new(28, 4, 32, 8), 3)?.to_file_with_note(note)?;
    /// assert_eq!(Table::from_file_with_note(&finer)?.1, note);
    /// // What a controller loads and saves has none.
    /// let controllers = Table::from_file(&file)?.to_file();
    /// assert_eq!(Table::from_file_with_note(&controllers)?, (table, None));
    ///
    /// let noted_empty = [&controllers[..], &[32, 0, 0]].concat();
    /// assert_eq!(Table::from_file_with_note(&noted_empty)?.1, Some(&[][..]));
    /// assert_eq!(Table::from_file_with_note(&file[1..]), Err(Refusal::FileTag));
    /// # Ok::<(), Refusal>(())
    /// ```
    ///
    /// The note lasts as long as the file, whatever becomes of the table:
    ///
    /// ```
    /// fn note_of(file: &[u8]) -> Option<&[u8]> {
    ///     let (table, note) = kiln::Table::from_file_with_note(file).ok()?;
    ///     drop(table);
    ///     note
    /// }
    /// let file = kiln::Table::fresh(1, 1, 0)?.to_file_with_note(Some(b"flat"))?;
    /// assert_eq!(note_of(&file), Some(&b"flat"[..]));
    /// # Ok::<(), kiln::Refusal>(())
    /// ```
    ///
    /// and no longer:
    ///
    /// ```compile_fail,E0597
    /// let note = {
    ///     let file = kiln::Table::fresh(1, 1, 0)?.to_file_with_note(Some(b"flat"))?;
    ///     kiln::Table::from_file_with_note(&file)?.1
    /// };
    /// assert_eq!(note, Some(&b"flat"[..]));
    /// # Ok::<(), kiln::Refusal>(())
    /// ```
    pub fn from_file_with_note(file: &[u8]) -> Result<(Table, Option<&[u8]>), Refusal> {
        let (mut tree, mut numbers) = outputs(file);
        let (length, w, h, part) = ffi::read_bench(file, &mut tree, &mut numbers)?;
        tree.truncate(length);
        // The library promises that the part lies in the file; one that does not is a fault and not a lack of a note.
        let note = part.map(|part| within(file, part).expect("a note is a part of its file"));
        Ok((Table::written(w, h, tree, numbers), note))
    }

    /// The bytes of this table's file without a note, of which [`from_file`](Table::from_file) makes the same table
    /// again. The file has the counts of active functions, which [`file_counts`](crate::file_counts) reads off. Each
    /// table has one such file, so saving a table that was loaded gives the bytes of a file that had the counts and no
    /// note, and of one that had neither the same with the counts added, 11 bytes more. It is never refused.
    ///
    /// ```
    /// use kiln::{Point, QuarterBox, Table};
    ///
    /// let table = Table::fresh(8, 4, 1_500)?;
    /// let finer = table.insert(QuarterBox::new(28, 4, 32, 8), 3)?;
    /// let file = finer.to_file();
    /// let again = Table::from_file(&file)?;
    /// assert_eq!(again, finer);
    /// assert_eq!(again.to_file(), file);
    /// assert_eq!(again.exact(Point::new(900, 200))?, table.exact(Point::new(900, 200))?);
    ///
    /// // Sides, tree and counts, then 16 coefficients of -1 watt, and none of levels 1 to 3.
    /// let small = Table::fresh(1, 1, -1)?.to_file();
    /// assert_eq!(small[..9], [1, 0, 2, 1, 1, 2, 0, 1, 0]);
    /// assert_eq!(small[9..23], [3, 0, 8, 0, 16, 0, 0, 0, 0, 0, 0, 16, 0, 80]);
    /// assert_eq!(small[23..103], [0xff; 80]);
    /// assert_eq!(small[103..], [17, 0, 0, 18, 0, 0, 19, 0, 0]);
    /// # Ok::<(), kiln::Refusal>(())
    /// ```
    pub fn to_file(&self) -> Vec<u8> {
        // Nothing is refused: a table is acceptable, and no file is longer than the output.
        self.to_file_with_note(None).expect("a table has a file")
    }

    /// The bytes of this table's file with a note, or with none for `None`: those of [`to_file`](Table::to_file), and
    /// after them the note's field. [`from_file_with_note`](Table::from_file_with_note) gives both back, so that a
    /// table that was loaded by it and saved with its note gives the bytes of a file that had the counts.
    ///
    /// Refused: a note of above 64 bytes, [`NOTE_BYTES`](crate::NOTE_BYTES).
    ///
    /// ```
    /// use kiln::{Refusal, Table, NOTE_BYTES};
    ///
    /// let table = Table::fresh(2, 3, 700)?;
    /// let file = table.to_file_with_note(Some(b"stand 2"))?;
    /// assert_eq!(file, [&table.to_file()[..], &[32, 0, 7], b"stand 2"].concat());
    /// assert_eq!(Table::from_file_with_note(&file)?, (table.clone(), Some(&b"stand 2"[..])));
    ///
    /// // A note of no bytes stands there and is not none.
    /// assert_eq!(table.to_file_with_note(Some(&[]))?, [&table.to_file()[..], &[32, 0, 0]].concat());
    /// assert_eq!(table.to_file_with_note(None)?, table.to_file());
    ///
    /// // Any 64 bytes will do, and no more.
    /// let longest = [255; NOTE_BYTES];
    /// assert!(table.to_file_with_note(Some(&longest))?.ends_with(&longest));
    /// assert_eq!(table.to_file_with_note(Some(&[255; NOTE_BYTES + 1])), Err(Refusal::FileFieldLength));
    /// # Ok::<(), Refusal>(())
    /// ```
    pub fn to_file_with_note(&self, note: Option<&[u8]>) -> Result<Vec<u8>, Refusal> {
        let mut file = vec![0; FILE_BYTES];
        let length = ffi::write_file(self.sheet(), self.tree(), self.numbers(), note, &mut file)?;
        file.truncate(length);
        Ok(file)
    }
}

// Buffers for a file's tree and coefficients.
fn outputs(file: &[u8]) -> (Vec<u8>, Vec<i64>) {
    (vec![0; TREE_BYTES], vec![0; told_places(file)])
}

// The bytes of a part of a file, if it lies in the file.
fn within(file: &[u8], (offset, length): ffi::NotePart) -> Option<&[u8]> {
    file.get(offset..)?.get(..length)
}

#[cfg(test)]
mod tests {
    use super::within;

    #[test]
    fn a_part_that_leaves_the_file_is_none_of_it() {
        let file = [1, 2, 3];
        for (part, bytes) in [((0, 0), &file[..0]), ((1, 2), &file[1..]), ((0, 3), &file), ((3, 0), &file[3..])] {
            assert_eq!(within(&file, part), Some(bytes));
        }
        for part in [(0, 4), (2, 2), (3, 1), (4, 0), (1, usize::MAX), (usize::MAX, 1), (usize::MAX, usize::MAX)] {
            assert_eq!(within(&file, part), None, "{part:?}");
        }
    }
}
