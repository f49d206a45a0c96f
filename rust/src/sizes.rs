//! The library's fixed numbers, how long a table's slices and its grid are, where in the slices a coefficient stands,
//! and how many functions a file says are active.

/// D = 36 × 2^42: an exact reading of x watts has the numerator x × D.
///
/// ```
/// assert_eq!(kiln::DENOMINATOR, 36 << 42);
/// ```
pub const DENOMINATOR: i64 = 158_329_674_399_744;

/// No cost is greater, in hundredths of a cent per hour.
///
/// ```
/// use kiln::{Point, Table, GREATEST_COST};
///
/// assert_eq!(Table::fresh(8, 8, 32_000)?.cost(Point::new(900, 200), 99_999)?, GREATEST_COST);
/// # Ok::<(), kiln::Refusal>(())
/// ```
pub const GREATEST_COST: usize = 3_199_968;

/// No exact slope is greater in size, in watts per eighth of a cell: one and a half times 32,000 watts.
///
/// ```
/// use kiln::{level_places, places, Point, Table, GREATEST_SLOPE, SLOPE_BOUND};
///
/// // Columns of level 3 at their limits, the first two below zero: at the middle of the first cell all four pull.
/// let limit = 32_000 << 18;
/// let mut numbers = vec![0; places(8, 8) - level_places(8, 8, 3)];
/// numbers.extend((0..level_places(8, 8, 3)).map(|place| if place % 67 < 2 { -limit } else { limit }));
/// let slopes = Table::from_parts(8, 8, &[3], &numbers)?.slopes(Point::new(8, 500))?;
/// assert!((slopes.along_u - GREATEST_SLOPE).abs() <= SLOPE_BOUND && slopes.along_v.abs() <= SLOPE_BOUND);
/// # Ok::<(), kiln::Refusal>(())
/// ```
pub const GREATEST_SLOPE: f64 = 48_000.0;

/// 2^-20 watts per eighth of a cell: no slope that is given is farther from the exact one.
///
/// ```
/// assert_eq!(kiln::SLOPE_BOUND * f64::from(1 << 20), 1.0);
/// ```
pub const SLOPE_BOUND: f64 = 1.0 / 1_048_576.0;

/// No tree is longer, in bytes.
///
/// ```
/// // Each of the 32 by 32 quarters a leaf, under five levels of splits.
/// assert_eq!(kiln::TREE_BYTES, 1_024 + 256 + 64 + 16 + 4 + 1);
/// ```
pub const TREE_BYTES: usize = 1_365;

/// No note in a table file is longer, in bytes.
///
/// ```
/// // After the file's other fields comes the note's head, a tag and two bytes of its length, and then the note.
/// let table = kiln::Table::fresh(1, 1, 0)?;
/// let file = table.to_file_with_note(Some(&[7; kiln::NOTE_BYTES]))?;
/// assert_eq!(file.len(), table.to_file().len() + 3 + 64);
/// # Ok::<(), kiln::Refusal>(())
/// ```
pub const NOTE_BYTES: usize = 64;

/// No table file is longer, in bytes.
///
/// ```
/// use kiln::{places, FILE_BYTES, NOTE_BYTES, TREE_BYTES};
///
/// // Eight heads of three bytes, two sides, the longest tree, four counts of two bytes, five bytes for each place and
/// // the longest note.
/// assert_eq!(FILE_BYTES, 8 * 3 + 2 + TREE_BYTES + 4 * 2 + 5 * places(8, 8) + NOTE_BYTES);
/// ```
pub const FILE_BYTES: usize = 32_443;

/// No grid is longer, in bytes.
///
/// ```
/// use kiln::{grid_length, level_places, GRID_BYTES};
///
/// // Two heads of three bytes, two sides, and five bytes for each level 3 place of the largest sheet.
/// assert_eq!(GRID_BYTES, 2 * 3 + 2 + 5 * level_places(8, 8, 3));
/// assert_eq!(GRID_BYTES, grid_length(8, 8));
/// ```
pub const GRID_BYTES: usize = 22_453;

/// No window over records has more places: a day of minutes.
///
/// ```
/// use kiln::{Refusal, Window, WindowState, WINDOW_PLACES};
///
/// assert_eq!(WINDOW_PLACES, 24 * 60);
/// let cause = |places| Window::over(&mut vec![0; places], WindowState::default()).err().map(Refusal::number);
/// assert_eq!([cause(WINDOW_PLACES), cause(WINDOW_PLACES + 1)], [None, Some(22)]);
/// ```
pub const WINDOW_PLACES: usize = 1_440;

/// No record that a window takes is greater in size, in whole watts.
///
/// ```
/// use kiln::{Refusal, Window, WindowState, GREATEST_RECORD};
///
/// let mut records = [0; 2];
/// let mut window = Window::over(&mut records, WindowState::default())?;
/// assert_eq!([window.add(GREATEST_RECORD), window.add(-GREATEST_RECORD)], [Ok(()); 2]);
/// let beyond = [GREATEST_RECORD + 1, -GREATEST_RECORD - 1];
/// assert_eq!(beyond.map(|watts| window.add(watts).map_err(Refusal::number)), [Err(23); 2]);
/// # Ok::<(), Refusal>(())
/// ```
pub const GREATEST_RECORD: i64 = 32_000;

/// The places of one level of a `w` by `h` sheet; 0 for a side that is not 1 to 8 or a level that is not 0 to 3.
///
/// ```
/// use kiln::level_places;
///
/// assert_eq!([0, 1, 2, 3].map(|level| level_places(8, 8, level)), [121, 361, 1_225, 4_489]);
/// assert_eq!(level_places(9, 8, 0), 0);
/// assert_eq!(level_places(8, 8, 4), 0);
/// ```
pub fn level_places(w: usize, h: usize, level: usize) -> usize {
    let sides = 1..=8;
    if sides.contains(&w) && sides.contains(&h) && level <= 3 {
        ((w << level) + 3) * ((h << level) + 3)
    } else {
        0
    }
}

/// The places of a `w` by `h` sheet, the length of its coefficients; 0 for a side that is not 1 to 8.
///
/// ```
/// assert_eq!(kiln::places(8, 8), 6_196);
/// assert_eq!(kiln::places(0, 8), 0);
/// ```
pub fn places(w: usize, h: usize) -> usize {
    (0..=3).map(|level| level_places(w, h, level)).sum()
}

/// The length in bytes of the grid of a `w` by `h` sheet; 0 for a side that is not 1 to 8.
///
/// ```
/// use kiln::{grid_length, Table};
///
/// assert_eq!(grid_length(2, 1), 2 * 3 + 2 + 5 * 19 * 11);
/// assert_eq!(Table::fresh(2, 1, 700)?.to_grid().len(), grid_length(2, 1));
/// assert_eq!(grid_length(2, 9), 0);
/// # Ok::<(), kiln::Refusal>(())
/// ```
pub fn grid_length(w: usize, h: usize) -> usize {
    match level_places(w, h, 3) {
        0 => 0,
        places => 3 + 2 + 3 + 5 * places,
    }
}

// The places of the sheet of a file or a grid. One that is accepted has its sides in bytes 3 and 4; any other is
// refused before the length of the output is judged.
pub(crate) fn told_places(file: &[u8]) -> usize {
    match file {
        [_, _, _, w, h, ..] => places(usize::from(*w), usize::from(*h)),
        _ => 0,
    }
}

/// Where the coefficient of the function (`i`, `j`) of a level stands among those of a `w` by `h` sheet.
///
/// Level 0 comes first, then 1, 2, 3; in a level j rises, within a row i rises. In level L both start at -3; i ends at
/// w × 2^L - 1 and j at h × 2^L - 1. `None` for a function that is not there.
///
/// ```
/// use kiln::place_of;
///
/// // On 2 by 1 a row of level 0 has five places, and there are four rows.
/// assert_eq!(place_of(2, 1, 0, -3, -3), Some(0));
/// assert_eq!(place_of(2, 1, 0, 1, -3), Some(4));
/// assert_eq!(place_of(2, 1, 0, -3, -2), Some(5));
/// assert_eq!(place_of(2, 1, 0, 1, 0), Some(19));
/// assert_eq!(place_of(2, 1, 1, -3, -3), Some(20));
/// // The last place of all.
/// assert_eq!(place_of(2, 1, 3, 15, 7), Some(kiln::places(2, 1) - 1));
///
/// assert_eq!(place_of(2, 1, 0, 2, 0), None);
/// assert_eq!(place_of(2, 1, 0, 1, 1), None);
/// assert_eq!(place_of(2, 1, 0, 1, -4), None);
/// assert_eq!(place_of(2, 1, 4, 0, 0), None);
/// assert_eq!(place_of(2, 9, 0, 0, 0), None);
/// ```
pub fn place_of(w: usize, h: usize, level: usize, i: i64, j: i64) -> Option<usize> {
    if level_places(w, h, level) == 0 {
        return None;
    }
    let (row, rows) = ((w << level) + 3, (h << level) + 3);
    let (a, b) = (from_low_edge(i, row)?, from_low_edge(j, rows)?);
    Some((0..level).map(|coarser| level_places(w, h, coarser)).sum::<usize>() + b * row + a)
}

/// How many functions of levels 0 to 3 are active, as a table file says it, without loading the file: the numbers of
/// its field of tag 3. `None` where no such field of length 8 stands whole after the tree's field of tag 2, as in a
/// file without counts.
///
/// This tells what the file says and judges nothing else of it. That the counts are those of the tree is known of a
/// file that [`Table::from_file`](crate::Table::from_file) loads.
///
/// ```
/// use kiln::{file_counts, QuarterBox, Table};
///
/// let file = Table::fresh(2, 1, 0)?.insert(QuarterBox::new(0, 0, 4, 4), 1)?.to_file();
/// assert_eq!(file_counts(&file), Some([16, 10, 0, 0]));
///
/// // A tree of 13 bytes from byte 8 on, then the counts' head and their eight bytes.
/// assert_eq!(file[21..32], [3, 0, 8, 0, 16, 0, 10, 0, 0, 0, 0]);
/// assert_eq!(file_counts(&file[..32]), Some([16, 10, 0, 0]));
/// assert!((0..32).all(|cut| file_counts(&file[..cut]).is_none()));
///
/// // A file without counts, as versions before 0.3.0 wrote it: the same table, which saving gives its counts.
/// let older = [&file[..21], &file[32..]].concat();
/// assert_eq!(file_counts(&older), None);
/// assert_eq!(Table::from_file(&older)?.to_file(), file);
/// # Ok::<(), kiln::Refusal>(())
/// ```
pub fn file_counts(file: &[u8]) -> Option<[usize; 4]> {
    let number = |high, low| usize::from(u16::from_be_bytes([high, low]));
    // The tree's field starts at byte 5.
    let after_tree = match *file {
        [_, _, _, _, _, 2, high, low, ref rest @ ..] => rest.get(number(high, low)..)?,
        _ => return None,
    };
    match *after_tree {
        [3, 0, 8, a, b, c, d, e, f, g, h, ..] => Some([number(a, b), number(c, d), number(e, f), number(g, h)]),
        _ => None,
    }
}

// How far an index is from -3, if it is one of `count`.
fn from_low_edge(index: i64, count: usize) -> Option<usize> {
    let from = usize::try_from(index.checked_add(3)?).ok()?;
    (from < count).then_some(from)
}
