//! The calls as the archive has them, and a safe function over each. All unsafe code of the crate is here, and nothing
//! here knows the crate's other files: slices and numbers go in, numbers or the number of a refusal come out.
//!
//! What the library promises of each call, for every input: it ends; it reads no more than the slices and values that
//! it is lent, a slice as a pointer and a length in elements; it writes no more than the slices and values that are
//! lent for writing; it keeps no pointer; it has no state, does not unwind and returns 0 or a refusal number. What it
//! needs of the caller: the elements that a length says are there, and nothing that is written overlaps anything else
//! that is lent.
//!
//! A Rust slice has all its elements, initialised and aligned, and what stands behind a `&mut` overlaps nothing else
//! that is in use. So each call below is sound whatever the numbers are. None depends on a table being acceptable.
#![allow(unsafe_code)]

use std::num::NonZeroU8;

extern "C" {
    fn kiln_table_cause(
        w: usize, h: usize, tree: *const u8, tree_len: usize, numbers: *const i64, numbers_len: usize,
    ) -> u8;
    fn kiln_least_level(
        w: usize, h: usize, tree: *const u8, tree_len: usize, u0: usize, v0: usize, u1: usize, v1: usize,
        least: *mut u8, greatest: *mut u8, visited: *mut usize,
    ) -> u8;
    fn kiln_activity(
        w: usize, h: usize, tree: *const u8, tree_len: usize, level: usize, out: *mut u8, out_len: usize,
    ) -> u8;
    fn kiln_fresh(
        w: usize, h: usize, number: i64, tree_out: *mut u8, tree_out_len: usize, numbers_out: *mut i64,
        numbers_out_len: usize, length: *mut usize,
    ) -> u8;
    fn kiln_enquire(
        w: usize, h: usize, tree: *const u8, tree_len: usize, numbers: *const i64, numbers_len: usize, u0: usize,
        v0: usize, u1: usize, v1: usize, level: usize, slip_length: *mut usize, slip_active: *mut usize,
        slip_visited: *mut usize,
    ) -> u8;
    fn kiln_commit(
        w: usize, h: usize, tree: *const u8, tree_len: usize, numbers: *const i64, numbers_len: usize, u0: usize,
        v0: usize, u1: usize, v1: usize, level: usize, slip_length: usize, slip_active: *const usize,
        slip_visited: usize, tree_out: *mut u8, tree_out_len: usize, numbers_out: *mut i64, numbers_out_len: usize,
        length: *mut usize,
    ) -> u8;
    fn kiln_set(
        w: usize, h: usize, tree: *const u8, tree_len: usize, numbers: *mut i64, numbers_len: usize, level: usize,
        i: i64, j: i64, number: i64,
    ) -> u8;
    fn kiln_exact(
        w: usize, h: usize, tree: *const u8, tree_len: usize, numbers: *const i64, numbers_len: usize, u: usize,
        v: usize, numerator: *mut i64,
    ) -> u8;
    fn kiln_watts(
        w: usize, h: usize, tree: *const u8, tree_len: usize, numbers: *const i64, numbers_len: usize, u: usize,
        v: usize, watts: *mut f64,
    ) -> u8;
    fn kiln_slopes(
        w: usize, h: usize, tree: *const u8, tree_len: usize, numbers: *const i64, numbers_len: usize, u: usize,
        v: usize, watts: *mut f64, along_u: *mut f64, along_v: *mut f64,
    ) -> u8;
    fn kiln_display(
        w: usize, h: usize, tree: *const u8, tree_len: usize, numbers: *const i64, numbers_len: usize, u: usize,
        v: usize, watts: *mut i64,
    ) -> u8;
    fn kiln_cost(
        w: usize, h: usize, tree: *const u8, tree_len: usize, numbers: *const i64, numbers_len: usize, u: usize,
        v: usize, tariff: usize, cost: *mut usize,
    ) -> u8;
    fn kiln_read_file(
        file: *const u8, file_len: usize, tree_out: *mut u8, tree_out_len: usize, numbers_out: *mut i64,
        numbers_out_len: usize, length: *mut usize, w: *mut usize, h: *mut usize,
    ) -> u8;
    fn kiln_read_bench(
        file: *const u8, file_len: usize, tree_out: *mut u8, tree_out_len: usize, numbers_out: *mut i64,
        numbers_out_len: usize, length: *mut usize, w: *mut usize, h: *mut usize, noted: *mut u8,
        note_offset: *mut usize, note_length: *mut usize,
    ) -> u8;
    fn kiln_write_file(
        w: usize, h: usize, tree: *const u8, tree_len: usize, numbers: *const i64, numbers_len: usize, noted: u8,
        note: *const u8, note_len: usize, file_out: *mut u8, file_out_len: usize, length: *mut usize,
    ) -> u8;
    fn kiln_write_grid(
        w: usize, h: usize, tree: *const u8, tree_len: usize, numbers: *const i64, numbers_len: usize,
        grid_out: *mut u8, grid_out_len: usize, length: *mut usize,
    ) -> u8;
    fn kiln_read_grid(
        grid: *const u8, grid_len: usize, tree: *const u8, tree_len: usize, numbers_out: *mut i64,
        numbers_out_len: usize, w: *mut usize, h: *mut usize,
    ) -> u8;
    fn kiln_add_record(window: *mut i32, window_len: usize, held: *mut usize, oldest: *mut usize, watts: i64) -> u8;
    fn kiln_window_figures(
        window: *const i32, window_len: usize, held: usize, oldest: usize, total: *mut i64, missing: *mut u8,
        least: *mut i32, greatest: *mut i32,
    ) -> u8;
}

/// What a call gives, or the number of its refusal.
pub type Answer<T> = Result<T, NonZeroU8>;

/// What was given, unless the number that a call returned is a refusal's. Later libraries may have any number.
fn unless_refused<T>(number: u8, given: T) -> Answer<T> {
    match NonZeroU8::new(number) {
        Some(refusal) => Err(refusal),
        None => Ok(given),
    }
}

pub fn table_cause([w, h]: [usize; 2], tree: &[u8], numbers: &[i64]) -> Answer<()> {
    // SAFETY: reads two slices and writes nothing.
    let n = unsafe { kiln_table_cause(w, h, tree.as_ptr(), tree.len(), numbers.as_ptr(), numbers.len()) };
    unless_refused(n, ())
}

/// The least level, the greatest level and the number of nodes visited.
pub fn least_level([w, h]: [usize; 2], tree: &[u8], [u0, v0, u1, v1]: [usize; 4]) -> Answer<(u8, u8, usize)> {
    let (mut least, mut greatest, mut visited) = (0, 0, 0);
    // SAFETY: reads the tree's slice and writes three local values.
    let n = unsafe {
        kiln_least_level(w, h, tree.as_ptr(), tree.len(), u0, v0, u1, v1, &mut least, &mut greatest, &mut visited)
    };
    unless_refused(n, (least, greatest, visited))
}

pub fn activity([w, h]: [usize; 2], tree: &[u8], level: usize, out: &mut [u8]) -> Answer<()> {
    // SAFETY: reads the tree's slice and writes `out`, which is borrowed for writing and so apart from the tree.
    let n = unsafe { kiln_activity(w, h, tree.as_ptr(), tree.len(), level, out.as_mut_ptr(), out.len()) };
    unless_refused(n, ())
}

/// The new tree's length.
pub fn fresh([w, h]: [usize; 2], number: i64, tree_out: &mut [u8], numbers_out: &mut [i64]) -> Answer<usize> {
    let mut length = 0;
    let (tree_len, numbers_len) = (tree_out.len(), numbers_out.len());
    // SAFETY: writes two slices that are borrowed for writing, so apart from each other, and a local value.
    let n = unsafe {
        kiln_fresh(w, h, number, tree_out.as_mut_ptr(), tree_len, numbers_out.as_mut_ptr(), numbers_len, &mut length)
    };
    unless_refused(n, length)
}

/// What an enquiry asks: a box's corners and a level.
pub type Asked = ([usize; 4], usize);

/// What it tells: the new tree's length, the active functions of levels 0 to 3 and the number of nodes visited.
pub type Told = (usize, [usize; 4], usize);

pub fn enquire([w, h]: [usize; 2], tree: &[u8], numbers: &[i64], ([u0, v0, u1, v1], level): Asked) -> Answer<Told> {
    let (mut length, mut active, mut visited) = (0, [0; 4], 0);
    // SAFETY: reads two slices and writes three local values, of which the second has the four numbers that are due.
    let n = unsafe {
        kiln_enquire(
            w,
            h,
            tree.as_ptr(),
            tree.len(),
            numbers.as_ptr(),
            numbers.len(),
            u0,
            v0,
            u1,
            v1,
            level,
            &mut length,
            active.as_mut_ptr(),
            &mut visited,
        )
    };
    unless_refused(n, (length, active, visited))
}

/// The new tree's length.
pub fn commit(
    [w, h]: [usize; 2], tree: &[u8], numbers: &[i64], ([u0, v0, u1, v1], level): Asked,
    (slip_length, active, visited): Told, tree_out: &mut [u8], numbers_out: &mut [i64],
) -> Answer<usize> {
    let mut length = 0;
    // SAFETY: reads two slices that are borrowed for reading and the four numbers of a local value; writes two slices
    // that are borrowed for writing, so apart from those and from each other, and a local value.
    let n = unsafe {
        kiln_commit(
            w,
            h,
            tree.as_ptr(),
            tree.len(),
            numbers.as_ptr(),
            numbers.len(),
            u0,
            v0,
            u1,
            v1,
            level,
            slip_length,
            active.as_ptr(),
            visited,
            tree_out.as_mut_ptr(),
            tree_out.len(),
            numbers_out.as_mut_ptr(),
            numbers_out.len(),
            &mut length,
        )
    };
    unless_refused(n, length)
}

pub fn set(
    [w, h]: [usize; 2], tree: &[u8], numbers: &mut [i64], level: usize, [i, j]: [i64; 2], number: i64,
) -> Answer<()> {
    // SAFETY: reads the tree's slice and writes the coefficients', which is borrowed for writing and so apart from it.
    let n =
        unsafe { kiln_set(w, h, tree.as_ptr(), tree.len(), numbers.as_mut_ptr(), numbers.len(), level, i, j, number) };
    unless_refused(n, ())
}

/// The numerator.
pub fn exact([w, h]: [usize; 2], tree: &[u8], numbers: &[i64], [u, v]: [usize; 2]) -> Answer<i64> {
    let mut numerator = 0;
    let (tree_len, numbers_len) = (tree.len(), numbers.len());
    // SAFETY: reads two slices and writes a local value.
    let n = unsafe { kiln_exact(w, h, tree.as_ptr(), tree_len, numbers.as_ptr(), numbers_len, u, v, &mut numerator) };
    unless_refused(n, numerator)
}

pub fn watts([w, h]: [usize; 2], tree: &[u8], numbers: &[i64], [u, v]: [usize; 2]) -> Answer<f64> {
    let mut watts = 0.0;
    let (tree_len, numbers_len) = (tree.len(), numbers.len());
    // SAFETY: reads two slices and writes a local value.
    let n = unsafe { kiln_watts(w, h, tree.as_ptr(), tree_len, numbers.as_ptr(), numbers_len, u, v, &mut watts) };
    unless_refused(n, watts)
}

/// The watts, the slope along u and the slope along v.
pub fn slopes([w, h]: [usize; 2], tree: &[u8], numbers: &[i64], [u, v]: [usize; 2]) -> Answer<(f64, f64, f64)> {
    let (mut watts, mut along_u, mut along_v) = (0.0, 0.0, 0.0);
    let (tree, tree_len, numbers_len) = (tree.as_ptr(), tree.len(), numbers.len());
    // SAFETY: reads two slices and writes three local values.
    let n = unsafe {
        kiln_slopes(w, h, tree, tree_len, numbers.as_ptr(), numbers_len, u, v, &mut watts, &mut along_u, &mut along_v)
    };
    unless_refused(n, (watts, along_u, along_v))
}

/// The whole watts.
pub fn display([w, h]: [usize; 2], tree: &[u8], numbers: &[i64], [u, v]: [usize; 2]) -> Answer<i64> {
    let mut watts = 0;
    let (tree_len, numbers_len) = (tree.len(), numbers.len());
    // SAFETY: reads two slices and writes a local value.
    let n = unsafe { kiln_display(w, h, tree.as_ptr(), tree_len, numbers.as_ptr(), numbers_len, u, v, &mut watts) };
    unless_refused(n, watts)
}

pub fn cost([w, h]: [usize; 2], tree: &[u8], numbers: &[i64], [u, v]: [usize; 2], tariff: usize) -> Answer<usize> {
    let mut cost = 0;
    let (tree_len, numbers_len) = (tree.len(), numbers.len());
    // SAFETY: reads two slices and writes a local value.
    let n =
        unsafe { kiln_cost(w, h, tree.as_ptr(), tree_len, numbers.as_ptr(), numbers_len, u, v, tariff, &mut cost) };
    unless_refused(n, cost)
}

/// The tree's length, W and H.
pub fn read_file(file: &[u8], tree_out: &mut [u8], numbers_out: &mut [i64]) -> Answer<(usize, usize, usize)> {
    let (mut length, mut w, mut h) = (0, 0, 0);
    // SAFETY: reads the file's slice; writes two slices that are borrowed for writing, so apart from it and from each
    // other, and three local values.
    let n = unsafe {
        kiln_read_file(
            file.as_ptr(),
            file.len(),
            tree_out.as_mut_ptr(),
            tree_out.len(),
            numbers_out.as_mut_ptr(),
            numbers_out.len(),
            &mut length,
            &mut w,
            &mut h,
        )
    };
    unless_refused(n, (length, w, h))
}

/// Where in a file its note starts, and the note's length.
pub type NotePart = (usize, usize);

/// The tree's length, W and H, and the note's part of the file, if there is a note.
pub fn read_bench(
    file: &[u8], tree_out: &mut [u8], numbers_out: &mut [i64],
) -> Answer<(usize, usize, usize, Option<NotePart>)> {
    let (mut length, mut w, mut h) = (0, 0, 0);
    let (mut noted, mut note_offset, mut note_length) = (0, 0, 0);
    // SAFETY: reads the file's slice; writes two slices that are borrowed for writing, so apart from it and from each
    // other, and six local values.
    let n = unsafe {
        kiln_read_bench(
            file.as_ptr(),
            file.len(),
            tree_out.as_mut_ptr(),
            tree_out.len(),
            numbers_out.as_mut_ptr(),
            numbers_out.len(),
            &mut length,
            &mut w,
            &mut h,
            &mut noted,
            &mut note_offset,
            &mut note_length,
        )
    };
    unless_refused(n, (length, w, h, (noted != 0).then_some((note_offset, note_length))))
}

/// The file's length.
pub fn write_file(
    [w, h]: [usize; 2], tree: &[u8], numbers: &[i64], note: Option<&[u8]>, file_out: &mut [u8],
) -> Answer<usize> {
    let mut length = 0;
    let (noted, note) = (u8::from(note.is_some()), note.unwrap_or_default());
    // SAFETY: reads three slices that are borrowed for reading; writes one that is borrowed for writing, so apart from
    // those, and a local value.
    let n = unsafe {
        kiln_write_file(
            w,
            h,
            tree.as_ptr(),
            tree.len(),
            numbers.as_ptr(),
            numbers.len(),
            noted,
            note.as_ptr(),
            note.len(),
            file_out.as_mut_ptr(),
            file_out.len(),
            &mut length,
        )
    };
    unless_refused(n, length)
}

/// The grid's length.
pub fn write_grid([w, h]: [usize; 2], tree: &[u8], numbers: &[i64], grid_out: &mut [u8]) -> Answer<usize> {
    let mut length = 0;
    // SAFETY: reads two slices that are borrowed for reading; writes one that is borrowed for writing, so apart from
    // those, and a local value.
    let n = unsafe {
        kiln_write_grid(
            w,
            h,
            tree.as_ptr(),
            tree.len(),
            numbers.as_ptr(),
            numbers.len(),
            grid_out.as_mut_ptr(),
            grid_out.len(),
            &mut length,
        )
    };
    unless_refused(n, length)
}

/// W and H.
pub fn read_grid(grid: &[u8], tree: &[u8], numbers_out: &mut [i64]) -> Answer<(usize, usize)> {
    let (mut w, mut h) = (0, 0);
    // SAFETY: reads two slices that are borrowed for reading; writes one that is borrowed for writing, so apart from
    // those, and two local values.
    let n = unsafe {
        kiln_read_grid(
            grid.as_ptr(),
            grid.len(),
            tree.as_ptr(),
            tree.len(),
            numbers_out.as_mut_ptr(),
            numbers_out.len(),
            &mut w,
            &mut h,
        )
    };
    unless_refused(n, (w, h))
}

/// Adds a record; `held` and `oldest` are read and written, the only values of any call that are both.
pub fn add_record(window: &mut [i32], held: &mut usize, oldest: &mut usize, watts: i64) -> Answer<()> {
    // SAFETY: reads and writes a slice and two values that are borrowed for writing, so apart from each other.
    let n = unsafe { kiln_add_record(window.as_mut_ptr(), window.len(), held, oldest, watts) };
    unless_refused(n, ())
}

/// The total, 1 where least and greatest are missing and 0 where they are not, the least and the greatest.
pub type Figures = (i64, u8, i32, i32);

/// Writes to `figures`, but not the last two where these are missing.
pub fn window_figures(window: &[i32], held: usize, oldest: usize, figures: &mut Figures) -> Answer<()> {
    let (total, missing, least, greatest) = figures;
    // SAFETY: reads a slice that is borrowed for reading; writes four values that are borrowed for writing, so apart
    // from it and from each other.
    let n =
        unsafe { kiln_window_figures(window.as_ptr(), window.len(), held, oldest, total, missing, least, greatest) };
    unless_refused(n, ())
}

#[cfg(test)]
mod tests;
