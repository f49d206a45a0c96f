//! Tables of a kiln's power surface: load, refine, read and save them, exchange them as plain grids, and keep a window
//! over the last hours of a firing.
//!
//! Power draw over chamber temperature and climb rate is a surface of truncated hierarchical bicubic splines on a
//! sheet of W by H cells, each side 1 to 8. A [`Table`] is such a surface: a sheet, a tree of regions and
//! coefficients. This crate is a safe layer over the calls of a proved library, which decide every answer and every
//! refusal; `include/kiln_refusal.h` says what each number means, and `include/kiln_window.h` what 22 and 23 mean.
//!
//! ```
//! use kiln::{Point, QuarterBox, Table};
//!
//! fn main() -> Result<(), Box<dyn std::error::Error>> {
//!     let table = Table::fresh(8, 4, 1_500)?; // or Table::from_file(&std::fs::read(path)?)?
//!     let finer = table.insert(QuarterBox::new(28, 4, 32, 8), 3)?;
//!     let point = Point::new(900, 200); // in steps of 1/128 cell
//!     assert_eq!(finer.exact(point)?, table.exact(point)?); // refining moves no figure
//!     println!("{} watts, {} hundredths of a cent an hour", finer.display(point)?, finer.cost(point, 2_950)?);
//!     let file = finer.to_file(); // std::fs::write(path, &file)? sends it out
//!     assert_eq!(Table::from_file(&file)?, finer);
//!     Ok(())
//! }
//! ```
//!
//! Where a call is refused, `main` shows its number and cause, as `Error: refused 6: point off the sheet`.
//!
//! # Linking
//!
//! The library is the archive `libkiln.a`, for x86-64, which `tools/archive.sh` writes to `target/staticlib` in its
//! repository. It is looked for there, beside this crate's folder, or in the folder that the environment variable
//! `KILN_LIB_DIR` names to cargo, best as a full path. It must be of this crate's version: one of another may link,
//! and calls whose parameters differ are undefined. Documentation and `cargo check` do without it.
#![deny(unsafe_code)]
#![warn(missing_docs)]

// Each of ffi, refusal, sizes, place, table, slip, file, grid, arrow, readings, around and window uses only those that
// come before it here.
mod around;
mod arrow;
mod ffi;
mod file;
mod grid;
mod place;
mod readings;
mod refusal;
mod sizes;
mod slip;
mod table;
mod window;

pub use around::ActiveFunction;
pub use arrow::{Arrow, WattsAndSlopes, Way};
pub use place::{Point, QuarterBox};
pub use refusal::Refusal;
pub use sizes::{file_counts, grid_length, level_places, place_of, places};
pub use sizes::{
    DENOMINATOR, FILE_BYTES, GREATEST_COST, GREATEST_RECORD, GREATEST_SLOPE, GRID_BYTES, NOTE_BYTES, SLOPE_BOUND,
    TREE_BYTES, WINDOW_PLACES,
};
pub use slip::Slip;
pub use table::{Levels, Table};
pub use window::{Window, WindowFigures, WindowState};
