//! Writes a table to a file as a plain bicubic grid, as kiln makers exchange them; reads that file again over the
//! table's own tree, over one with the whole sheet at level 3 and, where a second table is named, over the tree of
//! that one; and tells of each whether the coefficients are those that were to be expected.
//!
//!     cargo run --example grid ../tables/kiln-refined-near-top-heat.table refined.grid
//!     cargo run --example grid ../tables/kiln-refined-near-top-heat.table refined.grid ../tables/kiln-unrefined.table
//!     cargo run --example grid ../tables/kiln-fitted-near-top-heat.table fitted.grid ../tables/kiln-unrefined.table
//!
//! The table of the first two lines is a refined copy of the unrefined one, so that both have the same grid. The
//! fitted one bends where the unrefined one has no small cells, and the last line is refused with 21.
use kiln::{level_places, QuarterBox, Refusal, Table};
use std::error::Error;
use std::fs;

// The numbers of a grid: five bytes each after two heads and the sides, two's complement, high byte first.
fn numbers_of(grid: &[u8]) -> Vec<i64> {
    let number = |bytes: &[u8]| bytes[1..].iter().fold(i64::from(bytes[0] as i8), |n, &b| 256 * n + i64::from(b));
    grid[8..].chunks(5).map(number).collect()
}

// Prints what came of the grid over a tree, and whether it is as expected.
fn show(whose: &str, made: &Table, same: bool, expected: &str) {
    let (w, h, length) = (made.width(), made.height(), made.tree().len());
    let coefficients = if same { "the coefficients of" } else { "other coefficients than" };
    println!("{whose:13} {w} by {h} cells, tree length {length}, {coefficients} {expected}");
}

// Reads the grid over the tree of a table and compares their coefficients.
fn show_over(whose: &str, grid: &[u8], over: &Table, expected: &str) -> Result<(), Refusal> {
    let made = Table::from_grid(grid, over.tree())?;
    show(whose, &made, made == *over, expected);
    Ok(())
}

fn main() -> Result<(), Box<dyn Error>> {
    let names: Vec<_> = std::env::args_os().skip(1).collect();
    let (from, to, other) = match &names[..] {
        [from, to] => (from, to, None),
        [from, to, other] => (from, to, Some(fs::read(other)?)),
        _ => return Err("needs a table file and a name for its grid, and another table file for its tree".into()),
    };
    let table = Table::from_file(&fs::read(from)?)?;
    let (w, h) = (table.width(), table.height());
    println!("sheet:        {w} by {h} cells");
    fs::write(to, table.to_grid())?;
    let grid = fs::read(to)?;
    println!("grid:         {} bytes, {} by {} coefficients", grid.len(), 8 * w + 3, 8 * h + 3);
    show_over("own tree:", &grid, &table, "the table")?;
    // Insertion gives the tree; its coefficients of level 3, which come last, are the numbers of the grid.
    let whole = table.insert(QuarterBox::new(0, 0, 4 * w, 4 * h), 3)?;
    let finest = Table::from_grid(&grid, whole.tree())?;
    let (_, fine) = finest.numbers().split_at(finest.numbers().len() - level_places(w, h, 3));
    show("level 3 tree:", &finest, fine == numbers_of(&grid), "the grid");
    if let Some(file) = other {
        show_over("other tree:", &grid, &Table::from_file(&file)?, "the other table")?;
    }
    Ok(())
}
