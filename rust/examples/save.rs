//! Loads a table file, inserts a box, saves the finer table to another file, reads off that one how many functions are
//! active, loads it and reads the same figures.
//!
//!     cargo run --example save ../tables/kiln-unrefined.table finer.table
use kiln::{file_counts, Point, QuarterBox, Refusal, Table};
use std::error::Error;
use std::fs;

// Prints watts and cost at the point (900, 200) of a table, at 29.50 cents per kWh.
fn show(when: &str, table: &Table) -> Result<(), Refusal> {
    let point = Point::new(900, 200);
    let (watts, cost) = (table.watts(point)?, table.cost(point, 2_950)?);
    println!("{when}: {watts:.6} watts, {cost} hundredths of a cent an hour");
    Ok(())
}

fn main() -> Result<(), Box<dyn Error>> {
    let names: Vec<_> = std::env::args_os().skip(1).collect();
    let [from, to] = <[_; 2]>::try_from(names).map_err(|_| "needs a table file and a name for the finer one")?;
    let table = Table::from_file(&fs::read(from)?)?;
    show("loaded", &table)?;
    let file = table.insert(QuarterBox::new(28, 4, 32, 8), 3)?.to_file();
    fs::write(&to, &file)?;
    println!("saved: {} bytes", file.len());
    let saved = fs::read(&to)?;
    // A file that was saved has these counts; one of an earlier version may lack them.
    if let Some([a, b, c, d]) = file_counts(&saved) {
        println!("active: {a} of level 0, {b} of level 1, {c} of level 2, {d} of level 3");
    }
    show("loaded again", &Table::from_file(&saved)?)?;
    Ok(())
}
