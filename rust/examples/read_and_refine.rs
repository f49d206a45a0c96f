//! Loads a table file, reads watts and cost at a point, inserts a box around it and reads again: no figure moves.
//!
//!     cargo run --example read_and_refine ../tables/kiln-refined-near-top-heat.table
use kiln::{Point, QuarterBox, Refusal, Table};
use std::error::Error;

// Prints watts and cost at the point (900, 200) of a table, at 29.50 cents per kWh.
fn show(when: &str, table: &Table) -> Result<(), Refusal> {
    let point = Point::new(900, 200);
    let (watts, cost) = (table.watts(point)?, table.cost(point, 2_950)?);
    println!("{when}: {watts:.6} watts, {cost} hundredths of a cent an hour");
    Ok(())
}

fn main() -> Result<(), Box<dyn Error>> {
    let path = std::env::args_os().nth(1).ok_or("no table file named")?;
    let table = Table::from_file(&std::fs::read(path)?)?;
    show("before", &table)?;
    let finer = table.insert(QuarterBox::new(28, 4, 32, 8), 3)?;
    show("after", &finer)?;
    Ok(())
}
