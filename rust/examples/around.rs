//! Prints the exact reading of a table file at a point, and the coefficients around that point, between which it lies.
//!
//!     cargo run --example around ../tables/kiln-refined-near-top-heat.table 900 200
use kiln::{Point, Table, DENOMINATOR};
use std::error::Error;

fn main() -> Result<(), Box<dyn Error>> {
    let arguments: Vec<String> = std::env::args().skip(1).collect();
    let [path, u, v] = <[String; 3]>::try_from(arguments).map_err(|_| "needs a table file, u and v")?;
    let table = Table::from_file(&std::fs::read(path)?)?;
    let point = Point::new(u.parse()?, v.parse()?);

    println!("reading {}/{DENOMINATOR} watts", table.exact(point)?);
    let around = table.around(point)?;
    for function in &around {
        let (number, denominator, watts) = (function.number, function.denominator(), function.watts());
        println!("{} ({}, {}) {number}/{denominator} = {watts} watts", function.level, function.i, function.j);
    }
    let least = around.iter().min_by_key(|function| function.exact()).ok_or("no function around the point")?;
    let greatest = around.iter().max_by_key(|function| function.exact()).ok_or("no function around the point")?;
    println!("between {} and {} watts", least.watts(), greatest.watts());
    Ok(())
}
