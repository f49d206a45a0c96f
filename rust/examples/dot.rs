//! Tells whether a display draws its dot at a point: whether the table is refined under it.
//!
//!     cargo run --example dot ../tables/kiln-refined-near-top-heat.table 900 200
use kiln::{Point, QuarterBox, Refusal, Table};
use std::error::Error;

fn main() -> Result<(), Box<dyn Error>> {
    let arguments: Vec<String> = std::env::args().skip(1).collect();
    let [path, u, v] = <[String; 3]>::try_from(arguments).map_err(|_| "needs a table file, u and v")?;
    let point = Point::new(u.parse()?, v.parse()?);
    let table = Table::from_file(&std::fs::read(path)?)?;
    let (w, h) = (table.width(), table.height());
    println!("sheet:   {w} by {h} cells, u 0 to {}, v 0 to {}", 128 * w, 128 * h);
    println!("point:   u {}, v {}", point.u, point.v);
    // A point off the sheet is refused as by a reading, and the level is not asked for.
    let quarter = QuarterBox::holding(w, h, point).ok_or(Refusal::Point)?;
    let level = table.least_level(quarter)?.greatest;
    println!("quarter: u {} to {}, v {} to {}", quarter.u0, quarter.u1, quarter.v0, quarter.v1);
    println!("level:   {level}");
    println!("dot:     {}", if level > 0 { "yes" } else { "no" });
    Ok(())
}
