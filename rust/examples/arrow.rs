//! Tells which way the arrow beside the figure points at a point: whether hotter or a quicker climb costs more.
//!
//!     cargo run --example arrow ../tables/kiln-refined-near-top-heat.table 900 200
use kiln::{Arrow, Point, Table, Way};
use std::error::Error;

// Prints a slope, 0 where the exact one may be 0, and what it says. Three digits are coarser than its bound.
fn show(direction: &str, slope: f64, name: &str, way: Way) {
    let (shown, words) = match way {
        Way::Less => (slope, "less"),
        Way::Even => (0.0, "the same"),
        Way::More => (slope, "more"),
    };
    println!("{direction}: {shown:.3} watts per eighth of a cell: {name} costs {words}");
}

fn main() -> Result<(), Box<dyn Error>> {
    let arguments: Vec<String> = std::env::args().skip(1).collect();
    let [path, u, v] = <[String; 3]>::try_from(arguments).map_err(|_| "needs a table file, u and v")?;
    let point = Point::new(u.parse()?, v.parse()?);
    let table = Table::from_file(&std::fs::read(path)?)?;
    let (w, h) = (table.width(), table.height());
    println!("sheet:   {w} by {h} cells, u 0 to {}, v 0 to {}", 128 * w, 128 * h);
    println!("point:   u {}, v {}", point.u, point.v);
    let at = table.slopes(point)?;
    println!("watts:   {:.6}", at.watts);
    show("along u", at.along_u, "hotter", at.hotter());
    show("along v", at.along_v, "a quicker climb", at.quicker());
    let by = format!("by {:.3} watts per eighth of a cell", (at.along_u - at.along_v).abs());
    match at.arrow() {
        Arrow::Hotter => println!("arrow:   hotter costs more than a quicker climb, {by}"),
        Arrow::Even => println!("arrow:   hotter and a quicker climb cost the same"),
        Arrow::Quicker => println!("arrow:   a quicker climb costs more than hotter, {by}"),
    }
    Ok(())
}
