//! Reads the watts of a firing off a table, one point a minute, keeps a window over them and tells what it holds at the
//! end: the energy of the last minutes, and the least and the greatest watts among them.
//!
//!     cargo run --example window ../tables/kiln-refined-near-top-heat.table 3 880 200 890 200 900 200 910 200
//!
//! The window there has three places: it ends with the last three of the four minutes.
use kiln::{Point, Table, Window, WindowFigures, WindowState, WINDOW_PLACES};
use std::error::Error;

// Watt minutes as watt hours, exactly, such as 3, 2/60 or -1 30/60.
fn in_hours(total: i64) -> String {
    let sign = if total < 0 { "-" } else { "" };
    match (total.abs() / 60, total.abs() % 60) {
        (whole, 0) => format!("{sign}{whole}"),
        (0, part) => format!("{sign}{part}/60"),
        (whole, part) => format!("{sign}{whole} {part}/60"),
    }
}

fn main() -> Result<(), Box<dyn Error>> {
    let arguments: Vec<String> = std::env::args().skip(1).collect();
    let (path, places, points) = match &arguments[..] {
        [path, places, points @ ..] if points.len() % 2 == 0 => (path, places, points),
        _ => return Err("needs a table file, the places of the window, and u and v for each minute".into()),
    };
    let places: usize = places.parse()?;
    let points = points.iter().map(|text| text.parse()).collect::<Result<Vec<usize>, _>>()?;
    let table = Table::from_file(&std::fs::read(path)?)?;
    let (w, h) = (table.width(), table.height());
    println!("sheet:    {w} by {h} cells, u 0 to {}, v 0 to {}", 128 * w, 128 * h);
    println!("places:   {places}");
    // A place more than any window has is refused as more are.
    let mut records = vec![0; places.min(WINDOW_PLACES + 1)];
    let mut window = Window::over(&mut records, WindowState::default())?;
    for (minute, at) in (1..).zip(points.chunks(2)) {
        let watts = table.display(Point::new(at[0], at[1]))?;
        window.add(watts)?;
        println!("minute {minute}: u {}, v {}: {watts} watts", at[0], at[1]);
    }
    let WindowFigures { total, least, greatest } = window.figures();
    println!("held:     {} of {places}", window.state().held);
    println!("total:    {total} watt minutes = {} watt hours", in_hours(total));
    match (least, greatest) {
        (Some(least), Some(greatest)) => println!("least:    {least} watts\ngreatest: {greatest} watts"),
        _ => println!("no record is held"),
    }
    Ok(())
}
