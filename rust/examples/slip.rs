//! Tells what inserting a box would make of a table, as a stand shows it before a person accepts the box; inserts it
//! where `accept` is said, and shows that what was told is what was left and that no figure moved. No file is written.
//!
//!     cargo run --example slip ../tables/kiln-unrefined.table 28 4 32 8 3
//!     cargo run --example slip ../tables/kiln-unrefined.table 28 4 32 8 3 accept
use kiln::{Point, QuarterBox, Refusal, Slip, Table};
use std::error::Error;

// How many functions of each level are active.
fn active_in(table: &Table) -> Result<[usize; 4], Refusal> {
    let mut counts = [0; 4];
    for (level, count) in counts.iter_mut().enumerate() {
        *count = table.activity(level)?.into_iter().filter(|&active| active).count();
    }
    Ok(counts)
}

// What the slip tells, beside what the table is now.
fn show(table: &Table, slip: &Slip) -> Result<(), Refusal> {
    let active = active_in(table)?;
    let all = |counts: [usize; 4]| counts.iter().sum::<usize>();
    println!("tree bytes:     {} now, {} then", table.tree().len(), slip.length);
    for (level, (now, then)) in active.iter().zip(slip.active).enumerate() {
        println!("level {level} active: {now} now, {then} then");
    }
    println!("coefficients:   {} now, {} then", all(active), all(slip.active));
    println!("nodes visited:  {} now, {} then", table.least_level(slip.raised)?.visited, slip.visited);
    Ok(())
}

// What the commit left, and whether it is what the slip told.
fn show_left(finer: &Table, slip: &Slip) -> Result<(), Refusal> {
    let left = (finer.tree().len(), active_in(finer)?, finer.least_level(slip.raised)?.visited);
    let told = if left == (slip.length, slip.active, slip.visited) { "as told" } else { "not as told" };
    let (length, [a, b, c, d], visited) = left;
    println!("inserted:       tree of {length} bytes, {a} + {b} + {c} + {d} active, {visited} nodes visited: {told}");
    Ok(())
}

// The figure at each corner of the box, before and after, and whether the exact reading there is the same.
fn show_corners(table: &Table, finer: &Table, raised: QuarterBox) -> Result<(), Refusal> {
    for (u, v) in [raised.v0, raised.v1].iter().flat_map(|v| [(raised.u0, v), (raised.u1, v)]) {
        let point = Point::new(32 * u, 32 * v);
        let (before, after) = (table.display(point)?, finer.display(point)?);
        let moved = if table.exact(point)? == finer.exact(point)? { "the same" } else { "moved" };
        println!("u {}, v {}: {before} watts before, {after} after, exactly {moved}", point.u, point.v);
    }
    Ok(())
}

fn main() -> Result<(), Box<dyn Error>> {
    let arguments: Vec<String> = std::env::args().skip(1).collect();
    let (path, numbers, accepted) = match &arguments[..] {
        [path, numbers @ ..] if numbers.len() == 5 => (path, numbers, false),
        [path, numbers @ .., last] if numbers.len() == 5 && last == "accept" => (path, numbers, true),
        _ => return Err("needs a table file, u0, v0, u1, v1 and a level, and accept to insert".into()),
    };
    let numbers = numbers.iter().map(|text| text.parse()).collect::<Result<Vec<usize>, _>>()?;
    let (raised, level) = (QuarterBox::new(numbers[0], numbers[1], numbers[2], numbers[3]), numbers[4]);
    let table = Table::from_file(&std::fs::read(path)?)?;
    let (w, h) = (table.width(), table.height());
    println!("sheet:          {w} by {h} cells, u 0 to {}, v 0 to {} in quarters", 4 * w, 4 * h);
    println!("box:            u {} to {}, v {} to {}, to level {level}", raised.u0, raised.u1, raised.v0, raised.v1);
    let slip = table.enquire(raised, level)?;
    show(&table, &slip)?;
    if !accepted {
        println!("nothing was changed: say accept after the level to insert the box");
        return Ok(());
    }
    let finer = table.commit(&slip)?;
    show_left(&finer, &slip)?;
    show_corners(&table, &finer, raised)?;
    // Between the enquiry and the commit someone else may refine the table: the slip is then an old one.
    let other = table.insert(QuarterBox::new(0, 0, 4 * w, 4 * h), 3)?;
    match other.commit(&slip) {
        Ok(_) => println!("old slip:       serves also once the whole sheet has level 3"),
        Err(refusal) => {
            let (number, words) = (refusal.number(), refusal.words());
            println!("old slip:       refused {number} once the whole sheet has level 3: {words}");
        }
    }
    Ok(())
}
