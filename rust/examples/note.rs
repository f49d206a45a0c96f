//! A test stand loads a table file and shows its note, inserts a box and saves the finer table to another file with
//! the note kept, or with the one that is named. A controller loads that file: the figures are the same, and what it
//! would save has no note.
//!
//!     cargo run --example note ../tables/kiln-unrefined.table noted.table 'Kiln 7, new elements'
//!     cargo run --example note noted.table finer.table
use kiln::{Point, QuarterBox, Refusal, Table};
use std::error::Error;
use std::fs;
use std::os::unix::ffi::OsStrExt;

// Prints watts and cost at the point (900, 200) of a table, at 29.50 cents per kWh.
fn show(when: &str, table: &Table) -> Result<(), Refusal> {
    let point = Point::new(900, 200);
    let (watts, cost) = (table.watts(point)?, table.cost(point, 2_950)?);
    println!("{when}: {watts:.6} watts, {cost} hundredths of a cent an hour");
    Ok(())
}

// Prints a note. It may be of any bytes: the backslash, and those that are no letters, digits, signs or spaces of
// ASCII, show as \x7f does.
fn show_note(note: Option<&[u8]>) {
    let shown = |&byte: &u8| match byte {
        b' '..=b'~' if byte != b'\\' => char::from(byte).to_string(),
        _ => format!("\\x{byte:02x}"),
    };
    match note {
        Some(note) => println!("note: '{}', {} bytes", note.iter().map(shown).collect::<String>(), note.len()),
        None => println!("note: none"),
    }
}

fn main() -> Result<(), Box<dyn Error>> {
    let arguments: Vec<_> = std::env::args_os().skip(1).collect();
    let (from, to, named) = match &arguments[..] {
        [from, to] => (from, to, None),
        // A note is of any bytes: those of the argument, which need not be UTF-8.
        [from, to, named] => (from, to, Some(named.as_bytes())),
        _ => return Err("needs a table file, a name for the finer one and, if it is to be another, a note".into()),
    };

    let file = fs::read(from)?;
    let (table, note) = Table::from_file_with_note(&file)?;
    show_note(note);
    show("loaded", &table)?;
    let finer = table.insert(QuarterBox::new(28, 4, 32, 8), 3)?;
    // The note that was loaded is a part of `file`, which is still there.
    let saved = finer.to_file_with_note(named.or(note))?;
    fs::write(to, &saved)?;
    println!("saved: {} bytes", saved.len());

    let sent = fs::read(to)?;
    show_note(Table::from_file_with_note(&sent)?.1);
    let controllers = Table::from_file(&sent)?;
    show("controller", &controllers)?;
    let without = controllers.to_file();
    println!("saved by the controller: {} bytes", without.len());
    show_note(Table::from_file_with_note(&without)?.1);
    Ok(())
}
