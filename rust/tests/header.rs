//! The crate has the numbers of the C headers.
use kiln::{places, Refusal};
use kiln::{DENOMINATOR, FILE_BYTES, GREATEST_COST, GREATEST_RECORD, GREATEST_SLOPE, GRID_BYTES, NOTE_BYTES};
use kiln::{SLOPE_BOUND, TREE_BYTES, WINDOW_PLACES};

const SIZES: &str = include_str!(concat!(env!("CARGO_MANIFEST_DIR"), "/../include/kiln_sizes.h"));
const ARROW: &str = include_str!(concat!(env!("CARGO_MANIFEST_DIR"), "/../include/kiln_arrow.h"));
const REFUSALS: &str = include_str!(concat!(env!("CARGO_MANIFEST_DIR"), "/../include/kiln_refusal.h"));

fn leading_number(text: &str) -> i64 {
    let digits = text.find(|c: char| !c.is_ascii_digit()).unwrap_or(text.len());
    text[..digits].parse().unwrap()
}

#[test]
fn every_refusal_of_the_header_has_a_name_and_no_other_number_has() {
    let of_header = |line: &'static str| Some(leading_number(line.trim().strip_prefix("KILN_")?.split_once(" = ")?.1));
    let numbers: Vec<i64> = REFUSALS.lines().filter_map(of_header).collect();
    assert_eq!(numbers[0], 0);
    for number in 0..=u8::MAX {
        let named = Refusal::of(number).is_some();
        assert_eq!(named, number != 0 && numbers.contains(&i64::from(number)), "number {number}");
    }
}

#[test]
fn the_fixed_numbers_are_those_of_the_header() {
    let defined = |name: &str| {
        let (_, value) = SIZES.split_once(&format!("#define {name} ")).unwrap();
        leading_number(value.strip_prefix("INT64_C(").unwrap_or(value))
    };
    assert_eq!(defined("KILN_DENOMINATOR"), DENOMINATOR);
    assert_eq!(defined("KILN_GREATEST_COST"), GREATEST_COST as i64);
    assert_eq!(defined("KILN_GREATEST_SLOPE") as f64, GREATEST_SLOPE);
    assert_eq!(defined("KILN_TREE_BYTES"), TREE_BYTES as i64);
    assert_eq!(defined("KILN_NOTE_BYTES"), NOTE_BYTES as i64);
    assert_eq!(defined("KILN_FILE_BYTES"), FILE_BYTES as i64);
    assert_eq!(defined("KILN_GRID_BYTES"), GRID_BYTES as i64);
    assert_eq!(defined("KILN_WINDOW_PLACES"), WINDOW_PLACES as i64);
    assert_eq!(defined("KILN_GREATEST_RECORD"), GREATEST_RECORD);
    assert_eq!(defined("KILN_PLACES"), places(8, 8) as i64);
    let (_, parts) = ARROW.split_once("#define KILN_SLOPE_BOUND (1.0 / ").unwrap();
    assert_eq!(SLOPE_BOUND, 1.0 / leading_number(parts) as f64);
}
