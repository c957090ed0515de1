//! The rows of refusals and edges, made through the exported functions: each answer must be, word for word, the one that the row has. A
//! row is a line, and a new one is run here without a change to this code.

mod answers;
mod row;

use std::collections::BTreeMap;
use std::fs;

use row::{Call, Row};

const ROWS: &str = concat!(env!("CARGO_MANIFEST_DIR"), "/../tests/rows.txt");

/// Makes the rows, and counts them by call.
fn run_all(text: &str) -> BTreeMap<&'static str, u32> {
    let mut counts = BTreeMap::new();
    for line in text.lines().filter(|line| !line.starts_with("--")) {
        let row = Row::parse(line).unwrap_or_else(|why| panic!("no row: {line}\n{why}"));
        assert_eq!(answers::told(&row), row.answer, "the answer through the exported functions (left) of: {line}");
        *counts.entry(row.call.name()).or_default() += 1;
    }
    counts
}

/// Every call has its rows, so that a file that lost them shows.
#[test]
fn each_row_through_the_exported_functions() {
    let text = fs::read_to_string(ROWS).unwrap_or_else(|why| panic!("{ROWS}: {why}"));
    let counts = run_all(&text);
    let all: u32 = counts.values().sum();
    println!("{all} rows: {counts:?}");
    for call in Call::ALL {
        assert!(counts.contains_key(call.name()), "there is no row of {}", call.name());
    }
    assert!(all >= 949, "of the first 949 rows only {all} are there");
}

#[test]
fn lines_that_are_no_rows() {
    for line in [
        "admit T",
        "admit T:faultless",
        "admits T: faultless",
        "admit T T: faultless",
        "admit T D 4 D 4: faultless",
        "admit D 4 T: faultless",
        "admit T rate: faultless",
        "admit T D 4 5: faultless",
        "admit T place 1: faultless",
        "admit T D 18446744073709551616: faultless",
        "admit T  D 4: faultless",
        "admit 4: faultless",
        "lead T place 0 length 1 each 0 log 0: 3",
        "read_table bytes 4: accepted",
        "order T room 10: ordered",
        "order T bytes 04: ordered",
        "order_bytes T room 10: 04",
        "chain T place 0 names: figure 4",
        "chain T place 0 names 256: figure 4",
        "chain T place 0 names 1x65: figure 4",
        "chain T place 0 names 255 log 0: figure 4",
        "figures T place 0 for 1 names 255: wait 0 finish 4",
        "post T place 0 count 18446744073709551616: accepted",
        "admit T rate 1x1: faultless",
        "admit T rate 1x0: faultless",
        "admit T rate 1x: faultless",
        "admit T rate x2: faultless",
        "admit T rate 1x2x2: faultless",
        "admit T rate 1x65: faultless",
        "admit T rate 1x63 1 1: faultless",
        "admit T D 4x2: faultless",
        "admit T rate 1x18446744073709551615: faultless",
        "carry T old: carried",
        "carry T room 9: carried",
        "admit T old 9: faultless",
    ] {
        assert!(Row::parse(line).is_err(), "understood: {line}");
    }
}
