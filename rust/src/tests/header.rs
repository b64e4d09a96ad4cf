//! The numbers that the C header names are those of this crate, which the calls are held to.

use crate::answers::REFUSALS;
use std::collections::BTreeMap;

const HEADER: &str = include_str!("../../../include/bangsorut.h");

/// The numbers besides the refusals: done, what locate finds, and where a part lies.
const OTHERS: [(&str, usize); 6] =
    [("DONE", 0), ("SOUND", 0), ("ONE_COLUMN", 1), ("SEVERAL", 2), ("IN_STRIPE", 0), ("IN_BUFFER", 1)];

/// The name as C writes it: BAD_ROWS for BadRows.
fn in_capitals(name: &str) -> String {
    let mut capitals = String::new();
    for letter in name.chars() {
        if letter.is_uppercase() && !capitals.is_empty() {
            capitals.push('_');
        }
        capitals.push(letter.to_ascii_uppercase());
    }
    capitals
}

/// Each `BANGSORUT_NAME = NUMBER` of the header.
fn named_in_header() -> BTreeMap<String, usize> {
    let parts = HEADER.split("BANGSORUT_").skip(1).filter_map(|part| part.split_once(" = "));
    let name = |(name, rest): (&str, &str)| {
        let digits = rest.split(|c: char| !c.is_ascii_digit()).next()?;
        Some((name.to_string(), digits.parse().ok()?))
    };
    parts.filter_map(name).collect()
}

#[test]
fn the_header_has_the_same_numbers() {
    let refusals = REFUSALS.iter().map(|refusal| (in_capitals(&format!("{refusal:?}")), refusal.number()));
    let others = OTHERS.iter().map(|&(name, number)| (name.to_string(), number));
    assert_eq!(named_in_header(), refusals.chain(others).collect());
}
