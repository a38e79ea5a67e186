//! The constants against include/lacrumont.h: each one is there, with the same number, and none is left out.

use std::collections::BTreeMap;

const HEADER: &str = include_str!("../../../include/lacrumont.h");
const CONSTANTS: &str = include_str!("../src/constants.rs");

/// `LACRUMONT_NAME = NUMBER` in the header's enums.
fn of_header() -> BTreeMap<String, u64> {
    let entry = |line: &str| {
        let (name, rest) = line.trim().strip_prefix("LACRUMONT_")?.split_once(" = ")?;
        let digits: String = rest.chars().take_while(char::is_ascii_digit).collect();
        Some((name.to_string(), digits.parse().ok()?))
    };
    HEADER.lines().filter_map(entry).collect()
}

/// `pub const NAME: TYPE = NUMBER;` here.
fn of_constants() -> BTreeMap<String, u64> {
    let entry = |line: &str| {
        let (name, rest) = line.strip_prefix("pub const ")?.split_once(": ")?;
        let number = rest.split_once(" = ")?.1.trim_end_matches(';').replace('_', "");
        Some((name.to_string(), number.parse().ok()?))
    };
    CONSTANTS.lines().filter_map(entry).collect()
}

#[test]
fn constants_are_the_headers() {
    let header = of_header();
    assert_eq!(header.len(), 4 + 20 + 14, "{header:?}");
    assert_eq!(of_constants(), header);
}
