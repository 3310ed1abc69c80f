//! The wrapper beside `include/litres.h`: the refusals, their texts, the constants of traces and of grounds
//! and the version are the same.

use litres::{Refused, VERSION};
use reference::replay::ANSWER_WORDS;
use reference::trace;

const HEADER: &str = include_str!("../../../include/litres.h");

/// A line of the header's table: number, name and text of a refusal.
type Row = (u32, String, String);

/// The rows of `LITRES_REFUSALS`.
fn table() -> Vec<Row> {
    let is_before = |line: &&str| !line.starts_with("#define LITRES_REFUSALS(X)");
    let mut lines = HEADER.lines().skip_while(is_before);
    let head = lines.next().expect("the header has the table");
    assert!(head.ends_with('\\'));
    let mut rows = Vec::new();
    for line in lines {
        rows.push(row(line));
        if !line.ends_with('\\') {
            return rows;
        }
    }
    panic!("the table has no end");
}

/// Reads `X(1, LITRES_SHAPE, "text")`; nothing else may stand in the table.
fn row(line: &str) -> Row {
    let fields = || {
        let inside = line.trim_end_matches('\\').trim();
        let inside = inside.strip_prefix("X(")?.strip_suffix("\")")?;
        let (start, text) = inside.split_once(", \"")?;
        let (number, name) = start.split_once(", LITRES_")?;
        Some((number.parse().ok()?, name.to_string(), text.to_string()))
    };
    fields().unwrap_or_else(|| panic!("no row: {line}"))
}

/// The value of `#define NAME VALUE`.
fn defined(name: &str) -> &'static str {
    let start = format!("#define {name} ");
    let mut values = HEADER.lines().filter_map(|line| line.strip_prefix(&start));
    let found = values.next().unwrap_or_else(|| panic!("no {name}"));
    assert_eq!(values.next(), None, "{name} is defined twice");
    found.trim()
}

#[test]
fn every_refusal_has_the_headers_name_and_text() {
    let ours = |(refused, name): &(Refused, &str)| {
        assert_eq!(refused.to_string(), refused.text());
        (refused.0, name.to_string(), refused.text().to_string())
    };
    let rows: Vec<Row> = Refused::ALL.iter().map(ours).collect();
    assert_eq!(rows, table());
    assert!(rows.iter().map(|row| row.0).eq(1..=17));
    assert_eq!(Refused::FULL, Refused(12));
    assert_eq!(Refused::OUTPUT, Refused(17));
}

#[test]
fn any_other_number_has_the_headers_text() {
    let (_, after) = HEADER.split_once("default:\n").expect("litres_text");
    let line = after.lines().next().expect("a line").trim();
    for number in [0, table().len() as u32 + 1, u32::MAX] {
        assert_eq!(line, format!("return \"{}\";", Refused(number)));
    }
}

#[test]
fn texts_differ_and_fit_a_line() {
    let mut texts: Vec<&str> = Refused::ALL.iter().map(|(r, _)| r.text()).collect();
    assert!(texts.iter().all(|text| text.len() <= 60));
    texts.push(Refused(0).text());
    let count = texts.len();
    texts.sort_unstable();
    texts.dedup();
    assert_eq!(texts.len(), count);
}

#[test]
fn version() {
    assert_eq!(defined("LITRES_VERSION"), format!("\"{VERSION}\""));
    let parts = ["MAJOR", "MINOR", "PATCH"];
    let parts = parts.map(|part| defined(&format!("LITRES_VERSION_{part}")));
    assert_eq!(parts.join("."), VERSION);
}

#[test]
fn constants_of_traces() {
    let [record, answer] = [litres::RECORD_WORDS, litres::ANSWER_WORDS].map(|words| words as u32);
    for (name, ours, second) in [
        ("MAX_DAYS", litres::MAX_DAYS, trace::DAYS_MAX),
        ("RECORD_WORDS", record, trace::RECORD_WORDS as u32),
        ("ANSWER_WORDS", answer, ANSWER_WORDS as u32),
        ("KIND_CLOCK", litres::KIND_CLOCK, trace::CLOCK),
        ("KIND_DELIVERY", litres::KIND_DELIVERY, trace::DELIVERY),
        ("KIND_QUERY", litres::KIND_QUERY, trace::QUERY),
    ] {
        let header = defined(&format!("LITRES_{name}"));
        assert_eq!(header, ours.to_string(), "{name}");
        assert_eq!(second, ours, "{name}");
    }
}

/// The wrapper takes the numbers of a ground from these places and knows these cases.
#[test]
fn constants_of_grounds() {
    let places = ["LEN", "SUM", "LEVEL", "LIMIT", "CASE", "FIRST"];
    let places = places.map(|name| defined(&format!("LITRES_GROUND_{name}")));
    assert_eq!(places, ["5", "0", "1", "2", "3", "4"]);
    let cases = ["WINDOW_ZERO", "LEVEL_ZERO", "FINER"];
    let cases = cases.map(|name| defined(&format!("LITRES_CASE_{name}")));
    assert_eq!(cases, ["0", "1", "2"]);
}
