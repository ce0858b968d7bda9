//! The README's table of fields is that of edition 1's rules, and edition 2 has
//! no field beside them.

use reference::rules::{rules, Presence, Rule, EDITION_ONE, EDITION_TWO, KIND_NAMES};
use std::fs;
use std::path::Path;

const KINDS: std::ops::Range<u8> = 0..KIND_NAMES.len() as u8;

/// What the README says where a field is absent.
fn default(rule: &Rule) -> String {
    match rule.presence {
        Presence::Needed => "needed".to_string(),
        Presence::History => "no history".to_string(),
        Presence::Curve => "straight".to_string(),
        Presence::Default(value) => value.to_string(),
        Presence::CurveDefault(value) => format!("{value} on a curve"),
    }
}

/// Field, bit, range, default and kind of an edition, as the README has them.
fn of_rules(edition: u8) -> Vec<[String; 5]> {
    let row = |kind: u8, rule: &Rule| {
        [
            format!("`{}`", rule.field.name()),
            rule.bit.to_string(),
            format!("{} to {}", rule.low, rule.high),
            default(rule),
            KIND_NAMES[usize::from(kind)].to_string(),
        ]
    };
    KINDS
        .flat_map(|kind| {
            rules(edition, kind)
                .unwrap_or(&[])
                .iter()
                .map(move |rule| row(kind, rule))
        })
        .collect()
}

/// A kind of a row, with its own high where it has one: `4st`, `3st (to 1)`.
fn kind_of(text: &str) -> (&str, Option<&str>) {
    let own = text
        .strip_suffix(')')
        .and_then(|text| text.split_once(" (to "));
    own.map_or((text, None), |(kind, high)| (kind, Some(high)))
}

/// The kinds of a row, `all` or by name.
fn kinds_of(cell: &str) -> Vec<(&str, Option<&str>)> {
    if cell == "all" {
        return KIND_NAMES.map(|kind| (kind, None)).to_vec();
    }
    cell.split(", ").map(kind_of).collect()
}

/// The same of the README's rows, one for each kind of a row.
fn of_readme() -> Vec<[String; 5]> {
    let path = Path::new(env!("CARGO_MANIFEST_DIR")).join("../README.md");
    let text = fs::read_to_string(path).expect("the README");
    let table = text
        .lines()
        .skip_while(|line| !line.starts_with("| Field | Bit |"))
        .skip(2)
        .take_while(|line| line.starts_with('|'));
    let mut rows = Vec::new();
    for line in table {
        let cells: Vec<&str> = line.trim_matches('|').split('|').map(str::trim).collect();
        let [name, bit, _, range, default, kinds] = cells[..] else {
            panic!("not six cells: {line}");
        };
        let range = range.replace(',', "");
        for (kind, high) in kinds_of(kinds) {
            let low = range.split(" to ").next().unwrap_or("");
            let range = high.map_or(range.clone(), |high| format!("{low} to {high}"));
            rows.push([name, bit, &range, default, kind].map(str::to_string));
        }
    }
    rows
}

#[test]
fn fields_of_the_readme() {
    let (mut wanted, mut found) = (of_rules(EDITION_ONE), of_readme());
    wanted.sort();
    found.sort();
    assert_eq!(found.len(), 34);
    assert_eq!(found, wanted);
    let of_edition_two = of_rules(EDITION_TWO);
    assert_eq!(of_edition_two.len(), 32);
    assert!(of_edition_two.iter().all(|row| found.contains(row)));
}
