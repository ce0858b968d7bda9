//! Projects as readable lines, the inverse of the project file.
//!
//! Four header lines, then one line for each site: the name of its kind and
//! its fields, each a name and a number. A defaulted field may be left out.
//! Traffic year by year is one number for each year, joined by `/`. No number
//! has a comma: `3,200` could be 3200, or the numbers of two years.

use crate::project::{write_project, Header, Project, HEADER};
use crate::record::Site;
use crate::rules::{
    editions_with, rules, Field, Presence, Rule, EDITION_ONE, FIELD_NAMES, KIND_NAMES,
    LAST_EDITION, MOST_CALIBRATION, MOST_SITES, MOST_YEARS,
};
use std::ops::RangeInclusive;

/// The header's lines in their order: a name and the numbers allowed.
const HEADER_LINES: [(&str, RangeInclusive<u16>); 4] = [
    ("edition", EDITION_ONE as u16..=LAST_EDITION as u16),
    ("years", 1..=MOST_YEARS as u16),
    ("segment-calibration", 1..=MOST_CALIBRATION),
    ("crossing-calibration", 1..=MOST_CALIBRATION),
];

/// The lines of a project, every value spelled out.
pub fn dump(project: &Project) -> String {
    let header = &project.header;
    let numbers = [
        u16::from(header.edition),
        u16::from(header.years),
        header.segment_calibration,
        header.crossing_calibration,
    ];
    let mut text = String::new();
    for ((name, _), number) in HEADER_LINES.iter().zip(numbers) {
        text.push_str(&format!("{name} {number}\n"));
    }
    for site in &project.sites {
        text.push_str(&site_line(site));
        text.push('\n');
    }
    text
}

fn site_line(site: &Site) -> String {
    let mut line = KIND_NAMES[usize::from(site.kind)].to_string();
    for (field, name) in FIELD_NAMES {
        let later = site.later(field).iter().flatten();
        if let Some(value) = site.get(field) {
            let years = std::iter::once(&value).chain(later);
            let years: Vec<String> = years.map(u16::to_string).collect();
            line.push_str(&format!(" {name} {}", years.join(YEARS_APART)));
        }
    }
    line
}

/// What joins the numbers of two years.
const YEARS_APART: &str = "/";

/// The numbers allowed, in words.
fn range(allowed: &RangeInclusive<u16>) -> String {
    format!("it must be from {} to {}", allowed.start(), allowed.end())
}

/// Refuses a comma in a number, or in a traffic's numbers of its years.
fn without_comma(name: &str, text: &str, is_traffic: bool) -> Result<(), String> {
    if !text.contains(',') {
        return Ok(());
    }
    let told = format!("{name} is {text:?}; write a number without a comma");
    Err(match is_traffic {
        true => format!("{told}, and join the numbers of years by {YEARS_APART}"),
        false => told,
    })
}

/// Reads a number that a name has, or says what it may be.
fn number(name: &str, text: &str, allowed: &RangeInclusive<u16>) -> Result<u16, String> {
    without_comma(name, text, false)?;
    let plain = !text.is_empty() && text.bytes().all(|b| b.is_ascii_digit());
    let found = text.parse().ok().filter(|n| plain && allowed.contains(n));
    let shown = || match plain {
        true => text.to_string(),
        false => format!("{text:?}"),
    };
    found.ok_or_else(|| format!("{name} is {}; {}", shown(), range(allowed)))
}

/// Reads a header line: its name and its number.
fn header_number(line: &str, name: &str, allowed: &RangeInclusive<u16>) -> Result<u16, String> {
    match line.split_whitespace().collect::<Vec<_>>()[..] {
        [found, text] if found == name => number(name, text, allowed),
        _ => Err(format!("this must be `{name} NUMBER`, not {line:?}")),
    }
}

/// Reads a site's line in a project of an edition and so many years and fills in
/// its defaults. What the site writer would refuse is told in words.
pub fn site(edition: u8, years: u8, line: &str) -> Result<Site, String> {
    let words: Vec<&str> = line.split_whitespace().collect();
    let (kind_name, pairs) = words.split_first().ok_or("an empty line")?;
    let kind = KIND_NAMES.iter().position(|name| name == kind_name);
    let kind = kind.ok_or_else(|| {
        let names = KIND_NAMES.join(", ");
        format!("the kind is {kind_name:?}; it must be one of {names}")
    })?;
    let mut site = Site::empty(kind as u8);
    for pair in pairs.chunks(2) {
        read_value(&mut site, edition, years, pair)?;
    }
    let table = rules(edition, site.kind).unwrap_or(&[]);
    fill_defaults(&mut site, table);
    table.iter().try_for_each(|rule| matched(&site, rule))?;
    Ok(site)
}

/// Reads a field's name and its number, or a traffic's number for each year,
/// into a site.
fn read_value(site: &mut Site, edition: u8, years: u8, pair: &[&str]) -> Result<(), String> {
    let name = pair[0];
    let known = FIELD_NAMES.iter().find(|(_, known)| *known == name);
    let (field, _) = *known.ok_or_else(|| format!("there is no field {name:?}"))?;
    let text = pair.get(1).ok_or_else(|| format!("{name} has no number"))?;
    let mut table = rules(edition, site.kind).unwrap_or(&[]).iter();
    let Some(rule) = table.find(|rule| rule.field == field) else {
        let lacks = lacking(edition, site.kind, field);
        return Err(format!("{name} is {text}; {lacks}"));
    };
    if site.get(field).is_some() {
        return Err(format!("{name} is given twice"));
    }
    without_comma(name, text, rule.is_traffic())?;
    if rule.is_traffic() && text.contains(YEARS_APART) {
        *site = site.with_years(field, &yearly_numbers(rule, years, text)?);
    } else {
        site.set(field, Some(number(name, text, &rule.range())?));
    }
    Ok(())
}

/// That a kind lacks a field, with the edition where another one has it.
fn lacking(edition: u8, kind: u8, field: Field) -> String {
    let name = KIND_NAMES[usize::from(kind)];
    if editions_with(kind, field).is_empty() {
        format!("a {name} has no such field")
    } else {
        format!("a {name} has no such field in edition {edition}")
    }
}

/// Reads the numbers of a traffic's years.
fn yearly_numbers(rule: &Rule, years: u8, text: &str) -> Result<Vec<u16>, String> {
    let name = rule.field.name();
    let each: Vec<&str> = text.split(YEARS_APART).collect();
    if each.len() != usize::from(years) {
        let found = each.len();
        return Err(format!("{name} has {found} numbers for {years} years"));
    }
    let numbers = (1..).zip(each).map(|(year, text)| {
        let name = format!("{name} of year {year}");
        number(&name, text, &rule.range())
    });
    numbers.collect()
}

fn fill_defaults(site: &mut Site, table: &[Rule]) {
    let curve = site.is_curve();
    for rule in table {
        let applies = curve || !rule.is_of_curve();
        if site.get(rule.field).is_none() && applies {
            site.set(rule.field, rule.default());
        }
    }
}

/// Whether a field is given where it must be, and only where it may be.
fn matched(site: &Site, rule: &Rule) -> Result<(), String> {
    let curve = site.is_curve() || site.get(Field::Radius).is_some();
    let name = rule.field.name();
    let is_of_one_year = site.later(rule.field).iter().all(Option::is_none);
    match (rule.presence, site.get(rule.field)) {
        (Presence::Needed, None) => Err(format!("{name} is missing; {}", range(&rule.range()))),
        (Presence::Curve, None) if curve => Err(format!(
            "{name} is missing on a curve; {}",
            range(&rule.range())
        )),
        (Presence::CurveDefault(_), Some(value)) if !curve => Err(format!(
            "{name} is {value} without a curve-length and a radius"
        )),
        (_, Some(value)) if rule.is_traffic() && is_of_one_year && site.is_yearly() => {
            Err(format!(
                "{name} is {value}; it must have a number for each year, as the other traffic has"
            ))
        }
        _ => Ok(()),
    }
}

/// The byte-order marks of UTF-8 and UTF-16.
const MARKS: [&[u8]; 3] = [b"\xEF\xBB\xBF", b"\xFF\xFE", b"\xFE\xFF"];

fn has_mark(bytes: &[u8]) -> bool {
    MARKS.iter().any(|mark| bytes.starts_with(mark))
}

/// Whether bytes are lines and not a project file. Lines start with a byte-order
/// mark, or have no control character among their first eight bytes except line
/// ends and tabs. A project file has two there: its edition is 1 or 2, and the
/// high byte of its count of sites is at most 4. A file with another edition
/// still has the second.
pub fn are_lines(bytes: &[u8]) -> bool {
    let is_plain = |b: &u8| !b.is_ascii_control() || b.is_ascii_whitespace();
    has_mark(bytes) || (!bytes.is_empty() && bytes.iter().take(HEADER).all(is_plain))
}

/// The text of lines.
pub fn text_of(bytes: &[u8]) -> Result<&str, String> {
    if has_mark(bytes) {
        let told = "line 1: the text starts with a byte-order mark; save it as UTF-8 without one";
        return Err(told.to_string());
    }
    std::str::from_utf8(bytes).map_err(|error| {
        let before = &bytes[..error.valid_up_to()];
        let line = 1 + before.iter().filter(|byte| **byte == b'\n').count();
        format!("line {line}: this is no UTF-8 text")
    })
}

/// Reads a project from lines. Empty lines and lines that start with `#` are
/// passed over. A fault is told with its line, and a site's with the site,
/// both counted from 1.
pub fn parse(text: &str) -> Result<Project, String> {
    let mut lines = text
        .lines()
        .enumerate()
        .map(|(index, line)| (index + 1, line.trim()))
        .filter(|(_, line)| !line.is_empty() && !line.starts_with('#'));
    let mut numbers = [0; HEADER_LINES.len()];
    for (found, (name, allowed)) in numbers.iter_mut().zip(HEADER_LINES) {
        let (at, line) = lines.next().ok_or_else(|| format!("no line has {name}"))?;
        *found =
            header_number(line, name, &allowed).map_err(|what| format!("line {at}: {what}"))?;
    }
    let [edition, years, segment_calibration, crossing_calibration] = numbers;
    let header = Header {
        edition: edition as u8,
        years: years as u8,
        segment_calibration,
        crossing_calibration,
    };
    let mut sites = Vec::new();
    for (at, line) in lines {
        let place = |what: String| format!("line {at}, site {}: {what}", sites.len() + 1);
        if sites.len() == MOST_SITES {
            return Err(place(format!("there may be {MOST_SITES} sites at most")));
        }
        let site = site(header.edition, header.years, line).map_err(place)?;
        sites.push(site);
    }
    Ok(Project { header, sites })
}

/// The project file of these lines.
pub fn make(text: &str) -> Result<Vec<u8>, String> {
    write_project(&parse(text)?).map_err(|refusal| refusal.to_string())
}
