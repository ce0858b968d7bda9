//! One site: its values, its record, the site reader and the site writer.

use crate::rules::{
    edition_within, rules, years_within, Field, Presence, Rule, FIELD_NAMES, LATER_YEARS, SEGMENT,
    STOP_FIELDS, TRAFFIC_FIELDS, YEARLY_BIT,
};
use std::fmt;

/// A cause of document 01's table with its place.
#[derive(Clone, Copy, Debug, PartialEq, Eq, Hash)]
pub struct Refusal {
    pub number: u8,
    pub place: usize,
}

impl fmt::Display for Refusal {
    fn fmt(&self, f: &mut fmt::Formatter<'_>) -> fmt::Result {
        write!(f, "refused {} at {}", self.number, self.place)
    }
}

impl Refusal {
    pub const fn of(number: u8, place: usize) -> Refusal {
        Refusal { number, place }
    }

    /// The refusal as a command tells it: the place is a byte of the file.
    pub fn in_words(&self) -> String {
        let cause = CAUSES.iter().find(|(number, _)| *number == self.number);
        let words = cause.map_or("refused", |(_, words)| words);
        format!("refused {} at byte {}: {words}", self.number, self.place)
    }
}

/// Each cause in words.
const CAUSES: [(u8, &str); 10] = [
    (
        cause::RUNS_PAST_END,
        "the file ends before its header or a record does",
    ),
    (cause::BYTES_AFTER, "there are bytes after the last record"),
    (cause::EDITION, "the edition is neither 1 nor 2"),
    (
        cause::HEADER_LIMITS,
        "years, a calibration or the count of sites is outside its limits",
    ),
    (cause::KIND, "the kind is above 3"),
    (
        cause::LACKING_BIT,
        "a bit is set that the kind does not have in this edition",
    ),
    (
        cause::UNMATCHED_BITS,
        "a needed field is missing, half a curve is given, or a project of one year has later years",
    ),
    (cause::RANGE, "a field is outside its range"),
    (cause::DEFAULT_SPELLED, "a default is spelled out"),
    (cause::TOO_SHORT, "the report is too short"),
];

/// Document 01's numbers for the causes.
pub mod cause {
    pub const RUNS_PAST_END: u8 = 1;
    pub const BYTES_AFTER: u8 = 2;
    pub const EDITION: u8 = 3;
    pub const HEADER_LIMITS: u8 = 4;
    pub const KIND: u8 = 5;
    pub const LACKING_BIT: u8 = 6;
    pub const UNMATCHED_BITS: u8 = 7;
    pub const RANGE: u8 = 8;
    pub const DEFAULT_SPELLED: u8 = 9;
    pub const TOO_SHORT: u8 = 10;
}

/// The kind byte and the two bytes of the map.
pub const RECORD_HEAD: usize = 3;

/// The longest record: a stop crossing with every field and the most years of
/// both traffics.
pub const LONGEST_RECORD: usize =
    RECORD_HEAD + 2 * (STOP_FIELDS + TRAFFIC_FIELDS.len() * LATER_YEARS);

/// A traffic's values of the second year and the later ones, none for a year
/// that is not given.
type Later = [Option<u16>; LATER_YEARS];

/// A site's values: the kind and one number, or none, for each field and for
/// each later year of each traffic field.
#[derive(Clone, Copy, Debug, PartialEq, Eq, Hash)]
pub struct Site {
    pub kind: u8,
    values: [Option<u16>; FIELD_NAMES.len()],
    later: [Later; TRAFFIC_FIELDS.len()],
}

fn traffic_place(field: Field) -> Option<usize> {
    TRAFFIC_FIELDS.iter().position(|traffic| *traffic == field)
}

impl Site {
    /// A site with no value at all.
    pub fn empty(kind: u8) -> Site {
        Site {
            kind,
            values: [None; FIELD_NAMES.len()],
            later: [[None; LATER_YEARS]; TRAFFIC_FIELDS.len()],
        }
    }

    /// A straight site of an edition without history: these needed values, all
    /// else at its default.
    pub fn plain(edition: u8, kind: u8, traffic: u16, second: u16) -> Site {
        let mut site = Site::empty(kind);
        for rule in rules(edition, kind).unwrap_or(&[]) {
            site.set(rule.field, rule.default().filter(|_| !rule.is_of_curve()));
        }
        let other = if kind == SEGMENT {
            Field::Length
        } else {
            Field::MinorTraffic
        };
        site.with(Field::Traffic, traffic).with(other, second)
    }

    /// The same site with one value replaced.
    pub fn with(mut self, field: Field, value: u16) -> Site {
        self.set(field, Some(value));
        self
    }

    /// The same site on a curve without spirals or deficiency.
    pub fn with_curve(self, length: u16, radius: u16) -> Site {
        self.with(Field::CurveLength, length)
            .with(Field::Radius, radius)
            .with(Field::SpiralEnds, 0)
            .with(Field::Deficiency, 0)
    }

    /// The same site with a traffic for each year, the first included.
    pub fn with_years(mut self, field: Field, traffic: &[u16]) -> Site {
        self.set(field, traffic.first().copied());
        for year in 2..=LATER_YEARS + 1 {
            self.set_later(field, year, traffic.get(year - 1).copied());
        }
        self
    }

    pub fn get(&self, field: Field) -> Option<u16> {
        self.values[field as usize]
    }

    pub fn set(&mut self, field: Field, value: Option<u16>) {
        self.values[field as usize] = value;
    }

    /// The later years of a field: the second year's value, or none, and so on.
    /// A field that is no traffic has no later years.
    pub fn later(&self, field: Field) -> &[Option<u16>] {
        traffic_place(field).map_or(&[], |at| &self.later[at])
    }

    /// Sets the value of a traffic field in a year from 2 up.
    pub fn set_later(&mut self, field: Field, year: usize, value: Option<u16>) {
        self.later[traffic_place(field).expect("a traffic field")][year - 2] = value;
    }

    /// Whether the site holds a traffic for a later year.
    pub fn is_yearly(&self) -> bool {
        self.later.iter().flatten().any(Option::is_some)
    }

    /// The site as it is in a year from 1 up: with that year's traffic in every
    /// year.
    pub fn in_year(&self, year: usize) -> Site {
        let mut site = *self;
        for field in TRAFFIC_FIELDS {
            let first = self.get(field);
            let of_year = year
                .checked_sub(2)
                .map_or(first, |at| self.later(field)[at]);
            site = site.with_years(field, of_year.as_slice());
        }
        site
    }

    /// The terms of the site's prediction, each with its years: one for each
    /// year where each has its traffic, and otherwise one for all.
    pub fn terms(&self, years: u8) -> Vec<(u8, Site)> {
        if !self.is_yearly() {
            return vec![(years, *self)];
        }
        (1..=years.into())
            .map(|year| (1, self.in_year(year)))
            .collect()
    }

    /// A value that the reader's rules say is there. Panics when it is not.
    pub fn value(&self, field: Field) -> u64 {
        u64::from(self.get(field).expect("a value that the kind has"))
    }

    pub fn observed(&self) -> Option<u64> {
        self.get(Field::Observed).map(u64::from)
    }

    pub fn is_curve(&self) -> bool {
        self.get(Field::CurveLength).is_some()
    }
}

fn two_bytes(part: &[u8], at: usize) -> u16 {
    u16::from_be_bytes([part[at], part[at + 1]])
}

fn is_set(map: u16, rule: &Rule) -> bool {
    map >> rule.bit & 1 == 1
}

/// The edition (3), then the years (4) that a reader or writer of sites takes.
fn within(edition: u64, years: u64) -> Result<(u8, u8), u8> {
    let edition = edition_within(edition).ok_or(cause::EDITION)?;
    let years = years_within(years).ok_or(cause::HEADER_LIMITS)?;
    Ok((edition, years))
}

/// Reads the record at the start of `part` in a project of an edition and so
/// many years: the site and the record's length, or the number of the refusal,
/// whose place is 0.
pub fn read_site(edition: u64, years: u64, part: &[u8]) -> Result<(Site, usize), u8> {
    let (edition, years) = within(edition, years)?;
    if part.len() < RECORD_HEAD {
        return Err(cause::RUNS_PAST_END);
    }
    let kind = part[0];
    let rules = rules(edition, kind).ok_or(cause::KIND)?;
    let map = two_bytes(part, 1);
    check_map(map, years, rules)?;
    let set = rules.iter().filter(|rule| is_set(map, rule));
    let values: usize = set.map(|rule| values_of(map, years, rule)).sum();
    let length = RECORD_HEAD + 2 * values;
    if part.len() < length {
        return Err(cause::RUNS_PAST_END);
    }
    let words = part[RECORD_HEAD..length].chunks_exact(2);
    let mut values = words.map(|word| two_bytes(word, 0));
    let mut site = Site::empty(kind);
    read_fields(&mut site, map, years, rules, &mut values)?;
    Ok((site, length))
}

fn is_yearly(map: u16) -> bool {
    map >> YEARLY_BIT & 1 == 1
}

/// How many values a field has in a record where its bit is set.
pub fn values_of(map: u16, years: u8, rule: &Rule) -> usize {
    if is_yearly(map) && rule.is_traffic() {
        usize::from(years)
    } else {
        1
    }
}

/// Refuses a bit that the kind lacks (6), then a needed bit that is absent,
/// curve bits that do not match or later years in a project of one year (7).
fn check_map(map: u16, years: u8, rules: &[Rule]) -> Result<(), u8> {
    let fields = rules.iter().fold(0, |bits, rule| bits | 1 << rule.bit);
    if map & !(fields | 1 << YEARLY_BIT) != 0 {
        return Err(cause::LACKING_BIT);
    }
    if is_yearly(map) && years == 1 {
        return Err(cause::UNMATCHED_BITS);
    }
    let curve = rules
        .iter()
        .any(|rule| rule.presence == Presence::Curve && is_set(map, rule));
    for rule in rules {
        let matched = match rule.presence {
            Presence::Needed => is_set(map, rule),
            Presence::Curve => is_set(map, rule) == curve,
            Presence::CurveDefault(_) => curve || !is_set(map, rule),
            Presence::History | Presence::Default(_) => true,
        };
        if !matched {
            return Err(cause::UNMATCHED_BITS);
        }
    }
    Ok(())
}

/// Reads the fields whose bits are set in rising order, a traffic's later years
/// after its first; each value must be in its range (8) and no default (9).
/// Absent fields take their defaults.
fn read_fields(
    site: &mut Site,
    map: u16,
    years: u8,
    rules: &[Rule],
    values: &mut impl Iterator<Item = u16>,
) -> Result<(), u8> {
    let mut next = |rule: &Rule| {
        let value = values.next().ok_or(cause::RUNS_PAST_END)?;
        rule.allows(value).then_some(value).ok_or(cause::RANGE)
    };
    for rule in rules.iter().filter(|rule| is_set(map, rule)) {
        let value = next(rule)?;
        if rule.default() == Some(value) {
            return Err(cause::DEFAULT_SPELLED);
        }
        site.set(rule.field, Some(value));
        for year in 2..=values_of(map, years, rule) {
            site.set_later(rule.field, year, Some(next(rule)?));
        }
    }
    let curve = site.is_curve();
    for rule in rules.iter().filter(|rule| !is_set(map, rule)) {
        let applies = curve || !rule.is_of_curve();
        site.set(rule.field, rule.default().filter(|_| applies));
    }
    Ok(())
}

/// Writes a site's record in a project of an edition and so many years, dropping
/// defaults, for a buffer of `room` bytes; or the number of the refusal, 3, 4, 8
/// and then 10, whose place is 0.
pub fn write_site(edition: u64, years: u64, site: &Site, room: usize) -> Result<Vec<u8>, u8> {
    let (edition, years) = within(edition, years)?;
    let rules = rules(edition, site.kind).ok_or(cause::RANGE)?;
    if !(values_allowed(site, rules) && later_allowed(site, years, rules)) {
        return Err(cause::RANGE);
    }
    let mut map = u16::from(site.is_yearly()) << YEARLY_BIT;
    let mut values = Vec::new();
    for rule in rules {
        let written = site.get(rule.field).filter(|v| rule.default() != Some(*v));
        if let Some(value) = written {
            map |= 1 << rule.bit;
            values.push(value);
            values.extend(site.later(rule.field).iter().flatten());
        }
    }
    let record = encode_record(site.kind, map, &values);
    if room < record.len() {
        return Err(cause::TOO_SHORT);
    }
    Ok(record)
}

/// Whether the site holds just the values that its kind asks for, each in its
/// range. Half a curve, and a spiral or deficiency without one, fail here.
fn values_allowed(site: &Site, rules: &[Rule]) -> bool {
    let curve = site.is_curve() || site.get(Field::Radius).is_some();
    FIELD_NAMES.iter().all(|(field, _)| {
        let value = site.get(*field);
        match rules.iter().find(|rule| rule.field == *field) {
            None => value.is_none(),
            Some(rule) => match (rule.presence, value) {
                (Presence::History, None) => true,
                (_, None) => rule.is_of_curve() && !curve,
                (_, Some(value)) => rule.allows(value) && (curve || !rule.is_of_curve()),
            },
        }
    })
}

/// Whether the site holds no later year at all or, for each traffic field of
/// its kind, just those of the project, each in the field's range.
fn later_allowed(site: &Site, years: u8, rules: &[Rule]) -> bool {
    let fits = |field: &Field| {
        let rule = rules.iter().find(|rule| rule.field == *field);
        let asked = rule.map_or(0, |_| usize::from(years) - 1);
        let allowed = |value| rule.is_some_and(|rule| rule.allows(value));
        let (given, rest) = site.later(*field).split_at(asked);
        given.iter().all(|value| value.is_some_and(allowed)) && rest.iter().all(Option::is_none)
    };
    !site.is_yearly() || TRAFFIC_FIELDS.iter().all(fits)
}

/// A record from its parts, unchecked: the kind, the map and the values.
pub fn encode_record(kind: u8, map: u16, values: &[u16]) -> Vec<u8> {
    let mut record = vec![kind];
    record.extend(map.to_be_bytes());
    record.extend(values.iter().flat_map(|value| value.to_be_bytes()));
    record
}
