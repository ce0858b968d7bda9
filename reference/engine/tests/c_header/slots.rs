//! The header's table of slots: each name is the index at which the engine
//! leaves the field, and each bit, kind, range and default is the engine's.

use super::{names_in_c, root};
use engine::sites::{read_into, READ_NUMBERS};
use engine::DONE;
use reference::record::cause;
use reference::rules::{EDITIONS, EDITION_ONE, KIND_NAMES, MOST_YEARS, YEARLY_BIT};
use std::collections::{BTreeMap, BTreeSet};
use std::fs;

/// What a field has where a record does not give it.
#[derive(Clone, Copy, Debug, PartialEq)]
enum Missing {
    Needed,
    NoHistory,
    Straight,
    Default(u16),
    OnCurve(u16),
}

/// A row of the table, for one of its kinds.
#[derive(Clone, Debug)]
struct Row {
    name: String,
    bit: u32,
    kind: u8,
    low: u16,
    high: u16,
    missing: Missing,
    is_of_edition_one: bool,
}

/// In the range of every needed field and of a curve's length and radius.
const USUAL: u16 = 500;

fn number(text: &str) -> u16 {
    let digits = text.replace(',', "");
    digits.parse().unwrap_or_else(|_| panic!("{text}"))
}

fn missing(text: &str) -> Missing {
    match text {
        "needed" => Missing::Needed,
        "no history" => Missing::NoHistory,
        "straight" => Missing::Straight,
        _ => match text.strip_suffix(" on a curve") {
            Some(value) => Missing::OnCurve(number(value)),
            None => Missing::Default(number(text)),
        },
    }
}

/// The rows of one line, one for each of its kinds.
fn rows_of(line: &str) -> Vec<Row> {
    let cells: Vec<&str> = line
        .split("  ")
        .map(str::trim)
        .filter(|cell| !cell.is_empty() && *cell != "*")
        .collect();
    let [name, bit, kinds, _, range, default] = cells[..] else {
        panic!("not six cells: {line}");
    };
    let (low, high) = range.split_once(" to ").expect("a range");
    let of_edition_one = kinds.strip_suffix(" of edition 1");
    let kinds = of_edition_one.unwrap_or(kinds);
    let has_kind = |kind: &str| kinds == "all" || kinds.split(", ").any(|found| found == kind);
    let row = |kind: usize| Row {
        name: name.to_string(),
        bit: bit.parse().expect("a bit"),
        kind: kind as u8,
        low: number(low),
        high: number(high),
        missing: missing(default),
        is_of_edition_one: of_edition_one.is_some(),
    };
    let kinds = (0..KIND_NAMES.len()).filter(|kind| has_kind(KIND_NAMES[*kind]));
    kinds.map(row).collect()
}

/// The table's rows.
fn table() -> Vec<Row> {
    let header = fs::read_to_string(root().join("include/crash_unit.h")).expect("the header");
    let lines = header
        .lines()
        .skip_while(|line| !line.starts_with(" *   Slot "));
    let rows = lines
        .skip(1)
        .take_while(|line| line.starts_with(" *   CRASH_"));
    rows.flat_map(rows_of).collect()
}

/// A record of a kind that gives some fields by their bits.
fn record(kind: u8, given: &BTreeMap<u32, u16>) -> Vec<u8> {
    let map: u16 = given.keys().map(|bit| 1 << bit).sum();
    let words = [map].into_iter().chain(given.values().copied());
    let bytes = words.flat_map(u16::to_be_bytes);
    [kind].into_iter().chain(bytes).collect()
}

/// The site and the record's length that the engine leaves, or its number.
fn read(edition: u8, years: u8, record: &[u8]) -> Result<[u64; READ_NUMBERS], u64> {
    let mut values = [u64::MAX; READ_NUMBERS];
    match read_into(edition.into(), years.into(), record, &mut values) {
        DONE => Ok(values),
        number => Err(number),
    }
}

/// The header's names, and the rows of a kind in an edition.
struct Slots {
    names: BTreeMap<String, u64>,
    rows: Vec<Row>,
    edition: u8,
    kind: u8,
}

impl Slots {
    fn index(&self, name: &str) -> usize {
        self.names[name] as usize
    }

    fn absent(&self) -> u64 {
        self.names["CRASH_ABSENT"]
    }

    fn read(&self, given: &BTreeMap<u32, u16>) -> Result<[u64; READ_NUMBERS], u64> {
        read(self.edition, 1, &record(self.kind, given))
    }

    /// The needed fields, or those of a curve too.
    fn given(&self, has_curve: bool) -> BTreeMap<u32, u16> {
        let is_given = |row: &&Row| {
            row.missing == Missing::Needed || has_curve && row.missing == Missing::Straight
        };
        let given = self.rows.iter().filter(is_given);
        given.map(|row| (row.bit, USUAL)).collect()
    }

    /// What a slot holds where only the needed fields are given, or a curve too.
    fn held(&self, row: &Row, has_curve: bool) -> u64 {
        match row.missing {
            Missing::Needed => USUAL.into(),
            Missing::Straight if has_curve => USUAL.into(),
            Missing::OnCurve(value) if has_curve => value.into(),
            Missing::Default(value) => value.into(),
            Missing::NoHistory | Missing::Straight | Missing::OnCurve(_) => self.absent(),
        }
    }

    /// The numbers of such a record, from the table alone.
    fn stated(&self, has_curve: bool) -> [u64; READ_NUMBERS] {
        let mut values = [self.absent(); READ_NUMBERS];
        values[self.index("CRASH_KIND")] = self.kind.into();
        for row in &self.rows {
            values[self.index(&row.name)] = self.held(row, has_curve);
        }
        let given = self.given(has_curve);
        values[self.index("CRASH_RECORD_LENGTH")] = record(self.kind, &given).len() as u64;
        values
    }

    /// Every value of a field is answered as its row says, and changes its own
    /// slot alone.
    fn hold_values(&self, row: &Row, has_curve: bool) {
        let mut given = self.given(has_curve);
        let mut stated = self.stated(has_curve);
        given.insert(row.bit, row.low);
        stated[self.index("CRASH_RECORD_LENGTH")] = record(self.kind, &given).len() as u64;
        for value in 0..=u16::MAX {
            given.insert(row.bit, value);
            stated[self.index(&row.name)] = value.into();
            let is_default =
                [Missing::Default(value), Missing::OnCurve(value)].contains(&row.missing);
            let answer = if !(row.low..=row.high).contains(&value) {
                Err(cause::RANGE.into())
            } else if is_default {
                Err(cause::DEFAULT_SPELLED.into())
            } else {
                Ok(stated)
            };
            assert_eq!(self.read(&given), answer, "{row:?} at {value}");
        }
    }

    /// A needed field is missed, and a bit without a row is refused.
    fn hold_bits(&self) {
        for row in &self.rows {
            let mut given = self.given(false);
            let was_given = given.remove(&row.bit).is_some();
            let number = was_given.then_some(cause::UNMATCHED_BITS.into());
            assert_eq!(self.read(&given).err(), number, "{row:?}");
        }
        let bits: BTreeSet<u32> = self.rows.iter().map(|row| row.bit).collect();
        for bit in (0..YEARLY_BIT).filter(|bit| !bits.contains(bit)) {
            let mut given = self.given(false);
            given.insert(bit, USUAL);
            let number = cause::LACKING_BIT.into();
            assert_eq!(self.read(&given), Err(number), "{} {bit}", self.kind);
        }
    }

    /// The later years are where the header says, year by year.
    fn hold_years(&self) {
        let crossing = self.kind != 0;
        let map: u16 = 1 << YEARLY_BIT | 0b11;
        let major: Vec<u16> = (1_001..).take(MOST_YEARS.into()).collect();
        let minor: Vec<u16> = (2_001..).take(MOST_YEARS.into()).collect();
        let second = if crossing { minor } else { vec![USUAL] };
        let words = [vec![map], major.clone(), second.clone()].concat();
        let mut bytes = vec![self.kind];
        bytes.extend(words.into_iter().flat_map(u16::to_be_bytes));
        let values = read(self.edition, MOST_YEARS, &bytes).expect("a record that is read");
        let mut stated = self.stated(false);
        let mut put = |name: &str, later: &str, numbers: &[u16]| {
            stated[self.index(name)] = numbers[0].into();
            for (year, number) in numbers[1..].iter().enumerate() {
                stated[self.index(later) + year] = (*number).into();
            }
        };
        put("CRASH_TRAFFIC", "CRASH_LATER_TRAFFIC", &major);
        let name = if crossing {
            "CRASH_MINOR_TRAFFIC"
        } else {
            "CRASH_LENGTH"
        };
        put(name, "CRASH_LATER_MINOR", &second);
        stated[self.index("CRASH_RECORD_LENGTH")] = bytes.len() as u64;
        assert_eq!(values, stated);
    }
}

/// Each kind of each edition, with its rows of the table.
fn all_slots(c_name: &str) -> Vec<Slots> {
    let names = names_in_c(c_name);
    let mut all = Vec::new();
    for edition in EDITIONS {
        for kind in 0..KIND_NAMES.len() as u8 {
            let has =
                |row: &Row| row.kind == kind && (edition == EDITION_ONE || !row.is_of_edition_one);
            all.push(Slots {
                names: names.clone(),
                rows: table().into_iter().filter(has).collect(),
                edition,
                kind,
            });
        }
    }
    all
}

/// No two of the slots are the same, and none is left out.
#[test]
fn slots_are_the_numbers_of_a_site() {
    let names = names_in_c("names_slots");
    let of_table: BTreeSet<String> = table().into_iter().map(|row| row.name).collect();
    assert_eq!((table().len(), of_table.len()), (34, 20));
    let index = |name: &str| names[name] as usize;
    let mut slots: Vec<usize> = of_table.iter().map(|name| index(name)).collect();
    slots.push(index("CRASH_KIND"));
    for later in ["CRASH_LATER_TRAFFIC", "CRASH_LATER_MINOR"] {
        slots.extend((index(later)..).take(index("CRASH_LATER_YEARS")));
    }
    slots.push(index("CRASH_RECORD_LENGTH"));
    slots.sort();
    assert_eq!(slots, (0..READ_NUMBERS).collect::<Vec<_>>());
    assert_eq!(index("CRASH_RECORD_LENGTH"), index("CRASH_SITE_NUMBERS"));
    let kinds = [
        "CRASH_SEGMENT",
        "CRASH_THREE_LEG_STOP",
        "CRASH_FOUR_LEG_STOP",
        "CRASH_FOUR_LEG_SIGNAL",
    ];
    assert_eq!(kinds.map(index), [0, 1, 2, 3]);
}

#[test]
fn slots_ranges_and_defaults_are_the_engines() {
    for slots in all_slots("names_ranges") {
        for row in &slots.rows {
            let has_curve = matches!(row.missing, Missing::Straight | Missing::OnCurve(_));
            let read = slots.read(&slots.given(has_curve));
            assert_eq!(read, Ok(slots.stated(has_curve)), "{row:?}");
            slots.hold_values(row, has_curve);
        }
    }
}

#[test]
fn bits_and_later_years_are_the_engines() {
    for slots in all_slots("names_bits") {
        assert_eq!(slots.read(&slots.given(false)), Ok(slots.stated(false)));
        slots.hold_bits();
        slots.hold_years();
    }
}
