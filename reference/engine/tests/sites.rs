//! The engine's site reader and writer against the reference's in both editions,
//! on every value of every field, every map, damaged records and sites that no
//! record has.

use engine::sites::{
    numbers_of, read_into, read_site, write_numbers, write_site, READ_NUMBERS, SITE_NUMBERS,
};
use reference::generate::{self, edges, Random};
use reference::record::{self, cause, encode_record, Site, LONGEST_RECORD, RECORD_HEAD};
use reference::rules::{
    rules, Field, Presence, Rule, EDITIONS, EDITION_ONE, EDITION_TWO, FIELD_NAMES, LAST_EDITION,
    LATER_YEARS, MOST_YEARS, TRAFFIC_FIELDS, YEARLY_BIT,
};

/// The kinds with a table, and one without.
const KINDS: std::ops::RangeInclusive<u8> = 0..=4;

/// Years of a project where nothing rests on them.
const YEARS: u64 = 5;

fn assert_same_reading_with(edition: u64, years: u64, part: &[u8]) {
    let wanted = record::read_site(edition, years, part);
    let read = read_site(edition, years, part);
    assert_eq!(read, wanted, "{edition} {years}: {part:02x?}");
}

/// Every edition reads a part as the reference does.
fn assert_same_reading_over(years: u64, part: &[u8]) {
    for edition in EDITIONS {
        assert_same_reading_with(edition.into(), years, part);
    }
}

fn assert_same_reading(part: &[u8]) {
    assert_same_reading_over(YEARS, part);
}

fn assert_same_writing(edition: u64, years: u64, site: &Site, room: usize) -> bool {
    let wanted = record::write_site(edition, years, site, room);
    let written = write_site(edition, years, site, room);
    assert_eq!(written, wanted, "{edition} {years}: {site:?} in {room}");
    written.is_ok()
}

/// An edition and years within the limits.
fn any_limits(random: &mut Random) -> (u8, u8) {
    let years = random.between(1, MOST_YEARS.into()) as u8;
    (random.pick(&EDITIONS), years)
}

/// Fields of a curve go together; all others may stand alone.
fn stands_with(rule: &Rule, other: &Rule) -> bool {
    other.presence == Presence::Needed
        || rule.is_of_curve() && other.presence == Presence::Curve
        || rule.bit == other.bit
}

/// A record in which one field has a value, with the fields that it needs.
fn record_with(kind: u8, table: &[Rule], rule: &Rule, value: u16) -> Vec<u8> {
    let standing = table.iter().filter(|other| stands_with(rule, other));
    let fields: Vec<(u32, u16)> = standing
        .map(|other| {
            (
                other.bit,
                if other.bit == rule.bit {
                    value
                } else {
                    other.high
                },
            )
        })
        .collect();
    let map = fields.iter().fold(0, |map, (bit, _)| map | 1 << bit);
    let values: Vec<u16> = fields.iter().map(|(_, value)| *value).collect();
    encode_record(kind, map, &values)
}

/// Of edition 1, which has every field.
#[test]
fn every_value_of_every_field() {
    let mut records = 0;
    for kind in KINDS {
        let table = rules(EDITION_ONE, kind).unwrap_or(&[]);
        for rule in table {
            for value in 0..=u16::MAX {
                assert_same_reading(&record_with(kind, table, rule, value));
                records += 1;
            }
        }
    }
    assert_eq!(records, 34 * 65_536);
}

/// Every map of every kind with one year, with two and with the most: with all
/// the values that it asks for, with one less, and with values to spare.
#[test]
fn every_map_of_every_kind() {
    let spare = [1; LONGEST_RECORD];
    for years in [1, 2, u64::from(MOST_YEARS)] {
        for kind in KINDS {
            for map in 0..=u16::MAX {
                let part = encode_record(kind, map, &spare);
                assert_same_reading_over(years, &part);
                let fields = RECORD_HEAD + 2 * map.count_ones() as usize;
                for edition in EDITIONS.map(u64::from) {
                    let read = record::read_site(edition, years, &part);
                    let length = read.map_or(fields, |(_, length)| length);
                    for end in [length, length - 1] {
                        assert_same_reading_with(edition, years, &part[..end]);
                    }
                }
            }
        }
    }
}

/// A record with a traffic for each year, all 1 but this one.
fn record_of_years(kind: u8, years: u8, rule: &Rule, year: usize, value: u16) -> Vec<u8> {
    let needed = rules(EDITION_ONE, kind).unwrap_or(&[]).iter().take(2);
    let mut values = Vec::new();
    for other in needed {
        let count = if other.is_traffic() { years } else { 1 };
        let start = values.len();
        values.resize(start + usize::from(count), 1);
        if other.bit == rule.bit {
            values[start + year - 1] = value;
        }
    }
    encode_record(kind, 1 << YEARLY_BIT | 0b11, &values)
}

/// Runs over every year of every traffic of every kind.
fn for_each_year(years: u8, mut each: impl FnMut(u8, &Rule, usize)) {
    for kind in KINDS {
        let table = rules(EDITION_ONE, kind).unwrap_or(&[]).iter();
        for rule in table.filter(|rule| rule.is_traffic()) {
            for year in 1..=years.into() {
                each(kind, rule, year);
            }
        }
    }
}

#[test]
fn every_value_of_every_year() {
    let mut records = 0;
    for_each_year(3, |kind, rule, year| {
        for value in 0..=u16::MAX {
            assert_same_reading_over(3, &record_of_years(kind, 3, rule, year, value));
            records += 1;
        }
    });
    assert_eq!(records, 7 * 3 * 65_536);
    for years in 1..=MOST_YEARS {
        for_each_year(years, |kind, rule, year| {
            for value in [0, rule.low, rule.high, rule.high + 1, u16::MAX] {
                let record = record_of_years(kind, years, rule, year, value);
                for other in 1..=u64::from(MOST_YEARS) {
                    assert_same_reading_over(other, &record);
                }
            }
        });
    }
}

/// Editions and years at their limits and beyond, with records that are right,
/// damaged and cut, and sites that can and cannot be written.
#[test]
fn years_of_the_project() {
    let mut random = Random::new(15);
    for edition in edges(LAST_EDITION.into()) {
        for years in edges(MOST_YEARS.into()) {
            for _ in 0..30 {
                let (of_site, given) = any_limits(&mut random);
                let site = generate::disturbed_site(&mut random, of_site, given);
                for room in [0, LONGEST_RECORD] {
                    assert_same_writing(edition, years, &site, room);
                }
                let right = generate::site(&mut random, of_site, given);
                let record = record::write_site(of_site.into(), given.into(), &right, usize::MAX);
                let record = record.expect("a generated site");
                for end in [0, 1, record.len() - 1, record.len()] {
                    assert_same_reading_with(edition, years, &record[..end]);
                }
            }
        }
    }
}

/// 3 for the edition is tried first, 4 for the years next, and either before the
/// part, the site and the room.
#[test]
fn three_then_four_are_tried_first() {
    let numbers = numbers_of(&Site::plain(EDITION_ONE, 0, 1_000, 500));
    let mut values = [7; READ_NUMBERS];
    for edition in [0, 1, 2, 3, 255, 257, u64::MAX] {
        for years in [0, 5, 11, u64::MAX] {
            let wanted = match (edition, years) {
                (1 | 2, 5) => continue,
                (1 | 2, _) => cause::HEADER_LIMITS,
                _ => cause::EDITION,
            };
            for (part, room) in [(&[][..], 0), (&[9], READ_NUMBERS), (&[0, 0, 3], 0)] {
                let number = read_into(edition, years, part, &mut values[..room]);
                assert_eq!((number as u8, values), (wanted, [7; READ_NUMBERS]));
            }
            for (count, room) in [(0, 0), (SITE_NUMBERS, 0), (SITE_NUMBERS, 40)] {
                let written = write_numbers(edition, years, &numbers[..count], room);
                assert_eq!(written, Err(wanted), "{edition} {years}");
            }
        }
    }
}

/// "Bit 6 of a crossing gets 6 in edition 2", and a number of limited quadrants,
/// be it 0, is outside its range there; the rest of a stop crossing is shared.
#[test]
fn limited_sight_is_edition_ones_alone() {
    for kind in [1, 2] {
        let [one, two] = EDITIONS.map(|edition| Site::plain(edition, kind, 1_000, 500));
        let record = encode_record(kind, 0b11, &[1_000, 500]);
        let limited = encode_record(kind, 0b100_0011, &[1_000, 500, 1]);
        assert_eq!(read_site(1, YEARS, &record), Ok((one, 7)));
        assert_eq!(read_site(2, YEARS, &record), Ok((two, 7)));
        assert!(read_site(1, YEARS, &limited).is_ok());
        assert_eq!(read_site(2, YEARS, &limited), Err(cause::LACKING_BIT));
        assert_eq!(write_site(1, YEARS, &one, 7), Ok(record.clone()));
        assert_eq!(write_site(2, YEARS, &two, 7), Ok(record));
        assert_eq!(write_site(1, YEARS, &two, 7), Err(cause::RANGE));
        for quadrants in [0, 1, 4, u16::MAX] {
            let site = two.with(Field::LimitedQuadrants, quadrants);
            let written = write_site(EDITION_TWO.into(), YEARS, &site, 99);
            assert_eq!(written, Err(cause::RANGE), "{kind} {quadrants}");
        }
    }
}

#[test]
fn records_that_are_cut_or_followed_by_bytes() {
    let mut random = Random::new(11);
    for _ in 0..20_000 {
        let (edition, years) = any_limits(&mut random);
        let site = generate::site(&mut random, edition, years);
        let (edition, years) = (edition.into(), years.into());
        let record = record::write_site(edition, years, &site, usize::MAX);
        let mut bytes = record.expect("a generated site");
        let length = bytes.len();
        for end in 0..length {
            assert_same_reading_over(years, &bytes[..end]);
        }
        bytes.extend((0..5).map(|_| random.next() as u8));
        assert_eq!(read_site(edition, years, &bytes), Ok((site, length)));
    }
}

#[test]
fn random_bytes() {
    let mut random = Random::new(12);
    for _ in 0..300_000 {
        let length = random.below(LONGEST_RECORD + 4);
        let mut part: Vec<u8> = (0..length).map(|_| random.next() as u8).collect();
        if let Some(kind) = part.first_mut() {
            *kind %= 6;
        }
        let (_, years) = any_limits(&mut random);
        assert_same_reading_over(years.into(), &part);
    }
}

#[test]
fn sites_that_can_and_cannot_be_written() {
    let mut random = Random::new(13);
    let (mut written, mut refused) = (0, 0);
    for _ in 0..200_000 {
        let (edition, years) = any_limits(&mut random);
        let site = generate::disturbed_site(&mut random, edition, years);
        let (edition, years) = (edition.into(), years.into());
        let record = record::write_site(edition, years, &site, usize::MAX);
        let needed = record.map_or(0, |bytes| bytes.len());
        for room in [needed.saturating_sub(1), needed, needed + 3] {
            if assert_same_writing(edition, years, &site, room) {
                written += 1;
            } else {
                refused += 1;
            }
        }
    }
    assert!(written > 100_000 && refused > 100_000);
}

/// Every field of every kind, foreign ones too, at every value from a plain
/// site, which is on a curve where the field is a curve's.
#[test]
fn every_value_of_every_slot_written() {
    let mut sites: u32 = 0;
    for edition in EDITIONS {
        for kind in KINDS {
            for (field, _) in FIELD_NAMES {
                let base = base_for(edition, kind, field);
                for value in 0..=u16::MAX {
                    let site = base.with(field, value);
                    assert_same_writing(edition.into(), YEARS, &site, LONGEST_RECORD);
                    sites += 1;
                }
            }
        }
    }
    assert_eq!(sites, 2 * 5 * 20 * 65_536);
}

/// A plain site, on a curve where the field is a curve's.
fn base_for(edition: u8, kind: u8, field: Field) -> Site {
    let mut table = rules(edition, kind).unwrap_or(&[]).iter();
    let rule = table.find(|rule| rule.field == field);
    let plain = Site::plain(edition, kind, 1_000, 500);
    if rule.is_some_and(Rule::is_of_curve) {
        plain.with_curve(100, 1_000)
    } else {
        plain
    }
}

/// Every later year of every traffic, foreign ones too, emptied and at the edges
/// of its range, from a plain site and from one of every count of years.
#[test]
fn every_later_year_written() {
    let mut random = Random::new(16);
    let mut sites: u32 = 0;
    for kind in KINDS {
        for given in 1..=MOST_YEARS {
            let edition = random.pick(&EDITIONS);
            let plain = Site::plain(edition, kind, 1_000, 500);
            let base = generate::yearly(&mut random, plain, given);
            for field in TRAFFIC_FIELDS {
                for year in 2..LATER_YEARS + 2 {
                    let edges = [0, 1, 20_000, 20_001, u16::MAX].map(Some);
                    for value in edges.into_iter().chain([None]) {
                        let mut site = base;
                        site.set_later(field, year, value);
                        for years in 1..=u64::from(MOST_YEARS) {
                            assert_same_writing(edition.into(), years, &site, LONGEST_RECORD);
                        }
                        sites += 1;
                    }
                }
            }
        }
    }
    assert_eq!(sites, 5 * 10 * 18 * 6);
}

#[test]
fn numbers_that_are_no_site() {
    for edition in EDITIONS.map(u64::from) {
        let site = Site::plain(EDITION_ONE, 0, 1_000, 500);
        let numbers = numbers_of(&site);
        let written = |numbers: &[u64], room| write_numbers(edition, YEARS, numbers, room);
        assert_eq!(written(&numbers, 40).map(|bytes| bytes.len()), Ok(7));
        for few in 0..numbers.len() {
            for room in [0, 40] {
                assert_eq!(written(&numbers[..few], room), Err(cause::RANGE));
            }
            let answer = write_numbers(edition, 0, &numbers[..few], 40);
            assert_eq!(answer, Err(cause::HEADER_LIMITS));
        }
        for place in 0..numbers.len() {
            for number in [65_537, u64::MAX] {
                let mut wrong = numbers;
                wrong[place] = number;
                assert_eq!(written(&wrong, 40), Err(cause::RANGE), "{place}");
            }
        }
    }
}

/// The run that the reader left, its record's length and what follows it
/// included, is written as the record that was read.
#[test]
fn a_read_site_is_handed_on_as_it_was_left() {
    const ROOM: usize = READ_NUMBERS + 3;
    let mut random = Random::new(14);
    for _ in 0..20_000 {
        let (edition, years) = any_limits(&mut random);
        let site = generate::site(&mut random, edition, years);
        let (edition, years) = (edition.into(), years.into());
        let record = record::write_site(edition, years, &site, usize::MAX);
        let record = record.expect("a generated site");
        let mut values = [u64::MAX; ROOM];
        assert_eq!(read_into(edition, years, &record, &mut values), 0);
        assert_eq!(values[..SITE_NUMBERS], numbers_of(&site));
        assert_eq!(
            values[SITE_NUMBERS..],
            [record.len() as u64, u64::MAX, u64::MAX, u64::MAX]
        );
        for count in SITE_NUMBERS..=ROOM {
            let written = write_numbers(edition, years, &values[..count], record.len() + 3);
            assert_eq!(written.as_ref(), Ok(&record), "{count} {site:?}");
        }
    }
}

/// Too few numbers for a site are tried last.
#[test]
fn a_short_run_of_values_is_left_as_it_was() {
    let part = encode_record(0, 3, &[1_000, 500]);
    for edition in EDITIONS.map(u64::from) {
        let mut values = [7; SITE_NUMBERS];
        let mut refused = |years, part: &[u8]| {
            let number = read_into(edition, years, part, &mut values);
            assert_eq!(values, [7; SITE_NUMBERS]);
            number as u8
        };
        assert_eq!(refused(YEARS, &part), cause::TOO_SHORT);
        assert_eq!(refused(YEARS, &part[..6]), cause::RUNS_PAST_END);
        assert_eq!(refused(11, &part), cause::HEADER_LIMITS);
        let mut values = [9; READ_NUMBERS + 2];
        assert_eq!(read_into(edition, YEARS, &part, &mut values), 0);
        assert_eq!(values[SITE_NUMBERS..], [7, 9, 9]);
    }
}
