//! Every refusal with its place and its order, for the project reader, the
//! site reader and the site writer; round trips.

use reference::generate::{
    damaged_file, disturbed_site, edges, largest_project, project, site, Random,
};
use reference::lines;
use reference::project::{
    encode_header, parse_project, read_project, write_project, Header, Project, LONGEST_FILE,
};
use reference::record::{encode_record, read_site, write_site, Refusal, Site, LONGEST_RECORD};
use reference::rules::{
    rules, Field, Presence, Rule, EDITIONS, EDITION_ONE, EDITION_TWO, FIELD_NAMES, LAST_EDITION,
    MOST_SITES, MOST_YEARS, TRAFFIC_FIELDS, YEARLY_BIT,
};

const HEADER: Header = Header {
    edition: EDITION_ONE,
    years: 5,
    segment_calibration: 1_000,
    crossing_calibration: 1_000,
};

const YEARS: u64 = HEADER.years as u64;

/// Needed bits with traffic 500 and length (or minor traffic) 600.
const PLAIN: [u16; 2] = [500, 600];

fn read_in(edition: u8, part: &[u8]) -> Result<(Site, usize), u8> {
    read_site(edition.into(), YEARS, part)
}

fn write_in(edition: u8, site: &Site, room: usize) -> Result<Vec<u8>, u8> {
    write_site(edition.into(), YEARS, site, room)
}

/// A file of a good segment record and then these bytes, said to hold `sites`.
fn after_segment(edition: u8, sites: u16, rest: &[u8]) -> Vec<u8> {
    let mut file = encode_header(&Header { edition, ..HEADER }, sites);
    file.extend(encode_record(0, 0b11, &PLAIN));
    file.extend(rest);
    file
}

/// Where the second record of `after_segment` starts.
const SECOND: usize = 8 + 7;

fn refused(file: &[u8], number: u8, place: usize) {
    assert_eq!(parse_project(file), Err(Refusal::of(number, place)));
}

/// The second record of an edition's file and the record alone are refused
/// alike.
fn record_refused_in(edition: u8, record: &[u8], number: u8) {
    refused(&after_segment(edition, 2, record), number, SECOND);
    assert_eq!(read_in(edition, record), Err(number), "{edition}");
}

/// Every edition refuses the record so.
fn record_refused(record: &[u8], number: u8) {
    for edition in EDITIONS {
        record_refused_in(edition, record, number);
    }
}

#[test]
fn one_header_kind_map_or_field_runs_past_the_end() {
    let file = encode_header(&HEADER, 0);
    for length in 0..8 {
        refused(&file[..length], 1, 0);
    }
    refused(&encode_header(&HEADER, 1), 1, 8);
    let record = encode_record(0, 0b111, &[500, 600, 7]);
    for length in 0..record.len() {
        record_refused(&record[..length], 1);
    }
    // A missing map is tried before a wrong kind.
    record_refused(&[9], 1);
    record_refused(&[9, 0], 1);
}

#[test]
fn two_bytes_after_the_last_record() {
    for edition in EDITIONS {
        let record = encode_record(0, 0b11, &PLAIN);
        refused(&after_segment(edition, 1, &[0]), 2, SECOND);
        refused(&after_segment(edition, 1, &record), 2, SECOND);
        refused(&after_segment(edition, 0, &[]), 2, 8);
    }
}

#[test]
fn three_edition() {
    for edition in [0, 3, 4, 255] {
        let header = Header { edition, ..HEADER };
        refused(&encode_header(&header, 0), 3, 0);
        // Tried before the limits.
        let both = Header { years: 0, ..header };
        refused(&encode_header(&both, 0), 3, 0);
    }
    for edition in EDITIONS {
        let header = Header { edition, ..HEADER };
        assert!(parse_project(&encode_header(&header, 0)).is_ok());
    }
}

#[test]
fn four_header_limits() {
    let accepted = |header: &Header| parse_project(&encode_header(header, 0)).is_ok();
    for years in [1, 10] {
        assert!(accepted(&Header { years, ..HEADER }));
    }
    for years in [0, 11, 255] {
        refused(&encode_header(&Header { years, ..HEADER }, 0), 4, 0);
    }
    for calibration in [1, 9_999] {
        let segment_calibration = calibration;
        let crossing_calibration = calibration;
        assert!(accepted(&Header {
            segment_calibration,
            ..HEADER
        }));
        assert!(accepted(&Header {
            crossing_calibration,
            ..HEADER
        }));
    }
    for calibration in [0, 10_000, 65_535] {
        let segment_calibration = calibration;
        let crossing_calibration = calibration;
        let segment = Header {
            segment_calibration,
            ..HEADER
        };
        let crossing = Header {
            crossing_calibration,
            ..HEADER
        };
        refused(&encode_header(&segment, 0), 4, 0);
        refused(&encode_header(&crossing, 0), 4, 0);
    }
}

/// Document 02: "A header with 1,201 is refused with 4, and 1,200 is accepted."
#[test]
fn four_count_of_sites() {
    let file = |sites: u16| {
        let records = encode_record(0, 0b11, &PLAIN).repeat(sites.into());
        [encode_header(&HEADER, sites), records].concat()
    };
    refused(&file(1_201), 4, 0);
    refused(&encode_header(&HEADER, 1_201), 4, 0);
    refused(&encode_header(&HEADER, 1_200), 1, 8);
    let accepted = parse_project(&file(1_200)).map(|project| project.sites.len());
    assert_eq!(accepted, Ok(1_200));
}

#[test]
fn five_kind() {
    for kind in 4..=255 {
        record_refused(&encode_record(kind, 0b11, &PLAIN), 5);
        // Tried before the map and the fields.
        record_refused(&[kind, 0xFF, 0xFF], 5);
    }
}

/// "Bit 6 of a crossing gets 6 in edition 2": of every crossing.
#[test]
fn six_bit_that_the_kind_lacks() {
    for (edition, kind, lacking) in [
        (EDITION_ONE, 1, (7..15).collect()),
        (EDITION_ONE, 2, (7..15).collect()),
        (EDITION_ONE, 3, vec![3, 6, 7, 14]),
        (EDITION_TWO, 1, (6..15).collect()),
        (EDITION_TWO, 2, (6..15).collect()),
        (EDITION_TWO, 3, vec![3, 6, 7, 14]),
    ] {
        let refused = |record: &[u8]| record_refused_in(edition, record, 6);
        for bit in lacking {
            refused(&encode_record(kind, 1 << bit, &[]));
            // Whatever the value is, and before it is looked at.
            for value in [0, 1, 2, 65_535] {
                refused(&encode_record(kind, 0b11 | 1 << bit, &[500, 600, value]));
            }
            // Tried before later years that are missing.
            refused(&encode_record(kind, 0x8003 | 1 << bit, &[]));
        }
    }
    // Edition 1's stop crossings have it.
    let limited = encode_record(1, 0b100_0011, &[500, 600, 2]);
    let (site, _) = read_in(EDITION_ONE, &limited).expect("a record");
    assert_eq!(site.get(Field::LimitedQuadrants), Some(2));
}

#[test]
fn seven_needed_and_curve_bits() {
    for kind in 0..4 {
        for map in [0b00, 0b01, 0b10, 0b101] {
            record_refused(&encode_record(kind, map, &[]), 7);
        }
    }
    for curve in [0x040, 0x080, 0x100, 0x200, 0x140, 0x280, 0x300, 0x340] {
        record_refused(&encode_record(0, 0b11 | curve, &[]), 7);
    }
    for curve in [0x0C0, 0x1C0, 0x2C0, 0x3C0] {
        // The map is right, so what is missing now is the fields.
        record_refused(&encode_record(0, 0b11 | curve, &[]), 1);
    }
}

/// The map and fields of a record in which this bit is set with this value,
/// on a curve where the bit needs one.
fn record_with(kind: u8, bit: u32, value: u16) -> Vec<u8> {
    let curve = kind == 0 && (6..10).contains(&bit);
    let map = 0b11 | 1 << bit | if curve { 0xC0 } else { 0 };
    let mut fields = Vec::new();
    for each in (0..16).filter(|each| map >> each & 1 == 1) {
        let plain = [500, 600, 0, 0, 0, 0, 700, 800];
        let other = plain.get(each as usize).copied().unwrap_or(0);
        fields.push(if each == bit { value } else { other });
    }
    encode_record(kind, map, &fields)
}

#[test]
fn eight_and_nine_for_every_field() {
    for edition in EDITIONS {
        for kind in 0..4 {
            for rule in rules(edition, kind).expect("a kind") {
                let outcome = |value| read_in(edition, &record_with(kind, rule.bit, value));
                let record_refused =
                    |record: &[u8], number| record_refused_in(edition, record, number);
                for value in [rule.low, rule.high] {
                    let default = rule.default() == Some(value);
                    assert_eq!(outcome(value).err(), default.then_some(9));
                }
                if let Some(default) = rule.default() {
                    record_refused(&record_with(kind, rule.bit, default), 9);
                }
                record_refused(&record_with(kind, rule.bit, rule.high + 1), 8);
                record_refused(&record_with(kind, rule.bit, u16::MAX), 8);
                if rule.low > 0 {
                    record_refused(&record_with(kind, rule.bit, rule.low - 1), 8);
                }
            }
        }
    }
}

#[test]
fn fields_are_tried_in_rising_order() {
    // Lane 12 spelled out (9) before shoulder 11 (8), and the other way about.
    record_refused(&encode_record(0, 0b11011, &[500, 600, 12, 11]), 9);
    record_refused(&encode_record(0, 0b11011, &[500, 600, 15, 6]), 8);
    // A missing field is tried before every range.
    record_refused(&encode_record(0, 0b1011, &[0, 0]), 1);
    // The first bad record counts, wherever the later ones fail.
    let mut rest = encode_record(1, 0b11, &[500, 20_001]);
    rest.extend([9, 9, 9]);
    for edition in EDITIONS {
        refused(&after_segment(edition, 3, &rest), 8, SECOND);
    }
}

#[test]
fn ten_comes_last() {
    for edition in EDITIONS {
        let file = after_segment(edition, 1, &[]);
        assert!(read_project(&file, 8).is_ok());
        assert_eq!(read_project(&file, 7), Err(Refusal::of(10, 0)));
        let extra = after_segment(edition, 1, &[0]);
        assert_eq!(read_project(&extra, 0), Err(Refusal::of(2, SECOND)));
    }
}

#[test]
fn nothing_past_a_record_bears_on_it() {
    for edition in EDITIONS {
        let record = encode_record(2, 0b1_1011, &[500, 600, 2, 1]);
        let (wanted, length) = read_in(edition, &record).expect("a record");
        assert_eq!(length, record.len());
        let mut longer = record.clone();
        longer.extend([0xFF; 9]);
        assert_eq!(read_in(edition, &longer), Ok((wanted, length)));
    }
}

#[test]
fn absent_fields_read_as_document_01_says() {
    for edition in EDITIONS {
        let (straight, _) = read_in(edition, &encode_record(0, 0b11, &PLAIN)).expect("a record");
        assert_eq!(straight, Site::plain(edition, 0, 500, 600));
        let held = |site: &Site| {
            let names = FIELD_NAMES
                .iter()
                .filter(|(field, _)| site.get(*field).is_some());
            names.map(|(_, name)| *name).collect::<Vec<_>>().join(" ")
        };
        assert_eq!(
        held(&straight),
        "traffic length lane shoulder shoulder-type grade driveways two-way-lane passing hazard-rating"
    );
        let (curve, _) =
            read_in(edition, &encode_record(0, 0xC3, &[500, 600, 7, 100])).expect("a record");
        assert_eq!(curve, Site::plain(edition, 0, 500, 600).with_curve(7, 100));
        let (signal, _) = read_in(edition, &encode_record(3, 0b111, &[1, 2, 0])).expect("a record");
        assert_eq!(
            held(&signal),
            "traffic observed minor-traffic left-turn-lanes right-turn-lanes"
        );
        assert_eq!(signal.observed(), Some(0));
        assert_eq!(straight.observed(), None);
        // Only edition 1's stop crossings hold a number of limited quadrants.
        let (stop, _) = read_in(edition, &encode_record(1, 0b11, &PLAIN)).expect("a record");
        let none = (edition == EDITION_ONE).then_some(0);
        assert_eq!(stop.get(Field::LimitedQuadrants), none);
    }
}

#[test]
fn the_writer_refuses_what_the_kind_has_not() {
    for edition in EDITIONS {
        for kind in 0..4 {
            let good = Site::plain(edition, kind, 500, 600);
            assert!(write_in(edition, &good, 7).is_ok());
            for (field, _) in FIELD_NAMES {
                let known = rules(edition, kind)
                    .expect("a kind")
                    .iter()
                    .find(|rule| rule.field == field);
                let mut changed = good;
                match known {
                    None => changed.set(field, Some(0)),
                    Some(rule) if rule.presence == Presence::History => continue,
                    Some(rule) if rule.is_of_curve() => changed.set(field, Some(rule.high)),
                    Some(_) => changed.set(field, None),
                }
                let case = (edition, kind, field);
                assert_eq!(write_in(edition, &changed, 99), Err(8), "{case:?}");
            }
        }
        assert_eq!(
            write_in(edition, &Site::plain(edition, 4, 1, 1), 99),
            Err(8)
        );
        assert_eq!(write_in(edition, &Site::empty(255), 0), Err(8));
    }
}

#[test]
fn the_writer_refuses_parts_of_a_curve() {
    for edition in EDITIONS {
        let curve = Site::plain(edition, 0, 500, 600).with_curve(700, 800);
        assert!(write_in(edition, &curve, 11).is_ok());
        for field in [
            Field::CurveLength,
            Field::Radius,
            Field::SpiralEnds,
            Field::Deficiency,
        ] {
            let mut part = curve;
            part.set(field, None);
            assert_eq!(write_in(edition, &part, 99), Err(8), "{field:?}");
        }
    }
}

#[test]
fn the_writer_refuses_values_outside_their_ranges() {
    for edition in EDITIONS {
        for kind in 0..4 {
            for rule in rules(edition, kind).expect("a kind") {
                let plain = Site::plain(edition, kind, 500, 600);
                let good = if rule.is_of_curve() {
                    plain.with_curve(700, 800)
                } else {
                    plain
                };
                for value in [rule.low, rule.high] {
                    assert!(write_in(edition, &good.with(rule.field, value), 99).is_ok());
                }
                assert_eq!(
                    write_in(edition, &good.with(rule.field, rule.high + 1), 99),
                    Err(8)
                );
                if rule.low > 0 {
                    assert_eq!(
                        write_in(edition, &good.with(rule.field, rule.low - 1), 99),
                        Err(8)
                    );
                }
            }
        }
    }
}

#[test]
fn the_writer_needs_just_the_records_length() {
    let mut random = Random::new(11);
    for _ in 0..500 {
        let edition = random.pick(&EDITIONS);
        let site = site(&mut random, edition, HEADER.years);
        let record = write_in(edition, &site, usize::MAX).expect("a site");
        assert_eq!(write_in(edition, &site, record.len()), Ok(record.clone()));
        assert_eq!(write_in(edition, &site, record.len() - 1), Err(10));
        // 8 is tried before 10.
        assert_eq!(write_in(edition, &site.with(Field::Traffic, 0), 0), Err(8));
    }
}

#[test]
fn sites_come_back_from_their_records() {
    let mut random = Random::new(12);
    for _ in 0..5_000 {
        let edition = random.pick(&EDITIONS);
        let site = site(&mut random, edition, HEADER.years);
        let record = write_in(edition, &site, usize::MAX).expect("a site");
        assert_eq!(read_in(edition, &record), Ok((site, record.len())));
    }
}

/// The accepted projects among generated and damaged files.
fn accepted_files() -> Vec<(Vec<u8>, Project)> {
    let mut random = Random::new(13);
    let mut files: Vec<Vec<u8>> = Vec::new();
    files.push(write_project(&largest_project(&mut random)).expect("a project"));
    for _ in 0..1_000 {
        files.push(write_project(&project(&mut random)).expect("a project"));
        files.push(damaged_file(&mut random));
    }
    let read = |file: Vec<u8>| parse_project(&file).ok().map(|project| (file, project));
    files.into_iter().filter_map(read).collect()
}

#[test]
fn accepted_files_come_back_from_their_projects_and_lines() {
    let files = accepted_files();
    assert!(files.len() > 1_000);
    for (file, project) in files {
        assert_eq!(write_project(&project).as_ref(), Ok(&file));
        assert_eq!(lines::make(&lines::dump(&project)), Ok(file));
    }
}

#[test]
fn damaged_files_meet_every_number() {
    let mut random = Random::new(14);
    let mut seen = [0; 10];
    for _ in 0..3_000 {
        let outcome = parse_project(&damaged_file(&mut random));
        let number = outcome.map_or_else(|refusal| refusal.number, |_| 0);
        seen[usize::from(number)] += 1;
    }
    assert!(seen.iter().all(|count| *count >= 30), "{seen:?}");
    assert!(seen[0] < 900, "{seen:?}");
}

/// A site of a kind with every field of an edition and the most years of traffic.
fn full(edition: u8, kind: u8) -> Site {
    let table = rules(edition, kind).expect("a kind");
    let filled = table.iter().fold(Site::empty(kind), |site, rule| {
        let is_default = rule.default() == Some(rule.high);
        site.with(rule.field, if is_default { rule.low } else { rule.high })
    });
    let traffic = table.iter().filter(|rule| rule.is_traffic());
    traffic.fold(filled, |site, rule| {
        site.with_years(rule.field, &[rule.high; MOST_YEARS as usize])
    })
}

/// Document 02: "longer records", the longest of them 3 + 2 x 7 + 2 x 18 bytes.
/// Edition 2's stop crossings have a field less.
#[test]
fn the_longest_file_is_within_its_bound() {
    let lengths = |edition: u8| {
        [0, 1, 2, 3].map(|kind| {
            let years = MOST_YEARS.into();
            let record = write_site(edition.into(), years, &full(edition, kind), usize::MAX);
            record.expect("a site").len()
        })
    };
    assert_eq!(lengths(EDITION_ONE), [51, 53, 53, 49]);
    assert_eq!(lengths(EDITION_TWO), [51, 51, 51, 49]);
    assert_eq!(LONGEST_RECORD, 53);
    let project = Project {
        header: Header {
            years: MOST_YEARS,
            ..HEADER
        },
        sites: vec![full(EDITION_ONE, 2); MOST_SITES],
    };
    assert_eq!(
        write_project(&project).map(|file| file.len()),
        Ok(LONGEST_FILE)
    );
    assert_eq!(LONGEST_FILE, 8 + 1_200 * 53);
}

/// A record with bit 15: the values in their order.
fn yearly(kind: u8, bits: u16, values: &[u16]) -> Vec<u8> {
    encode_record(kind, 1 << YEARLY_BIT | bits, values)
}

/// Traffic 1 to 5, length 600; and both traffics of a crossing.
const SEGMENT_YEARS: [u16; 6] = [1, 2, 3, 4, 5, 600];
const CROSSING_YEARS: [u16; 10] = [1, 2, 3, 4, 5, 11, 12, 13, 14, 15];

fn yearly_segment() -> Site {
    Site::plain(EDITION_ONE, 0, 1, 600).with_years(Field::Traffic, &SEGMENT_YEARS[..5])
}

fn yearly_crossing(edition: u8, kind: u8) -> Site {
    Site::plain(edition, kind, 1, 11)
        .with_years(Field::Traffic, &CROSSING_YEARS[..5])
        .with_years(Field::MinorTraffic, &CROSSING_YEARS[5..])
}

/// Document 02: "each traffic field is followed by Y - 1 more values, for years
/// two to Y", and a writer "drops" nothing of them.
#[test]
fn later_years_stand_after_their_traffic() {
    for edition in EDITIONS {
        let mut records = vec![(yearly(0, 0b11, &SEGMENT_YEARS), yearly_segment())];
        for kind in 1..4 {
            let record = yearly(kind, 0b11, &CROSSING_YEARS);
            records.push((record, yearly_crossing(edition, kind)));
        }
        // A history and a lane follow the length; bit 15 has no field of its own.
        records.push((
            yearly(0, 0b1111, &[1, 2, 3, 4, 5, 600, 7, 11]),
            yearly_segment()
                .with(Field::Observed, 7)
                .with(Field::LaneWidth, 11),
        ));
        for (record, site) in records {
            assert_eq!(read_in(edition, &record), Ok((site, record.len())));
            assert_eq!(write_in(edition, &site, record.len()), Ok(record.clone()));
            assert_eq!(write_in(edition, &site, record.len() - 1), Err(10));
            for length in 0..record.len() {
                record_refused_in(edition, &record[..length], 1);
            }
        }
        // A site holds no number for a year that is not given.
        let held = |site: &Site| TRAFFIC_FIELDS.map(|field| site.later(field).to_vec());
        let [traffic, minor] = held(&yearly_segment());
        assert_eq!(traffic[..4], [2, 3, 4, 5].map(Some));
        assert_eq!(
            (&traffic[4..], &minor[..]),
            (&[None; 5][..], &[None; 9][..])
        );
        assert_eq!(
            held(&Site::plain(edition, 3, 1, 1)),
            [vec![None; 9], vec![None; 9]]
        );
    }
}

/// The length of the same bytes rests on the years.
#[test]
fn later_years_are_those_of_the_project() {
    for edition in EDITIONS {
        for years in 2..=u64::from(MOST_YEARS) {
            let traffic: Vec<u16> = (1..=years as u16).collect();
            let record = yearly(0, 0b11, &[&traffic[..], &[600]].concat());
            let site = Site::plain(edition, 0, 1, 600).with_years(Field::Traffic, &traffic);
            let (read, written) = (
                |years, record: &[u8]| read_site(edition.into(), years, record),
                |years, room| write_site(edition.into(), years, &site, room),
            );
            assert_eq!(read(years, &record), Ok((site, record.len())));
            assert_eq!(written(years, record.len()), Ok(record.clone()));
            for other in (1..=u64::from(MOST_YEARS)).filter(|other| *other != years) {
                let taken = read(other, &record).map(|(_, length)| length);
                let shorter = (1 < other && other < years).then_some(3 + 2 * (other as usize + 1));
                assert_eq!(taken.ok(), shorter, "{other} of {years}");
                assert_eq!(written(other, 99), Err(8), "{other} of {years}");
            }
        }
    }
}

/// "Bit 15 with Y = 1 is refused with 7", after a bit that the kind lacks and
/// before a missing field.
#[test]
fn seven_later_years_of_one_year() {
    for edition in EDITIONS {
        let read = |record: &[u8]| read_site(edition.into(), 1, record);
        for kind in 0..4 {
            for values in [&[500, 600][..], &[500], &[], &[0, 0]] {
                assert_eq!(read(&yearly(kind, 0b11, values)), Err(7));
            }
            assert_eq!(read(&yearly(kind, 0b01, &[500, 600])), Err(7));
            let (years, record) = (1, yearly(kind, 0b11, &PLAIN));
            let one = Header {
                edition,
                years,
                ..HEADER
            };
            let file = [encode_header(&one, 1), record].concat();
            refused(&file, 7, 8);
        }
        assert_eq!(read(&yearly(1, 0x83, &PLAIN)), Err(6));
    }
    // With more years a needed bit or half a curve is still 7.
    record_refused(&yearly(0, 0b01, &SEGMENT_YEARS), 7);
    record_refused(&yearly(0, 0x43, &SEGMENT_YEARS), 7);
}

/// Each value "has the range of the first", and is tried in its turn: after its
/// own traffic and before the next field.
#[test]
fn eight_a_later_year_outside_its_range() {
    for (kind, values) in [(0, &SEGMENT_YEARS[..]), (1, &CROSSING_YEARS)]
        .into_iter()
        .chain([(2, &CROSSING_YEARS[..]), (3, &CROSSING_YEARS)])
    {
        for at in 0..values.len() {
            for wrong in [0, 20_001, 65_535] {
                let mut values = values.to_vec();
                values[at] = wrong;
                record_refused(&yearly(kind, 0b11, &values), 8);
            }
            for end in [1, 20_000] {
                let mut values = values.to_vec();
                values[at] = end;
                let record = yearly(kind, 0b11, &values);
                let is_read = |edition| read_in(edition, &record).is_ok();
                assert!(EDITIONS.into_iter().all(is_read));
            }
        }
    }
    // A missing value is tried before any range; a lane's default before a
    // shoulder, and after the years.
    record_refused(&yearly(0, 0b11, &[1, 0, 3, 4, 5]), 1);
    record_refused(&yearly(0, 0b1011, &[1, 0, 3, 4, 5, 600, 12]), 8);
    record_refused(&yearly(0, 0b1011, &[1, 2, 3, 4, 5, 600, 12]), 9);
    // No later year has a default.
    let defaults = yearly(0, 0b11, &[12, 12, 12, 12, 12, 600]);
    assert!(read_in(EDITION_ONE, &defaults).is_ok());
}

/// The site reader and the site writer answer 3 or 4 with this edition and these
/// years, whatever record, site or room there is, or neither.
fn assert_first_number(edition: u64, years: u64, wanted: Option<u8>) {
    let signal = Site::plain(EDITION_ONE, 3, 1, 1);
    let first = |number: Option<u8>| number.filter(|number| [3, 4].contains(number));
    for part in [&[][..], &[9], &yearly(0, 0b11, &SEGMENT_YEARS)] {
        let number = read_site(edition, years, part).err();
        assert_eq!(first(number), wanted, "{edition} {years}");
    }
    for site in [yearly_segment(), signal, Site::empty(9)] {
        for room in [0, 99] {
            let number = write_site(edition, years, &site, room).err();
            assert_eq!(first(number), wanted, "{edition} {years}");
        }
    }
}

/// "Years outside its limits is 4 at place 0, tried first."
#[test]
fn four_years_of_the_site_reader_and_writer() {
    for years in edges(MOST_YEARS.into()) {
        let wanted = (!(1..=10).contains(&years)).then_some(4);
        for edition in EDITIONS {
            assert_first_number(edition.into(), years, wanted);
        }
    }
}

/// An edition outside its limits is 3 at place 0, tried before the years.
#[test]
fn three_edition_of_the_site_reader_and_writer() {
    for edition in edges(LAST_EDITION.into()) {
        if ![1, 2].contains(&edition) {
            for years in edges(MOST_YEARS.into()) {
                assert_first_number(edition, years, Some(3));
            }
        }
    }
}

/// "Yearly values with Y = 1, or not Y - 1 of them for each traffic field, as
/// outside the range."
#[test]
fn the_writer_refuses_other_years() {
    for edition in EDITIONS {
        let refused = |years: u64, site: &Site| {
            let answer = write_site(edition.into(), years, site, 0);
            assert_eq!(answer, Err(8), "{edition} {years}: {site:?}");
        };
        let crossing = |kind| yearly_crossing(edition, kind);
        for site in [yearly_segment(), crossing(1), crossing(3)] {
            let fields: Vec<Field> = rules(edition, site.kind)
                .expect("a kind")
                .iter()
                .filter(|rule| rule.is_traffic())
                .map(|rule: &Rule| rule.field)
                .collect();
            assert!(write_in(edition, &site, 99).is_ok());
            for years in [1, 2, 3, 4, 6, 10] {
                refused(years, &site);
            }
            for field in fields {
                // One too few at either end, one too many, and a gap.
                for (year, value) in [(2, None), (5, None), (6, Some(1)), (10, Some(1))] {
                    let mut other = site;
                    other.set_later(field, year, value);
                    refused(YEARS, &other);
                }
                for value in [0, 20_001] {
                    let mut other = site;
                    other.set_later(field, 5, Some(value));
                    refused(YEARS, &other);
                }
                // The first year's value is still needed.
                let mut other = site;
                other.set(field, None);
                refused(YEARS, &other);
            }
        }
        // One traffic with later years and the other without.
        for field in TRAFFIC_FIELDS {
            refused(YEARS, &crossing(2).with_years(field, &[7]));
        }
    }
}

/// A segment has no minor traffic, and so no later years of it.
#[test]
fn the_writer_refuses_later_years_that_a_segment_lacks() {
    let mut yearly = yearly_segment();
    yearly.set_later(Field::MinorTraffic, 2, Some(1));
    let mut alone = Site::plain(EDITION_ONE, 0, 500, 600);
    alone.set_later(Field::MinorTraffic, 2, Some(1));
    for edition in EDITIONS.map(u64::from) {
        for (years, site) in [(YEARS, &yearly), (2, &alone), (1, &alone)] {
            assert_eq!(write_site(edition, years, site, 0), Err(8), "{years}");
        }
    }
}

/// The file of a site's line in a project of two years.
fn made_in(edition: u8, line: &str) -> Result<Vec<u8>, String> {
    let head = "years 2\nsegment-calibration 1000\ncrossing-calibration 900";
    lines::make(&format!("edition {edition}\n{head}\n{line}\n"))
}

/// The same lines are a file of each edition, but for limited quadrants.
#[test]
fn lines_are_those_of_their_edition() {
    let crossing = "4st traffic 5 minor-traffic 6";
    let limited = format!("{crossing} limited-quadrants 2");
    for edition in EDITIONS {
        let file = made_in(edition, crossing).expect("a crossing's line");
        assert_eq!(
            (file[0], &file[8..]),
            (edition, &encode_record(2, 3, &[5, 6])[..])
        );
        assert_eq!(made_in(edition, &limited).is_ok(), edition == EDITION_ONE);
    }
    for edition in [0, 3, 255] {
        assert!(made_in(edition, crossing).is_err());
    }
}

#[test]
fn lines_with_faults_are_not_taken() {
    let made = |line: &str| made_in(EDITION_ONE, line);
    assert!(made("segment traffic 5 length 6").is_ok());
    assert_eq!(
        made("segment traffic 5 length 6 lane 12"),
        made("segment length 6 traffic 5")
    );
    for line in [
        "motorway traffic 5 length 6",
        "segment traffic 5 length 6 lane",
        "segment traffic 5 length 6 lane +11",
        "segment traffic 5 length 70000",
        "segment traffic 5 length 6 lane 11 lane 11",
        "segment traffic 5 length 6 width 11",
        "segment traffic 5",
        "segment traffic 5 length 6 radius 500",
        "segment traffic 5 length 6 spiral-ends 1",
        "4sg traffic 5 minor-traffic 6 skew 3",
    ] {
        assert!(made(line).is_err(), "{line}");
    }
    let yearly = |line: &str| made(line).expect("lines with traffic year by year");
    let record = encode_record(0, 0x8003, &[5, 7, 6]);
    assert_eq!(yearly("segment traffic 5/7 length 6")[8..], record);
    let record = encode_record(3, 0x8003, &[5, 7, 6, 6]);
    assert_eq!(yearly("4sg traffic 5/7 minor-traffic 6/6")[8..], record);
    for line in [
        "segment traffic 5/7/9 length 6",
        "segment traffic 5/0 length 6",
        "segment traffic 5/ length 6",
        "segment traffic 5/7 length 6/6",
        "4sg traffic 5/7 minor-traffic 6",
        "4sg traffic 5 minor-traffic 6/6",
        "segment traffic 5,7 length 6",
    ] {
        assert!(made(line).is_err(), "{line}");
    }
    assert!(lines::make("years 2\nedition 1\n").is_err());
}

/// What is taken as lines can be written, and what can be written is taken.
#[test]
fn lines_are_taken_where_the_writer_takes_their_site() {
    let mut random = Random::new(17);
    let (mut taken, mut refused) = (0, 0);
    for _ in 0..20_000 {
        let edition = random.pick(&EDITIONS);
        let site = disturbed_site(&mut random, edition, HEADER.years);
        if rules(edition, site.kind).is_none() {
            continue;
        }
        let project = Project {
            header: Header { edition, ..HEADER },
            sites: vec![site],
        };
        let found = lines::parse(&lines::dump(&project));
        let can_be_written = |project: &Project| write_project(project).is_ok();
        if can_be_written(&project) {
            assert_eq!(found.as_ref(), Ok(&project));
        }
        assert!(found.as_ref().map_or(true, can_be_written), "{site:?}");
        taken += u32::from(found.is_ok());
        refused += u32::from(found.is_err());
    }
    assert!(taken > 4_000 && refused > 4_000, "{taken} {refused}");
}
