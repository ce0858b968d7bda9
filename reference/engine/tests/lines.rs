//! The engine's line of a site against the reference's own estimates at five
//! depths, on random and extreme sites of both editions, and its refusals.

use engine::lines::{line, line_into};
use engine::program::{rounds_header, Job, JOBS, ROUNDS_HEAD};
use engine::sites::{numbers_of, read_into, READ_NUMBERS, SITE_NUMBERS};
use engine::{DONE, NO_EDITION, OUTSIDE_LIMITS, OUT_OF_RANGE, TOO_SHORT};
use reference::checker::{site_line_faults, site_standing_faults, Wrong};
use reference::checker::{PREDICTED_EACH, WIDTH_PARTS};
use reference::generate::{self, Random};
use reference::prediction::site_estimates;
use reference::project::Header;
use reference::record::Site;
use reference::rules::{
    edition_within, rules, Field, Presence, Rule, EDITIONS, EDITION_ONE, EDITION_TWO, MOST_YEARS,
    SEGMENT, TRAFFIC_FIELDS,
};

const DEPTHS: [u32; 5] = [1, 2, 3, 6, 9];
const KINDS: std::ops::RangeInclusive<u8> = 0..=3;

/// Everything that is wrong with four numbers of a site: standing at every
/// depth, order, widths, the expected pair, and its place between prediction
/// and history.
fn faults(header: &Header, site: &Site, numbers: &[u64; 4]) -> Vec<Wrong> {
    let model = header.model();
    let mut faults = site_line_faults(model, header.years, site, numbers);
    for depth in DEPTHS {
        let estimates = site_estimates(model, header, site, depth);
        faults.extend(site_standing_faults(numbers, &estimates, depth));
    }
    faults
}

fn made(header: &Header, site: &Site) -> [u64; 4] {
    line(header, site).unwrap_or_else(|number| panic!("refused with {number}: {header:?} {site:?}"))
}

fn assert_right(header: &Header, site: &Site) {
    let numbers = made(header, site);
    let faults = faults(header, site, &numbers);
    assert!(
        faults.is_empty(),
        "{numbers:?} {faults:?}: {header:?} {site:?}"
    );
}

fn header(edition: u8, years: u8, segment_calibration: u16, crossing_calibration: u16) -> Header {
    Header {
        edition,
        years,
        segment_calibration,
        crossing_calibration,
    }
}

/// Every corner of an edition's limits of the header.
fn corner_headers(edition: u8) -> Vec<Header> {
    let mut headers = Vec::new();
    for years in [1, 10] {
        for segments in [1, 9_999] {
            for crossings in [1, 9_999] {
                headers.push(header(edition, years, segments, crossings));
            }
        }
    }
    headers
}

/// No history, a history of none and the longest.
const HISTORIES: [Option<u16>; 3] = [None, Some(0), Some(500)];

/// Runs over every corner of the header with every history.
fn for_each_corner(edition: u8, site: &Site, mut each: impl FnMut(&Header, &Site)) {
    for header in corner_headers(edition) {
        for history in HISTORIES {
            let mut site = *site;
            site.set(Field::Observed, history);
            each(&header, &site);
        }
    }
}

/// A kind's sites with every field at its default, at its low and at its high:
/// straight ones first, a segment's on a curve too.
fn base_sites(edition: u8, kind: u8) -> Vec<Site> {
    let table = rules(edition, kind).unwrap_or(&[]);
    let plain = Site::plain(edition, kind, 1_000, 500);
    let filled = |value: fn(&Rule) -> u16, curve: bool| {
        let standing = table.iter().filter(|rule| curve || !rule.is_of_curve());
        standing.fold(Site::empty(kind), |site, rule| {
            site.with(rule.field, value(rule))
        })
    };
    let mut sites = vec![
        plain,
        filled(|rule| rule.low, false),
        filled(|rule| rule.high, false),
    ];
    if table.iter().any(Rule::is_of_curve) {
        sites.push(plain.with_curve(100, 1_000));
        sites.push(filled(|rule| rule.low, true));
        sites.push(filled(|rule| rule.high, true));
    }
    sites
}

/// Every kind of each edition.
fn kinds_of_editions() -> impl Iterator<Item = (u8, u8)> {
    EDITIONS
        .into_iter()
        .flat_map(|edition| KINDS.map(move |kind| (edition, kind)))
}

/// Whether a field may stand in a site, straight or not.
fn may_stand(rule: &Rule, site: &Site) -> bool {
    site.is_curve() || !rule.is_of_curve()
}

/// The ends of a range and their neighbours within it.
fn edges(rule: &Rule) -> Vec<u16> {
    let mut edges = vec![rule.low, rule.low + 1, rule.high - 1, rule.high];
    edges.sort_unstable();
    edges.dedup();
    edges
}

#[test]
fn random_sites() {
    let mut random = Random::new(31);
    let mut editions = [0; EDITIONS.len()];
    for _ in 0..24_000 {
        let header = generate::header(&mut random);
        let site = generate::site(&mut random, header.edition, header.years);
        assert_right(&header, &site);
        editions[usize::from(header.edition) - 1] += 1;
    }
    assert!(editions.iter().all(|count| *count > 10_000), "{editions:?}");
}

/// Traffic of so many years at which the cases meet, with one year on.
fn years_from(first: usize, years: u8) -> Vec<u16> {
    const TRAFFIC: [u16; 7] = [1, 399, 400, 1_000, 2_000, 2_001, 20_000];
    let places = first..first + usize::from(years);
    places.map(|at| TRAFFIC[at % TRAFFIC.len()]).collect()
}

/// Every kind with every count of years of traffic, in which each year comes to
/// each of the places where the cases meet, the minor road's years others.
#[test]
fn traffic_year_by_year() {
    let mut sites: u32 = 0;
    for (edition, kind) in kinds_of_editions() {
        for base in base_sites(edition, kind) {
            for years in 2..=MOST_YEARS {
                for first in 0..7 {
                    let site = yearly(&base, [first, first + 3], years);
                    let history = HISTORIES[first % HISTORIES.len()];
                    for calibration in [1, 9_999] {
                        let mut site = site;
                        site.set(Field::Observed, history);
                        let header = header(edition, years, calibration, calibration);
                        assert_right(&header, &site);
                        sites += 1;
                    }
                }
            }
        }
    }
    assert_eq!(sites, 2 * 15 * 9 * 7 * 2);
}

/// A site with the years of its traffics from these places on.
fn yearly(base: &Site, firsts: [usize; 2], years: u8) -> Site {
    let table = rules(EDITION_ONE, base.kind).unwrap_or(&[]);
    let has = |field: &Field| table.iter().any(|rule| rule.field == *field);
    let traffic = TRAFFIC_FIELDS.iter().zip(firsts);
    traffic
        .filter(|(field, _)| has(field))
        .fold(*base, |site, (field, first)| {
            site.with_years(*field, &years_from(first, years))
        })
}

/// The predicted pair is the sum of the pairs of one year each.
#[test]
fn a_yearly_pair_is_the_sum_of_its_years() {
    let mut random = Random::new(35);
    for _ in 0..5_000 {
        let header = generate::header(&mut random);
        let one = Header { years: 1, ..header };
        let plain = generate::plain_site(&mut random, header.edition);
        let site = generate::yearly(&mut random, plain, header.years);
        if !site.is_yearly() {
            continue;
        }
        let years = (1..=header.years.into()).map(|year| made(&one, &site.in_year(year)));
        let sums = years.fold([0, 0], |[low, high], line| [low + line[0], high + line[1]]);
        assert_eq!(made(&header, &site)[..2], sums, "{header:?} {site:?}");
    }
}

/// One field at an edge, the rest at their defaults, lows or highs, at every
/// corner of the header, with and without a history.
#[test]
fn every_edge_of_every_range() {
    let mut sites: u32 = 0;
    for (edition, kind) in kinds_of_editions() {
        for base in base_sites(edition, kind) {
            let table = rules(edition, kind).unwrap_or(&[]);
            let standing = table.iter().filter(|rule| may_stand(rule, &base));
            for rule in standing.filter(|rule| rule.presence != Presence::History) {
                for value in edges(rule) {
                    for_each_corner(edition, &base.with(rule.field, value), |header, site| {
                        assert_right(header, site);
                        sites += 1;
                    });
                }
            }
        }
    }
    assert_eq!(sites, 10_368 + 9_864);
}

/// Traffic where a width table turns or a stored power ends, and the ends of
/// its range, on both roads of a crossing and with a segment's lengths.
#[test]
fn traffic_where_the_cases_meet() {
    const TRAFFIC: [u16; 6] = [1, 399, 400, 2_000, 2_001, 20_000];
    const LENGTHS: [u16; 2] = [1, 20_000];
    let mut sites: u32 = 0;
    for (edition, kind) in kinds_of_editions() {
        let (second, values) = match kind {
            0 => (Field::Length, &LENGTHS[..]),
            _ => (Field::MinorTraffic, &TRAFFIC[..]),
        };
        for base in base_sites(edition, kind) {
            for traffic in TRAFFIC {
                for value in values {
                    let site = base.with(Field::Traffic, traffic).with(second, *value);
                    for_each_corner(edition, &site, |header, site| {
                        assert_right(header, site);
                        sites += 1;
                    });
                }
            }
        }
    }
    assert_eq!(sites, 2 * 9_504);
}

/// Every shoulder's width and type at every edge of the width tables.
#[test]
fn every_shoulder_at_every_edge_of_traffic() {
    for traffic in [399, 400, 401, 1_999, 2_000, 2_001] {
        for width in 0..=10 {
            for material in 0..=3 {
                let site = Site::plain(EDITION_ONE, SEGMENT, traffic, 20_000)
                    .with(Field::ShoulderWidth, width)
                    .with(Field::ShoulderType, material);
                for edition in EDITIONS {
                    assert_right(&header(edition, 10, 9_999, 1), &site);
                }
            }
        }
    }
}

/// Lengths at which edition 2's k is a whole number, below 1, above 1 and at the
/// ends, with every history: a crash counts 1 + k times in the width.
#[test]
fn every_history_at_lengths_of_edition_two() {
    for length in [1, 2, 3, 59, 118, 235, 236, 237, 1_000, 19_999, 20_000] {
        for traffic in [1, 399, 400, 2_001, 20_000] {
            for observed in [0, 1, 2, 7, 499, 500] {
                let plain = Site::plain(EDITION_TWO, SEGMENT, traffic, length);
                let site = plain.with(Field::Observed, observed);
                for (years, calibration) in [(1, 1), (1, 9_999), (10, 1_000)] {
                    let header = header(EDITION_TWO, years, calibration, 1);
                    assert_right(&header, &site);
                }
                let header = header(EDITION_TWO, 3, 1_000, 1);
                let of_years = [traffic, 20_000, 1];
                assert_right(&header, &site.with_years(Field::Traffic, &of_years));
            }
        }
    }
}

/// Every value of every field with at most 501 of them, where the width tables
/// turn.
#[test]
fn every_value_of_every_short_range() {
    for (edition, kind) in kinds_of_editions() {
        let header = header(edition, 5, 1_100, 900);
        let table = rules(edition, kind).unwrap_or(&[]);
        for rule in table.iter().filter(|rule| rule.high - rule.low <= 500) {
            for traffic in [399, 2_000, 2_001] {
                let plain = Site::plain(edition, kind, traffic, 500);
                let base = if rule.is_of_curve() {
                    plain.with_curve(100, 1_000)
                } else {
                    plain
                };
                for value in rule.low..=rule.high {
                    assert_right(&header, &base.with(rule.field, value));
                }
            }
        }
    }
}

/// A history of none is one: it lowers what is expected.
#[test]
fn a_history_of_none_is_a_history() {
    for (edition, kind) in kinds_of_editions() {
        let header = header(edition, 10, 1_000, 1_000);
        let site = Site::plain(edition, kind, 10_000, 5_000);
        let [low, high, expected_low, expected_high] = made(&header, &site);
        assert_eq!((expected_low, expected_high), (low, high));
        let [same_low, same_high, _, expected_high] = made(&header, &site.with(Field::Observed, 0));
        assert_eq!((same_low, same_high), (low, high));
        assert!(expected_high < low);
    }
}

/// What the other tests rest on: numbers moved by more than the widest pair's
/// width are noticed.
#[test]
fn a_moved_line_is_noticed() {
    let mut random = Random::new(32);
    for _ in 0..500 {
        let header = generate::header(&mut random);
        let mut site = generate::site(&mut random, header.edition, header.years);
        site.set(Field::Observed, None);
        let [low, high, ..] = made(&header, &site);
        let terms = site.terms(header.years).len() as u64;
        let step = PREDICTED_EACH * terms + high / WIDTH_PARTS + 1;
        let above = [low + step, high + step, low + step, high + step];
        let noticed = faults(&header, &site, &above);
        let is_above = |wrong: &Wrong| matches!(wrong, Wrong::LowAboveOver(..));
        assert!(noticed.iter().any(is_above), "{header:?} {site:?}");
        let Some(low_below) = low.checked_sub(step) else {
            continue;
        };
        let below = [low_below, high - step, low_below, high - step];
        let noticed = faults(&header, &site, &below);
        let is_below = |wrong: &Wrong| matches!(wrong, Wrong::HighBelowUnder(..));
        assert!(noticed.iter().any(is_below), "{header:?} {site:?}");
    }
}

/// What a call that refuses must leave.
const BEFORE: [u64; 5] = [11, 12, 13, 14, 15];

/// The number for a run of so many numbers, which stay as they were.
fn refusal(header: [u64; 4], values: &[u64], room: usize) -> u64 {
    let mut run = BEFORE;
    let number = line_into(header, values, &mut run[..room]);
    assert_eq!(run, BEFORE, "a refusal writes nothing");
    number
}

/// Asserts a header's refusal whatever the site and the room are.
fn assert_header_refused(header: [u64; 4], number: u64) {
    for kind in KINDS {
        let edition = edition_within(header[0]).unwrap_or(EDITION_ONE);
        let values = numbers_of(&Site::plain(edition, kind, 1_000, 500));
        let outside = numbers_of(&Site::plain(edition, kind, 20_001, 500));
        for room in 0..=BEFORE.len() {
            for values in [&values[..], &outside, &values[..SITE_NUMBERS - 1], &[]] {
                assert_eq!(refusal(header, values, room), number, "{header:?}");
            }
        }
    }
}

/// A header with one value outside its limits is 4, tried before the site and
/// the room.
#[test]
fn headers_outside_limits() {
    for edition in EDITIONS.map(u64::from) {
        for years in [0, 11, 255, 257, u64::MAX] {
            assert_header_refused([edition, years, 1, 1], OUTSIDE_LIMITS);
        }
        for calibration in [0, 10_000, 65_535, 66_536, (1 << 32) + 1, u64::MAX] {
            assert_header_refused([edition, 1, calibration, 1], OUTSIDE_LIMITS);
            assert_header_refused([edition, 1, 1, calibration], OUTSIDE_LIMITS);
        }
    }
    for (edition, kind) in kinds_of_editions() {
        let values = numbers_of(&Site::plain(edition, kind, 1_000, 500));
        for [years, segments, crossings] in [[1, 1, 9_999], [10, 9_999, 1]] {
            let header = [edition.into(), years, segments, crossings];
            assert_eq!(line_into(header, &values, &mut BEFORE.clone()), DONE);
        }
    }
}

/// An edition that there is not is 3, tried before the rest of the header.
#[test]
fn editions_that_there_are_not() {
    for edition in [0, 3, 4, 255, 257, 258, 65_537, (1 << 32) + 2, u64::MAX] {
        for [years, segments, crossings] in [[5, 1_000, 1_000], [0, 1, 1], [11, 0, 10_000]] {
            assert_header_refused([edition, years, segments, crossings], NO_EDITION);
        }
    }
}

#[test]
fn sites_that_the_writer_refuses() {
    let mut random = Random::new(33);
    let (mut made, mut refused) = (0, 0);
    for _ in 0..100_000 {
        let header = generate::header(&mut random);
        let site = generate::disturbed_site(&mut random, header.edition, header.years);
        if header.write_site(&site).is_ok() {
            assert!(line(&header, &site).is_ok(), "{site:?}");
            made += 1;
        } else {
            let values = numbers_of(&site);
            let header = header.numbers();
            for room in [0, 3, 4, 5] {
                assert_eq!(refusal(header, &values, room), OUT_OF_RANGE, "{site:?}");
            }
            refused += 1;
        }
    }
    assert!(made > 20_000 && refused > 20_000, "{made} {refused}");
}

#[test]
fn numbers_that_are_no_site() {
    let numbers = numbers_of(&Site::plain(EDITION_ONE, 0, 1_000, 500));
    for header in EDITIONS.map(|edition| [edition.into(), 5, 1_000, 1_000]) {
        for few in 0..numbers.len() {
            for room in [0, 5] {
                assert_eq!(refusal(header, &numbers[..few], room), OUT_OF_RANGE);
            }
        }
        for place in 0..numbers.len() {
            for number in [65_537, 1 << 32, u64::MAX] {
                let mut wrong = numbers;
                wrong[place] = number;
                assert_eq!(refusal(header, &wrong, 5), OUT_OF_RANGE, "{place}");
            }
        }
    }
}

/// A number of limited quadrants, be it 0, is outside its range in edition 2, and
/// its absence in edition 1.
#[test]
fn stop_crossings_of_the_other_edition() {
    for kind in [1, 2] {
        for (edition, other) in [(EDITION_ONE, EDITION_TWO), (EDITION_TWO, EDITION_ONE)] {
            let header = header(edition, 5, 1_000, 1_000).numbers();
            let site = Site::plain(other, kind, 1_000, 500);
            assert_eq!(refusal(header, &numbers_of(&site), 5), OUT_OF_RANGE);
        }
    }
}

/// The run that the reader left, its record's length and what follows it
/// included, has the line of its site.
#[test]
fn a_read_site_is_handed_on_as_it_was_left() {
    let mut random = Random::new(34);
    for _ in 0..2_000 {
        let header = generate::header(&mut random);
        let site = generate::site(&mut random, header.edition, header.years);
        let record = header.write_site(&site).expect("a generated site");
        let [edition, years, ..] = header.numbers();
        let mut values = [u64::MAX; READ_NUMBERS + 3];
        assert_eq!(read_into(edition, years, &record, &mut values), DONE);
        let expected = made(&header, &site);
        for count in SITE_NUMBERS..=values.len() {
            let mut line = [0; 4];
            let number = line_into(header.numbers(), &values[..count], &mut line);
            assert_eq!((number, line), (DONE, expected), "{count} {site:?}");
        }
    }
}

#[test]
fn a_short_run_is_left_as_it_was() {
    for (edition, kind) in kinds_of_editions() {
        let values = numbers_of(&Site::plain(edition, kind, 1_000, 500));
        let header = [edition.into(), 5, 1_000, 1_000];
        for room in 0..4 {
            assert_eq!(refusal(header, &values, room), TOO_SHORT);
        }
        let mut four = [7; 4];
        assert_eq!(line_into(header, &values, &mut four), DONE);
        let mut five = [7; 5];
        assert_eq!(line_into(header, &values, &mut five), DONE);
        assert_eq!((&five[..4], five[4]), (&four[..], 7));
    }
}

/// The stored output of the engine's program `rounds` ends with the sum of the
/// lines of its stored input, made by the exported call.
#[test]
fn the_stored_sum_of_rounds_is_that_of_the_call() {
    let input = include_bytes!("../../../crates/rounds/stdin");
    let stored = include_str!("../../../crates/rounds/stdout");
    let word = |at: usize| u64::from(u16::from_be_bytes([input[at], input[at + 1]]));
    let asked = |job: Job| word(2 * job as usize);
    let (making, reading) = (asked(Job::Lines), asked(Job::Records));
    let edition = edition_within(word(2 * JOBS)).expect("an edition");
    let header = rounds_header(edition);
    let mut rest = &input[ROUNDS_HEAD..];
    let mut sum: u64 = 0;
    let mut sites = 0;
    while !rest.is_empty() {
        let (site, length) = header.read_site(rest).expect("a stored record");
        let numbers = made(&header, &site);
        sum += making * numbers.iter().sum::<u64>() + reading * u64::from(site.kind);
        rest = &rest[length..];
        sites += 1;
    }
    assert_eq!(sites, 10);
    assert_eq!(
        stored.lines().last(),
        Some((sum % (1 << 32)).to_string().as_str())
    );
}
