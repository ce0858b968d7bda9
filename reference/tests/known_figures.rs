//! Document 01's known figures: the table of twelve, and the three by program
//! as the reader sees them.

use reference::estimates::{logarithm, power};
use reference::factors;
use reference::model::{Model, FIRST_EDITION};
use reference::natural::Natural;
use reference::prediction::expected_pair;
use reference::project::{parse_project, read_project};
use reference::rational::Rational;
use reference::record::{Refusal, Site};
use reference::rules::{Field, EDITION_ONE, FOUR_LEG_SIGNAL};

const MODEL: &Model = &FIRST_EDITION;

/// A decimal such as 1.17486 as a fraction.
fn decimal(text: &str) -> Rational {
    let (whole, part) = text.split_once('.').unwrap_or((text, ""));
    let digits: u64 = format!("{whole}{part}").parse().expect("digits");
    Rational::new(digits.into(), Natural::power_of_ten(part.len() as u32))
}

#[test]
fn lane_nine_feet_at_the_traffic_steps() {
    let lane = |traffic| factors::lane(&MODEL.segment, 9, traffic);
    assert_eq!(lane(399), decimal("1.0175"));
    assert_eq!(lane(2_000), decimal("1.17486"));
    assert_eq!(lane(2_001), decimal("1.175"));
}

#[test]
fn turf_shoulder_of_eight_feet() {
    let found = factors::shoulder(&MODEL.segment, 8, 3, 2_001);
    assert_eq!(found, decimal("0.987995"));
}

#[test]
fn curves_and_the_house_floor_of_one() {
    let curve = |length, radius, ends| factors::curve(&MODEL.segment, length, radius, ends);
    assert_eq!(curve(100, 1_000, 0), Rational::of(1_176, 775));
    assert_eq!(curve(1, 30_000, 2), Rational::one());
}

#[test]
fn superelevation_deficiencies() {
    let factor = |deficiency| factors::superelevation(&MODEL.segment, deficiency);
    assert_eq!(factor(20), decimal("1.06"));
    assert_eq!(factor(21), decimal("1.063"));
}

#[test]
fn two_way_lane_at_ten_driveways() {
    let found = factors::two_way_lane(&MODEL.segment, 1, 10);
    assert_eq!(found, Rational::of(27_711, 29_720));
}

#[test]
fn signal_with_five_observed() {
    let site = Site::plain(EDITION_ONE, FOUR_LEG_SIGNAL, 1, 1).with(Field::Observed, 5);
    let (low, high) = expected_pair(MODEL, &site, 2_000_000, 2_000_000);
    assert_eq!(low.to_u64(), Some(2_540_983));
    assert_eq!(high.to_u64(), Some(2_540_984));
}

#[test]
fn power_of_thirty_two_at_depth_one() {
    let found = power(32, 60, 100, 1);
    assert_eq!(found.under, decimal("8.0"));
    assert_eq!(found.over, decimal("8.1"));
}

#[test]
fn logarithm_of_one() {
    for depth in [1, 2, 9] {
        let found = logarithm(1, depth);
        assert_eq!(found.under, Rational::zero());
        assert_eq!(found.over, Rational::zero());
    }
}

const EMPTY: [u8; 8] = [0x01, 0x05, 0x03, 0xE8, 0x03, 0xE8, 0x00, 0x00];

#[test]
fn the_empty_project_has_four_totals() {
    let project = parse_project(&EMPTY).expect("document 01 accepts it");
    assert_eq!(project.report_length(), 4);
    assert!(read_project(&EMPTY, 4).is_ok());
    assert_eq!(read_project(&EMPTY, 3), Err(Refusal::of(10, 0)));
}

#[test]
fn the_signal_is_accepted_and_its_spelled_default_is_not() {
    let mut file = EMPTY.to_vec();
    file[7] = 1;
    let head = file.len();
    file.extend([0x03, 0x00, 0x07, 0x27, 0x10, 0x03, 0xE8, 0x00, 0x05]);
    let project = parse_project(&file).expect("document 01 accepts it");
    let wanted = Site::plain(EDITION_ONE, FOUR_LEG_SIGNAL, 10_000, 1_000).with(Field::Observed, 5);
    assert_eq!(project.sites, [wanted]);
    file[head + 2] = 0x17;
    file.extend([0, 0]);
    assert_eq!(parse_project(&file), Err(Refusal::of(9, 8)));
}

#[test]
fn tempting_errors_are_not_made() {
    // A history of none pulls the expected crashes down; no history does not.
    let site = Site::plain(EDITION_ONE, FOUR_LEG_SIGNAL, 10_000, 1_000);
    let without = expected_pair(MODEL, &site, 2_000_000, 2_000_000);
    assert_eq!(without.0.to_u64(), Some(2_000_000));
    let none = site.with(Field::Observed, 0);
    let (low, _) = expected_pair(MODEL, &none, 2_000_000, 2_000_000);
    // 2 / (1 + 0.11 * 2) = 2 / 1.22 crashes, rounded down.
    assert_eq!(low.to_u64(), Some(2_000_000 * 100 / 122));
    // Four driveways are fewer than five: the two-way lane does nothing, and
    // the driveway part is below 1 and not at its base.
    let segment = &MODEL.segment;
    assert_eq!(factors::two_way_lane(segment, 1, 4), Rational::one());
    let log = Rational::of(7, 1);
    assert!(factors::driveway(segment, 4, &log) < Rational::one());
    assert_eq!(factors::driveway(segment, 5, &log), Rational::one());
}

#[test]
fn width_columns_of_document_01() {
    let lane = |width, traffic| factors::lane(&MODEL.segment, width, traffic);
    assert_eq!(lane(8, 3_000), lane(9, 3_000));
    assert_eq!(lane(14, 3_000), Rational::one());
    // 1 + 0.35 (1.30 - 1) and 1 + 0.35 (1.01 + 0.000025 * 600 - 1).
    assert_eq!(lane(10, 3_000), decimal("1.105"));
    assert_eq!(lane(11, 1_000), decimal("1.00875"));
    let shoulder = |width, kind, traffic| factors::shoulder(&MODEL.segment, width, kind, traffic);
    assert_eq!(shoulder(10, 1, 500), shoulder(8, 1, 500));
    // 1 + 0.35 (1.10 - 1); 1 + 0.35 (0.87 - 1); composite, 4 feet, at 2,000:
    // 1.02 + 0.00008125 * 1600 = 1.15, times 1.03 is 1.1845.
    assert_eq!(shoulder(0, 3, 399), decimal("1.035"));
    assert_eq!(shoulder(8, 0, 2_001), decimal("0.9545"));
    assert_eq!(shoulder(4, 2, 2_000), decimal("1.064575"));
    // The slope of the last column falls: 0.98 - 0.00006875 * 1600 = 0.87.
    assert_eq!(shoulder(8, 0, 2_000), shoulder(8, 0, 2_001));
}

/// Every width and type at every edge of traffic: an odd width's value and its
/// type's are the means of the neighbours', which are taken here out of the
/// factors of even widths. A paved shoulder's factor is 0.65 + 0.35 times its
/// width value, and another's has the type value within.
#[test]
fn odd_shoulders_of_document_02() {
    let related = |width, kind, traffic| {
        let factor = factors::shoulder(&MODEL.segment, width, kind, traffic);
        &(&factor - &decimal("0.65")) * &decimal("0.35").reciprocal()
    };
    let mean = |one: Rational, other: Rational| &(&one + &other) * &decimal("0.5");
    for traffic in [399, 400, 401, 1_999, 2_000, 2_001] {
        for kind in 0..=3 {
            let by_width = |width| related(width, 0, traffic);
            let by_type = |width| &related(width, kind, traffic) * &by_width(width).reciprocal();
            for odd in [1, 3, 5, 7] {
                let width = mean(by_width(odd - 1), by_width(odd + 1));
                let multiplier = mean(by_type(odd - 1), by_type(odd + 1));
                let case = (odd, kind, traffic);
                assert_eq!(
                    related(odd, kind, traffic),
                    &width * &multiplier,
                    "{case:?}"
                );
            }
            for wide in [9, 10] {
                assert_eq!(related(wide, kind, traffic), related(8, kind, traffic));
            }
        }
    }
}

#[test]
fn remaining_factors_of_document_01() {
    let segment = &MODEL.segment;
    let passing = [0, 1, 2].map(|p| factors::passing(segment, p));
    assert_eq!(passing, ["1", "0.75", "0.65"].map(decimal));
    assert_eq!(factors::grade(segment, 0), Rational::one());
    assert_eq!(factors::grade(segment, 2), decimal("1.032256"));
    let steps = [0, 9, 10, 11, 100].map(|d| factors::superelevation(segment, d));
    assert_eq!(steps, ["1", "1", "1", "1.006", "1.3"].map(decimal));
    let crossings = [
        MODEL.three_leg_stop,
        MODEL.four_leg_stop,
        MODEL.four_leg_signal,
    ];
    let left = crossings.map(|c| factors::left_turn(&c, 1));
    assert_eq!(left, ["0.78", "0.76", "0.82"].map(decimal));
    let right = crossings.map(|c| factors::right_turn(&c, 1));
    assert_eq!(right, ["0.95", "0.95", "0.975"].map(decimal));
    let both = [1, 2].map(|i| factors::left_turn(&crossings[i], 2));
    assert_eq!(both, ["0.58", "0.67"].map(decimal));
    let both = [1, 2].map(|i| factors::right_turn(&crossings[i], 2));
    assert_eq!(both, ["0.90", "0.95"].map(decimal));
    let sight = [0, 1, 4].map(|q| factors::sight(&MODEL.four_leg_stop, q));
    assert_eq!(sight, ["1", "1.05", "1.20"].map(decimal));
}
