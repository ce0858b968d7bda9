//! The tables of FHWA-RD-99-207 compared through the engine's line of a site,
//! to the digits that the report prints. The printed cells, the sites they are
//! about and the report's slips with their reasons are in
//! `reference::published`; a cell that differs and is not listed there fails,
//! and so does a listed one that no longer differs. Both ends of the engine's
//! pair have to round to what is printed.
//!
//! | Table | What it has | Here |
//! |---|---|---|
//! | 3 | shoulder type | compared at 0, 2, 4, 6 and 8 feet as the ratio of related crashes; its 1 and 3 feet take the mean of their neighbours here (document 02, request 2), its 10 the last column |
//! | 4 | grade | compared as the ratio of two sites |
//! | 5 | left-turn lanes | compared as the ratio of two sites; its three-leg signal is no kind of document 01 |
//! | 6 | traffic | compared |
//! | 7 | lane width | compared |
//! | 8 | shoulder type and width | compared; 5 cells listed |
//! | 9 | curve, without and with spirals | compared; 53 cells listed, 50 of them worked with another length for 100 feet and compared again with it |
//! | 10 | superelevation | compared; 10 cells listed, 9 of them as in table 9 |
//! | 11 | grade | compared; 1 cell listed |
//! | 12 | driveways, without and with a two-way lane | compared |
//! | 13 | passing lane, short four-lane section | compared |
//! | 14 | roadside hazard rating | compared; 1 cell listed |
//! | 15 | extreme combinations | compared; 9 cells listed as in table 9 |
//! | 16 | turn lanes at three-leg stops | compared |
//! | 17 | skew at three-leg stops | compared; 16 cells listed, worked from rounded ones |
//! | 18 | sight at three-leg stops | compared; 1 cell listed |
//! | 19 | turn lanes at four-leg stops | compared; 28 cells listed, 25 worked from rounded ones |
//! | 20 | skew at four-leg stops | compared; 2 cells listed |
//! | 21 | sight at four-leg stops | compared |
//! | 22 | turn lanes at signals | compared; 2 cells listed |
//! | 24, 25, 27 | two segments and a crossing over nine years | each year and the sum, the three years of each calibration with their traffic year by year, and the expected crashes of nine such years, compared; not the years' fatal and injury and property-damage rows nor the corrected column, which split by severity, nor one project of the nine years, whose calibrations differ |
//!
//! A segment's crashes are of one mile and its rates are those crashes over
//! the traffic. The lengths of tables 9, 10 and 15 are in feet, a record's in
//! thousandths of a mile: such a curve stands between two records (see
//! `reference::published`). The text's factors of right-turn lanes,
//! superelevation and passing are compared as ratios too.
//!
//! Left out of the report's other tables: 1 and 2 are shares by severity and
//! kind of crash; 23 has the numbers k, which tables 24, 25 and 27 use; 26 and
//! 28 join sites into one unit, which document 01 leaves out; 29 to 67 are of
//! the fitting and of calibration.

use engine::lines::line;
use reference::estimates::Estimates;
use reference::project::Header;
use reference::published::{self, prints, Block, Example};
use reference::rational::Rational;
use reference::record::Site;
use reference::rules::{rules, Field, Rule, EDITION_ONE, MOST_CALIBRATION, MOST_YEARS};

const MILLION: u64 = 1_000_000;

/// The four numbers of a site with one calibration for both kinds.
fn made(years: u8, calibration: u16, site: &Site) -> [u64; 4] {
    let header = Header {
        edition: EDITION_ONE,
        years,
        segment_calibration: calibration,
        crossing_calibration: calibration,
    };
    line(&header, site).unwrap_or_else(|number| panic!("refused with {number}: {site:?}"))
}

/// Two numbers over a unit.
fn pair(low: u64, high: u64, unit: u64) -> Estimates {
    Estimates {
        under: Rational::of(low, unit),
        over: Rational::of(high, unit),
    }
}

/// A year of a site with calibration 1, from the line with the most years and
/// the greatest calibration, which has the most digits.
fn yearly(site: &Site) -> Estimates {
    let [low, high, ..] = made(MOST_YEARS, MOST_CALIBRATION, site);
    let times = u64::from(MOST_YEARS) * u64::from(MOST_CALIBRATION);
    pair(low, high, times * MILLION / 1_000)
}

/// The cells compared of the tables' blocks.
fn check(blocks: impl IntoIterator<Item = Block>) -> usize {
    blocks.into_iter().map(|block| block.check(yearly)).sum()
}

#[test]
fn factors_of_tables_3_to_5_and_of_the_text() {
    let factors = published::factors();
    assert_eq!(factors.len(), 41);
    for factor in factors {
        factor.check(yearly);
    }
}

#[test]
fn tables_6_to_15_of_segments() {
    assert_eq!(check((6..=15).flat_map(published::table)), 880);
}

#[test]
fn tables_16_to_22_of_crossings() {
    assert_eq!(check((16..=22).flat_map(published::table)), 840);
}

#[test]
fn tables_9_10_and_15_with_their_hundred_feet() {
    assert_eq!(check(published::tables_with_their_hundred_feet()), 400);
}

/// The predicted crashes of so many years with one calibration.
fn period(years: u8, calibration: u16, site: &Site) -> Estimates {
    let [low, high, ..] = made(years, calibration, site);
    pair(low, high, MILLION)
}

#[test]
fn tables_24_25_and_27_predicted_by_year_and_in_sum() {
    for example in published::examples() {
        example.check(|calibration, site| period(1, calibration, site));
    }
}

#[test]
fn tables_24_25_and_27_predicted_with_traffic_year_by_year() {
    for example in published::examples() {
        example.check_periods(period);
    }
}

/// A calibration and a site like the example's, with its traffic year by year
/// but in the first, whose nine years are predicted nearest to so many
/// millionths. The table's years differ in calibration, so no project is the
/// table's; what is expected rests on the sum alone.
fn nearest(example: &Example, millionths: u64) -> (u16, Site) {
    let candidates = (1_000..1_400).filter_map(|traffic| {
        let site = example.site.with(Field::Traffic, traffic);
        let [low, ..] = made(9, 1_000, &site);
        let calibration = (1_000 * millionths + low / 2) / low;
        let allowed = (1..=u64::from(MOST_CALIBRATION)).contains(&calibration);
        let off = (calibration * low).abs_diff(1_000 * millionths);
        allowed.then_some((off, calibration as u16, site))
    });
    let best = candidates.min_by_key(|(off, ..)| *off);
    let (_, calibration, site) = best.expect("a site with that prediction");
    (calibration, site)
}

#[test]
fn tables_24_25_and_27_expected_before_period() {
    for example in published::examples() {
        for (predicted, observed, printed) in example.expected {
            let (calibration, site) = nearest(&example, 1_000 * predicted);
            let site = site.with(Field::Observed, observed);
            let [low, high, expected_low, expected_high] = made(9, calibration, &site);
            let name = example.name;
            // To a tenth of the last printed digit.
            let near = pair(low, high, MILLION);
            assert!(prints(&near, 10 * predicted, 10_000), "{name} {predicted}");
            let expected = pair(expected_low, expected_high, MILLION);
            assert!(prints(&expected, printed, 1_000), "{name} {printed}");
        }
    }
}

/// How many cells of each table are listed, as the table above says.
#[test]
fn listed_cells_of_each_table() {
    let listed = |number: u32| -> usize {
        let blocks = published::table(number);
        blocks.iter().map(|block| block.listed().len()).sum()
    };
    let counts: Vec<(u32, usize)> = (6..=22)
        .map(|number| (number, listed(number)))
        .filter(|(_, count)| *count > 0)
        .collect();
    let told = [
        (8, 5),
        (9, 53),
        (10, 10),
        (11, 1),
        (14, 1),
        (15, 9),
        (17, 16),
        (18, 1),
        (19, 28),
        (20, 2),
        (22, 2),
    ];
    assert_eq!(counts, told);
    let again = published::tables_with_their_hundred_feet();
    let left: usize = again.iter().map(|block| block.listed().len()).sum();
    assert_eq!(left, 4);
}

/// Whether a table's comparison fails with other predictions.
fn is_noticed(number: u32, other: impl Fn(&Site) -> Estimates) -> bool {
    let blocks = published::table(number);
    let mut fits = blocks
        .iter()
        .map(|block| block.differing(&other) == block.listed());
    !fits.all(|fits| fits)
}

/// What the other tests rest on: predictions moved by half a percent, up or
/// down, are noticed in every table.
#[test]
fn a_moved_prediction_is_noticed() {
    for share in [Rational::of(199, 200), Rational::of(201, 200)] {
        let moved = |site: &Site| {
            let found = yearly(site);
            Estimates {
                under: &share * &found.under,
                over: &share * &found.over,
            }
        };
        for number in 6..=22 {
            assert!(is_noticed(number, moved), "table {number}");
        }
    }
}

/// A field that has no effect is noticed in the tables that are about it.
#[test]
fn a_field_without_effect_is_noticed() {
    for (field, numbers) in [
        (Field::LaneWidth, &[7, 15][..]),
        (Field::ShoulderWidth, &[8, 15]),
        (Field::ShoulderType, &[8]),
        (Field::SpiralEnds, &[9]),
        (Field::Deficiency, &[10, 15]),
        (Field::Grade, &[11, 15]),
        (Field::Driveways, &[12, 15]),
        (Field::TwoWayLane, &[12]),
        (Field::Passing, &[13, 15]),
        (Field::HazardRating, &[14, 15]),
        (Field::LeftTurnLanes, &[16, 19, 22]),
        (Field::RightTurnLanes, &[16, 19, 22]),
        (Field::Skew, &[17, 20]),
        (Field::LimitedQuadrants, &[18, 21]),
    ] {
        let without = |site: &Site| {
            let known = rules(EDITION_ONE, site.kind).unwrap_or(&[]);
            let rule = known.iter().find(|rule| rule.field == field);
            let mut site = *site;
            if site.get(field).is_some() {
                site.set(field, rule.and_then(Rule::default));
            }
            yearly(&site)
        };
        for number in numbers {
            assert!(is_noticed(*number, without), "{field:?}, table {number}");
        }
    }
}
