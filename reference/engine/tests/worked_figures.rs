//! The worked figures of `reference::worked`, of both editions, through the
//! engine's line of a site. A number that is wrong in a definition and in the code alike fails
//! here by the figure's name.

use engine::lines::line;
use reference::estimates::Estimates;
use reference::prediction::{SiteEstimates, MILLION};
use reference::project::Header;
use reference::rational::Rational;
use reference::record::Site;
use reference::rules::{rules, Field, EDITION_ONE, EDITION_TWO};
use reference::worked::{faults, named};

/// A site's two pairs in crashes.
fn pairs(header: &Header, site: &Site) -> SiteEstimates {
    let numbers = line(header, site)
        .unwrap_or_else(|number| panic!("refused with {number}: {header:?} {site:?}"));
    let pair = |low, high| Estimates {
        under: Rational::of(low, MILLION),
        over: Rational::of(high, MILLION),
    };
    SiteEstimates {
        predicted: pair(numbers[0], numbers[1]),
        expected: pair(numbers[2], numbers[3]),
    }
}

#[test]
fn of_the_engine() {
    let faults = faults("", pairs);
    assert!(faults.is_empty(), "{faults:#?}");
}

/// What the other test rests on: an engine that takes a field's default for
/// its value fails the figures that are named after it.
#[test]
fn notice_a_field_without_effect() {
    for (field, name) in [
        (Field::LaneWidth, "lane at 1000, feet 11"),
        (Field::ShoulderWidth, "shoulder at 2001, feet 8"),
        (Field::ShoulderType, "shoulder type composite, feet 8"),
        (Field::SpiralEnds, "curve, one spiral"),
        (Field::Deficiency, "deficiency 11"),
        (Field::Grade, "grade 1"),
        (Field::TwoWayLane, "two-way lane at driveways 5"),
        (Field::Passing, "passing 2"),
        (Field::HazardRating, "hazard rating 2"),
        (Field::Driveways, "driveways at 20000, count 0"),
        (Field::Skew, "3st skew 1"),
        (Field::Skew, "4st skew 1"),
        (Field::LeftTurnLanes, "4sg left-turn lanes 2"),
        (Field::RightTurnLanes, "4sg right-turn lanes 1"),
        (Field::LimitedQuadrants, "3st sight 1"),
    ] {
        let without = |header: &Header, site: &Site| {
            let mut table = rules(header.edition, site.kind).unwrap_or(&[]).iter();
            let default = table
                .find(|rule| rule.field == field)
                .and_then(|rule| rule.default());
            let mut site = *site;
            if site.get(field).is_some() {
                site.set(field, default);
            }
            pairs(header, &site)
        };
        assert!(!faults(name, without).is_empty(), "{name}");
    }
}

/// A site as an edition has it: a stop crossing holds a number of limited
/// quadrants in edition 1 alone.
fn as_in(edition: u8, site: &Site) -> Site {
    let mut site = *site;
    if [1, 2].contains(&site.kind) {
        let none = (edition == EDITION_ONE).then_some(0);
        site.set(Field::LimitedQuadrants, none);
    }
    site
}

/// An engine that takes one edition for the other fails the figures of each
/// number that differs.
#[test]
fn notice_the_other_edition() {
    for (edition, other) in [(EDITION_ONE, EDITION_TWO), (EDITION_TWO, EDITION_ONE)] {
        let exchanged = |header: &Header, site: &Site| {
            let header = Header {
                edition: other,
                ..*header
            };
            pairs(&header, &as_in(other, site))
        };
        for name in [
            "lane at 399, feet 9",
            "shoulder at 1000, feet 4",
            "grade 1",
            "grade 12",
            "driveways at 1, count 0",
            "driveways at 20000, count 50",
            "3st left-turn lanes 1",
            "4st left-turn lanes 2",
            "3st right-turn lanes 1",
            "4st right-turn lanes 2",
            "4sg right-turn lanes 1",
            "segment base",
            "3st base",
            "4st base",
            "4sg base",
            "segment k at observed 0",
            "segment k at length 236",
        ] {
            let name = named(edition, name);
            assert!(!faults(&name, exchanged).is_empty(), "{name}");
        }
    }
}

/// An engine that takes the first year's traffic in every year fails the figures
/// of traffic year by year.
#[test]
fn notice_later_years_without_effect() {
    for name in [
        "yearly segment of 2 years",
        "yearly segment, doubled in the third year",
        "yearly segment, lane",
        "yearly segment, shoulder",
        "yearly segment, driveways",
        "yearly 3st, major road late",
        "yearly 4st, minor road late",
        "yearly 4sg, major road late, minor early",
        "the back road along the river",
    ] {
        let first = |header: &Header, site: &Site| pairs(header, &site.in_year(1));
        assert!(!faults(name, first).is_empty(), "{name}");
    }
}
