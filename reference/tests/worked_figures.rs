//! The worked figures of `reference::worked` against the reference's models, and
//! against models in which one number is changed: each is noticed by a figure of
//! its edition that is named after it.

use reference::estimates::Estimates;
use reference::model::{CrossingModel, Grade, Model, SegmentOverdispersion};
use reference::prediction::{site_estimates, SiteEstimates};
use reference::project::Header;
use reference::rational::Rational;
use reference::record::Site;
use reference::rules::{Field, EDITIONS, EDITION_ONE, EDITION_TWO};
use reference::worked::{self, faults, figures};
use std::collections::{BTreeSet, HashSet};
use std::iter::repeat_n;

const DEPTH: u32 = 9;

fn of_site(header: &Header, site: &Site) -> SiteEstimates {
    site_estimates(header.model(), header, site, DEPTH)
}

fn faults_of(model: &Model, start: &str) -> Vec<String> {
    faults(start, |header, site| {
        site_estimates(model, header, site, DEPTH)
    })
}

#[test]
fn of_both_editions() {
    let faults = faults("", of_site);
    assert!(faults.is_empty(), "{faults:#?}");
}

/// A model taken for the other edition's is noticed by that edition's figures of
/// each number that differs.
#[test]
fn notice_the_other_editions_model() {
    let own = [
        "lane at 399, feet 9",
        "shoulder at 1000, feet 4",
        "shoulder type turf, feet 8",
        "grade 1",
        "grade 12",
        "driveways at 1, count 0",
        "driveways at 1, count 50",
        "3st left-turn lanes 1",
        "4st left-turn lanes 2",
        "3st right-turn lanes 1",
        "4st right-turn lanes 2",
        "4sg right-turn lanes 1",
        "segment base",
        "3st base",
        "4st base",
        "4sg base",
        "segment k at observed 0",
        "segment k at length 236",
        "the mill crossing",
    ];
    let shared = [
        "curve",
        "deficiency",
        "two-way lane",
        "hazard rating",
        "4sg left-turn lanes",
    ];
    for (edition, other) in [(EDITION_ONE, EDITION_TWO), (EDITION_TWO, EDITION_ONE)] {
        let model = Model::of_edition(other);
        for name in own {
            let name = worked::named(edition, name);
            assert!(!faults_of(model, &name).is_empty(), "{name}");
        }
        for name in shared {
            let faults = faults_of(model, &worked::named(edition, name));
            assert!(faults.is_empty(), "{faults:?}");
        }
    }
}

#[test]
fn have_names_of_their_own() {
    let figures = figures();
    let names: HashSet<_> = figures.iter().map(|figure| &figure.name).collect();
    assert_eq!((figures.len(), names.len()), (487, 487));
}

/// A site's estimates where its shoulder is so many feet wide.
fn at_width(header: &Header, site: &Site, feet: u16) -> SiteEstimates {
    of_site(header, &site.with(Field::ShoulderWidth, feet))
}

/// The mean of two sites' predictions: the mean of two products, since a factor
/// is a share of the product and a constant.
fn mean(one: SiteEstimates, other: SiteEstimates) -> SiteEstimates {
    let sum = Estimates::sum([one.predicted, other.predicted]);
    SiteEstimates {
        predicted: sum.scaled(&Rational::of(1, 2)),
        expected: one.expected,
    }
}

/// Whether something is so of a figure of each edition.
fn in_each_edition(name: &str, is_so: impl Fn(&str) -> bool) -> bool {
    let mut editions = EDITIONS.into_iter();
    editions.all(|edition| is_so(&worked::named(edition, name)))
}

/// What the figures of odd shoulders rest on: the column below, the one above
/// and a mean taken after the product are noticed, and so is a shoulder of 9 feet
/// with a column that is not the last.
#[test]
fn notice_an_odd_shoulder_taken_otherwise() {
    let is_noticed = |name: &str, rule: &dyn Fn(&Header, &Site, u16) -> SiteEstimates| {
        let model = |header: &Header, site: &Site| match site.get(Field::ShoulderWidth) {
            Some(feet) if feet % 2 == 1 => rule(header, site, feet),
            _ => of_site(header, site),
        };
        in_each_edition(name, |name| !faults(name, model).is_empty())
    };
    let below = |header: &Header, site: &Site, feet| at_width(header, site, feet - 1);
    let above = |header: &Header, site: &Site, feet| at_width(header, site, feet + 1);
    let after = |header: &Header, site: &Site, feet| {
        mean(below(header, site, feet), above(header, site, feet))
    };
    for feet in [1, 3, 5, 7] {
        for traffic in [399, 400, 1_000, 2_000, 2_001] {
            let name = format!("shoulder at {traffic}, feet {feet}");
            assert!(is_noticed(&name, &below), "{name}");
            assert!(is_noticed(&name, &above), "{name}");
        }
        let name = format!("shoulder type turf, feet {feet}");
        assert!(is_noticed(&name, &after), "{name}");
    }
    assert!(is_noticed("shoulder type turf at 1200, feet 3", &after));
    let between_six_and_eight = |header: &Header, site: &Site, _| at_width(header, site, 7);
    for name in ["shoulder at 2001, feet 9", "shoulder type turf, feet 9"] {
        assert!(is_noticed(name, &between_six_and_eight), "{name}");
    }
}

/// What the figures of traffic year by year rest on: each way of taking it
/// wrongly is noticed by a figure that is named after what it gets wrong.
#[test]
fn notice_traffic_year_by_year_taken_otherwise() {
    type Rule = fn(&Header, &Site) -> SiteEstimates;
    let is_noticed = |name: &str, rule: Rule| {
        let model = |header: &Header, site: &Site| match site.is_yearly() {
            true => rule(header, site),
            false => of_site(header, site),
        };
        in_each_edition(name, |name| !faults(name, model).is_empty())
    };
    let first_year_throughout: Rule = |header, site| of_site(header, &site.in_year(1));
    let last_year_left_out: Rule = |header, site| {
        let years = header.years - 1;
        of_site(&Header { years, ..*header }, site)
    };
    for years in 2..=10 {
        let name = format!("yearly segment of {years} years");
        assert!(is_noticed(&name, first_year_throughout), "{name}");
        assert!(is_noticed(&name, last_year_left_out), "{name}");
    }
    for name in [
        "yearly segment, lane",
        "yearly segment, shoulder",
        "yearly segment, driveways",
    ] {
        assert!(is_noticed(name, first_years_factors), "{name}");
    }
    for kind in ["3st", "4st", "4sg"] {
        let name = |what: &str| format!("yearly {kind}, {what}");
        for what in ["the same every year", "major road late", "minor road late"] {
            assert!(is_noticed(&name(what), last_year_left_out), "{kind} {what}");
        }
        let minor_of_the_first: Rule = |header, site| {
            let minor = site.get(Field::MinorTraffic).unwrap_or(0);
            let years = vec![minor; header.years.into()];
            of_site(header, &site.with_years(Field::MinorTraffic, &years))
        };
        assert!(is_noticed(&name("minor road late"), minor_of_the_first));
        assert!(is_noticed(&name("major road late"), first_year_throughout));
    }
    assert!(is_noticed(
        "yearly segment k at observed 0",
        history_of_each_year
    ));
    assert!(is_noticed(
        "the back road along the river",
        first_years_factors
    ));
}

/// The first year's crashes for each vehicle in every year.
fn first_years_factors(header: &Header, site: &Site) -> SiteEstimates {
    let terms = site.terms(header.years);
    let traffic: u64 = terms
        .iter()
        .map(|(_, year)| year.value(Field::Traffic))
        .sum();
    let years = u64::from(header.years) * site.value(Field::Traffic);
    let share = Rational::of(traffic, years);
    let first = of_site(header, &site.in_year(1));
    SiteEstimates {
        predicted: first.predicted.scaled(&share),
        expected: first.expected.scaled(&share),
    }
}

/// A history of none in each year, weighed with that year's prediction.
fn history_of_each_year(header: &Header, site: &Site) -> SiteEstimates {
    let one = Header {
        years: 1,
        ..*header
    };
    let years = site.terms(header.years).into_iter();
    let made: Vec<SiteEstimates> = years.map(|(_, year)| of_site(&one, &year)).collect();
    let sum = |part: fn(&SiteEstimates) -> &Estimates| {
        Estimates::sum(made.iter().map(|year| part(year).clone()))
    };
    SiteEstimates {
        predicted: sum(|year| &year.predicted),
        expected: sum(|year| &year.expected),
    }
}

/// A change of one number.
type Change = Box<dyn Fn(&mut Model)>;

/// The start of the names of figures that notice a change, and the change.
type Noticed = (String, Change);

fn noticed(start: impl Into<String>, change: impl Fn(&mut Model) + 'static) -> Noticed {
    (start.into(), Box::new(change))
}

/// The limits of traffic of both width tables. A `light_below` of 401 would do as
/// well as 400, since nothing is added at 400.
fn changes_of_traffic_limits() -> Vec<Noticed> {
    vec![
        noticed("lane at 399, feet 9", |m| m.segment.lane.light_below -= 1),
        noticed("lane at 401, feet 9", |m| m.segment.lane.light_below += 2),
        noticed("lane at 400, feet 9", |m| m.segment.lane.slope_from -= 1),
        noticed("lane at 1000, feet 9", |m| m.segment.lane.slope_from += 1),
        noticed("lane at 2000, feet 9", |m| m.segment.lane.heavy_above -= 1),
        noticed("lane at 2001, feet 9", |m| m.segment.lane.heavy_above += 1),
        noticed("shoulder at 399, feet 2", |m| {
            m.segment.shoulder.light_below -= 1
        }),
        noticed("shoulder at 401, feet 2", |m| {
            m.segment.shoulder.light_below += 2
        }),
        noticed("shoulder at 400, feet 2", |m| {
            m.segment.shoulder.slope_from -= 1
        }),
        noticed("shoulder at 1000, feet 2", |m| {
            m.segment.shoulder.slope_from += 1
        }),
        noticed("shoulder at 2000, feet 2", |m| {
            m.segment.shoulder.heavy_above -= 1
        }),
        noticed("shoulder at 2001, feet 2", |m| {
            m.segment.shoulder.heavy_above += 1
        }),
    ]
}

/// The classes of width, by a foot. A lane of 12 feet and a shoulder of 6 are
/// what the others are over.
fn changes_of_width_classes() -> Vec<Noticed> {
    let lane = |feet: u32| format!("lane at 399, feet {feet}");
    let shoulder = |feet: u32| format!("shoulder at 399, feet {feet}");
    let base = "segment base at 399";
    vec![
        noticed(lane(9), |m| m.segment.lane_most[0] -= 1),
        noticed(lane(10), |m| m.segment.lane_most[0] += 1),
        noticed(lane(10), |m| m.segment.lane_most[1] -= 1),
        noticed(lane(11), |m| m.segment.lane_most[1] += 1),
        noticed(lane(11), |m| m.segment.lane_most[2] -= 1),
        noticed(lane(13), |m| m.segment.lane_most[2] += 1),
        noticed(base, |m| m.segment.lane_most[2] += 1),
        noticed(shoulder(1), |m| m.segment.shoulder_feet[0] += 1),
        noticed(shoulder(2), |m| m.segment.shoulder_feet[1] -= 1),
        noticed(shoulder(2), |m| m.segment.shoulder_feet[1] += 1),
        noticed(shoulder(4), |m| m.segment.shoulder_feet[2] -= 1),
        noticed(shoulder(4), |m| m.segment.shoulder_feet[2] += 1),
        noticed(base, |m| m.segment.shoulder_feet[3] -= 1),
        noticed(base, |m| m.segment.shoulder_feet[3] += 1),
        noticed(shoulder(7), |m| m.segment.shoulder_feet[4] -= 1),
        noticed(shoulder(8), |m| m.segment.shoulder_feet[4] += 1),
    ]
}

/// A curve's numbers. An `under` of 11 would do as well as 10, since nothing is
/// added at 10, and a `to` of 19 as well as 20, since both forms have 1.06 at 20.
fn changes_of_curves() -> Vec<Noticed> {
    vec![
        noticed("curve, shorter", |m| m.segment.curve_length.0 += 1),
        noticed("curve, no spiral", |m| m.segment.curve_radius.0 += 1),
        noticed("curve, one spiral", |m| m.segment.curve_spiral.0 += 1),
        noticed("curve, one spiral", |m| m.segment.curve_ends -= 1),
        noticed("curve, one spiral", |m| m.segment.curve_ends += 1),
        noticed("curve, flat with one spiral", |m| {
            m.segment.curve_least -= 1
        }),
        noticed("curve, one spiral, hardly bent", |m| {
            m.segment.curve_least += 1
        }),
        noticed("deficiency 9", |m| m.segment.superelevation.under -= 1),
        noticed("deficiency 11", |m| m.segment.superelevation.under += 2),
        noticed("deficiency 11", |m| {
            m.segment.superelevation.first_from -= 1
        }),
        noticed("deficiency 11", |m| {
            m.segment.superelevation.first_from += 1
        }),
        noticed("deficiency 20", |m| {
            m.segment.superelevation.first_slope += 1
        }),
        noticed("deficiency 19", |m| m.segment.superelevation.to -= 2),
        noticed("deficiency 21", |m| m.segment.superelevation.to += 1),
        noticed("deficiency 21", |m| m.segment.superelevation.at_turn.0 += 1),
        noticed("deficiency 21", |m| {
            m.segment.superelevation.second_from -= 1
        }),
        noticed("deficiency 21", |m| {
            m.segment.superelevation.second_from += 1
        }),
        noticed("deficiency 100", |m| {
            m.segment.superelevation.second_slope += 1
        }),
    ]
}

/// Every number of the width and type tables, by a unit of its last digit in
/// document 01.
fn changes_of_widths() -> Vec<Noticed> {
    let mut changes = Vec::new();
    for (column, feet) in [9, 10, 11].into_iter().enumerate() {
        let name = |traffic: u32| format!("lane at {traffic}, feet {feet}");
        changes.extend([
            noticed(name(399), move |m| {
                m.segment.lane.light[column] += 1_000_000
            }),
            noticed(name(1_000), move |m| m.segment.lane.slope[column] += 100),
            noticed(name(2_001), move |m| {
                m.segment.lane.heavy[column] += 1_000_000
            }),
        ]);
    }
    for (column, feet) in [(0, 0), (1, 2), (2, 4), (4, 8)] {
        let name = |traffic: u32| format!("shoulder at {traffic}, feet {feet}");
        changes.extend([
            noticed(name(399), move |m| {
                m.segment.shoulder.light[column] += 1_000_000
            }),
            noticed(name(1_000), move |m| m.segment.shoulder.slope[column] += 1),
            noticed(name(2_001), move |m| {
                m.segment.shoulder.heavy[column] += 1_000_000
            }),
        ]);
    }
    // Lanes of 12 feet and paved shoulders of 6 are what the others are over.
    changes.extend([
        noticed("segment base at 399", |m| {
            m.segment.lane.light[3] += 1_000_000
        }),
        noticed("segment base at 1000", |m| m.segment.lane.slope[3] += 100),
        noticed("segment base", |m| m.segment.lane.heavy[3] += 1_000_000),
        noticed("segment base at 399", |m| {
            m.segment.shoulder.light[3] += 1_000_000
        }),
        noticed("segment base at 1000", |m| m.segment.shoulder.slope[3] += 1),
        noticed("segment base", |m| m.segment.shoulder.heavy[3] += 1_000_000),
        noticed("segment base", |m| m.segment.shoulder_type[0][3] += 1),
    ]);
    let materials = ["paved", "gravel", "composite", "turf"];
    for (material, name) in materials.into_iter().enumerate() {
        let is_base = |column: &usize| material == 0 && *column == 3;
        for column in (0..5).filter(|column| !is_base(column)) {
            let name = format!("shoulder type {name}, feet {}", 2 * column);
            changes.push(noticed(name, move |m| {
                m.segment.shoulder_type[material][column] += 1
            }));
        }
    }
    changes
}

/// Every other number of a segment that both editions have.
fn changes_of_segments() -> Vec<Noticed> {
    vec![
        noticed("segment base", |m| m.segment.base_exponent.0 += 1),
        noticed("segment base", |m| m.segment.exposure.0 += 1),
        noticed("lane at 2001, feet 9", |m| m.segment.lane.share.0 += 1),
        noticed("shoulder at 2001, feet 0", |m| {
            m.segment.shoulder.share.0 += 1
        }),
        noticed("two-way lane", |m| m.segment.two_way_linear.0 += 1),
        noticed("two-way lane", |m| m.segment.two_way_square.0 += 1),
        noticed("two-way lane", |m| m.segment.two_way_offset.0 += 1),
        noticed("two-way lane", |m| m.segment.two_way_share.0 += 1),
        noticed("two-way lane at driveways 5", |m| {
            m.segment.two_way_fewest_driveways += 1
        }),
        noticed("two-way lane at driveways 4", |m| {
            m.segment.two_way_fewest_driveways -= 1
        }),
        noticed("segment base", |m| m.segment.passing[0] += 1),
        noticed("passing 1", |m| m.segment.passing[1] += 1),
        noticed("passing 2", |m| m.segment.passing[2] += 1),
        noticed("hazard rating 2", |m| m.segment.hazard_slope.0 += 1),
        noticed("hazard rating 4", |m| m.segment.hazard_slope.0 += 1),
        noticed("segment base", |m| m.segment.hazard_base -= 1),
        noticed("segment base", |m| m.segment.hazard_base += 1),
        noticed("driveways at 1,", |m| m.segment.driveway_offset.0 += 1),
        noticed("driveways at 1,", |m| m.segment.driveway_slope.0 += 1),
        noticed("driveways at 400,", |m| m.segment.driveway_log_slope.0 -= 1),
        noticed("segment base", |m| m.segment.driveway_base -= 1),
        noticed("segment base", |m| m.segment.driveway_base += 1),
        noticed("segment k at observed 0", larger_overdispersion),
        noticed("segment k at observed 500", larger_overdispersion),
    ]
}

fn larger_overdispersion(model: &mut Model) {
    match &mut model.segment.overdispersion {
        SegmentOverdispersion::Constant(k) => k.0 += 1,
        SegmentOverdispersion::OverLength(over) => *over += 1,
    }
}

/// The numbers of edition 1's grade and of sight, which it alone has, and its
/// driveways without a fewest.
fn changes_of_edition_one() -> Vec<Noticed> {
    vec![
        noticed("3st sight 1", |m| m.three_leg_stop.sight_step.0 += 1),
        noticed("4st sight 1", |m| m.four_leg_stop.sight_step.0 += 1),
        noticed("grade 1", |m| match &mut m.segment.grade {
            Grade::Power(base) => base.0 += 1,
            Grade::Steps { .. } => panic!("edition 1 has a power"),
        }),
        noticed("driveways at 1, count 0", |m| {
            m.segment.driveway_fewest += 1
        }),
    ]
}

/// A change of a grade's steps and factors.
fn steps(change: fn(&mut [u64; 2], &mut [u64; 3])) -> impl Fn(&mut Model) {
    move |model| match &mut model.segment.grade {
        Grade::Steps { most, factors } => change(most, factors),
        Grade::Power(_) => panic!("edition 2 has steps"),
    }
}

/// The numbers of edition 2's grade, and its fewest driveways: 6 would do as
/// well as 5, since 5 driveways have 1.
fn changes_of_edition_two() -> Vec<Noticed> {
    vec![
        noticed("segment base", steps(|_, factors| factors[0] += 1)),
        noticed("grade 4", steps(|_, factors| factors[1] += 1)),
        noticed("grade 12", steps(|_, factors| factors[2] += 1)),
        noticed("grade 4", steps(|most, _| most[0] += 1)),
        noticed("grade 3", steps(|most, _| most[0] -= 1)),
        noticed("grade 7", steps(|most, _| most[1] += 1)),
        noticed("grade 6", steps(|most, _| most[1] -= 1)),
        noticed("driveways at 1, count 4", |m| {
            m.segment.driveway_fewest -= 1
        }),
        noticed("driveways at 1, count 6", |m| {
            m.segment.driveway_fewest += 2
        }),
    ]
}

/// Every number of a kind of crossing, by its place in the model.
fn changes_of_crossing(name: &str, of: fn(&mut Model) -> &mut CrossingModel) -> Vec<Noticed> {
    let named = |what: &str| format!("{name} {what}");
    let mut changes = vec![
        noticed(named("base"), move |m| of(m).base_exponent.0 += 1),
        noticed(named("power of major"), move |m| of(m).major_power += 1),
        noticed(named("power of minor"), move |m| of(m).minor_power += 1),
        noticed(named("power of major"), move |m| of(m).power_unit += 1),
        noticed(named("left-turn lanes 1"), move |m| of(m).left_turn[1] += 1),
        noticed(named("right-turn lanes 1"), move |m| {
            of(m).right_turn[1] += 1
        }),
        noticed(named("base"), move |m| of(m).left_turn[0] += 1),
        noticed(named("base"), move |m| of(m).right_turn[0] += 1),
        noticed(named("k at observed 0"), move |m| {
            of(m).overdispersion.0 += 1
        }),
        noticed(named("k at observed 500"), move |m| {
            of(m).overdispersion.0 += 1
        }),
    ];
    if name != "3st" {
        changes.extend([
            noticed(named("left-turn lanes 2"), move |m| of(m).left_turn[2] += 1),
            noticed(named("right-turn lanes 2"), move |m| {
                of(m).right_turn[2] += 1
            }),
        ]);
    }
    if name != "4sg" {
        changes.push(noticed(named("skew 1"), move |m| {
            of(m).skew_slope.as_mut().expect("a slope").0 += 1
        }));
    }
    changes
}

/// Every change of an edition's model.
fn changes(edition: u8) -> Vec<Noticed> {
    let of_edition = match edition {
        EDITION_ONE => changes_of_edition_one(),
        _ => changes_of_edition_two(),
    };
    let groups = [
        changes_of_traffic_limits(),
        changes_of_width_classes(),
        changes_of_widths(),
        changes_of_curves(),
        changes_of_segments(),
        changes_of_crossing("3st", |m| &mut m.three_leg_stop),
        changes_of_crossing("4st", |m| &mut m.four_leg_stop),
        changes_of_crossing("4sg", |m| &mut m.four_leg_signal),
        of_edition,
    ];
    groups.into_iter().flatten().collect()
}

#[test]
fn notice_every_number_of_each_model() {
    for edition in EDITIONS {
        for (start, change) in changes(edition) {
            let mut model = *Model::of_edition(edition);
            change(&mut model);
            let start = worked::named(edition, &start);
            assert!(!faults_of(&model, &start).is_empty(), "{start}");
        }
    }
}

/// Every number of a model's record with its field's name. Of a fraction it is the
/// number above.
fn numbers(model: &Model) -> Vec<(String, i64)> {
    let text = format!("{model:#?}");
    let lines: Vec<&str> = text.lines().map(str::trim).collect();
    let (mut numbers, mut field) = (Vec::new(), "");
    for (at, line) in lines.iter().enumerate() {
        let (name, value) = line.split_once(": ").unwrap_or((field, line));
        field = name;
        let is_below = at >= 2 && lines[at - 2].ends_with("Fraction(");
        if let (Ok(number), false) = (value.trim_end_matches(',').parse(), is_below) {
            numbers.push((field.to_string(), number));
        }
    }
    numbers
}

/// What the other test rests on: each change is of one number, and together they
/// are of every number but those that no site reads, a second turn lane of a
/// 3ST, sight of a 4SG, and in edition 2 sight of each crossing.
#[test]
fn every_number_of_each_model_is_changed() {
    for edition in EDITIONS {
        let own = Model::of_edition(edition);
        let before = numbers(own);
        let mut left: BTreeSet<usize> = (0..before.len()).collect();
        for (start, change) in changes(edition) {
            let mut model = *own;
            change(&mut model);
            let after = numbers(&model);
            let places = (0..before.len()).filter(|at| before[*at] != after[*at]);
            let [place] = places.collect::<Vec<_>>()[..] else {
                panic!("{start} is not a change of one number");
            };
            left.remove(&place);
        }
        let left: Vec<&str> = left.iter().map(|at| before[*at].0.as_str()).collect();
        let sights = if edition == EDITION_ONE { 1 } else { 3 };
        let unread = ["left_turn", "right_turn"].into_iter();
        let unread: Vec<&str> = unread.chain(repeat_n("sight_step", sights)).collect();
        assert_eq!(left, unread);
    }
}
