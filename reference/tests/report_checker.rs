//! The checker takes a right report and rejects each kind of wrong one.

use reference::checker::{report_faults, site_line_faults, Fault, Line, Pair, Wrong};
use reference::estimates::Estimates;
use reference::generate::{largest_project, project, Random};
use reference::prediction::{self, expected_pair, predicted, totals};
use reference::project::{Header, Project};
use reference::record::Site;
use reference::rules::{
    rules, Field, EDITIONS, EDITION_ONE, EDITION_TWO, FOUR_LEG_SIGNAL, FOUR_LEG_STOP, SEGMENT,
    THREE_LEG_STOP, TRAFFIC_FIELDS,
};

const DEPTHS: [u32; 3] = [1, 3, 9];

/// One site of each kind; the first and the last have a history.
fn sample(edition: u8) -> Project {
    let header = Header {
        edition,
        years: 5,
        segment_calibration: 1_100,
        crossing_calibration: 900,
    };
    let segment = Site::plain(edition, SEGMENT, 8_000, 2_500)
        .with(Field::Driveways, 20)
        .with(Field::HazardRating, 1)
        .with(Field::Observed, 60);
    let signal = Site::plain(edition, FOUR_LEG_SIGNAL, 10_000, 1_000).with(Field::Observed, 5);
    let sites = vec![
        segment,
        Site::plain(edition, THREE_LEG_STOP, 4_000, 300).with(Field::Skew, 20),
        Site::plain(edition, FOUR_LEG_STOP, 4_000, 300),
        signal,
    ];
    Project { header, sites }
}

fn samples() -> [Project; 2] {
    EDITIONS.map(sample)
}

fn report(project: &Project, depth: u32) -> Vec<u64> {
    prediction::report(project.header.model(), project, depth)
}

fn faults(project: &Project, numbers: &[u64]) -> Vec<Fault> {
    report_faults(project.header.model(), project, numbers, &DEPTHS)
}

fn site_fault(index: usize, wrong: Wrong) -> Fault {
    let line = Line::Site(index);
    Fault { line, wrong }
}

fn total_fault(wrong: Wrong) -> Fault {
    let line = Line::Totals;
    Fault { line, wrong }
}

/// The report with its totals made anew.
fn with_totals(mut numbers: Vec<u64>) -> Vec<u64> {
    let lines = numbers.len() - 4;
    let sums = totals(&numbers[..lines]);
    numbers[lines..].copy_from_slice(&sums);
    numbers
}

#[test]
fn right_reports_have_no_faults() {
    for project in samples() {
        for depth in [6, 9, 12] {
            let report = report(&project, depth);
            assert_eq!(faults(&project, &report), []);
        }
    }
}

#[test]
fn generated_projects_have_no_faults() {
    let mut random = Random::new(21);
    for _ in 0..60 {
        let project = project(&mut random);
        let report = report(&project, 9);
        assert_eq!(
            report_faults(project.header.model(), &project, &report, &[1, 2, 3, 6, 9]),
            []
        );
    }
}

#[test]
fn the_largest_project_has_no_faults() {
    let project = largest_project(&mut Random::new(23));
    let right = report(&project, 9);
    assert_eq!(
        report_faults(project.header.model(), &project, &right, &[9]),
        []
    );
    let mut off = right;
    let last = off.len() - 8;
    off[last] += 1_000_000_000;
    assert!(!report_faults(project.header.model(), &project, &off, &[9]).is_empty());
}

#[test]
fn the_empty_project_has_zeros_only() {
    for edition in EDITIONS {
        let project = Project {
            sites: Vec::new(),
            ..sample(edition)
        };
        assert_eq!(faults(&project, &[0; 4]), []);
        let wrong = faults(&project, &[1, 1, 0, 0]);
        assert!(wrong.contains(&total_fault(Wrong::NotSum(0))));
        assert!(wrong.contains(&total_fault(Wrong::LowAboveOver(Pair::Predicted, 9))));
    }
}

#[test]
fn zeros_are_rejected() {
    for project in samples() {
        let wrong = faults(&project, &vec![0; project.report_length()]);
        for index in 0..4 {
            for pair in [Pair::Predicted, Pair::Expected] {
                assert!(wrong.contains(&site_fault(index, Wrong::HighBelowUnder(pair, 9))));
            }
        }
        assert!(wrong.contains(&total_fault(Wrong::HighBelowUnder(Pair::Predicted, 1))));
        assert!(wrong.contains(&total_fault(Wrong::HighBelowUnder(Pair::Expected, 9))));
    }
}

#[test]
fn a_pair_from_zero_to_the_top_is_rejected() {
    for project in samples() {
        let top = [0, u64::MAX, 0, u64::MAX];
        let wrong = faults(&project, &top.repeat(5));
        for index in 0..4 {
            assert!(wrong.contains(&site_fault(index, Wrong::Wide(Pair::Predicted))));
            assert!(wrong.contains(&site_fault(index, Wrong::Wide(Pair::Expected))));
        }
        assert!(wrong.contains(&total_fault(Wrong::Wide(Pair::Predicted))));
    }
}

#[test]
fn the_first_site_only_is_rejected() {
    for project in samples() {
        let right = report(&project, 9);
        let mut first_only = vec![0; right.len()];
        first_only[..4].copy_from_slice(&right[..4]);
        let wrong = faults(&project, &with_totals(first_only));
        assert!(!wrong.iter().any(|fault| fault.line == Line::Site(0)));
        assert!(wrong.contains(&site_fault(1, Wrong::HighBelowUnder(Pair::Predicted, 1))));
        let short = &right[..right.len() - 4];
        let count = Fault {
            line: Line::Report,
            wrong: Wrong::Count,
        };
        assert_eq!(faults(&project, short), [count]);
    }
}

#[test]
fn swapped_numbers_and_lines_are_rejected() {
    for project in samples() {
        let right = report(&project, 9);
        let mut swapped = right.clone();
        swapped.swap(4, 5);
        assert!(
            faults(&project, &swapped).contains(&site_fault(1, Wrong::Crossed(Pair::Predicted)))
        );
        let mut lines = right.clone();
        let (first, second) = lines.split_at_mut(8);
        first[4..].swap_with_slice(&mut second[..4]);
        let wrong = faults(&project, &lines);
        assert!(wrong.iter().all(|fault| fault.line != Line::Totals));
        assert!(wrong.iter().any(|fault| fault.line == Line::Site(1)));
        assert!(wrong.iter().any(|fault| fault.line == Line::Site(2)));
    }
}

#[test]
fn a_total_off_by_one_is_rejected() {
    for project in samples() {
        let right = report(&project, 9);
        for column in 0..4 {
            for step in [1, u64::MAX] {
                let mut off = right.clone();
                let at = off.len() - 4 + column;
                off[at] = off[at].wrapping_add(step);
                assert!(faults(&project, &off).contains(&total_fault(Wrong::NotSum(column))));
            }
        }
    }
}

#[test]
fn an_expected_number_rounded_the_other_way_is_rejected() {
    // The low is rounded down and the high up; one more or less is wrong.
    for project in samples() {
        let right = report(&project, 9);
        for (at, step) in [(12 + 2, 1), (12 + 3, u64::MAX), (2, 1), (3, u64::MAX)] {
            let mut off = right.clone();
            off[at] = off[at].wrapping_add(step);
            let wrong = faults(&project, &with_totals(off));
            assert!(wrong.contains(&site_fault(at / 4, Wrong::NotFromPredicted)));
        }
    }
}

#[test]
fn without_history_the_expected_pair_is_the_predicted() {
    for project in samples() {
        let mut off = report(&project, 9);
        off[6] -= 1;
        let wrong = faults(&project, &with_totals(off));
        assert_eq!(wrong, [site_fault(1, Wrong::NotFromPredicted)]);
    }
}

#[test]
fn history_read_as_none_is_rejected() {
    for project in samples() {
        let mut off = report(&project, 9);
        off.copy_within(0..2, 2);
        let wrong = faults(&project, &with_totals(off));
        assert!(wrong.contains(&site_fault(0, Wrong::NotFromPredicted)));
        assert!(wrong.contains(&site_fault(0, Wrong::HighBelowUnder(Pair::Expected, 9))));
    }
}

#[test]
fn an_expected_pair_beyond_the_history_is_rejected() {
    for project in samples() {
        let mut off = report(&project, 9);
        off[3] = 60_000_001;
        let wrong = faults(&project, &with_totals(off));
        assert!(wrong.contains(&site_fault(0, Wrong::NotBetween)));
        assert!(wrong.contains(&site_fault(0, Wrong::NotFromPredicted)));
    }
}

/// A report whose predicted pair of one site is moved, all else following.
fn moved(project: &Project, index: usize, low: i64, high: i64) -> Vec<u64> {
    let mut numbers = report(project, 9);
    let line = &mut numbers[4 * index..4 * index + 4];
    line[0] = line[0].saturating_add_signed(low);
    line[1] = line[1].saturating_add_signed(high);
    let site = &project.sites[index];
    let (low, high) = expected_pair(project.header.model(), site, line[0], line[1]);
    line[2] = low.to_u64().expect("a number of millionths");
    line[3] = high.to_u64().expect("a number of millionths");
    with_totals(numbers)
}

#[test]
fn a_pair_may_be_as_wide_as_the_demand_says_and_no_wider() {
    for project in samples() {
        for index in 0..4 {
            let right = report(&project, 9);
            let (low, high) = (right[4 * index], right[4 * index + 1]);
            // The most by which the low may fall: 4 + high / 1,000,000 in all.
            let room = 4 + (high / 1_000_000) as i64 - (high - low) as i64;
            assert_eq!(faults(&project, &moved(&project, index, -room, 0)), []);
            let wrong = faults(&project, &moved(&project, index, -room - 1, 0));
            assert!(wrong.contains(&site_fault(index, Wrong::Wide(Pair::Predicted))));
        }
    }
}

#[test]
fn a_pair_beside_the_exact_figure_is_rejected() {
    for project in samples() {
        for index in 0..4 {
            let wrong = faults(&project, &moved(&project, index, 2, 2));
            assert!(wrong.contains(&site_fault(index, Wrong::LowAboveOver(Pair::Predicted, 9))));
            let wrong = faults(&project, &moved(&project, index, -2, -2));
            assert!(wrong.contains(&site_fault(
                index,
                Wrong::HighBelowUnder(Pair::Predicted, 9)
            )));
        }
        // The totals are judged against the sums of the estimates too.
        let wrong = faults(&project, &moved(&project, 0, 4, 4));
        assert!(wrong.contains(&total_fault(Wrong::LowAboveOver(Pair::Predicted, 9))));
        let wrong = faults(&project, &moved(&project, 0, -4, -4));
        assert!(wrong.contains(&total_fault(Wrong::HighBelowUnder(Pair::Predicted, 9))));
    }
}

#[test]
fn totals_have_a_width_of_their_own() {
    // Two sites of no width at all, and totals wide by more than 8 + high's
    // part: only the totals' width can tell.
    for Project { header, sites } in samples() {
        let sites = vec![sites[1]; 2];
        let project = Project { header, sites };
        let mut off = report(&project, 9);
        off[8] -= 100;
        assert!(faults(&project, &off).contains(&total_fault(Wrong::Wide(Pair::Predicted))));
        off[8] += 100;
        off[11] += 200;
        assert!(faults(&project, &off).contains(&total_fault(Wrong::Wide(Pair::Expected))));
    }
}

#[test]
fn one_report_for_every_project_is_rejected() {
    let mut random = Random::new(22);
    let project = sample(EDITION_ONE);
    let right = report(&project, 9);
    for field in [
        Field::Traffic,
        Field::LaneWidth,
        Field::Grade,
        Field::HazardRating,
    ] {
        let mut other = project.clone();
        let rule = rules(EDITION_ONE, SEGMENT)
            .and_then(|rules| rules.iter().find(|rule| rule.field == field).copied())
            .expect("a field of a segment");
        let before = other.sites[0].get(field);
        while other.sites[0].get(field) == before {
            let value = random.between(rule.low, rule.high);
            // Widths from 12 feet up are one column.
            other.sites[0].set(
                field,
                Some(value)
                    .filter(|v| field != Field::LaneWidth || *v < 12)
                    .or(before),
            );
        }
        assert!(!faults(&other, &right).is_empty(), "{field:?}");
    }
}

/// The same sites have another report in each edition.
#[test]
fn a_report_of_the_other_edition_is_rejected() {
    for (edition, other) in [(EDITION_ONE, EDITION_TWO), (EDITION_TWO, EDITION_ONE)] {
        let project = sample(edition);
        let wrong = faults(&project, &report(&sample(other), 9));
        for index in 0..project.sites.len() {
            assert!(wrong.iter().any(|fault| fault.line == Line::Site(index)));
        }
    }
}

/// Whether a line is said to be too wide in its predicted and expected pair.
fn too_wide(wrongs: &[Wrong]) -> (bool, bool) {
    let wide = |pair| wrongs.contains(&Wrong::Wide(pair));
    (wide(Pair::Predicted), wide(Pair::Expected))
}

/// The widths of a site that counts as so many sites, with its crashes counted
/// as so many, are 4 for each site and 8 for each of both, and a millionth of
/// high: a high whose millionth is a whole number and one that falls just short
/// of it.
fn assert_widths(header: &Header, site: &Site, [sites, crashes]: [u64; 2]) {
    let case = (header, site);
    for (high, part) in [(7_000_000, 7), (6_999_999, 6)] {
        let (predicted, expected) = (4 * sites + part, 8 * (sites + crashes) + part);
        let line = |more: u64| {
            let lows = [high - predicted - more, high - expected - more];
            let numbers = [lows[0], high, lows[1], high];
            site_line_faults(header.model(), header.years, site, &numbers)
        };
        assert_eq!(too_wide(&line(0)), (false, false), "{case:?}");
        assert_eq!(too_wide(&line(1)), (true, true), "{case:?}");
    }
}

/// A header of an edition and so many years.
fn over(edition: u8, years: u8) -> Header {
    let header = sample(edition).header;
    Header { years, ..header }
}

/// With traffic year by year "such a site counts as Y sites, and each of its
/// observed crashes as Y".
#[test]
fn a_sites_widths_end_where_the_demand_says() {
    for edition in EDITIONS {
        let signal = Site::plain(edition, FOUR_LEG_SIGNAL, 10_000, 1_000);
        let yearly = |years: u8| of_years(signal, years);
        for (site, years, count) in [
            (signal, 1, 1),
            (signal, 10, 1),
            (yearly(2), 2, 2),
            (yearly(10), 10, 10),
        ] {
            let header = over(edition, years);
            assert_widths(&header, &site, [count, 0]);
            for observed in [0, 1, 5, 500] {
                let counted = [count, count * u64::from(observed)];
                assert_widths(&header, &site.with(Field::Observed, observed), counted);
            }
        }
    }
}

/// "For the expected width in edition 2, an observed crash on a segment counts
/// 1 + k times, rounded up": the length, the crashes and what they count with one
/// traffic, rounded up once for the site, and year by year in 2 and in 10 years.
const SEGMENT_CRASHES: [(u16, u16, [u64; 3]); 6] = [
    // k is 1.
    (236, 5, [10, 20, 100]),
    // k is 0.236: 6.18, 12.36 and 61.8.
    (1_000, 5, [7, 13, 62]),
    // 1.236, 2.472 and 12.36.
    (1_000, 1, [2, 3, 13]),
    // k is 0.0118: 505.9, 1,011.8 and 5,059.
    (20_000, 500, [506, 1_012, 5_059]),
    // k is 236.
    (1, 100, [23_700, 47_400, 237_000]),
    (1, 0, [0, 0, 0]),
];

#[test]
fn a_segments_crashes_count_more_in_edition_two() {
    for (length, observed, counted) in SEGMENT_CRASHES {
        let plain = Site::plain(EDITION_ONE, SEGMENT, 5_000, length);
        let site = plain.with(Field::Observed, observed);
        let cases = [
            (site, 10, 1),
            (of_years(site, 2), 2, 2),
            (of_years(site, 10), 10, 10),
        ];
        for ((site, years, sites), counted) in cases.into_iter().zip(counted) {
            let once = sites * u64::from(observed);
            assert_widths(&over(EDITION_ONE, years), &site, [sites, once]);
            assert_widths(&over(EDITION_TWO, years), &site, [sites, counted]);
        }
    }
}

/// The totals' widths of a project, as those of a site.
fn assert_totals_widths(project: &Project, [sites, crashes]: [u64; 2]) {
    let (high, part) = (9_000_000, 9);
    let totals = |more: u64| {
        let mut numbers = vec![0; 4 * project.sites.len()];
        let predicted = 4 * sites + part + more;
        let expected = 8 * (sites + crashes) + part + more;
        numbers.extend([high - predicted, high, high - expected, high]);
        let faults = report_faults(project.header.model(), project, &numbers, &[]);
        let of_totals = faults.iter().filter(|fault| fault.line == Line::Totals);
        of_totals.map(|fault| fault.wrong).collect::<Vec<_>>()
    };
    assert_eq!(too_wide(&totals(0)), (false, false));
    assert_eq!(too_wide(&totals(1)), (true, true));
}

#[test]
fn the_totals_widths_end_where_the_demand_says() {
    // Four sites with 65 observed crashes: 16 and 8 (4 + 65), and high's part.
    // The signal of five crashes year by year in five years counts as five sites
    // and its crashes as 25: 32 and 8 (8 + 85). In edition 2 the segment of 2.5
    // miles has k = 0.0944, and its 60 crashes count 65.664, which is 66.
    for (edition, plain, yearly) in [(EDITION_ONE, 65, 85), (EDITION_TWO, 71, 91)] {
        let mut project = sample(edition);
        assert_totals_widths(&project, [4, plain]);
        project.sites[3] = of_years(project.sites[3], project.header.years);
        assert_totals_widths(&project, [8, yearly]);
        // Rounded up once over all sites: two miles with five crashes each count
        // 6.18 each, so 12.36 and 13 together, not 7 and 7.
        let mile = Site::plain(edition, SEGMENT, 5_000, 1_000).with(Field::Observed, 5);
        project.sites = vec![mile; 2];
        let counted = if edition == EDITION_ONE { 10 } else { 13 };
        assert_totals_widths(&project, [2, counted]);
        // 1,200 segments of 20 miles with a crash each count 1.0118 each, so
        // 1,214.16.
        let long = Site::plain(edition, SEGMENT, 5_000, 20_000).with(Field::Observed, 1);
        project.sites = vec![long; 1_200];
        let counted = if edition == EDITION_ONE { 1_200 } else { 1_215 };
        assert_totals_widths(&project, [1_200, counted]);
    }
}

/// A site with more traffic every year.
fn of_years(site: Site, years: u8) -> Site {
    let rising = |field| {
        let first = site.get(field)?;
        Some(
            (0..u16::from(years))
                .map(|more| first + 100 * more)
                .collect(),
        )
    };
    TRAFFIC_FIELDS.iter().fold(site, |site, field| {
        let traffic: Option<Vec<u16>> = rising(*field);
        traffic.map_or(site, |traffic| site.with_years(*field, &traffic))
    })
}

/// The samples with traffic year by year at every site.
fn yearly_samples() -> [Project; 2] {
    samples().map(|Project { header, sites }| {
        let yearly = |site: &Site| of_years(*site, header.years);
        let sites = sites.iter().map(yearly).collect();
        Project { header, sites }
    })
}

/// The exact sums of one-year predictions, each with that year's traffic.
#[test]
fn a_prediction_is_the_sum_of_its_years() {
    for Project { header, sites } in yearly_samples() {
        let one = Header { years: 1, ..header };
        for site in &sites {
            for depth in DEPTHS {
                let years = (1..=header.years.into()).map(|year| site.in_year(year));
                let model = header.model();
                let sum = Estimates::sum(years.map(|year| predicted(model, &one, &year, depth)));
                assert_eq!(predicted(model, &header, site, depth), sum);
            }
        }
    }
}

/// A report whose predicted pairs are the sums of the years' pairs, each rounded
/// outward.
fn by_years(project: &Project) -> Vec<u64> {
    let one = Header {
        years: 1,
        ..project.header
    };
    let mut numbers = Vec::new();
    for site in &project.sites {
        let terms = site.terms(project.header.years);
        let sites = terms.into_iter().map(|(_, year)| year).collect();
        let years = report(&Project { header: one, sites }, 9);
        let [low, high] = [0, 1].map(|at| years[years.len() - 4 + at]);
        let (expected_low, expected_high) = expected_pair(one.model(), site, low, high);
        let expected = [expected_low, expected_high].map(|end| end.to_u64().expect("millionths"));
        numbers.extend([[low, high], expected].concat());
    }
    let totals = totals(&numbers);
    numbers.extend(totals);
    numbers
}

#[test]
fn yearly_reports_have_no_faults() {
    for project in yearly_samples() {
        assert_eq!(faults(&project, &report(&project, 9)), []);
        let summed = by_years(&project);
        assert_eq!(faults(&project, &summed), []);
        // One year's width would not do for such a pair.
        assert!(summed.chunks(4).any(|line| line[1] - line[0] > 4));
    }
}

/// Engines that take the first year throughout, leave out the last year, or
/// count on with the last.
#[test]
fn yearly_sites_taken_otherwise_are_rejected() {
    for project in yearly_samples() {
        let header = project.header;
        let of_plain = |year: usize| Project {
            header,
            sites: project
                .sites
                .iter()
                .map(|site| site.in_year(year))
                .collect(),
        };
        let shorter = Project {
            header: Header {
                years: header.years - 1,
                ..header
            },
            sites: project.sites.clone(),
        };
        for other in [of_plain(1), of_plain(5), of_plain(3), shorter] {
            let wrong = faults(&project, &report(&other, 9));
            for index in 0..project.sites.len() {
                assert!(wrong.iter().any(|fault| fault.line == Line::Site(index)));
            }
        }
    }
}

#[test]
fn a_yearly_pair_may_be_as_wide_as_its_years_and_no_wider() {
    for project in yearly_samples() {
        for index in 0..4 {
            let right = report(&project, 9);
            let (low, high) = (right[4 * index], right[4 * index + 1]);
            // 4 for each of five years, and the millionth of high.
            let room = 20 + (high / 1_000_000) as i64 - (high - low) as i64;
            assert_eq!(faults(&project, &moved(&project, index, -room, 0)), []);
            let wrong = faults(&project, &moved(&project, index, -room - 1, 0));
            assert!(wrong.contains(&site_fault(index, Wrong::Wide(Pair::Predicted))));
        }
    }
}
