//! Tests a report against its project: document 01's claim about the lines
//! and the totals, with the estimates taken at chosen depths.

use crate::model::Model;
use crate::natural::Natural;
use crate::prediction::{expected_pair, site_estimates, SiteEstimates, MILLION};
use crate::project::Project;
use crate::rational::Rational;
use crate::record::Site;
use crate::sum::Sum;
use std::cmp::Ordering;
use std::fmt;

/// Where a fault is: a site's line, the line of totals, or the whole report.
/// Sites are counted from 0 here, and from 1 in words.
#[derive(Clone, Copy, Debug, PartialEq, Eq)]
pub enum Line {
    Site(usize),
    Totals,
    Report,
}

/// Which pair of a line.
#[derive(Clone, Copy, Debug, PartialEq, Eq)]
pub enum Pair {
    Predicted,
    Expected,
}

/// What is wrong.
#[derive(Clone, Copy, Debug, PartialEq, Eq)]
pub enum Wrong {
    /// The report has not four numbers for each site and four totals.
    Count,
    /// A low passes its high.
    Crossed(Pair),
    /// A pair is wider than allowed.
    Wide(Pair),
    /// A low is above the over-estimate at a depth.
    LowAboveOver(Pair, u32),
    /// A high is below the under-estimate at a depth.
    HighBelowUnder(Pair, u32),
    /// The expected pair is not the one of the predicted pair.
    NotFromPredicted,
    /// An expected number is not between the predicted one and the history.
    NotBetween,
    /// A total is not the sum of its column (0 to 3).
    NotSum(usize),
}

#[derive(Clone, Copy, Debug, PartialEq, Eq)]
pub struct Fault {
    pub line: Line,
    pub wrong: Wrong,
}

impl fmt::Display for Fault {
    fn fmt(&self, f: &mut fmt::Formatter<'_>) -> fmt::Result {
        match self.line {
            Line::Site(index) => write!(f, "site {}: {:?}", index + 1, self.wrong),
            Line::Totals => write!(f, "totals: {:?}", self.wrong),
            Line::Report => write!(f, "report: {:?}", self.wrong),
        }
    }
}

/// The part of its high that a pair may be wide: document 02, request 8, "get a
/// millionth of high in its place".
pub const WIDTH_PARTS: u64 = 1_000_000;
/// What a predicted pair may be wider for each site.
pub const PREDICTED_EACH: u64 = 4;
/// What an expected pair may be wider for each site and for each time that an
/// observed crash counts.
pub const EXPECTED_EACH: u64 = 8;

/// What a pair's width may be apart from its part of high.
struct Allowance {
    predicted: u128,
    expected: u128,
}

/// What sites and their observed crashes count for in the widths.
struct Counted {
    sites: u64,
    crashes: Rational,
}

impl Counted {
    /// A site counts once for each term of its prediction, and each of its
    /// observed crashes as often, times the crash's weight.
    fn of_site(model: &Model, site: &Site, years: u8) -> Counted {
        let sites = site.terms(years).len() as u64;
        let crashes = Rational::whole(sites * site.observed().unwrap_or(0));
        Counted {
            sites,
            crashes: &crashes * &model.crash_weight(site),
        }
    }

    /// All sites of a project.
    fn of_project(model: &Model, project: &Project) -> Counted {
        let none = Counted {
            sites: 0,
            crashes: Rational::zero(),
        };
        project.sites.iter().fold(none, |sum, site| {
            let more = Counted::of_site(model, site, project.header.years);
            Counted {
                sites: sum.sites + more.sites,
                crashes: &sum.crashes + &more.crashes,
            }
        })
    }

    /// What the crashes count is rounded up once, for a site or for the totals.
    fn allowance(&self) -> Allowance {
        let crashes = self.crashes.ceil_scaled(&Natural::one());
        let crashes = crashes.to_u64().expect("a count of crashes");
        Allowance {
            predicted: u128::from(PREDICTED_EACH * self.sites),
            expected: u128::from(EXPECTED_EACH * (self.sites + crashes)),
        }
    }
}

/// high - low is at most the allowance and high's part.
fn narrow(low: u64, high: u64, allowance: u128) -> bool {
    let parts = u128::from(WIDTH_PARTS);
    let width = u128::from(high.saturating_sub(low));
    parts * width <= parts * allowance + u128::from(high)
}

/// Order and width of a line's two pairs.
fn pair_faults(numbers: &[u64], allowance: &Allowance) -> Vec<Wrong> {
    let pairs = [
        (Pair::Predicted, numbers[0], numbers[1], allowance.predicted),
        (Pair::Expected, numbers[2], numbers[3], allowance.expected),
    ];
    let mut faults = Vec::new();
    for (pair, low, high, allowance) in pairs {
        if low > high {
            faults.push(Wrong::Crossed(pair));
        }
        if !narrow(low, high, allowance) {
            faults.push(Wrong::Wide(pair));
        }
    }
    faults
}

/// Whether an expected number lies between the predicted one and the history.
fn between(expected: u64, predicted: u64, observed: u64) -> bool {
    let history = observed * MILLION;
    predicted.min(history) <= expected && expected <= predicted.max(history)
}

/// The rules that tie a site's expected pair to its predicted pair.
fn history_faults(model: &Model, site: &Site, numbers: &[u64]) -> Vec<Wrong> {
    let mut faults = Vec::new();
    let (low, high) = expected_pair(model, site, numbers[0], numbers[1]);
    if (low, high) != (numbers[2].into(), numbers[3].into()) {
        faults.push(Wrong::NotFromPredicted);
    }
    if let Some(observed) = site.observed() {
        let held = between(numbers[2], numbers[0], observed);
        if !(held && between(numbers[3], numbers[1], observed)) {
            faults.push(Wrong::NotBetween);
        }
    }
    faults
}

/// Compares an estimate, taken in millionths, with a whole number.
type Compare<'a> = &'a dyn Fn(u64) -> Ordering;

/// A low is at most the over-estimate, a high at least the under-estimate.
fn standing_faults(pair: Pair, ends: [(u64, Compare); 2], depth: u32) -> Vec<Wrong> {
    let [(low, over), (high, under)] = ends;
    let mut faults = Vec::new();
    if over(low) == Ordering::Less {
        faults.push(Wrong::LowAboveOver(pair, depth));
    }
    if under(high) == Ordering::Greater {
        faults.push(Wrong::HighBelowUnder(pair, depth));
    }
    faults
}

fn in_millionths(estimate: &Rational) -> Rational {
    estimate * &Rational::whole(MILLION)
}

/// Every fault of a site's four numbers against its estimates, which were
/// taken at this depth.
pub fn site_standing_faults(numbers: &[u64], estimates: &SiteEstimates, depth: u32) -> Vec<Wrong> {
    let pairs = [
        (Pair::Predicted, &estimates.predicted, &numbers[..2]),
        (Pair::Expected, &estimates.expected, &numbers[2..]),
    ];
    let mut faults = Vec::new();
    for (pair, estimates, ends) in pairs {
        let over = |number| in_millionths(&estimates.over).cmp(&Rational::whole(number));
        let under = |number| in_millionths(&estimates.under).cmp(&Rational::whole(number));
        let ends: [(u64, Compare); 2] = [(ends[0], &over), (ends[1], &under)];
        faults.extend(standing_faults(pair, ends, depth));
    }
    faults
}

/// The project's estimates in millionths, as sums over its sites.
#[derive(Default)]
struct ProjectSums {
    predicted_under: Sum,
    predicted_over: Sum,
    expected_under: Sum,
    expected_over: Sum,
}

impl ProjectSums {
    fn push(&mut self, site: &SiteEstimates) {
        let SiteEstimates {
            predicted,
            expected,
        } = site;
        self.predicted_under.push(in_millionths(&predicted.under));
        self.predicted_over.push(in_millionths(&predicted.over));
        self.expected_under.push(in_millionths(&expected.under));
        self.expected_over.push(in_millionths(&expected.over));
    }

    /// The four totals against the sums at a depth.
    fn standing(&self, totals: &[u64], depth: u32) -> Vec<Wrong> {
        let pairs = [
            (
                Pair::Predicted,
                &self.predicted_over,
                &self.predicted_under,
                &totals[..2],
            ),
            (
                Pair::Expected,
                &self.expected_over,
                &self.expected_under,
                &totals[2..],
            ),
        ];
        let mut faults = Vec::new();
        for (pair, over, under, ends) in pairs {
            let over = |number: u64| over.compare(&Natural::from(number));
            let under = |number: u64| under.compare(&Natural::from(number));
            let ends: [(u64, Compare); 2] = [(ends[0], &over), (ends[1], &under)];
            faults.extend(standing_faults(pair, ends, depth));
        }
        faults
    }
}

/// The totals that are not the exact sums of their columns.
fn sum_faults(lines: &[u64], totals: &[u64]) -> Vec<Wrong> {
    let mut sums = [0u128; 4];
    for (i, number) in lines.iter().enumerate() {
        sums[i % 4] += u128::from(*number);
    }
    let wrong = |column: &usize| sums[*column] != u128::from(totals[*column]);
    (0..4).filter(wrong).map(Wrong::NotSum).collect()
}

/// Every fault of a site's four numbers over so many years that shows without
/// estimates: order, widths and the expected pair.
pub fn site_line_faults(model: &Model, years: u8, site: &Site, numbers: &[u64]) -> Vec<Wrong> {
    let mut faults = pair_faults(numbers, &Counted::of_site(model, site, years).allowance());
    faults.extend(history_faults(model, site, numbers));
    faults
}

/// Faults that need no estimates: count, order, widths, expected pairs, sums.
fn shape_faults(model: &Model, project: &Project, report: &[u64]) -> Vec<Fault> {
    let mut faults = Vec::new();
    let (lines, totals) = report.split_at(4 * project.sites.len());
    for (index, (site, numbers)) in project.sites.iter().zip(lines.chunks(4)).enumerate() {
        let line = Line::Site(index);
        let wrongs = site_line_faults(model, project.header.years, site, numbers);
        faults.extend(wrongs.into_iter().map(|wrong| Fault { line, wrong }));
    }
    let mut wrongs = pair_faults(totals, &Counted::of_project(model, project).allowance());
    wrongs.extend(sum_faults(lines, totals));
    let line = Line::Totals;
    faults.extend(wrongs.into_iter().map(|wrong| Fault { line, wrong }));
    faults
}

/// Faults against the estimates at one depth.
fn depth_faults(model: &Model, project: &Project, report: &[u64], depth: u32) -> Vec<Fault> {
    let mut faults = Vec::new();
    let mut sums = ProjectSums::default();
    let (lines, totals) = report.split_at(4 * project.sites.len());
    for (index, (site, numbers)) in project.sites.iter().zip(lines.chunks(4)).enumerate() {
        let estimates = site_estimates(model, &project.header, site, depth);
        let line = Line::Site(index);
        let wrongs = site_standing_faults(numbers, &estimates, depth);
        faults.extend(wrongs.into_iter().map(|wrong| Fault { line, wrong }));
        sums.push(&estimates);
    }
    let line = Line::Totals;
    let wrongs = sums.standing(totals, depth);
    faults.extend(wrongs.into_iter().map(|wrong| Fault { line, wrong }));
    faults
}

/// Every fault of a report, with the estimates taken at these depths. An empty
/// answer means that the report is right as far as they can tell.
pub fn report_faults(
    model: &Model,
    project: &Project,
    report: &[u64],
    depths: &[u32],
) -> Vec<Fault> {
    if report.len() != project.report_length() {
        return vec![Fault {
            line: Line::Report,
            wrong: Wrong::Count,
        }];
    }
    let mut faults = shape_faults(model, project, report);
    for &depth in depths {
        faults.extend(depth_faults(model, project, report, depth));
    }
    faults
}
