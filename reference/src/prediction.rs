//! Predicted and expected crashes: estimates at a depth, and the expected
//! pair of a predicted pair.

use crate::estimates::{exponential, exponential_of_negative, logarithm, power, Estimates};
use crate::factors;
use crate::model::{CrossingModel, KindModel, Model, SegmentModel};
use crate::natural::Natural;
use crate::project::{Header, Project};
use crate::rational::Rational;
use crate::record::Site;
use crate::rules::Field;

/// Millionths in a crash.
pub const MILLION: u64 = 1_000_000;

/// Predicted and expected estimates of a site or a project, in crashes.
#[derive(Clone, Debug)]
pub struct SiteEstimates {
    pub predicted: Estimates,
    pub expected: Estimates,
}

/// Estimates of the crashes predicted for a site over the header's years: the
/// sum of its terms. What does not rest on traffic is the same in each, so it
/// is taken out of the sum, which keeps the fractions short.
pub fn predicted(model: &Model, header: &Header, site: &Site, depth: u32) -> Estimates {
    let (constant, calibration) = match model.of_kind(site.kind) {
        KindModel::Segment(segment) => (
            segment_constant(segment, site, depth),
            header.segment_calibration,
        ),
        KindModel::Crossing(crossing) => (
            crossing_constant(crossing, site, depth),
            header.crossing_calibration,
        ),
    };
    let terms = site.terms(header.years).into_iter().map(|(years, site)| {
        let year = match model.of_kind(site.kind) {
            KindModel::Segment(segment) => segment_traffic(segment, &site, depth),
            KindModel::Crossing(crossing) => crossing_traffic(crossing, &site, depth),
        };
        year.scaled(&Rational::whole(years.into()))
    });
    Estimates::sum(terms)
        .times(&constant)
        .scaled(&Rational::of(calibration.into(), 1_000))
}

/// What of a segment's year does not rest on traffic and is no fraction.
fn segment_constant(model: &SegmentModel, site: &Site, depth: u32) -> Estimates {
    exponential_of_negative(&model.base_exponent.exact(), depth).times(&hazard(
        model,
        site.value(Field::HazardRating),
        depth,
    ))
}

/// The rest of a segment's year before calibration.
fn segment_traffic(model: &SegmentModel, site: &Site, depth: u32) -> Estimates {
    let traffic = site.value(Field::Traffic);
    let length = site.value(Field::Length);
    let exposure = &model.exposure.exact() * &Rational::of(traffic * length, 1_000);
    let exact = &exposure * &factors::of_segment(model, site);
    driveway(model, site.value(Field::Driveways), traffic, depth).scaled(&exact)
}

/// e^(0.0668 (rating - 3)); a rating below 3 makes the exponent negative.
pub fn hazard(model: &SegmentModel, rating: u64, depth: u32) -> Estimates {
    let distance = rating.abs_diff(model.hazard_base);
    let x = &model.hazard_slope.exact() * &Rational::whole(distance);
    if rating < model.hazard_base {
        exponential_of_negative(&x, depth)
    } else {
        exponential(&x, depth)
    }
}

/// The lesser and the greater of the driveway part at ln's two estimates.
fn driveway(model: &SegmentModel, driveways: u64, traffic: u64, depth: u32) -> Estimates {
    logarithm(traffic, depth).through(|log| factors::driveway(model, driveways, log))
}

/// What of a crossing's year does not rest on traffic.
fn crossing_constant(model: &CrossingModel, site: &Site, depth: u32) -> Estimates {
    exponential_of_negative(&model.base_exponent.exact(), depth)
        .times(&skew(model, site, depth))
        .scaled(&factors::of_crossing(model, site))
}

/// The powers of a crossing's two traffics in a year.
fn crossing_traffic(model: &CrossingModel, site: &Site, depth: u32) -> Estimates {
    let raised = |field, exponent| power(site.value(field), exponent, model.power_unit, depth);
    raised(Field::Traffic, model.major_power).times(&raised(Field::MinorTraffic, model.minor_power))
}

/// e^(slope skew), or 1 where skew does not count.
fn skew(model: &CrossingModel, site: &Site, depth: u32) -> Estimates {
    match model.skew_slope {
        None => Estimates::exact(Rational::one()),
        Some(slope) => {
            let degrees = Rational::whole(site.value(Field::Skew));
            exponential(&(&slope.exact() * &degrees).reduced(), depth)
        }
    }
}

/// N (1 + k O) / (1 + k N): the Empirical Bayes formula.
pub fn expected_value(predicted: &Rational, observed: u64, overdispersion: &Rational) -> Rational {
    let added = |count: &Rational| &Rational::one() + &(overdispersion * count);
    let above = predicted * &added(&Rational::whole(observed));
    &above * &added(predicted).reciprocal()
}

/// The estimates of the expected crashes at the predicted estimates.
pub fn expected(model: &Model, site: &Site, predicted: &Estimates) -> Estimates {
    let Some(observed) = site.observed() else {
        return predicted.clone();
    };
    let k = model.overdispersion(site);
    Estimates {
        under: expected_value(&predicted.under, observed, &k),
        over: expected_value(&predicted.over, observed, &k),
    }
}

/// Both estimates of a site at a depth.
pub fn site_estimates(model: &Model, header: &Header, site: &Site, depth: u32) -> SiteEstimates {
    let predicted = predicted(model, header, site, depth);
    let expected = expected(model, site, &predicted);
    SiteEstimates {
        predicted,
        expected,
    }
}

/// The expected pair that belongs to a predicted pair, all in millionths:
/// rounded down at the low, up at the high; the pair itself without history.
pub fn expected_pair(model: &Model, site: &Site, low: u64, high: u64) -> (Natural, Natural) {
    let Some(observed) = site.observed() else {
        return (low.into(), high.into());
    };
    let k = model.overdispersion(site);
    let at = |millionths| expected_value(&Rational::of(millionths, MILLION), observed, &k);
    let million = Natural::from(MILLION);
    (
        at(low).floor_scaled(&million),
        at(high).ceil_scaled(&million),
    )
}

/// A report made from the estimates at a depth, rounded outward to millionths.
/// Any report that stands and is narrow enough is as good.
pub fn report(model: &Model, project: &Project, depth: u32) -> Vec<u64> {
    let million = Natural::from(MILLION);
    let whole = |number: Natural| number.to_u64().expect("a 64-bit number of millionths");
    let mut report = Vec::with_capacity(project.report_length());
    for site in &project.sites {
        let estimates = predicted(model, &project.header, site, depth);
        let low = whole(estimates.under.floor_scaled(&million));
        let high = whole(estimates.over.ceil_scaled(&million));
        let (expected_low, expected_high) = expected_pair(model, site, low, high);
        report.extend([low, high, whole(expected_low), whole(expected_high)]);
    }
    let totals = totals(&report);
    report.extend(totals);
    report
}

/// The sums of the four columns of site lines.
pub fn totals(lines: &[u64]) -> [u64; 4] {
    let mut totals = [0; 4];
    for (i, number) in lines.iter().enumerate() {
        totals[i % 4] += number;
    }
    totals
}
