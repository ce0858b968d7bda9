//! Two sample problems of the Highway Safety Manual, first edition, Chapter 10,
//! with the crashes a year that it gives for them. The manual is not among the
//! sources; the roads and the figures are taken from its sample problems.
//!
//! It rounds each factor to two decimals on the way, so that an exact answer
//! stands within 1.5 percent of its figure and not nearer.

use crate::estimates::Estimates;
use crate::lines;
use crate::project::Header;
use crate::rational::Rational;
use crate::record::Site;
use crate::rules::EDITION_TWO;

/// A road, and the crashes a year that the manual predicts for it.
pub struct Problem {
    pub name: &'static str,
    pub header: Header,
    pub site: Site,
    /// In thousandths of a crash.
    printed: u64,
}

impl Problem {
    /// Whether a prediction stands within 1.5 percent of the printed figure.
    pub fn is_met_by(&self, found: &Estimates) -> bool {
        let share = |thousandths| Rational::of(self.printed * thousandths, 1_000_000);
        share(985) <= found.under && found.over <= share(1_015)
    }
}

/// A year with calibration 1.10.
const HEADER: Header = Header {
    edition: EDITION_TWO,
    years: 1,
    segment_calibration: 1_100,
    crossing_calibration: 1_000,
};

/// The name, the site's line and the printed figure.
const PROBLEMS: [(&str, &str, u64); 2] = [
    (
        "sample problem 1, a tangent",
        "segment traffic 10000 length 1500 lane 10 shoulder 4 shoulder-type 1 grade 2 driveways 6 \
         hazard-rating 4",
        6_084,
    ),
    (
        "sample problem 2, a curve",
        "segment traffic 8000 length 100 lane 11 shoulder 2 shoulder-type 1 curve-length 100 \
         radius 1200 deficiency 20 grade 1 driveways 0 hazard-rating 5",
        499,
    ),
];

pub fn problems() -> Vec<Problem> {
    let problem = |(name, line, printed)| Problem {
        name,
        header: HEADER,
        site: lines::site(HEADER.edition, HEADER.years, line).expect("a site's line"),
        printed,
    };
    PROBLEMS.into_iter().map(problem).collect()
}
