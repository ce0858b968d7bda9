//! The numbers of the crash model, each in one place: FHWA-RD-99-207 as document
//! 01 states it, and what Chapter 10 of the Highway Safety Manual has in place of
//! them, as document 02 states it. Another edition is another `Model`.

use crate::rational::Rational;
use crate::record::Site;
use crate::rules::{self, Field};

/// A number of the model, as a fraction of two whole numbers.
#[derive(Clone, Copy, Debug)]
pub struct Fraction(pub u64, pub u64);

impl Fraction {
    pub fn exact(self) -> Rational {
        Rational::of(self.0, self.1)
    }
}

/// Values by width in hundred-millionths: constant for light traffic, rising (or
/// falling) with traffic, constant for heavy traffic.
#[derive(Clone, Copy, Debug)]
pub struct WidthTable<const COLUMNS: usize> {
    /// Traffic below this has the light values.
    pub light_below: u64,
    /// A slope counts for each vehicle above this.
    pub slope_from: u64,
    /// Traffic above this has the heavy values.
    pub heavy_above: u64,
    pub light: [i64; COLUMNS],
    pub slope: [i64; COLUMNS],
    pub heavy: [i64; COLUMNS],
    /// The share of crashes that the width bears on: the factor is
    /// 1 + share (value - 1).
    pub share: Fraction,
}

/// The unit of the width tables.
pub const WIDTH_UNIT: u64 = 100_000_000;

/// Turns hundredths into the width tables' unit.
const fn hundredths<const N: usize>(values: [i64; N]) -> [i64; N] {
    let mut scaled = values;
    let mut i = 0;
    while i < N {
        scaled[i] *= WIDTH_UNIT as i64 / 100;
        i += 1;
    }
    scaled
}

/// The factor of a superelevation deficiency in thousandths: 1 under `under`, then
/// 1 and the first slope for each above `first_from`, above `to` `at_turn` and the
/// second slope for each above `second_from`.
#[derive(Clone, Copy, Debug)]
pub struct Superelevation {
    pub under: u64,
    pub first_from: u64,
    pub first_slope: u64,
    pub to: u64,
    pub at_turn: Fraction,
    pub second_from: u64,
    pub second_slope: u64,
}

/// The factor of a grade in percent.
#[derive(Clone, Copy, Debug)]
pub enum Grade {
    /// This to the power of the grade.
    Power(Fraction),
    /// Hundredths, the first up to and with the first of two grades, the second
    /// up to and with the other, and the third above.
    Steps { most: [u64; 2], factors: [u64; 3] },
}

/// k of a segment.
#[derive(Clone, Copy, Debug)]
pub enum SegmentOverdispersion {
    Constant(Fraction),
    /// This over the length in thousandths of a mile.
    OverLength(u64),
}

impl SegmentOverdispersion {
    fn of(self, site: &Site) -> Rational {
        match self {
            SegmentOverdispersion::Constant(k) => k.exact(),
            SegmentOverdispersion::OverLength(over) => {
                Rational::of(over, site.value(Field::Length))
            }
        }
    }
}

#[derive(Clone, Copy, Debug)]
pub struct SegmentModel {
    /// The base model is e to the power of minus this.
    pub base_exponent: Fraction,
    /// Million vehicle-miles for a vehicle a day over a mile for a year.
    pub exposure: Fraction,
    /// The most feet of each lane column but the last.
    pub lane_most: [u64; 3],
    pub lane: WidthTable<4>,
    /// The feet of the shoulder columns; the last has more feet too.
    pub shoulder_feet: [u64; 5],
    pub shoulder: WidthTable<5>,
    /// Hundredths by shoulder type and the same five widths.
    pub shoulder_type: [[u64; 5]; 4],
    /// 1.55, 80.2 and 0.012 of the curve's formula.
    pub curve_length: Fraction,
    pub curve_radius: Fraction,
    pub curve_spiral: Fraction,
    /// The formula's S is the spiral ends over this.
    pub curve_ends: u64,
    /// The least factor of a curve.
    pub curve_least: u64,
    pub superelevation: Superelevation,
    pub grade: Grade,
    /// 0.0047, 0.0024, 1.199 and 0.35 of the two-way lane's formula.
    pub two_way_linear: Fraction,
    pub two_way_square: Fraction,
    pub two_way_offset: Fraction,
    pub two_way_share: Fraction,
    pub two_way_fewest_driveways: u64,
    /// Hundredths: none, passing lane, short four-lane section.
    pub passing: [u64; 3],
    pub hazard_slope: Fraction,
    pub hazard_base: u64,
    /// 0.2, 0.05, 0.005 and 5 of the driveway part; fewer driveways than the
    /// fewest give 1.
    pub driveway_offset: Fraction,
    pub driveway_slope: Fraction,
    pub driveway_log_slope: Fraction,
    pub driveway_base: u64,
    pub driveway_fewest: u64,
    pub overdispersion: SegmentOverdispersion,
}

#[derive(Clone, Copy, Debug)]
pub struct CrossingModel {
    /// The base model is e to the power of minus this.
    pub base_exponent: Fraction,
    /// Powers of the major and the minor traffic, over `power_unit`.
    pub major_power: u32,
    pub minor_power: u32,
    pub power_unit: u32,
    /// Factors in thousandths for none, one and two lanes.
    pub left_turn: [u64; 3],
    pub right_turn: [u64; 3],
    /// Exponent for each degree of skew; none where skew does not count.
    pub skew_slope: Option<Fraction>,
    /// Added for each quadrant with limited sight.
    pub sight_step: Fraction,
    pub overdispersion: Fraction,
}

#[derive(Clone, Copy, Debug)]
pub struct Model {
    pub segment: SegmentModel,
    pub three_leg_stop: CrossingModel,
    pub four_leg_stop: CrossingModel,
    pub four_leg_signal: CrossingModel,
}

/// The model of edition 1.
pub const FIRST_EDITION: Model = Model {
    segment: SEGMENT,
    three_leg_stop: THREE_LEG_STOP,
    four_leg_stop: FOUR_LEG_STOP,
    four_leg_signal: FOUR_LEG_SIGNAL,
};

/// The model of edition 2.
pub const SECOND_EDITION: Model = Model {
    segment: MANUAL_SEGMENT,
    three_leg_stop: MANUAL_THREE_LEG_STOP,
    four_leg_stop: MANUAL_FOUR_LEG_STOP,
    four_leg_signal: MANUAL_FOUR_LEG_SIGNAL,
};

const LANE: WidthTable<4> = WidthTable {
    light_below: 400,
    slope_from: 400,
    heavy_above: 2_000,
    light: hundredths([105, 102, 101, 100]),
    slope: [28_100, 17_500, 2_500, 0],
    heavy: hundredths([150, 130, 105, 100]),
    share: Fraction(35, 100),
};

const SHOULDER: WidthTable<5> = WidthTable {
    light_below: 400,
    slope_from: 400,
    heavy_above: 2_000,
    light: hundredths([110, 107, 102, 100, 98]),
    slope: [25_000, 14_300, 8_125, 0, -6_875],
    heavy: hundredths([150, 130, 115, 100, 87]),
    share: Fraction(35, 100),
};

const SEGMENT: SegmentModel = SegmentModel {
    base_exponent: Fraction(4_865, 10_000),
    exposure: Fraction(365, 1_000_000),
    lane_most: [9, 10, 11],
    lane: LANE,
    shoulder_feet: [0, 2, 4, 6, 8],
    shoulder: SHOULDER,
    shoulder_type: [
        [100, 100, 100, 100, 100],
        [100, 101, 101, 102, 102],
        [100, 102, 103, 104, 106],
        [100, 103, 105, 108, 111],
    ],
    curve_length: Fraction(155, 100),
    curve_radius: Fraction(802, 10),
    curve_spiral: Fraction(12, 1_000),
    curve_ends: 2,
    curve_least: 1,
    superelevation: Superelevation {
        under: 10,
        first_from: 10,
        first_slope: 6,
        to: 20,
        at_turn: Fraction(106, 100),
        second_from: 20,
        second_slope: 3,
    },
    grade: Grade::Power(Fraction(1_016, 1_000)),
    two_way_linear: Fraction(47, 10_000),
    two_way_square: Fraction(24, 10_000),
    two_way_offset: Fraction(1_199, 1_000),
    two_way_share: Fraction(35, 100),
    two_way_fewest_driveways: 5,
    passing: [100, 75, 65],
    hazard_slope: Fraction(668, 10_000),
    hazard_base: 3,
    driveway_offset: Fraction(2, 10),
    driveway_slope: Fraction(5, 100),
    driveway_log_slope: Fraction(5, 1_000),
    driveway_base: 5,
    driveway_fewest: 0,
    overdispersion: SegmentOverdispersion::Constant(Fraction(31, 100)),
};

const MANUAL_SEGMENT: SegmentModel = SegmentModel {
    base_exponent: Fraction(312, 1_000),
    lane: WidthTable {
        share: Fraction(574, 1_000),
        ..LANE
    },
    shoulder: WidthTable {
        share: Fraction(574, 1_000),
        ..SHOULDER
    },
    grade: Grade::Steps {
        most: [3, 6],
        factors: [100, 110, 116],
    },
    driveway_offset: Fraction(322, 1_000),
    driveway_fewest: 5,
    overdispersion: SegmentOverdispersion::OverLength(236),
    ..SEGMENT
};

const THREE_LEG_STOP: CrossingModel = CrossingModel {
    base_exponent: Fraction(109, 10),
    major_power: 79,
    minor_power: 49,
    power_unit: 100,
    // 3ST has one lane at most; the third entry is never read.
    left_turn: [1_000, 780, 780],
    right_turn: [1_000, 950, 950],
    skew_slope: Some(Fraction(40, 10_000)),
    sight_step: Fraction(5, 100),
    overdispersion: Fraction(54, 100),
};

const FOUR_LEG_STOP: CrossingModel = CrossingModel {
    base_exponent: Fraction(934, 100),
    major_power: 60,
    minor_power: 61,
    power_unit: 100,
    left_turn: [1_000, 760, 580],
    right_turn: [1_000, 950, 900],
    skew_slope: Some(Fraction(54, 10_000)),
    sight_step: Fraction(5, 100),
    overdispersion: Fraction(24, 100),
};

const FOUR_LEG_SIGNAL: CrossingModel = CrossingModel {
    base_exponent: Fraction(573, 100),
    major_power: 60,
    minor_power: 20,
    power_unit: 100,
    left_turn: [1_000, 820, 670],
    right_turn: [1_000, 975, 950],
    skew_slope: None,
    // 4SG has no quadrants; its count is always none.
    sight_step: Fraction(5, 100),
    overdispersion: Fraction(11, 100),
};

// Edition 2's crossings hold no quadrants: the step is never read.
const MANUAL_THREE_LEG_STOP: CrossingModel = CrossingModel {
    base_exponent: Fraction(986, 100),
    left_turn: [1_000, 560, 560],
    right_turn: [1_000, 860, 860],
    ..THREE_LEG_STOP
};

const MANUAL_FOUR_LEG_STOP: CrossingModel = CrossingModel {
    base_exponent: Fraction(856, 100),
    left_turn: [1_000, 720, 520],
    right_turn: [1_000, 860, 740],
    ..FOUR_LEG_STOP
};

// Its left-turn lanes are those of edition 1.
const MANUAL_FOUR_LEG_SIGNAL: CrossingModel = CrossingModel {
    base_exponent: Fraction(513, 100),
    right_turn: [1_000, 960, 920],
    ..FOUR_LEG_SIGNAL
};

/// What a kind's prediction is made from.
pub enum KindModel<'a> {
    Segment(&'a SegmentModel),
    Crossing(&'a CrossingModel),
}

impl Model {
    /// The model of an edition. Panics for an edition that there is not.
    pub fn of_edition(edition: u8) -> &'static Model {
        match edition {
            rules::EDITION_ONE => &FIRST_EDITION,
            rules::EDITION_TWO => &SECOND_EDITION,
            _ => panic!("an edition that there is"),
        }
    }

    /// The model of a kind. Panics for a kind above 3.
    pub fn of_kind(&self, kind: u8) -> KindModel<'_> {
        match kind {
            rules::SEGMENT => KindModel::Segment(&self.segment),
            rules::THREE_LEG_STOP => KindModel::Crossing(&self.three_leg_stop),
            rules::FOUR_LEG_STOP => KindModel::Crossing(&self.four_leg_stop),
            rules::FOUR_LEG_SIGNAL => KindModel::Crossing(&self.four_leg_signal),
            _ => panic!("a kind that the model has"),
        }
    }

    /// k of the Empirical Bayes formula. Panics for a kind above 3.
    pub fn overdispersion(&self, site: &Site) -> Rational {
        match self.of_kind(site.kind) {
            KindModel::Segment(segment) => segment.overdispersion.of(site),
            KindModel::Crossing(crossing) => crossing.overdispersion.exact(),
        }
    }

    /// How often an observed crash of a site counts in the width of its expected
    /// pair: "an observed crash on a segment counts 1 + k times" where k is
    /// larger the shorter the segment, and otherwise once.
    pub fn crash_weight(&self, site: &Site) -> Rational {
        let k = match self.of_kind(site.kind) {
            KindModel::Segment(SegmentModel {
                overdispersion: k @ SegmentOverdispersion::OverLength(_),
                ..
            }) => k.of(site),
            _ => Rational::zero(),
        };
        &Rational::one() + &k
    }
}
