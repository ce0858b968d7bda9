//! The exact factors of a site, each a fraction.

use crate::model::{CrossingModel, Grade, SegmentModel, WidthTable, WIDTH_UNIT};
use crate::rational::Rational;
use crate::record::Site;
use crate::rules::Field;

/// A width table's value at a column and a traffic.
fn width_value<const N: usize>(table: &WidthTable<N>, column: usize, traffic: u64) -> Rational {
    let value = if traffic < table.light_below {
        table.light[column]
    } else if traffic <= table.heavy_above {
        let above = traffic as i64 - table.slope_from as i64;
        table.light[column] + table.slope[column] * above
    } else {
        table.heavy[column]
    };
    Rational::of(value as u64, WIDTH_UNIT)
}

/// 1 + share (value - 1), written so that no part is negative.
fn of_related<const N: usize>(table: &WidthTable<N>, value: &Rational) -> Rational {
    let share = table.share.exact();
    &(&Rational::one() - &share) + &(&share * value)
}

/// The columns are 9 or less, 10, 11, 12 or more feet.
pub fn lane(model: &SegmentModel, width: u64, traffic: u64) -> Rational {
    let narrower = model.lane_most.iter().filter(|most| width > **most);
    let value = width_value(&model.lane, narrower.count(), traffic);
    of_related(&model.lane, &value)
}

/// The columns on both sides of a shoulder's width: twice its own, where it has
/// one.
fn shoulder_columns(model: &SegmentModel, width: u64) -> [usize; 2] {
    let feet = &model.shoulder_feet;
    let below = feet.iter().rposition(|feet| *feet <= width);
    let above = feet.iter().position(|feet| *feet >= width);
    [below.unwrap_or(0), above.unwrap_or(feet.len() - 1)]
}

/// The columns are 0, 2, 4, 6 and 8 or more feet; a width of 1, 3, 5 or 7
/// takes the mean of its two neighbours, for the width value and for the type
/// value, before the two are multiplied.
pub fn shoulder(model: &SegmentModel, width: u64, shoulder_type: u64, traffic: u64) -> Rational {
    let columns = shoulder_columns(model, width);
    let by_width = mean(columns.map(|column| width_value(&model.shoulder, column, traffic)));
    let row = &model.shoulder_type[shoulder_type as usize];
    let by_type = mean(columns.map(|column| Rational::of(row[column], 100)));
    of_related(&model.shoulder, &(&by_width * &by_type))
}

fn mean([one, other]: [Rational; 2]) -> Rational {
    &(&one + &other) * &Rational::of(1, 2)
}

/// The curve's length in thousandths of a mile, its radius in feet and how
/// many of its ends have a spiral.
pub fn curve(model: &SegmentModel, length: u64, radius: u64, spiral_ends: u64) -> Rational {
    let base = &model.curve_length.exact() * &Rational::of(length, 1_000);
    let sharp = &model.curve_radius.exact() * &Rational::of(1, radius);
    let spiral = &model.curve_spiral.exact() * &Rational::of(spiral_ends, model.curve_ends);
    let least = Rational::whole(model.curve_least);
    match (&base + &sharp).checked_sub(&spiral) {
        Some(above) => least.max(&above * &base.reciprocal()),
        None => least,
    }
}

/// The deficiency in thousandths.
pub fn superelevation(model: &SegmentModel, deficiency: u64) -> Rational {
    let steps = &model.superelevation;
    if deficiency < steps.under {
        return Rational::one();
    }
    let (base, slope, from) = if deficiency <= steps.to {
        (Rational::one(), steps.first_slope, steps.first_from)
    } else {
        (steps.at_turn.exact(), steps.second_slope, steps.second_from)
    };
    let times = |thousandths: u64| Rational::of(slope * thousandths, 1_000);
    &(&base + &times(deficiency)) - &times(from)
}

pub fn grade(model: &SegmentModel, percent: u64) -> Rational {
    match model.grade {
        Grade::Power(base) => base.exact().pow(percent as u32),
        Grade::Steps { most, factors } => {
            let step = most.iter().filter(|most| percent > **most).count();
            Rational::of(factors[step], 100)
        }
    }
}

pub fn two_way_lane(model: &SegmentModel, present: u64, driveways: u64) -> Rational {
    if present == 0 || driveways < model.two_way_fewest_driveways {
        return Rational::one();
    }
    let linear = &model.two_way_linear.exact() * &Rational::whole(driveways);
    let square = &model.two_way_square.exact() * &Rational::whole(driveways * driveways);
    let q = &linear + &square;
    let share = &q * &(&model.two_way_offset.exact() + &q).reciprocal();
    &Rational::one() - &(&model.two_way_share.exact() * &share)
}

pub fn passing(model: &SegmentModel, passing: u64) -> Rational {
    Rational::of(model.passing[passing as usize], 100)
}

/// The driveway part at one value of ln A:
/// (0.2 + c DD) / (0.2 + 5 c), c = 0.05 - 0.005 ln A, or 1 for too few driveways.
///
/// No estimate of ln A passes 10 while A is at most 20,000, so c is not
/// negative.
pub fn driveway(model: &SegmentModel, driveways: u64, log_traffic: &Rational) -> Rational {
    if driveways < model.driveway_fewest {
        return Rational::one();
    }
    let fall = &model.driveway_log_slope.exact() * log_traffic;
    let c = &model.driveway_slope.exact() - &fall;
    let at = |count: u64| &model.driveway_offset.exact() + &(&c * &Rational::whole(count));
    &at(driveways) * &at(model.driveway_base).reciprocal()
}

/// The product of a segment's exact factors.
pub fn of_segment(model: &SegmentModel, site: &Site) -> Rational {
    let traffic = site.value(Field::Traffic);
    let parts = [
        lane(model, site.value(Field::LaneWidth), traffic),
        shoulder(
            model,
            site.value(Field::ShoulderWidth),
            site.value(Field::ShoulderType),
            traffic,
        ),
        of_curve(model, site),
        grade(model, site.value(Field::Grade)),
        two_way_lane(
            model,
            site.value(Field::TwoWayLane),
            site.value(Field::Driveways),
        ),
        passing(model, site.value(Field::Passing)),
    ];
    product(&parts)
}

/// The curve's two factors; 1 on a straight road.
fn of_curve(model: &SegmentModel, site: &Site) -> Rational {
    if !site.is_curve() {
        return Rational::one();
    }
    let bend = curve(
        model,
        site.value(Field::CurveLength),
        site.value(Field::Radius),
        site.value(Field::SpiralEnds),
    );
    &bend * &superelevation(model, site.value(Field::Deficiency))
}

pub fn left_turn(model: &CrossingModel, lanes: u64) -> Rational {
    Rational::of(model.left_turn[lanes as usize], 1_000)
}

pub fn right_turn(model: &CrossingModel, lanes: u64) -> Rational {
    Rational::of(model.right_turn[lanes as usize], 1_000)
}

pub fn sight(model: &CrossingModel, quadrants: u64) -> Rational {
    let added = &model.sight_step.exact() * &Rational::whole(quadrants);
    &Rational::one() + &added
}

/// The product of a crossing's exact factors.
pub fn of_crossing(model: &CrossingModel, site: &Site) -> Rational {
    let quadrants = site.get(Field::LimitedQuadrants).unwrap_or(0);
    product(&[
        left_turn(model, site.value(Field::LeftTurnLanes)),
        right_turn(model, site.value(Field::RightTurnLanes)),
        sight(model, u64::from(quadrants)),
    ])
}

fn product(parts: &[Rational]) -> Rational {
    parts
        .iter()
        .fold(Rational::one(), |whole, part| &whole * part)
}
