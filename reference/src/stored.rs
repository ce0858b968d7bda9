//! The numbers that the engine stores, derived anew from the estimates.

use crate::estimates::{exponential_of_negative, exponential_under, logarithm, power, Estimates};
use crate::model::{Fraction, Model, FIRST_EDITION};
use crate::natural::Natural;
use crate::prediction::hazard;
use crate::rational::Rational;

/// Stored powers are of 1 to 256, at these exponents in hundredths.
const EXPONENTS: [u32; 5] = [79, 49, 60, 61, 20];
const BASES: std::ops::RangeInclusive<u64> = 1..=256;

/// The depth of the stored powers, logarithms and exponentials.
const POWER_DEPTH: u32 = 9;
const LOGARITHM_DEPTH: u32 = 12;
const EXPONENTIAL_DEPTH: u32 = 20;

/// Exponentials are of 0 to 14, in units of 10^-12.
const WHOLE_EXPONENTS: std::ops::RangeInclusive<u64> = 0..=14;
const UNIT_PLACES: u32 = 12;

fn in_units(value: &Rational, places: u32) -> u64 {
    let units = value.floor_scaled(&Natural::power_of_ten(places));
    units.to_u64().expect("a stored number fits 64 bits")
}

/// The lower and the upper bound of each base side by side, exponent after
/// exponent: the estimates at depth 9, in billionths.
pub fn powers() -> Vec<u64> {
    let mut numbers = Vec::new();
    for exponent in EXPONENTS {
        for base in BASES {
            let estimates = power(base, exponent, 100, POWER_DEPTH);
            numbers.push(in_units(&estimates.under, POWER_DEPTH));
            numbers.push(in_units(&estimates.over, POWER_DEPTH));
        }
    }
    numbers
}

/// The under-estimate of each logarithm at depth 12.
pub fn logarithms() -> Vec<u64> {
    BASES
        .map(|base| in_units(&logarithm(base, LOGARITHM_DEPTH).under, LOGARITHM_DEPTH))
        .collect()
}

/// Base and hazard factors are in units of 10^-13.
const FACTOR_PLACES: u32 = 13;

/// Each factor's estimates rounded outward, the low and the high side by side.
fn outward(factors: impl Iterator<Item = Estimates>) -> Vec<u64> {
    let scale = Natural::power_of_ten(FACTOR_PLACES);
    factors
        .flat_map(|x| [x.under.floor_scaled(&scale), x.over.ceil_scaled(&scale)])
        .map(|units| units.to_u64().expect("a stored number fits 64 bits"))
        .collect()
}

/// The base factors of an edition by kind.
pub fn bases(model: &Model) -> Vec<u64> {
    let exponents = [
        model.segment.base_exponent,
        model.three_leg_stop.base_exponent,
        model.four_leg_stop.base_exponent,
        model.four_leg_signal.base_exponent,
    ];
    let factor = |x: Fraction| exponential_of_negative(&x.exact(), EXPONENTIAL_DEPTH);
    outward(exponents.into_iter().map(factor))
}

/// The hazard factors by rating, 1 to 7, which both editions have.
pub fn hazards() -> Vec<u64> {
    let segment = &FIRST_EDITION.segment;
    outward((1..=7).map(|rating| hazard(segment, rating, EXPONENTIAL_DEPTH)))
}

/// The under-estimate of each exponential at depth 20, rounded down.
pub fn exponentials() -> Vec<u64> {
    WHOLE_EXPONENTS
        .map(|x| exponential_under(&Rational::whole(x), EXPONENTIAL_DEPTH))
        .map(|under| in_units(&under, UNIT_PLACES))
        .collect()
}
