//! The arguments whose brackets the engine's program `bracket_figures` prints,
//! with the reference's own estimates of them.

use crate::estimates::{exponential, exponential_of_negative, logarithm, power, Estimates};
use crate::natural::Natural;
use crate::rational::Rational;

/// The bounds that a bracket's arguments are stated for.
const LARGEST_BASE: u64 = 20_000;
const LARGEST_X: u64 = 140_000;
const STORED_EXPONENTS: [u32; 5] = [79, 49, 60, 61, 20];

/// Millionths are printed, so estimates are taken at depth 6.
const DEPTH: u32 = 6;

/// The values are neither large nor exact in millionths, so that both ends of
/// a narrow bracket have the same whole millionths as the under-estimate.
const POWERS: [(u64, u32, u32); 8] = [
    (300, 79, 100),
    (1_000, 49, 100),
    (1_999, 60, 100),
    (257, 61, 100),
    (3, 20, 100),
    (19_999, 20, 100),
    (0, 79, 100),
    (2, 3, 5),
];
const LOGARITHMS: [u64; 5] = [2, 257, 9_999, 20_000, 20_001];
const EXPONENTIALS: [u64; 2] = [2_672, 3_240];
const NEGATIVE_EXPONENTIALS: [u64; 5] = [4_865, 57_300, 93_400, 109_000, 140_001];

fn line(in_range: bool, estimates: impl Fn() -> Estimates) -> String {
    if !in_range {
        return "out of range\n".to_string();
    }
    let millionths = estimates()
        .under
        .floor_scaled(&Natural::power_of_ten(DEPTH));
    let whole = millionths.to_u64().expect("a figure fits 64 bits");
    format!("{whole} {whole}\n")
}

fn power_line((base, num, den): (u64, u32, u32)) -> String {
    let stored = den == 100 && STORED_EXPONENTS.contains(&num);
    let in_range = stored && (1..=LARGEST_BASE).contains(&base);
    line(in_range, || power(base, num, den, DEPTH))
}

/// What `bracket_figures` must print.
pub fn figures() -> String {
    let x = |ten_thousandths: u64| Rational::of(ten_thousandths, 10_000);
    let powers = POWERS.into_iter().map(power_line);
    let logarithms = LOGARITHMS
        .into_iter()
        .map(|a| line((1..=LARGEST_BASE).contains(&a), || logarithm(a, DEPTH)));
    let rising = EXPONENTIALS
        .into_iter()
        .map(|g| line(g <= LARGEST_X, || exponential(&x(g), DEPTH)));
    let falling = NEGATIVE_EXPONENTIALS
        .into_iter()
        .map(|g| line(g <= LARGEST_X, || exponential_of_negative(&x(g), DEPTH)));
    powers
        .chain(logarithms)
        .chain(rising)
        .chain(falling)
        .collect()
}
