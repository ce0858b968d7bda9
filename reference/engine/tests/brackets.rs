//! Every bracket the engine can be asked for, against the reference's own
//! estimates.

use engine::program::{power_forms, rounds, rounds_of, Job};
use engine::{power_into, Bracket, EXPONENTIAL_PARTS, LOGARITHM_PARTS, POWER_PARTS};
use reference::estimates::{self, Estimates};
use reference::rational::Rational;
use reference::rules::EDITION_ONE;

/// The exponents that the engine stores, in hundredths.
const EXPONENTS: [u64; 5] = [79, 49, 60, 61, 20];
const LARGEST_BASE: u64 = 20_000;
const LARGEST_X: u64 = 140_000;

/// The depth at which every argument is compared, and those at which some are.
const EVERY: u32 = 9;
const SOME: [u32; 4] = [1, 2, 3, 6];
const SOME_STEP: u64 = 997;

/// The depths for an argument.
fn depths(argument: u64) -> Vec<u32> {
    let some = argument % SOME_STEP == 1 || argument == LARGEST_BASE || argument == LARGEST_X;
    let rest = if some { &SOME[..] } else { &[] };
    std::iter::once(EVERY).chain(rest.iter().copied()).collect()
}

/// "A low is right when it is at most the over-estimate, a high when it is at
/// least the under-estimate. No low passes its high."
fn stands(bracket: &Bracket, estimates: &Estimates) -> bool {
    bracket.low <= estimates.over && estimates.under <= bracket.high && bracket.low <= bracket.high
}

/// How wide brackets may be, and whether one of those that were tried is wider
/// than a tenth of that: where none is, a tenth could be stated.
struct Stated {
    parts: u64,
    is_tight: bool,
}

impl Stated {
    fn new(parts: u64) -> Stated {
        Stated {
            parts,
            is_tight: false,
        }
    }

    /// Whether a bracket is at most its part of a figure wide.
    fn admits(&mut self, bracket: &Bracket, figure: &Rational) -> bool {
        let within = |parts| &bracket.width() * &Rational::whole(parts) <= *figure;
        self.is_tight |= !within(10 * self.parts);
        within(self.parts)
    }
}

#[test]
fn every_base_at_every_exponent() {
    let mut stated = Stated::new(POWER_PARTS);
    for exponent in EXPONENTS {
        for base in 1..=LARGEST_BASE {
            let bracket = engine::power(base, exponent, 100).expect("a base in range");
            let is_narrow = stated.admits(&bracket, &bracket.high);
            assert!(is_narrow, "{base}^({exponent}/100) is too wide");
            for depth in depths(base) {
                let estimates = estimates::power(base, exponent as u32, 100, depth);
                let right = stands(&bracket, &estimates);
                assert!(right, "{base}^({exponent}/100) at depth {depth}");
            }
        }
    }
    assert!(stated.is_tight);
}

/// The program `rounds` makes every power by one walk or with each end by a
/// walk of its own, and prints a sum over the ends: that of the exported call.
#[test]
fn both_forms_of_a_power_have_the_ends_of_the_call() {
    let mut sum: u64 = 0;
    for exponent in EXPONENTS {
        for base in 1..=LARGEST_BASE {
            let mut ends = [0; 4];
            assert_eq!(power_into(base, exponent, 100, &mut ends), engine::DONE);
            sum += ends[0] + ends[2];
        }
    }
    let printed = format!("{}\n0\n", sum % (1 << 32));
    for form in [Job::Powers, Job::PowersByEnds] {
        assert_eq!(rounds(&rounds_of(&[(form, 1)], EDITION_ONE, &[])), printed);
    }
}

/// Arguments of a power, inside its range and out, with one of each that is
/// inside it modulo 2^32.
const BASES: [u64; 8] = [0, 1, 257, 19_999, 20_000, 20_001, (1 << 32) + 2, u64::MAX];
const NUMS: [u64; 10] = [0, 20, 49, 60, 61, 79, 80, 120, (1 << 32) + 60, u64::MAX];
const DENS: [u64; 9] = [0, 1, 5, 99, 100, 101, 200, (1 << 32) + 100, u64::MAX];

const NO_BRACKET: &str = "out of range";

/// The four numbers that the exported call leaves, or that there are none.
fn answer_of(base: u64, num: u64, den: u64) -> String {
    let mut ends = [0; 4];
    match power_into(base, num, den, &mut ends) {
        engine::DONE => ends.map(|end| end.to_string()).join(" "),
        number => {
            assert_eq!(number, engine::OUT_OF_RANGE);
            NO_BRACKET.to_string()
        }
    }
}

/// Of each argument in the input of `power_forms` two lines, one of a form each,
/// are printed: both have the bracket of the exported call inside the range, and
/// none outside it.
fn assert_forms_answer(input: &[u8], printed: &str) {
    let number = |bytes: &[u8]| u64::from_be_bytes(bytes.try_into().expect("eight bytes"));
    let lines: Vec<&str> = printed.lines().collect();
    assert_eq!(24 * lines.len(), 2 * input.len());
    for (argument, forms) in input.chunks(24).zip(lines.chunks(2)) {
        let [base, num, den] = [0, 8, 16].map(|at| number(&argument[at..at + 8]));
        let is_inside =
            (1..=LARGEST_BASE).contains(&base) && EXPONENTS.contains(&num) && den == 100;
        let answer = answer_of(base, num, den);
        assert_eq!(answer != NO_BRACKET, is_inside, "{base} {num}/{den}");
        assert_eq!(forms, [&answer, &answer], "{base} {num}/{den}");
    }
}

/// The program `power_forms` runs the call of a power as it is and as it was
/// when each end had a walk of its own.
#[test]
fn both_forms_of_the_call_answer_alike_inside_the_range_and_out() {
    let mut input = Vec::new();
    for base in BASES {
        for num in NUMS {
            for den in DENS {
                input.extend([base, num, den].iter().flat_map(|n| n.to_be_bytes()));
            }
        }
    }
    assert_forms_answer(&input, &power_forms(&input));
}

#[test]
fn the_stored_output_of_the_forms_is_that_of_the_call() {
    let input = include_bytes!("../../../crates/power_forms/stdin");
    let stored = include_str!("../../../crates/power_forms/stdout");
    assert_forms_answer(input, stored);
}

#[test]
fn every_logarithm() {
    let mut stated = Stated::new(LOGARITHM_PARTS);
    for argument in 1..=LARGEST_BASE {
        let bracket = engine::logarithm(argument).expect("an argument in range");
        let is_narrow = stated.admits(&bracket, &Rational::one());
        assert!(is_narrow, "ln {argument} is too wide");
        for depth in depths(argument) {
            let estimates = estimates::logarithm(argument, depth);
            assert!(stands(&bracket, &estimates), "ln {argument} at {depth}");
        }
    }
    assert!(stated.is_tight);
}

#[test]
fn every_exponential_and_its_reciprocal() {
    let mut stated = Stated::new(EXPONENTIAL_PARTS);
    for x in 0..=LARGEST_X {
        let rising = engine::exponential(x).expect("an x in range");
        let falling = engine::exponential_negative(x).expect("an x in range");
        assert!(stated.admits(&rising, &rising.high), "e^{x} is too wide");
        assert!(stated.admits(&falling, &falling.high), "e^-{x} is too wide");
        for depth in depths(x) {
            let estimates = estimates::exponential(&Rational::of(x, 10_000), depth);
            assert!(stands(&rising, &estimates), "e^{x} at {depth}");
            let reciprocal = estimates.reciprocal();
            assert!(stands(&falling, &reciprocal), "e^-{x} at {depth}");
        }
    }
    assert!(stated.is_tight);
}

#[test]
fn arguments_out_of_range_have_no_bracket() {
    for (base, num, den) in [
        (0, 79, 100),
        (LARGEST_BASE + 1, 79, 100),
        (2, 79, 0),
        (2, 3, 5),
        (2, 80, 100),
        (2, 120, 200),
        (u64::MAX, 60, 100),
    ] {
        assert!(
            engine::power(base, num, den).is_none(),
            "{base} {num}/{den}"
        );
    }
    assert!(engine::logarithm(0).is_none());
    assert!(engine::logarithm(LARGEST_BASE + 1).is_none());
    assert!(engine::exponential(LARGEST_X + 1).is_none());
    assert!(engine::exponential_negative(u64::MAX).is_none());
}

#[test]
fn a_short_buffer_is_left_as_it_was() {
    let mut ends = [7; 3];
    assert_eq!(power_into(2, 60, 100, &mut ends), engine::TOO_SHORT);
    assert_eq!(ends, [7; 3]);
    let mut ends = [7; 5];
    assert_eq!(power_into(2, 60, 100, &mut ends), engine::DONE);
    assert_eq!(ends[4], 7);
}
