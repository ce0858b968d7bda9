//! Safe wrappers of the engine's exported calls. None of them has a
//! precondition, so each wrapper only hands over its slices.

use reference::rational::Rational;

pub mod doubles;
pub mod lines;
pub mod program;
pub mod projects;
pub mod sites;

extern "C" {
    fn crash_power(base: u64, num: u64, den: u64, ends: *mut u64, ends_len: usize) -> u64;
    fn crash_logarithm(argument: u64, ends: *mut u64, ends_len: usize) -> u64;
    fn crash_exponential(x: u64, ends: *mut u64, ends_len: usize) -> u64;
    fn crash_exponential_negative(x: u64, ends: *mut u64, ends_len: usize) -> u64;
}

/// The numbers of a call that lends a bracket or a line.
pub const DONE: u64 = 0;
pub const NO_EDITION: u64 = 3;
pub const OUTSIDE_LIMITS: u64 = 4;
pub const OUT_OF_RANGE: u64 = 8;
pub const TOO_SHORT: u64 = 10;

/// A power is no wider than its high over this.
pub const POWER_PARTS: u64 = 100_000_000;
/// An exponential, rising or falling, is no wider than its high over this.
pub const EXPONENTIAL_PARTS: u64 = 10_000_000_000;
/// A logarithm is no wider than 1 over this.
pub const LOGARITHM_PARTS: u64 = 100_000_000;

/// Two fractions that a value stands between.
#[derive(Clone, Debug)]
pub struct Bracket {
    pub low: Rational,
    pub high: Rational,
}

impl Bracket {
    fn of(ends: [u64; 4]) -> Bracket {
        Bracket {
            low: Rational::of(ends[0], ends[1]),
            high: Rational::of(ends[2], ends[3]),
        }
    }

    /// high - low.
    pub fn width(&self) -> Rational {
        &self.high - &self.low
    }
}

/// A bracket, or nothing where an argument is out of range.
fn bracket(call: impl Fn(&mut [u64]) -> u64) -> Option<Bracket> {
    let mut ends = [0; 4];
    match call(&mut ends) {
        DONE => Some(Bracket::of(ends)),
        number => {
            assert_eq!(number, OUT_OF_RANGE);
            assert_eq!(ends, [0; 4], "a refusal writes nothing");
            None
        }
    }
}

/// The number of a power's call, which writes to the start of `ends`.
pub fn power_into(base: u64, num: u64, den: u64, ends: &mut [u64]) -> u64 {
    // SAFETY: the pointer and the length are those of one slice.
    unsafe { crash_power(base, num, den, ends.as_mut_ptr(), ends.len()) }
}

pub fn power(base: u64, num: u64, den: u64) -> Option<Bracket> {
    bracket(|ends| power_into(base, num, den, ends))
}

pub fn logarithm(argument: u64) -> Option<Bracket> {
    // SAFETY: the pointer and the length are those of one slice.
    bracket(|ends| unsafe { crash_logarithm(argument, ends.as_mut_ptr(), ends.len()) })
}

/// e to the power x ten-thousandths.
pub fn exponential(x: u64) -> Option<Bracket> {
    // SAFETY: the pointer and the length are those of one slice.
    bracket(|ends| unsafe { crash_exponential(x, ends.as_mut_ptr(), ends.len()) })
}

/// e to the power -x ten-thousandths.
pub fn exponential_negative(x: u64) -> Option<Bracket> {
    // SAFETY: the pointer and the length are those of one slice.
    bracket(|ends| unsafe { crash_exponential_negative(x, ends.as_mut_ptr(), ends.len()) })
}
