//! Under- and over-estimates of powers, exponentials and logarithms at a
//! depth, exactly as document 01 defines them. Nothing here knows of roads.

use crate::natural::Natural;
use crate::rational::Rational;
use crate::sum::exact_sum;

/// An under-estimate and an over-estimate of one value.
#[derive(Clone, Debug, PartialEq, Eq)]
pub struct Estimates {
    pub under: Rational,
    pub over: Rational,
}

impl Estimates {
    /// A value that is a fraction: both estimates are the value.
    pub fn exact(value: Rational) -> Estimates {
        Estimates {
            under: value.clone(),
            over: value,
        }
    }

    /// The estimates of a product of values that are not negative.
    pub fn times(&self, other: &Estimates) -> Estimates {
        Estimates {
            under: &self.under * &other.under,
            over: &self.over * &other.over,
        }
    }

    /// The estimates of a sum.
    pub fn sum(parts: impl IntoIterator<Item = Estimates>) -> Estimates {
        let ends = parts.into_iter().map(|part| (part.under, part.over));
        let (unders, overs): (Vec<_>, Vec<_>) = ends.unzip();
        Estimates {
            under: exact_sum(&unders),
            over: exact_sum(&overs),
        }
    }

    /// The product with an exact fraction.
    pub fn scaled(&self, factor: &Rational) -> Estimates {
        Estimates {
            under: &self.under * factor,
            over: &self.over * factor,
        }
    }

    /// One over each estimate, exchanged.
    pub fn reciprocal(&self) -> Estimates {
        Estimates {
            under: self.over.reciprocal(),
            over: self.under.reciprocal(),
        }
    }

    /// The estimates of a value that is `function` of this one, which need
    /// not rise: the lesser and the greater of its two values.
    pub fn through(&self, function: impl Fn(&Rational) -> Rational) -> Estimates {
        let (first, second) = (function(&self.under), function(&self.over));
        let ordered = first <= second;
        let (under, over) = if ordered {
            (first, second)
        } else {
            (second, first)
        };
        Estimates { under, over }
    }
}

/// t / 10^depth.
fn decimal(t: Natural, depth: u32) -> Rational {
    Rational::new(t, Natural::power_of_ten(depth))
}

/// Estimates of `base` to the power `exponent` / `denominator`: the largest
/// t / 10^depth whose power `denominator` is at most `base`^`exponent`, and
/// the next.
pub fn power(base: u64, exponent: u32, denominator: u32, depth: u32) -> Estimates {
    let scale = Natural::power_of_ten(depth).pow(denominator);
    let radicand = &Natural::from(base).pow(exponent) * &scale;
    let t = radicand.root(denominator);
    let next = &t + &Natural::one();
    Estimates {
        under: decimal(t, depth),
        over: decimal(next, depth),
    }
}

/// The terms of the exponential's sum at a depth: m = 40 + depth.
fn last_term(depth: u32) -> u32 {
    40 + depth
}

/// The sum of x^i / i! for i from 0 to m, with denominator b^m m! where
/// x = a / b. Evaluated from the inside: 1 + x/1 (1 + x/2 (1 + ...)).
fn exponential_sum(x: &Rational, m: u32) -> Rational {
    let mut numerator = Natural::one();
    let mut denominator = Natural::one();
    for i in (1..=m).rev() {
        denominator = &denominator * &(x.denominator() * &Natural::from(u64::from(i)));
        numerator = &denominator + &(x.numerator() * &numerator);
    }
    Rational::new(numerator, denominator)
}

/// The under-estimate of e^x, x at least 0.
pub fn exponential_under(x: &Rational, depth: u32) -> Rational {
    exponential_sum(x, last_term(depth))
}

/// The over-estimate of e^x: the sum and 2 x^(m+1) / (m+1)!.
pub fn exponential_over(x: &Rational, depth: u32) -> Rational {
    let m = last_term(depth);
    let sum = exponential_sum(x, m);
    // The sum's denominator is b^m m!, so one more factor b (m+1) makes the
    // denominators equal.
    let step = x.denominator() * &Natural::from(u64::from(m + 1));
    let tail = &Natural::from(2u64) * &x.numerator().pow(m + 1);
    let numerator = &(sum.numerator() * &step) + &tail;
    Rational::new(numerator, sum.denominator() * &step)
}

/// Estimates of e^x, x at least 0.
pub fn exponential(x: &Rational, depth: u32) -> Estimates {
    Estimates {
        under: exponential_under(x, depth),
        over: exponential_over(x, depth),
    }
}

/// Estimates of e^(-x), x at least 0: reciprocals, exchanged.
pub fn exponential_of_negative(x: &Rational, depth: u32) -> Estimates {
    exponential(x, depth).reciprocal()
}

/// Estimates of ln `argument`, the argument at least 1: the largest
/// t / 10^depth whose e-power has its over at most the argument, and the
/// smallest whose e-power has its under at least the argument.
pub fn logarithm(argument: u64, depth: u32) -> Estimates {
    assert!(argument >= 1, "a logarithm from 1 up");
    let goal = Rational::whole(argument);
    let guess = scaled_guess((argument as f64).ln(), depth);
    let over_fits = |t: &Natural| exponential_over(&decimal(t.clone(), depth), depth) <= goal;
    let under_short = |t: &Natural| exponential_under(&decimal(t.clone(), depth), depth) < goal;
    let zero = Natural::zero();
    let above = if under_short(&zero) {
        &largest(guess.clone(), under_short) + &Natural::one()
    } else {
        zero
    };
    Estimates {
        under: decimal(largest(guess, over_fits), depth),
        over: decimal(above, depth),
    }
}

/// About `value` times 10^depth; only where a search starts rests on it.
fn scaled_guess(value: f64, depth: u32) -> Natural {
    let shown = depth.min(14);
    let leading = (value * 10f64.powi(shown as i32)) as u64;
    &Natural::from(leading) * &Natural::power_of_ten(depth - shown)
}

/// The largest t at which `holds` is true. It is true at 0 and turns false
/// once and for good. The answer is certified: true there, false at the next.
fn largest(guess: Natural, holds: impl Fn(&Natural) -> bool) -> Natural {
    let (mut low, mut high) = bracket_turn(guess, &holds);
    loop {
        let middle = (&low + &high).shift_right(1);
        if middle == low {
            return low;
        }
        if holds(&middle) {
            low = middle;
        } else {
            high = middle;
        }
    }
}

/// A number at which `holds` is true and a larger one at which it is false,
/// found by doubling steps away from the guess.
fn bracket_turn(guess: Natural, holds: &impl Fn(&Natural) -> bool) -> (Natural, Natural) {
    let mut step = Natural::one();
    let mut at = guess;
    if holds(&at) {
        loop {
            let next = &at + &step;
            if !holds(&next) {
                return (at, next);
            }
            at = next;
            step = step.shift_left(1);
        }
    }
    loop {
        let next = at.checked_sub(&step).unwrap_or(Natural::zero());
        if holds(&next) {
            return (next, at);
        }
        assert!(!next.is_zero(), "the search starts from a true 0");
        at = next;
        step = step.shift_left(1);
    }
}

#[cfg(test)]
mod tests {
    use super::*;

    #[test]
    fn a_search_does_not_rest_on_its_guess() {
        for turn in [0u64, 1, 2, 1_000, 123_456_789] {
            let turn = Natural::from(turn);
            for guess in [0u64, 1, 999, 1_001, 5_000_000_000] {
                let found = largest(Natural::from(guess), |t| *t <= turn);
                assert_eq!(found, turn);
            }
        }
    }

    #[test]
    fn a_function_that_falls_exchanges_the_estimates() {
        let value = Estimates {
            under: Rational::of(1, 4),
            over: Rational::of(1, 2),
        };
        let falling = value.through(Rational::reciprocal);
        assert_eq!(falling.under, Rational::whole(2));
        assert_eq!(falling.over, Rational::whole(4));
        let rising = value.through(Rational::clone);
        assert_eq!(rising, value);
    }
}
