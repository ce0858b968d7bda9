//! Fractions that are not negative, compared by cross products.

use crate::natural::Natural;
use std::cmp::Ordering;
use std::ops::{Add, Mul, Sub};

/// A fraction, not always in lowest terms: reducing costs more than it saves
/// here, so it is done only on request.
#[derive(Clone, Debug)]
pub struct Rational {
    numerator: Natural,
    denominator: Natural,
}

impl Rational {
    /// Panics when the denominator is zero.
    pub fn new(numerator: Natural, denominator: Natural) -> Rational {
        assert!(!denominator.is_zero(), "a fraction over zero");
        Rational {
            numerator,
            denominator,
        }
    }

    /// A small fraction, brought to lowest terms.
    pub fn of(numerator: u64, denominator: u64) -> Rational {
        Rational::new(numerator.into(), denominator.into()).reduced()
    }

    pub fn whole(value: u64) -> Rational {
        Rational::new(value.into(), Natural::one())
    }

    pub fn zero() -> Rational {
        Rational::whole(0)
    }

    pub fn one() -> Rational {
        Rational::whole(1)
    }

    pub fn numerator(&self) -> &Natural {
        &self.numerator
    }

    pub fn denominator(&self) -> &Natural {
        &self.denominator
    }

    /// The same fraction in lowest terms.
    pub fn reduced(&self) -> Rational {
        let common = self.numerator.gcd(&self.denominator);
        Rational {
            numerator: self.numerator.divide(&common).0,
            denominator: self.denominator.divide(&common).0,
        }
    }

    /// One over the fraction. Panics for zero.
    pub fn reciprocal(&self) -> Rational {
        Rational::new(self.denominator.clone(), self.numerator.clone())
    }

    pub fn pow(&self, exponent: u32) -> Rational {
        Rational {
            numerator: self.numerator.pow(exponent),
            denominator: self.denominator.pow(exponent),
        }
    }

    /// The difference, where it is not negative.
    pub fn checked_sub(&self, other: &Rational) -> Option<Rational> {
        let left = &self.numerator * &other.denominator;
        let right = &other.numerator * &self.denominator;
        let numerator = left.checked_sub(&right)?;
        Some(Rational {
            numerator,
            denominator: &self.denominator * &other.denominator,
        })
    }

    /// The whole part of `scale` times the fraction.
    pub fn floor_scaled(&self, scale: &Natural) -> Natural {
        (&self.numerator * scale).divide(&self.denominator).0
    }

    /// The smallest whole number that is at least `scale` times the fraction.
    pub fn ceil_scaled(&self, scale: &Natural) -> Natural {
        let (quotient, rest) = (&self.numerator * scale).divide(&self.denominator);
        if rest.is_zero() {
            quotient
        } else {
            &quotient + &Natural::one()
        }
    }
}

impl Add for &Rational {
    type Output = Rational;

    fn add(self, other: &Rational) -> Rational {
        let left = &self.numerator * &other.denominator;
        let right = &other.numerator * &self.denominator;
        Rational {
            numerator: &left + &right,
            denominator: &self.denominator * &other.denominator,
        }
    }
}

impl Sub for &Rational {
    type Output = Rational;

    /// Panics when the difference would be negative.
    fn sub(self, other: &Rational) -> Rational {
        self.checked_sub(other).expect("a difference from zero up")
    }
}

impl Mul for &Rational {
    type Output = Rational;

    fn mul(self, other: &Rational) -> Rational {
        Rational {
            numerator: &self.numerator * &other.numerator,
            denominator: &self.denominator * &other.denominator,
        }
    }
}

impl PartialEq for Rational {
    fn eq(&self, other: &Rational) -> bool {
        self.cmp(other) == Ordering::Equal
    }
}

impl Eq for Rational {}

impl PartialOrd for Rational {
    fn partial_cmp(&self, other: &Rational) -> Option<Ordering> {
        Some(self.cmp(other))
    }
}

impl Ord for Rational {
    fn cmp(&self, other: &Rational) -> Ordering {
        let left = &self.numerator * &other.denominator;
        let right = &other.numerator * &self.denominator;
        left.cmp(&right)
    }
}
