//! Natural numbers of any size: 64-bit limbs, lowest first.
//!
//! Schoolbook methods throughout. The largest numbers met (a few thousand
//! bits) are far below the size where faster methods would pay.

use std::cmp::Ordering;
use std::fmt;
use std::ops::{Add, Mul, Sub};

/// A natural number. The top limb is never zero, so equal numbers are equal
/// lists of limbs.
#[derive(Clone, Debug, PartialEq, Eq, Hash)]
pub struct Natural {
    limbs: Vec<u64>,
}

impl Natural {
    pub fn zero() -> Natural {
        Natural { limbs: Vec::new() }
    }

    pub fn one() -> Natural {
        Natural::from(1u64)
    }

    /// 10 to the power `exponent`.
    pub fn power_of_ten(exponent: u32) -> Natural {
        Natural::from(10u64).pow(exponent)
    }

    fn from_limbs(mut limbs: Vec<u64>) -> Natural {
        while limbs.last() == Some(&0) {
            limbs.pop();
        }
        Natural { limbs }
    }

    pub fn is_zero(&self) -> bool {
        self.limbs.is_empty()
    }

    /// Bits needed to write the number; none for zero.
    pub fn bit_length(&self) -> usize {
        match self.limbs.last() {
            None => 0,
            Some(top) => 64 * self.limbs.len() - top.leading_zeros() as usize,
        }
    }

    /// The value where it fits.
    pub fn to_u128(&self) -> Option<u128> {
        match self.limbs[..] {
            [] => Some(0),
            [low] => Some(u128::from(low)),
            [low, high] => Some(u128::from(low) | (u128::from(high) << 64)),
            _ => None,
        }
    }

    /// The value where it fits.
    pub fn to_u64(&self) -> Option<u64> {
        self.to_u128().and_then(|value| u64::try_from(value).ok())
    }

    pub fn pow(&self, exponent: u32) -> Natural {
        let mut result = Natural::one();
        for bit in (0..u32::BITS - exponent.leading_zeros()).rev() {
            result = &result * &result;
            if exponent >> bit & 1 == 1 {
                result = &result * self;
            }
        }
        result
    }

    /// The difference, where it is not negative.
    pub fn checked_sub(&self, other: &Natural) -> Option<Natural> {
        let mut limbs = self.limbs.clone();
        if limbs.len() < other.limbs.len() {
            return None;
        }
        let mut borrow = false;
        for (i, limb) in limbs.iter_mut().enumerate() {
            let taken = other.limbs.get(i).copied().unwrap_or(0);
            let (first, under) = limb.overflowing_sub(taken);
            let (second, again) = first.overflowing_sub(u64::from(borrow));
            *limb = second;
            borrow = under || again;
        }
        (!borrow).then(|| Natural::from_limbs(limbs))
    }

    pub fn shift_left(&self, bits: usize) -> Natural {
        if self.is_zero() {
            return Natural::zero();
        }
        let (whole, part) = (bits / 64, bits % 64);
        let mut limbs = vec![0; whole];
        let mut carry = 0;
        for &limb in &self.limbs {
            limbs.push(limb << part | carry);
            carry = if part == 0 { 0 } else { limb >> (64 - part) };
        }
        limbs.push(carry);
        Natural::from_limbs(limbs)
    }

    pub fn shift_right(&self, bits: usize) -> Natural {
        let (whole, part) = (bits / 64, bits % 64);
        let rest = self.limbs.get(whole..).unwrap_or(&[]);
        let next = |i: usize| rest.get(i + 1).copied().unwrap_or(0);
        let limbs = rest.iter().enumerate().map(|(i, limb)| {
            if part == 0 {
                *limb
            } else {
                limb >> part | next(i) << (64 - part)
            }
        });
        Natural::from_limbs(limbs.collect())
    }

    /// Quotient and remainder by one limb, which is not zero.
    fn divide_by_limb(&self, divisor: u64) -> (Natural, u64) {
        let divisor = u128::from(divisor);
        let mut quotient = vec![0; self.limbs.len()];
        let mut rest: u128 = 0;
        for i in (0..self.limbs.len()).rev() {
            let current = rest << 64 | u128::from(self.limbs[i]);
            quotient[i] = (current / divisor) as u64;
            rest = current % divisor;
        }
        (Natural::from_limbs(quotient), rest as u64)
    }

    /// Quotient and remainder. Panics when the divisor is zero.
    pub fn divide(&self, divisor: &Natural) -> (Natural, Natural) {
        assert!(!divisor.is_zero(), "division by zero");
        if self < divisor {
            return (Natural::zero(), self.clone());
        }
        if let [limb] = divisor.limbs[..] {
            let (quotient, rest) = self.divide_by_limb(limb);
            return (quotient, Natural::from(rest));
        }
        // Knuth's algorithm D. The divisor's top bit is brought to the top of
        // its limb, so that a guessed quotient limb is at most two too large.
        let shift = divisor.limbs.last().map_or(0, |top| top.leading_zeros()) as usize;
        let divisor = divisor.shift_left(shift);
        let mut rest = self.shift_left(shift).limbs;
        rest.resize(self.limbs.len() + 1, 0);
        let count = rest.len() - divisor.limbs.len();
        let mut quotient = vec![0; count];
        for i in (0..count).rev() {
            quotient[i] = quotient_limb(&mut rest[i..], &divisor.limbs);
        }
        let rest = Natural::from_limbs(rest).shift_right(shift);
        (Natural::from_limbs(quotient), rest)
    }

    /// Greatest common divisor by Euclid's algorithm.
    pub fn gcd(&self, other: &Natural) -> Natural {
        let (mut a, mut b) = (self.clone(), other.clone());
        while !b.is_zero() {
            let (_, rest) = a.divide(&b);
            a = b;
            b = rest;
        }
        a
    }

    /// The base-2 logarithm of a number above zero, as a double.
    fn approximate_log2(&self) -> f64 {
        let drop = self.bit_length().saturating_sub(64);
        let top = self.shift_right(drop).to_u64().unwrap_or(u64::MAX);
        (top as f64).log2() + drop as f64
    }

    /// The largest whole number whose power `degree` is at most this number.
    ///
    /// Newton's steps fall from a guess that is a little too large; the last
    /// two loops compare exact powers, so the answer does not rest on the
    /// guess.
    pub fn root(&self, degree: u32) -> Natural {
        assert!(degree > 0, "a root has a degree");
        if self.is_zero() {
            return Natural::zero();
        }
        let guess = self.approximate_log2() / f64::from(degree);
        let mut root = power_of_two_above(guess);
        loop {
            let (quotient, _) = self.divide(&root.pow(degree - 1));
            let sum = &(&root * &Natural::from(u64::from(degree - 1))) + &quotient;
            let (next, _) = sum.divide_by_limb(u64::from(degree));
            if next >= root {
                break;
            }
            root = next;
        }
        while root.pow(degree) > *self {
            root = &root - &Natural::one();
        }
        while (&root + &Natural::one()).pow(degree) <= *self {
            root = &root + &Natural::one();
        }
        root
    }
}

/// A whole number a little above two to the power `exponent`.
fn power_of_two_above(exponent: f64) -> Natural {
    let whole = exponent.floor();
    // 2^40 units in the leading one leave room for the doubles' rounding.
    let fraction = ((exponent - whole).exp2() * (1u64 << 52) as f64) as u64 + (1 << 12);
    let shift = whole as i64 - 52;
    let scaled = Natural::from(fraction);
    let near = if shift >= 0 {
        scaled.shift_left(shift as usize)
    } else {
        scaled.shift_right(-shift as usize)
    };
    &near + &Natural::one()
}

/// One limb of a quotient: subtracts its multiple of the divisor from the
/// limbs of the rest, whose value is below the divisor times 2^64.
fn quotient_limb(rest: &mut [u64], divisor: &[u64]) -> u64 {
    let n = divisor.len();
    let top = u128::from(rest[n]) << 64 | u128::from(rest[n - 1]);
    let lead = u128::from(divisor[n - 1]);
    let mut guess = top / lead;
    let mut over = top % lead;
    while guess >> 64 != 0
        || guess * u128::from(divisor[n - 2]) > (over << 64 | u128::from(rest[n - 2]))
    {
        guess -= 1;
        over += lead;
        if over >> 64 != 0 {
            break;
        }
    }
    let mut guess = guess as u64;
    if subtract_multiple(rest, divisor, guess) {
        guess -= 1;
        add_back(rest, divisor);
    }
    guess
}

/// Subtracts `factor` times the divisor; answers whether it went below zero.
fn subtract_multiple(rest: &mut [u64], divisor: &[u64], factor: u64) -> bool {
    let mut carry: u128 = 0;
    let mut borrow = false;
    for i in 0..=divisor.len() {
        let limb = divisor.get(i).copied().unwrap_or(0);
        let product = u128::from(limb) * u128::from(factor) + carry;
        carry = product >> 64;
        let (first, under) = rest[i].overflowing_sub(product as u64);
        let (second, again) = first.overflowing_sub(u64::from(borrow));
        rest[i] = second;
        borrow = under || again;
    }
    borrow
}

/// Adds the divisor once; the carry out cancels the borrow before it.
fn add_back(rest: &mut [u64], divisor: &[u64]) {
    let mut carry: u128 = 0;
    for i in 0..=divisor.len() {
        let limb = divisor.get(i).copied().unwrap_or(0);
        let sum = u128::from(rest[i]) + u128::from(limb) + carry;
        rest[i] = sum as u64;
        carry = sum >> 64;
    }
}

impl From<u64> for Natural {
    fn from(value: u64) -> Natural {
        Natural::from_limbs(vec![value])
    }
}

impl From<u128> for Natural {
    fn from(value: u128) -> Natural {
        Natural::from_limbs(vec![value as u64, (value >> 64) as u64])
    }
}

impl Add for &Natural {
    type Output = Natural;

    fn add(self, other: &Natural) -> Natural {
        let (long, short) = if self.limbs.len() < other.limbs.len() {
            (other, self)
        } else {
            (self, other)
        };
        let mut limbs = Vec::with_capacity(long.limbs.len() + 1);
        let mut carry: u128 = 0;
        for (i, &limb) in long.limbs.iter().enumerate() {
            let added = short.limbs.get(i).copied().unwrap_or(0);
            let sum = u128::from(limb) + u128::from(added) + carry;
            limbs.push(sum as u64);
            carry = sum >> 64;
        }
        limbs.push(carry as u64);
        Natural::from_limbs(limbs)
    }
}

impl Sub for &Natural {
    type Output = Natural;

    /// Panics when the difference would be negative.
    fn sub(self, other: &Natural) -> Natural {
        self.checked_sub(other).expect("a natural difference")
    }
}

impl Mul for &Natural {
    type Output = Natural;

    fn mul(self, other: &Natural) -> Natural {
        let mut limbs = vec![0u64; self.limbs.len() + other.limbs.len()];
        for (i, &a) in self.limbs.iter().enumerate() {
            let mut carry: u128 = 0;
            for (j, &b) in other.limbs.iter().enumerate() {
                let sum = u128::from(a) * u128::from(b) + u128::from(limbs[i + j]) + carry;
                limbs[i + j] = sum as u64;
                carry = sum >> 64;
            }
            limbs[i + other.limbs.len()] = carry as u64;
        }
        Natural::from_limbs(limbs)
    }
}

impl PartialOrd for Natural {
    fn partial_cmp(&self, other: &Natural) -> Option<Ordering> {
        Some(self.cmp(other))
    }
}

impl Ord for Natural {
    fn cmp(&self, other: &Natural) -> Ordering {
        let by_length = self.limbs.len().cmp(&other.limbs.len());
        by_length.then_with(|| self.limbs.iter().rev().cmp(other.limbs.iter().rev()))
    }
}

impl fmt::Display for Natural {
    fn fmt(&self, f: &mut fmt::Formatter<'_>) -> fmt::Result {
        const CHUNK: u64 = 1_000_000_000_000_000_000;
        let mut chunks = Vec::new();
        let mut rest = self.clone();
        while !rest.is_zero() {
            let (quotient, chunk) = rest.divide_by_limb(CHUNK);
            chunks.push(chunk);
            rest = quotient;
        }
        let mut digits = chunks.pop().unwrap_or(0).to_string();
        for chunk in chunks.iter().rev() {
            digits.push_str(&format!("{chunk:018}"));
        }
        f.pad_integral(true, "", &digits)
    }
}
