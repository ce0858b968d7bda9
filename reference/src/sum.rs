//! Sums of many fractions, compared with whole numbers.

use crate::natural::Natural;
use crate::rational::Rational;
use std::cmp::Ordering;

/// Binary places kept of each part for the quick comparison.
const PLACES: usize = 96;

/// A sum that is never added up unless it must be: its common denominator
/// would have millions of digits for a long project.
#[derive(Clone, Debug, Default)]
pub struct Sum {
    parts: Vec<Rational>,
}

impl Sum {
    pub fn push(&mut self, part: Rational) {
        self.parts.push(part);
    }

    /// The sum of the parts, each cut to a whole number of 1/`scale`. The
    /// exact sum times `scale` is at least this and less than one more for
    /// each part.
    pub fn floor_parts(&self, scale: &Natural) -> Natural {
        self.parts.iter().fold(Natural::zero(), |sum, part| {
            &sum + &part.floor_scaled(scale)
        })
    }

    /// Compares the sum with a whole number, exactly. Cut parts decide unless
    /// the two are within a hair of each other.
    pub fn compare(&self, number: &Natural) -> Ordering {
        let least = self.floor_parts(&Natural::one().shift_left(PLACES));
        let most = &least + &Natural::from(self.parts.len() as u64);
        let number_cut = number.shift_left(PLACES);
        if number_cut < least {
            Ordering::Greater
        } else if most < number_cut {
            Ordering::Less
        } else {
            let number = Rational::new(number.clone(), Natural::one());
            exact_sum(&self.parts).cmp(&number)
        }
    }
}

/// The exact sum, halves first, so that the long products come last and few.
pub fn exact_sum(parts: &[Rational]) -> Rational {
    match parts {
        [] => Rational::zero(),
        [one] => one.clone(),
        _ => {
            let (left, right) = parts.split_at(parts.len() / 2);
            (&exact_sum(left) + &exact_sum(right)).reduced()
        }
    }
}
