//! Natural numbers against 128-bit arithmetic and their own laws; estimates
//! against document 01's definitions, worked out a second way.

use reference::estimates::{
    exponential, exponential_of_negative, exponential_over, exponential_under, logarithm, power,
};
use reference::generate::Random;
use reference::natural::Natural;
use reference::rational::Rational;
use reference::sum::{exact_sum, Sum};
use std::cmp::Ordering;

/// A number of up to 127 bits, of any length and often at a limb's edge.
fn wide(random: &mut Random) -> u128 {
    let number = u128::from(random.next()) << 64 | u128::from(random.next());
    match random.below(8) {
        0 => u128::from(u64::MAX),
        1 => 1 << 64,
        2 => 0,
        _ => number >> (1 + random.below(127)),
    }
}

/// A number of up to 40 limbs, with runs of ones and zeros.
fn long(random: &mut Random) -> Natural {
    let mut number = Natural::zero();
    for _ in 0..random.below(40) {
        let any = random.next();
        let limb = random.pick(&[0, u64::MAX, 1 << 63, any, any]);
        number = &number.shift_left(64) + &Natural::from(limb);
    }
    number
}

#[test]
fn natural_numbers_agree_with_128_bits() {
    let mut random = Random::new(1);
    for _ in 0..20_000 {
        let (a, b) = (wide(&mut random), wide(&mut random));
        let (x, y) = (Natural::from(a), Natural::from(b));
        assert_eq!((&x + &y).to_u128(), Some(a + b));
        assert_eq!(
            x.checked_sub(&y).map(|d| d.to_u128()),
            a.checked_sub(b).map(Some)
        );
        assert_eq!(x.cmp(&y), a.cmp(&b));
        assert_eq!(x.to_string(), a.to_string());
        assert_eq!(x.bit_length(), (128 - a.leading_zeros()) as usize);
        let shift = random.below(128);
        assert_eq!(x.shift_right(shift).to_u128(), Some(a >> shift));
        let (low, high) = (a as u64, b as u64);
        let product = &Natural::from(low) * &Natural::from(high);
        assert_eq!(product.to_u128(), Some(u128::from(low) * u128::from(high)));
        if b != 0 {
            let (quotient, rest) = x.divide(&y);
            assert_eq!(quotient.to_u128(), Some(a / b));
            assert_eq!(rest.to_u128(), Some(a % b));
        }
    }
}

#[test]
fn long_division_gives_back_its_dividend() {
    let mut random = Random::new(2);
    for _ in 0..3_000 {
        let (a, b) = (long(&mut random), long(&mut random));
        if b.is_zero() {
            continue;
        }
        let (quotient, rest) = a.divide(&b);
        assert!(rest < b);
        assert_eq!(&(&quotient * &b) + &rest, a);
    }
}

#[test]
fn division_adds_back_after_a_guess_too_large() {
    // (2^191 + 3) / (2^189 + 1): four times the divisor is 2^191 + 4, one too
    // many, yet its upper limbs alone make the guess 4. So the quotient is 3
    // and the rest 2^191 + 3 - 3 * 2^189 - 3 = 2^189.
    let dividend = &Natural::one().shift_left(191) + &Natural::from(3u64);
    let divisor = &Natural::one().shift_left(189) + &Natural::one();
    let (quotient, rest) = dividend.divide(&divisor);
    assert_eq!(quotient.to_u64(), Some(3));
    assert_eq!(rest, Natural::one().shift_left(189));
}

#[test]
fn products_keep_the_laws_of_arithmetic() {
    let mut random = Random::new(3);
    for _ in 0..500 {
        let (a, b, c) = (long(&mut random), long(&mut random), long(&mut random));
        assert_eq!(&a * &b, &b * &a);
        assert_eq!(&a * &(&b + &c), &(&a * &b) + &(&a * &c));
        assert_eq!(&(&a + &b) - &b, a);
        let shift = random.below(200);
        assert_eq!(
            a.shift_left(shift),
            &a * &Natural::from(2u64).pow(shift as u32)
        );
        assert_eq!(a.shift_left(shift).shift_right(shift), a);
    }
}

#[test]
fn common_divisors_agree_with_the_small_algorithm() {
    fn small(a: u64, b: u64) -> u64 {
        if b == 0 {
            a
        } else {
            small(b, a % b)
        }
    }
    let mut random = Random::new(4);
    for _ in 0..1_000 {
        let (a, b) = (random.next() % 10_000, random.next() % 10_000);
        let common = Natural::from(a).gcd(&Natural::from(b));
        assert_eq!(common.to_u64(), Some(small(a, b)));
    }
}

#[test]
fn roots_are_the_largest_that_fit() {
    let mut random = Random::new(5);
    for _ in 0..400 {
        let number = long(&mut random);
        let degree = random.pick(&[1, 2, 3, 7, 100]);
        let root = number.root(degree);
        assert!(root.pow(degree) <= number);
        assert!((&root + &Natural::one()).pow(degree) > number);
    }
    let power = Natural::from(12_345_678_901u64).pow(100);
    assert_eq!(power.root(100).to_u64(), Some(12_345_678_901));
    let below = &power - &Natural::one();
    assert_eq!(below.root(100).to_u64(), Some(12_345_678_900));
}

#[test]
fn decimal_digits_of_a_long_number() {
    // 100! as listed in the OEIS, A000142.
    let factorial = (1..=100u64).fold(Natural::one(), |f, i| &f * &Natural::from(i));
    let digits = "93326215443944152681699238856266700490715968264381621468592963895217599993\
                  22991560894146397615651828625369792082722375825118521091686400000000000000\
                  0000000000";
    assert_eq!(factorial.to_string(), digits);
}

#[test]
fn fractions_compare_by_cross_products() {
    let third = Rational::of(1, 3);
    assert_eq!(third, Rational::new(200u64.into(), 600u64.into()));
    assert_eq!(&third + &Rational::of(1, 6), Rational::of(1, 2));
    assert_eq!(&Rational::of(1, 2) - &third, Rational::of(1, 6));
    assert_eq!(third.checked_sub(&Rational::of(1, 2)), None);
    assert!(third < Rational::of(334, 1_000));
    let thousand = Natural::from(1_000u64);
    assert_eq!(third.floor_scaled(&thousand).to_u64(), Some(333));
    assert_eq!(third.ceil_scaled(&thousand).to_u64(), Some(334));
    assert_eq!(
        Rational::of(1, 2).ceil_scaled(&thousand).to_u64(),
        Some(500)
    );
}

#[test]
fn sums_compare_exactly_even_within_a_hair() {
    // Three thirds are exactly one, which no cut of the parts can show.
    let mut sum = Sum::default();
    for _ in 0..3 {
        sum.push(Rational::of(1, 3));
    }
    assert_eq!(sum.compare(&Natural::one()), Ordering::Equal);
    assert_eq!(sum.compare(&Natural::zero()), Ordering::Greater);
    assert_eq!(sum.compare(&Natural::from(2u64)), Ordering::Less);
    let hair = Rational::new(Natural::one(), Natural::one().shift_left(500));
    sum.push(hair.clone());
    assert_eq!(sum.compare(&Natural::one()), Ordering::Greater);
    let parts = [
        Rational::of(1, 2),
        Rational::of(1, 3),
        Rational::of(1, 6),
        hair,
    ];
    assert!(exact_sum(&parts) > Rational::one());
    assert_eq!(Sum::default().compare(&Natural::zero()), Ordering::Equal);
}

#[test]
fn powers_are_the_largest_decimals_that_fit() {
    let mut random = Random::new(6);
    for _ in 0..60 {
        let base = u64::from(random.between(1, 20_000));
        let exponent = random.pick(&[20, 49, 60, 61, 79]);
        let depth = random.pick(&[1, 2, 3, 6, 9, 20]);
        let found = power(base, exponent, 100, depth);
        let goal = Rational::new(Natural::from(base).pow(exponent), Natural::one());
        assert!(found.under.pow(100) <= goal, "{base}^{exponent}");
        assert!(found.over.pow(100) > goal, "{base}^{exponent}");
        let step = Rational::new(Natural::one(), Natural::power_of_ten(depth));
        assert_eq!(&found.over - &found.under, step);
        let scaled = found.under.floor_scaled(&Natural::power_of_ten(depth));
        assert_eq!(
            found.under,
            Rational::new(scaled, Natural::power_of_ten(depth))
        );
    }
}

#[test]
fn an_exact_power_is_its_own_under_estimate() {
    for depth in [1, 4, 9] {
        let found = power(1, 79, 100, depth);
        assert_eq!(found.under, Rational::one());
        assert_eq!(power(1_024, 60, 100, depth).under, Rational::whole(64));
    }
}

/// The sum of x^i / i!, term by term.
fn plain_sum(x: &Rational, last: u32) -> Rational {
    let mut term = Rational::one();
    let mut sum = Rational::one();
    for i in 1..=last {
        term = &(&term * x) * &Rational::of(1, u64::from(i));
        sum = &sum + &term;
    }
    sum
}

#[test]
fn exponentials_are_the_partial_sums() {
    for (numerator, denominator) in [(0, 1), (4_865, 10_000), (109, 10), (1, 3), (2_672, 10_000)] {
        let x = Rational::of(numerator, denominator);
        for depth in [1, 2, 3] {
            let m = 40 + depth;
            assert_eq!(exponential_under(&x, depth), plain_sum(&x, m));
            let mut tail = Rational::whole(2);
            for i in 1..=u64::from(m) + 1 {
                tail = &(&tail * &x) * &Rational::of(1, i);
            }
            let over = &plain_sum(&x, m) + &tail;
            assert_eq!(exponential_over(&x, depth), over);
            let negative = exponential_of_negative(&x, depth);
            assert_eq!(&negative.under * &over, Rational::one());
            assert_eq!(&negative.over * &plain_sum(&x, m), Rational::one());
        }
    }
}

#[test]
fn exponentials_close_on_the_double() {
    let near = |value: &Rational, goal: f64| {
        let scaled = value.floor_scaled(&Natural::power_of_ten(15)).to_u128();
        let found = scaled.expect("a small value") as f64 / 1e15;
        (found / goal - 1.0).abs() < 1e-9
    };
    for tenths in 0..=109 {
        let x = Rational::of(tenths, 10);
        let goal = (tenths as f64 / 10.0).exp();
        let found = exponential(&x, 6);
        assert!(
            near(&found.under, goal) && near(&found.over, goal),
            "{tenths}"
        );
        assert!(found.under <= found.over);
    }
}

#[test]
fn logarithms_are_settled_by_their_neighbours() {
    let mut random = Random::new(7);
    let mut arguments = vec![1, 2, 3, 400, 2_000, 20_000];
    arguments.extend((0..20).map(|_| u64::from(random.between(1, 20_000))));
    for argument in arguments {
        let depth = random.pick(&[1, 2, 3, 6, 9, 17]);
        let goal = Rational::whole(argument);
        let step = Rational::new(Natural::one(), Natural::power_of_ten(depth));
        let found = logarithm(argument, depth);
        assert!(exponential_over(&found.under, depth) <= goal, "{argument}");
        assert!(
            exponential_over(&(&found.under + &step), depth) > goal,
            "{argument}"
        );
        assert!(exponential_under(&found.over, depth) >= goal, "{argument}");
        if let Some(before) = found.over.checked_sub(&step) {
            assert!(exponential_under(&before, depth) < goal, "{argument}");
        }
        let scaled = found.over.floor_scaled(&Natural::power_of_ten(depth));
        assert_eq!(
            found.over,
            Rational::new(scaled, Natural::power_of_ten(depth))
        );
    }
}

#[test]
fn no_logarithm_of_traffic_passes_ten() {
    // The driveway part subtracts 0.005 ln A from 0.05.
    for depth in [1, 2, 9] {
        assert!(logarithm(20_000, depth).over <= Rational::whole(10));
    }
}
