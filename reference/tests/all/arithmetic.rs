//! The arithmetic against 128-bit numbers.

use reference::draw::Random;
use reference::natural::Natural;
use reference::rational::Rational;
use std::cmp::Ordering;

/// 128 bits.
fn wide(random: &mut Random) -> u128 {
    (u128::from(random.next_bits()) << 64) | u128::from(random.next_bits())
}

/// A number of any width up to `bits`, often near the ends of a limb.
fn number(random: &mut Random, bits: u32) -> u128 {
    let wide = wide(random) >> (128 - random.within(1, bits));
    match random.within(0, 9) {
        0 => 0,
        1 => wide & !0xffff_ffff,
        2 => (wide | 0xffff_ffff) & ((1 << bits) - 1),
        _ => wide,
    }
}

#[test]
fn naturals_agree_with_128_bits() {
    let mut random = Random(0x9e37_79b9_7f4a_7c15);
    for _ in 0..20_000 {
        let (a, b) = (number(&mut random, 126), number(&mut random, 126));
        let (left, right) = (Natural::from(a), Natural::from(b));
        assert_eq!((&left + &right).to_u128(), Some(a + b), "{a} + {b}");
        let difference = left.checked_sub(&right).and_then(|rest| rest.to_u128());
        assert_eq!(difference, a.checked_sub(b), "{a} - {b}");
        assert_eq!(left.cmp(&right), a.cmp(&b), "{a} and {b}");
        assert_eq!(left == right, a == b, "{a} and {b}");
        assert_eq!(left.is_zero(), a == 0, "{a}");
        let (a, b) = (a >> 63, b >> 63);
        let product = &Natural::from(a) * &Natural::from(b);
        assert_eq!(product.to_u128(), Some(a * b), "{a} * {b}");
    }
}

#[test]
fn naturals_wider_than_128_bits_keep_the_laws() {
    let mut random = Random(0x0123_4567_89ab_cdef);
    let mut product = || &Natural::from(wide(&mut random)) * &Natural::from(wide(&mut random));
    for _ in 0..2_000 {
        let (a, b, c) = (product(), product(), product());
        assert_eq!(a.to_u128(), None);
        assert_eq!(&(&a + &b) * &c, &(&a * &c) + &(&b * &c));
        assert_eq!(&a * &b, &b * &a);
        assert_eq!(&(&a * &b) * &c, &a * &(&b * &c));
        assert_eq!((&a + &b).checked_sub(&b), Some(a.clone()));
        assert!(&a + &b > a && b.checked_sub(&(&a + &b)).is_none());
    }
}

#[test]
fn limbs_carry_and_borrow_to_the_end() {
    let ones = Natural::from(u128::MAX);
    let one = Natural::from(1_u64);
    let over = &ones + &one;
    assert_eq!(over.to_u128(), None);
    assert_eq!(over.checked_sub(&one), Some(ones.clone()));
    assert_eq!(over.checked_sub(&ones), Some(one.clone()));
    assert_eq!(over.checked_sub(&over), Some(Natural::zero()));
    // (2^128 - 1)^2 = 2^128 (2^128 - 2) + 1
    let two_less = ones.checked_sub(&one).expect("not below zero");
    assert_eq!(&ones * &ones, &(&over * &two_less) + &one);
}

/// A fraction of whole numbers in both forms.
fn pair(random: &mut Random) -> (i128, i128, Rational) {
    let above = i128::from(random.within(0, 60_000)) * i128::from(random.within(0, 1));
    let below = i128::from(random.within(1, 60_000));
    let exact = Rational::fraction(above as u64, below as u64);
    if random.chance(50) {
        (-above, below, -&exact)
    } else {
        (above, below, exact)
    }
}

/// Whether a rational is `above / below`, with either sign in both.
fn is(exact: &Rational, above: i128, below: i128) -> bool {
    let size = Rational::fraction(above.unsigned_abs() as u64, below.unsigned_abs() as u64);
    let negative = (above < 0) != (below < 0);
    *exact == if negative { -&size } else { size }
}

#[test]
fn rationals_agree_with_128_bits() {
    let mut random = Random(0xdead_beef_cafe_f00d);
    for _ in 0..20_000 {
        let (a, b, left) = pair(&mut random);
        let (c, d, right) = pair(&mut random);
        assert!(is(&(&left + &right), a * d + c * b, b * d));
        assert!(is(&(&left - &right), a * d - c * b, b * d));
        assert!(is(&(&left * &right), a * c, b * d));
        if c != 0 {
            assert!(is(&(&left / &right), a * d, b * c));
        }
        assert_eq!(left.cmp(&right), (a * d).cmp(&(c * b)));
        assert_eq!(left.is_negative(), a < 0);
        assert_eq!(left.is_zero(), a == 0);
        assert!(is(&left.squared(), a * a, b * b));
    }
}

#[test]
fn fractions_need_no_lowest_terms() {
    let half = Rational::fraction(1, 2);
    assert_eq!(half, Rational::fraction(50, 100));
    assert_eq!(half.cmp(&Rational::fraction(49, 100)), Ordering::Greater);
    assert_eq!(&half - &half, -&Rational::whole(0));
    assert_ne!(half, -&half);
}

#[test]
#[should_panic(expected = "over zero")]
fn a_fraction_over_zero_panics() {
    Rational::fraction(1, 0);
}

#[test]
#[should_panic(expected = "division by zero")]
fn a_division_by_zero_panics() {
    let _ = Rational::whole(1) / Rational::whole(0);
}
