//! The reported force is the least one that is not below the exact force.

use crate::common::{decimal, random_service, rows};
use reference::draw::Random;
use reference::force::{exact_force, Rooted};
use reference::rational::Rational;
use reference::units::Force;
use std::cmp::Ordering;

#[test]
fn the_least_whole_force_and_no_less() {
    let mut random = Random(0x5eed_0002);
    let mut rooted = 0;
    for _ in 0..2_000 {
        let service = random_service(&mut random, 3);
        let tower = service.tower().expect("a tower");
        let wind = service.current_wind().expect("a wind");
        for (section, row) in rows(&service).chunks(6).enumerate() {
            let exact = exact_force(tower, wind, section);
            let force = row[3];
            assert!(exact.is_at_most(Force(force)));
            assert!(force == 0 || !exact.is_at_most(Force(force - 1)));
            // The band of document 01: force < exact + 2.
            let above = exact.compare(&Rational::whole(force.saturating_sub(2)));
            assert!(force < 2 || above == Ordering::Greater);
            rooted += usize::from(row[2] > 0);
        }
    }
    assert!(rooted > 500, "only {rooted} sections with a root");
}

/// Whole a, c, r: the least F is a - floor(c sqrt(r)), by 128-bit squares.
#[test]
fn roots_of_whole_numbers() {
    let mut random = Random(0x5eed_0003);
    for _ in 0..5_000 {
        let c = u64::from(random.within(0, 3_000));
        let r = u64::from(random.within(0, 3_000));
        let mut root = 0;
        while u128::from(root + 1) * u128::from(root + 1) <= u128::from(c * c * r) {
            root += 1;
        }
        let a = root + u64::from(random.within(0, 50_000));
        let exact = Rooted::new(Rational::whole(a), &Rational::whole(c), &Rational::whole(r));
        assert_eq!(exact.least_whole(), Force(a - root), "{a} - {c} sqrt {r}");
    }
}

#[test]
fn a_whole_exact_force_is_reported_as_it_is() {
    let zero = Rational::whole(0);
    for whole in [0, 1, 2, 3, 4, 7, 8, 9, 4_080, 1 << 40] {
        let exact = Rooted::new(Rational::whole(whole), &zero, &zero);
        assert_eq!(exact.least_whole(), Force(whole));
    }
    let above = Rooted::new(decimal("4080.000000000001"), &zero, &zero);
    assert_eq!(above.least_whole(), Force(4_081));
    let below = Rooted::new(decimal("4079.999999999999"), &zero, &zero);
    assert_eq!(below.least_whole(), Force(4_080));
}

#[test]
fn comparing_with_fractions_is_exact() {
    // 10 - 2 sqrt(4) = 6, and 10 - sqrt(2) = 8.585 786 437 62...
    let six = Rooted::new(decimal("10"), &decimal("2"), &decimal("4"));
    assert_eq!(six.compare(&decimal("6")), Ordering::Equal);
    assert_eq!(six.compare(&decimal("5.999")), Ordering::Greater);
    assert_eq!(six.compare(&decimal("6.001")), Ordering::Less);
    assert_eq!(six.compare(&decimal("11")), Ordering::Less);
    let root = Rooted::new(decimal("10"), &decimal("1"), &decimal("2"));
    assert_eq!(root.compare(&decimal("8.58578643762")), Ordering::Greater);
    assert_eq!(root.compare(&decimal("8.58578643763")), Ordering::Less);
}
