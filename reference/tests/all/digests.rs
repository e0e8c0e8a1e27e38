//! The digests of towers and lent bytes.

use crate::common::{flat, item, round, section, tower};
use reference::file_cases::{digest, roomy, tower_values};
use reference::tower::{Item, Legs, Tower};
use reference::units::{Force, Length};

fn of_text(text: &str) -> u64 {
    digest(text.bytes().map(u64::from))
}

/// Published values of FNV-1a with 64 bits.
#[test]
fn the_digest_of_bytes_is_fnv_1a() {
    assert_eq!(of_text(""), 0xcbf2_9ce4_8422_2325);
    assert_eq!(of_text("a"), 0xaf63_dc4c_8601_ec8c);
    assert_eq!(of_text("foobar"), 0x8594_4171_f739_67e8);
}

/// (14695981039346656037 XOR 2³²) · 1099511628211 modulo 2⁶⁴, in 128 bits.
#[test]
fn a_value_counts_with_all_its_bits() {
    let whole = (14_695_981_039_346_656_037_u128 ^ (1 << 32)) * 1_099_511_628_211;
    assert_eq!(u128::from(digest([1 << 32])), whole % (1 << 64));
    let one_bit = (0..64).map(|bit| digest([1 << bit]));
    let all: std::collections::BTreeSet<u64> = one_bit.chain([digest([0])]).collect();
    assert_eq!(all.len(), 65);
}

#[test]
fn the_values_of_a_tower_stand_in_the_order_of_its_file() {
    let mut sections = [
        section(2_000, 6_000, &[flat(100, 24_000), round(50, 200_000)]),
        section(101, 102, &[round(1, 2)]),
    ];
    sections[0].allowance = Some(Force(u32::MAX.into()));
    let hung = Item {
        section: 1,
        width: Length(5),
        length: Length(6),
        bare: 7,
        iced: 8,
        position: 9,
        ..item(65_535)
    };
    let tower = Tower {
        items: vec![hung],
        ..tower(Legs::Three, &sections)
    };
    let first = [
        2_000,
        6_000,
        4_294_967_295,
        2,
        0,
        100,
        24_000,
        1,
        50,
        200_000,
    ];
    let second = [101, 102, 0, 1, 1, 1, 2];
    let items = [1, 65_535, 1, 5, 6, 7, 8, 9];
    let wanted = [&[3, 2][..], &first, &second, &items].concat();
    assert_eq!(tower_values(&tower), wanted);
}

#[test]
fn a_digest_differs_when_a_value_does_or_two_change_places() {
    let values = tower_values(&roomy());
    let whole = digest(values.clone());
    for place in 0..values.len() {
        for other in [
            values[place] + 1,
            values[place] ^ (1 << 8),
            values[place] ^ (1 << 31),
        ] {
            let mut changed = values.clone();
            changed[place] = other;
            assert_ne!(digest(changed), whole, "{place}");
        }
        for later in place + 1..values.len() {
            let mut changed = values.clone();
            changed.swap(place, later);
            let same = values[place] == values[later];
            assert_eq!(digest(changed) == whole, same, "{place} {later}");
        }
    }
    assert_ne!(digest(values[1..].to_vec()), whole);
    assert_ne!(digest([values, vec![0]].concat()), whole);
}
