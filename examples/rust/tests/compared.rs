//! The proved library beside the independent Rust version.

use dembyhai::{report, Refusal, Row, Wind, MAX_FILE_BYTES};
use reference::draw::{self, Random};
use reference::file;
use reference::file_cases::{crowded, largest, middle, roomy, smallest, triangle};
use reference::host::{host_call, ROW_BYTES};
use reference::tower::Tower;
use std::collections::BTreeMap;

/// What the Rust version answers.
fn expected(file: &[u8], wind: &Wind) -> Result<Vec<Row>, u32> {
    let bytes = wind.pressures.iter().flat_map(|p| p.to_be_bytes());
    let pressures: Vec<u8> = bytes.collect();
    let mut rows = vec![0; 32 * ROW_BYTES];
    let (k, ice, factor) = (wind.direction, wind.ice_class, wind.structure_factor);
    match host_call(file, k, ice, factor, &pressures, &mut rows) {
        0 => {
            let sections = usize::from(file[1]);
            Ok(rows.chunks(ROW_BYTES).take(sections).map(row).collect())
        }
        refusal => Err(refusal),
    }
}

fn row(bytes: &[u8]) -> Row {
    let numbers: Vec<u64> = bytes
        .chunks(8)
        .map(|number| u64::from_be_bytes(number.try_into().expect("8 bytes")))
        .collect();
    Row {
        flat: numbers[0],
        subcritical: numbers[1],
        supercritical: numbers[2],
        force: numbers[3],
        shear: numbers[4],
        moment: numbers[5],
    }
}

/// Compares both; the number of the answer.
fn compare(file: &[u8], wind: &Wind) -> u32 {
    let found = report(file, wind).map_err(Refusal::number);
    assert_eq!(found, expected(file, wind), "{file:?} {wind:?}");
    found.map_or_else(|refusal| refusal, |_| 0)
}

/// A wind for the tower; its ice may be too thick.
fn wind(random: &mut Random, tower: &Tower) -> Wind {
    let direction = draw::direction(random, tower.legs);
    let ice_class = draw::ice_class(random);
    let drawn = draw::wind(random, tower, direction, ice_class);
    Wind {
        direction,
        ice_class,
        structure_factor: drawn.structure_factor,
        pressures: drawn.pressures,
    }
}

#[test]
fn named_towers_have_the_same_rows() {
    let mut random = Random(0x5eed_0601);
    let towers = [
        largest(),
        middle(),
        smallest(),
        triangle(),
        crowded(),
        roomy(),
    ];
    assert_eq!(file::write(&towers[0]).len(), MAX_FILE_BYTES);
    for tower in &towers {
        for _ in 0..5 {
            let mut wind = wind(&mut random, tower);
            wind.ice_class = 0;
            assert_eq!(compare(&file::write(tower), &wind), 0);
        }
    }
}

#[test]
fn drawn_towers_have_the_same_rows_or_refusal() {
    let mut random = Random(0x5eed_0602);
    let mut answers = BTreeMap::new();
    for _ in 0..1_000 {
        let tower = draw::small_tower(&mut random, 4);
        let wind = wind(&mut random, &tower);
        *answers
            .entry(compare(&file::write(&tower), &wind))
            .or_insert(0) += 1;
    }
    assert!(answers[&0] > 300, "{answers:?}");
    assert!(answers[&8] > 10 && answers[&20] > 10, "{answers:?}");
}

/// Damages a byte of the file, cuts it or adds to it, or spoils the wind.
fn damage(random: &mut Random, file: &mut Vec<u8>, wind: &mut Wind) {
    let place = random.within(0, file.len() as u32 - 1) as usize;
    match random.within(0, 9) {
        0 => file.truncate(place),
        1 => file.push(0),
        2 => file[0] = 5,
        3..=5 => file[place] = random.next_bits() as u8,
        6 => wind.direction = random.within(20, 30),
        7 => wind.ice_class = random.within(5, 7),
        8 => wind.structure_factor = random.pick(&[499, 500, 2_000, 2_001, u32::MAX]),
        _ => wind.pressures[0] = random.pick(&[5_000, 5_001, u16::MAX]),
    }
    if random.chance(10) {
        let count = random.within(0, 40) as usize;
        wind.pressures.resize(count, 1_000);
    }
}

#[test]
fn damaged_files_and_winds_have_the_same_refusal() {
    let mut random = Random(0x5eed_0603);
    let mut answers = BTreeMap::new();
    for _ in 0..6_000 {
        let mut tower = draw::small_tower(&mut random, 3);
        if random.chance(5) {
            // an item that comes twice
            let again = tower.items.first().copied();
            tower.items.extend(again);
        }
        let (mut file, mut wind) = (file::write(&tower), wind(&mut random, &tower));
        damage(&mut random, &mut file, &mut wind);
        *answers.entry(compare(&file, &wind)).or_insert(0) += 1;
    }
    for refusal in Refusal::ALL {
        assert!(
            answers.contains_key(&refusal.number()),
            "{refusal}: {answers:?}"
        );
    }
}

#[test]
fn an_empty_file_and_no_pressures() {
    let calm = Wind {
        direction: 0,
        ice_class: 0,
        structure_factor: 1_000,
        pressures: Vec::new(),
    };
    assert_eq!(report(&[], &calm), Err(Refusal::FileEnds));
    let file = file::write(&smallest());
    assert_eq!(report(&file, &calm), Err(Refusal::PressureCount));
}
