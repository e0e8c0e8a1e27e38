//! Long lists of calls on one service.

use crate::common::{random_tower, random_wind, rows, set_wind};
use reference::draw::{self, Random};
use reference::file;
use reference::refusal::Refusal;
use reference::service::Service;
use reference::tower::{Item, Tower, Wind};
use reference::units::Length;

/// What the calls should have left, kept beside the service.
#[derive(Clone, Default)]
struct Kept {
    tower: Option<Tower>,
    wind: Option<Wind>,
}

/// Makes one random call; the answer, and what it should leave.
fn call(random: &mut Random, service: &mut Service, kept: &mut Kept) -> Result<(), Refusal> {
    match random.within(0, 99) {
        0..=4 => erect(random, service, kept),
        5..=39 => hang(random, service, kept),
        40..=64 => {
            let number = random.within(0, 80) as u16;
            service.take_down(number)?;
            let tower = kept.tower.as_mut().expect("a tower");
            tower.items.retain(|item| item.number != number);
            Ok(())
        }
        65..=79 => wind(random, service, kept),
        80..=89 => service.check().map(|_| ()),
        _ => service
            .write(&mut vec![0; random.within(0, 800) as usize])
            .map(|_| ()),
    }
}

fn erect(random: &mut Random, service: &mut Service, kept: &mut Kept) -> Result<(), Refusal> {
    let tower = random_tower(random, 3);
    let mut bytes = file::write(&tower);
    if random.chance(50) {
        bytes.pop();
    }
    service.erect(&bytes)?;
    kept.tower = Some(tower);
    kept.wind = None;
    Ok(())
}

fn hang(random: &mut Random, service: &mut Service, kept: &mut Kept) -> Result<(), Refusal> {
    let number = random.within(0, 80) as u16;
    let mut item = draw::item(random, number, 3);
    if random.chance(5) {
        item.width = Length(0);
    }
    service.hang(item)?;
    kept.tower.as_mut().expect("a tower").items.push(item);
    Ok(())
}

fn wind(random: &mut Random, service: &mut Service, kept: &mut Kept) -> Result<(), Refusal> {
    let tower = random_tower(random, 3);
    let wind = random_wind(random, kept.tower.as_ref().unwrap_or(&tower));
    set_wind(service, &wind)?;
    kept.wind = Some(wind);
    Ok(())
}

/// The rows of a tower newly erected without items, hung in this order.
fn newly_erected(tower: &Tower, wind: &Wind, order: &[Item]) -> Vec<u64> {
    let mut bare = tower.clone();
    bare.items.clear();
    let mut service = Service::fresh();
    assert_eq!(service.erect(&file::write(&bare)), Ok(()));
    for &item in order {
        assert_eq!(service.hang(item), Ok(()));
    }
    assert_eq!(set_wind(&mut service, wind), Ok(()));
    rows(&service)
}

fn shuffled(random: &mut Random, items: &[Item]) -> Vec<Item> {
    let mut items = items.to_vec();
    for place in (1..items.len()).rev() {
        items.swap(place, random.within(0, place as u32) as usize);
    }
    items
}

#[test]
fn a_long_list_of_calls_equals_a_new_tower() {
    let mut random = Random(0x5eed_0006);
    let (mut service, mut kept) = (Service::fresh(), Kept::default());
    let (mut refused, mut reports) = (0, 0);
    for _ in 0..20_000 {
        let before = service.clone();
        if call(&mut random, &mut service, &mut kept).is_err() {
            assert_eq!(service, before);
            refused += 1;
        }
        assert_eq!(service.tower(), kept.tower.as_ref());
        assert_eq!(service.current_wind(), kept.wind.as_ref());
        if let (Some(tower), Some(wind)) = (&kept.tower, &kept.wind) {
            if random.chance(5) {
                let order = shuffled(&mut random, &tower.items);
                assert_eq!(rows(&service), newly_erected(tower, wind, &order));
                reports += 1;
            }
        }
    }
    assert!(refused > 2_000 && reports > 200, "{refused} {reports}");
}

#[test]
fn check_answers_the_topmost_section_that_is_over() {
    let mut random = Random(0x5eed_0007);
    let (mut some, mut none) = (0, 0);
    for _ in 0..500 {
        let service = crate::common::random_service(&mut random, 4);
        let sections = service.tower().expect("a tower").sections.len() as u8;
        let mut over = (0..sections).filter(|&part| service.is_over(part) == Ok(true));
        let first = over.next();
        assert_eq!(service.check(), Ok(first));
        let counted = if first.is_some() {
            &mut some
        } else {
            &mut none
        };
        *counted += 1;
    }
    assert!(some > 50 && none > 50, "{some} {none}");
}

#[test]
fn shears_and_moments_are_sums_of_the_reported_forces() {
    let mut random = Random(0x5eed_0008);
    for _ in 0..300 {
        let service = crate::common::random_service(&mut random, 6);
        let sections = &service.tower().expect("a tower").sections;
        let (mut shear, mut moment) = (0, 0);
        for (section, row) in sections.iter().zip(rows(&service).chunks(6)) {
            // Step by step down: the shear above acts over the whole height.
            let height = u64::from(section.height.0);
            moment += shear * height + row[3] * height / 2;
            shear += row[3];
            assert_eq!(row[4..], [shear, moment]);
        }
    }
}
