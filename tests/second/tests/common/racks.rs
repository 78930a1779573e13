//! Random racks: ones that calls have led to, damaged ones, and ones without any order.

use super::{list_of, random_changes, wide_number, Rack};
use random::Random;
use second::layout::{LIST, NUMBER, OPEN, OWN_DESK, OWN_STAMP, STEPS};
use second::{Directory, Status};

/// A rack that calls have led to, with releases open, cards dead or awaited.
pub fn reached_rack(random: &mut Random) -> Rack {
    let mut rack = Rack::new(random.within(3, 8), random.within(1, 6));
    if random.one_in(3) {
        let last = wide_number(random);
        (0..rack.directory.cards).for_each(|card| rack.set_last_number(card, last));
    }
    for _ in 0..random.below(25) {
        let card = random.below(rack.directory.cards);
        match random.below(8) {
            0 => drop(rack.fail(card)),
            1..=3 => drop(rack.recover()),
            4 => drop(rack.join(card)),
            _ => {
                let number = rack.stamp(card).wrapping_add(1);
                let rarity = random.within(5, 90);
                let list = list_of(&random_changes(random, rack.directory.pages, rarity));
                rack.open(card, number, random.array(), &list);
                rack.steps(card, random.below(60));
            }
        }
    }
    rack
}

/// Damages a few words of memory and directory, or none.
pub fn damage(rack: &mut Rack, random: &mut Random) {
    for _ in 0..random.below(4) {
        match random.below(4) {
            0 => damage_directory(&mut rack.directory, random),
            1 => {
                let card = random.below(rack.directory.cards.clamp(3, 8));
                let word = random.of(&[OWN_STAMP, OWN_DESK, OPEN, STEPS, NUMBER, LIST, LIST + 1, LIST + 2]);
                damage_word(rack, rack.at(card, word), random);
            }
            2 => damage_word(rack, random.word() as usize, random),
            _ if random.one_in(9) => rack.memory.resize(random.below(5_000) as usize, 1),
            _ => damage_word(rack, random.below(1_000) as usize, random),
        }
    }
}

fn damage_word(rack: &mut Rack, at: usize, random: &mut Random) {
    if !rack.memory.is_empty() {
        let at = at % rack.memory.len();
        rack.memory[at] = random.odd_word();
    }
}

fn damage_directory(directory: &mut Directory, random: &mut Random) {
    let page = random.below(64) as usize % (directory.pages as usize).clamp(1, 64);
    match random.below(8) {
        0 => directory.cards = random.odd_word(),
        1 => directory.pages = random.odd_word(),
        2 => directory.cards = random.below(10),
        3 => directory.live[random.below(8) as usize] ^= true,
        4 => directory.primary[page] = random.odd_word() % 11,
        5 => directory.secondary[page] = random.below(9),
        6 => directory.primary[random.below(64) as usize] = random.odd_word(),
        _ => {
            let card = if random.one_in(2) { random.below(9) } else { random.odd_word() };
            directory.status = Status::Awaiting(card);
        }
    }
}

/// A rack without any order.
pub fn any_rack(random: &mut Random) -> Rack {
    let (cards, pages) = (random.within(3, 8), random.within(1, 3));
    let mut rack = Rack::new(cards, pages);
    rack.memory.iter_mut().for_each(|word| *word = random.odd_word());
    rack.directory.live = std::array::from_fn(|_| !random.one_in(4));
    rack.directory.primary = std::array::from_fn(|_| random.below(cards));
    rack.directory.secondary = std::array::from_fn(|_| random.below(cards));
    if random.one_in(3) {
        rack.directory.status = Status::Awaiting(random.below(cards));
    }
    (0..cards).for_each(|card| rack.set(card, OPEN, random.below(16) / 15));
    rack
}
