//! Every word of opening, each step, recovery and join.

mod common;

use common::{list_of, random_changes, refused, wide_number, Change, Rack, OK};
use random::Random;
use second::layout::*;
use second::refusals::NO_RELEASE_OPEN;
use second::*;

/// What a step stores.
enum Stored {
    Word(u32),
    Number(Number),
}

/// The stores of a release in order, but for the close: card, word of its area,
/// what is stored.
fn stores(
    directory: &Directory,
    card: u32,
    backup: u32,
    number: Number,
    desk: Desk,
    changes: &[Change],
) -> Vec<(u32, usize, Stored)> {
    let record = record_at(card);
    let desk_words = if number.is_multiple_of(2) { record + EVEN_DESK } else { record + ODD_DESK };
    let to_homes = |copy_at: fn(u32) -> usize| {
        changes.iter().flat_map(move |&(page, word, price)| {
            let homes = [directory.secondary[page as usize], directory.primary[page as usize]];
            homes.map(|home| (home, copy_at(page) + word as usize, Stored::Word(price)))
        })
    };
    let mut stores: Vec<_> = to_homes(tentative_at).collect();
    stores.extend((0..DESK_WORDS).map(|word| (backup, desk_words + word, Stored::Word(desk[word]))));
    stores.push((backup, record + STAMP, Stored::Number(number)));
    stores.extend(to_homes(committed_at));
    stores.push((backup, record + DONE_MARK, Stored::Number(number)));
    stores
}

/// The first live card above, round the end, found another way.
fn backup_of(directory: &Directory, card: u32) -> u32 {
    let live = |card: &u32| directory.live[*card as usize];
    (card + 1..directory.cards).find(live).or((0..card).find(live)).unwrap()
}

/// Fails, recovers and joins cards so that homes and backups are mixed.
fn shaken_rack(random: &mut Random) -> Rack {
    let mut rack = Rack::new(random.within(3, 8), random.within(1, 5));
    for _ in 0..random.below(12) {
        let card = random.below(rack.directory.cards);
        if rack.fail(card) == OK {
            rack.recover();
        } else {
            rack.join(card);
        }
    }
    rack
}

#[test]
fn every_step_makes_its_one_store() {
    let mut random = Random::new(3);
    let mut releases = 0;
    while releases < 300 {
        let mut rack = shaken_rack(&mut random);
        let card = random.below(rack.directory.cards);
        if !rack.directory.live[card as usize] {
            continue;
        }
        releases += 1;
        let stamp = wide_number(&mut random).min(Number::MAX - 1);
        rack.set_stamp(card, stamp);
        for word in RELEASE.into_iter().flatten().filter(|&word| word != OPEN) {
            rack.set(card, word, random.word());
        }
        let number = stamp + 1;
        let desk = random.array();
        let changes = random_changes(&mut random, rack.directory.pages, 9);
        release_word_by_word(&mut rack, card, number, desk, &changes);
    }
}

fn release_word_by_word(rack: &mut Rack, card: u32, number: Number, desk: Desk, changes: &[Change]) {
    let list = list_of(changes);
    let mut expected = rack.clone();
    assert_eq!(rack.open(card, number, desk, &list), OK);
    expected.set(card, OPEN, 1);
    expected.set(card, STEPS, 0);
    expected.set_number(card, NUMBER, number);
    expected.set_desk(card, DESK, &desk);
    expected.set_list(card, &list);
    assert!(*rack == expected, "opening");
    let backup = backup_of(&rack.directory, card);
    let stores = stores(&rack.directory, card, backup, number, desk, changes);
    assert_eq!(stores.len(), 4 * changes.len() + 10);
    for (step, (to, at, stored)) in stores.into_iter().enumerate() {
        assert_eq!(rack.step(card), OK);
        match stored {
            Stored::Word(word) => expected.set(to, at, word),
            Stored::Number(number) => expected.set_number(to, at, number),
        }
        expected.set(card, STEPS, step as u32 + 1);
        assert!(*rack == expected, "step {step}");
    }
    assert_eq!(rack.step(card), OK);
    expected.set_stamp(card, number);
    expected.set_desk(card, OWN_DESK, &desk);
    RELEASE.into_iter().flatten().for_each(|word| expected.set(card, word, 0));
    assert!(*rack == expected, "close");
    assert_eq!(rack.step(card), refused(NO_RELEASE_OPEN));
}

/// Four cards and four pages. Card 0 stands at step 3 of a release on page 0,
/// card 1 dies after step 13 of one on page 1.
fn two_releases() -> Rack {
    let mut rack = Rack::new(4, 4);
    assert_eq!(rack.open(0, 1, [40; 8], &list_of(&[(0, 5, 77)])), OK);
    assert_eq!(rack.open(1, 1, [41; 8], &list_of(&[(1, 2, 250), (1, 3, 199)])), OK);
    assert_eq!(rack.steps(0, 3), (OK, 3));
    assert_eq!(rack.steps(1, 13), (OK, 13));
    assert_eq!(rack.fail(1), OK);
    rack
}

/// Sets stamp and done mark of the record of a card on another.
fn set_marks(rack: &mut Rack, on: u32, of: u32, stamp: Number, done_mark: Number) {
    rack.set_number(on, stamp_at(of), stamp);
    rack.set_number(on, done_mark_at(of), done_mark);
}

/// Sets a record made as in recovery, for an odd stamp.
fn set_odd_record(rack: &mut Rack, on: u32, of: u32, stamp: Number, desk: u32) {
    set_marks(rack, on, of, stamp, stamp);
    rack.set_desk(on, record_at(of) + ODD_DESK, &[desk; DESK_WORDS]);
}

/// The words of a record, each with another value.
fn set_counted_record(rack: &mut Rack, on: u32, of: u32) {
    (0..RECORD_WORDS).for_each(|word| rack.set(on, record_at(of) + word, 900 + word as u32));
}

/// Nothing in the memories differs.
fn same_memory(rack: &Rack, expected: &Rack, when: &str) {
    let differing = (0..rack.memory.len()).find(|&at| rack.memory[at] != expected.memory[at]);
    assert_eq!(differing, None, "{when}");
}

#[test]
fn every_word_of_a_recovery() {
    let mut rack = two_releases();
    let mut random = Random::new(4);
    rack.scramble(1, &mut random);
    let dead: Vec<u32> = rack.memory[rack.at(1, 0)..rack.at(2, 0)].to_vec();
    assert_eq!(rack.recover(), (Answer::Given(1), [41; 8]));
    let mut expected = Rack::new(4, 4);
    let dead_at = expected.at(1, 0);
    expected.memory[dead_at..dead_at + dead.len()].copy_from_slice(&dead);
    // Card 0's release is closed; pages 0 and 1 stand on both homes, both copies.
    expected.set_stamp(0, 1);
    expected.set_desk(0, OWN_DESK, &[40; 8]);
    for copy_at in [tentative_at, committed_at] {
        for home in [0, 2] {
            expected.set(home, copy_at(0) + 5, 77);
        }
        for home in [2, 0] {
            expected.set(home, copy_at(1) + 2, 250);
            expected.set(home, copy_at(1) + 3, 199);
        }
    }
    // Card 1's record on every live card, card 0's on its new backup.
    for card in [0, 2, 3] {
        set_odd_record(&mut expected, card, 1, 1, 41);
    }
    set_odd_record(&mut expected, 2, 0, 1, 40);
    expected.directory.live[1] = false;
    expected.directory.primary[..4].copy_from_slice(&[0, 2, 2, 3]);
    expected.directory.secondary[..4].copy_from_slice(&[2, 0, 3, 0]);
    assert_eq!(rack.directory, expected.directory);
    same_memory(&rack, &expected, "recovery");
}

#[test]
fn every_word_of_a_join() {
    let mut rack = two_releases();
    rack.recover();
    assert_eq!(rack.fail(3), OK);
    assert_eq!(rack.recover(), (Answer::Given(0), [0; 8]));
    // Card 3's record stands on card 0, the next live after it.
    set_counted_record(&mut rack, 0, 3);
    let mut random = Random::new(5);
    rack.scramble(1, &mut random);
    let mut expected = rack.clone();
    assert_eq!(rack.join(1), OK);
    (0..area_words(4)).for_each(|word| expected.set(1, word, 0));
    expected.set_stamp(1, 1);
    expected.set_desk(1, OWN_DESK, &[41; 8]);
    set_counted_record(&mut expected, 1, 3);
    set_odd_record(&mut expected, 1, 0, 1, 40);
    expected.directory.live[1] = true;
    assert_eq!(rack.directory, expected.directory);
    same_memory(&rack, &expected, "join");
    assert_eq!(rack.ask(3), (OK, std::array::from_fn(|word| 900 + (EVEN_DESK + word) as u32)));
}

#[test]
fn an_even_stamp_keeps_the_even_desk() {
    let mut rack = Rack::new(3, 1);
    for (number, desk) in [(1, [31; 8]), (2, [32; 8])] {
        assert_eq!(rack.open(2, number, desk, &[0xF000_0000]), OK);
        assert_eq!(rack.steps(2, 11), (OK, 11));
    }
    assert_eq!(rack.fail(2), OK);
    assert_eq!(rack.recover(), (Answer::Given(2), [32; 8]));
    for card in [0, 1] {
        let area = area(&rack.memory, rack.directory.pages, card);
        assert_eq!((number_at(area, stamp_at(2)), number_at(area, done_mark_at(2))), (2, 2));
        assert_eq!(desk_at(area, record_at(2) + EVEN_DESK), [32; 8]);
        assert_eq!(desk_at(area, record_at(2) + ODD_DESK), [0; 8]);
    }
    assert_eq!(rack.ask(2), (OK, [32; 8]));
}

/// A rack of four cards and four pages whose every copy of every page has a word
/// of its own: 1000 × card + 10 × page, and 1 more for the committed copy.
fn rack_of_unequal_copies() -> Rack {
    let mut rack = Rack::new(4, 4);
    for (card, page) in (0..4).flat_map(|card| (0..4).map(move |page| (card, page))) {
        for copy in 0..2 {
            let value = 1000 * card + 10 * page + copy;
            rack.set(card, copy_at(page, copy), value);
        }
    }
    rack
}

/// Where an area holds word 6 of a page's tentative (0) or committed (1) copy.
fn copy_at(page: u32, copy: u32) -> usize {
    tentative_at(page) + copy as usize * PAGE_WORDS + 6
}

#[test]
fn a_fetch_shows_the_committed_copy_at_the_primary() {
    let mut rack = rack_of_unequal_copies();
    assert_eq!(rack.page(2)[6], 2021);
    rack.directory.primary[2] = 0;
    assert_eq!(rack.page(2)[6], 21);
    let mut buffer = [0; 128];
    assert_eq!(fetch_all(&rack.memory, rack.directory, &mut buffer).1, OK);
    assert_eq!([0, 1, 2, 3].map(|page| buffer[32 * page + 6]), [1, 1011, 21, 3031]);
}

#[test]
#[cfg(not(feature = "wrong"))]
fn each_live_home_copies_its_own_page() {
    for (done_mark, copied) in [(4, 1), (5, 0)] {
        let mut rack = rack_of_unequal_copies();
        // Homes: page 0 on 0 and 1, 1 on 1 and 2, 2 on 2 and 3, 3 on 3 and 0.
        set_marks(&mut rack, 2, 1, 4, done_mark);
        let mut expected = rack.clone();
        assert_eq!(rack.fail(1), OK);
        assert_eq!(rack.recover(), (Answer::Given(4), [0; 8]));
        // The page, a card that is a home after recovery, and whose page it has.
        let homes = [(0, 0, 0), (0, 2, 0), (1, 2, 2), (1, 0, 2)];
        let others = [(2, 2, 2), (2, 3, 3), (3, 3, 3), (3, 0, 0)];
        for (page, card, from) in homes.into_iter().chain(others) {
            for copy in 0..2 {
                expected.set(card, copy_at(page, copy), 1000 * from + 10 * page + copied);
            }
        }
        for card in [0, 2, 3] {
            set_marks(&mut expected, card, 1, 4, 4);
        }
        same_memory(&rack, &expected, &format!("done mark {done_mark}"));
    }
}
