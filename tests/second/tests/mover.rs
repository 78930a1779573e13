//! The mover (document 02, "Stamps that outlast the shop"): every word of a move in and
//! back, each refusal and their order.

mod common;

use common::racks::{any_rack, damage, reached_rack};
use common::{list_of, refused, Rack, OK};
use random::Random;
use second::by_reference::{ask_desk, move_back, move_in};
use second::layout::*;
use second::old_layout;
use second::refusals::STAMP_TOO_HIGH;
use second::{Answer, Directory, Status};

/// A part of an area: a number, or so many words that are none.
#[derive(Clone, Copy)]
enum Part {
    Number,
    Words(usize),
}

/// The parts of an area, in the one order of both forms.
fn parts(pages: u32) -> Vec<Part> {
    let mut parts = vec![Part::Number, Part::Words(DESK_WORDS + 2), Part::Number, Part::Words(DESK_WORDS)];
    for _ in 0..MOST_CARDS {
        parts.extend([Part::Number, Part::Number, Part::Words(2 * DESK_WORDS)]);
    }
    parts.push(Part::Words(LIST_WORDS + 2 * PAGE_WORDS * pages as usize));
    parts
}

/// An old memory in the new form, put together part by part.
fn in_new_form(old: &[u32], pages: u32) -> Vec<u32> {
    let (mut new, mut words) = (Vec::new(), old.iter().copied());
    while words.len() > 0 {
        for part in parts(pages) {
            match part {
                Part::Number => new.extend([words.next().unwrap(), 0]),
                Part::Words(count) => new.extend(words.by_ref().take(count)),
            }
        }
    }
    new
}

/// The first words of all numbers of a memory, area by area.
fn number_places(directory: &Directory) -> Vec<usize> {
    let (mut places, mut at) = (Vec::new(), 0);
    for _ in 0..directory.cards {
        for part in parts(directory.pages) {
            match part {
                Part::Number => {
                    places.push(at);
                    at += NUMBER_WORDS;
                }
                Part::Words(count) => at += count,
            }
        }
    }
    places
}

/// A memory in the old form: without the high words.
fn in_old_form(memory: &[u32], directory: &Directory) -> Vec<u32> {
    let mut old = memory.to_vec();
    for at in number_places(directory).into_iter().rev() {
        old.remove(at + 1);
    }
    old
}

fn old_words(directory: &Directory) -> usize {
    old_layout::memory_words(directory.cards, directory.pages).unwrap()
}

fn new_words(directory: &Directory) -> usize {
    memory_words(directory.cards, directory.pages).unwrap()
}

/// Moves into a memory of random words; a refusal must keep them.
fn moved_in(old: &[u32], directory: &Directory) -> (Answer, Vec<u32>) {
    let lent: Vec<u32> = Random::new(3).words(new_words(directory));
    let mut memory = lent.clone();
    let answer = move_in(old, directory, &mut memory);
    assert!(answer == OK || memory == lent, "a refused move in wrote");
    (answer, memory)
}

/// Moves back into an old memory of random words; a refusal must keep them.
fn moved_back(memory: &[u32], directory: &Directory) -> (Answer, Vec<u32>) {
    let lent: Vec<u32> = Random::new(4).words(old_words(directory));
    let mut old = lent.clone();
    let answer = move_back(memory, directory, &mut old);
    assert!(answer == OK || old == lent, "a refused move back wrote");
    (answer, old)
}

fn back(rack: &Rack) -> Answer {
    moved_back(&rack.memory, &rack.directory).0
}

/// The list with 250 and 199.
fn two_prices() -> Vec<u32> {
    list_of(&[(1, 2, 250), (1, 3, 199)])
}

/// Three cards and four pages, where card 1 released 250 and 199 with a desk of sevens.
fn released_rack() -> Rack {
    let mut rack = Rack::new(3, 4);
    assert_eq!(rack.open(1, 1, [7; 8], &two_prices()), OK);
    assert_eq!(rack.steps(1, 19), (OK, 19));
    rack
}

/// The same in the old form, word by word.
fn old_released_memory() -> Vec<u32> {
    let mut old = vec![0; 2796];
    let area = |card: usize| card * old_layout::area_words(4);
    let record = area(2) + old_layout::record_at(1);
    old[area(1) + old_layout::OWN_STAMP] = 1;
    old[area(1) + old_layout::OWN_DESK..][..DESK_WORDS].fill(7);
    old[record + old_layout::STAMP] = 1;
    old[record + old_layout::DONE_MARK] = 1;
    old[record + old_layout::ODD_DESK..][..DESK_WORDS].fill(7);
    for (card, copy) in [(1, 0), (1, 1), (2, 0), (2, 1)] {
        let page = area(card) + old_layout::PAGES + 2 * PAGE_WORDS + copy * PAGE_WORDS;
        old[page + 2..page + 4].copy_from_slice(&[250, 199]);
    }
    old
}

#[test]
fn a_released_rack_in_and_back() {
    let (rack, old) = (released_rack(), old_released_memory());
    assert_eq!(moved_in(&old, &rack.directory), (OK, rack.memory.clone()));
    assert_eq!(moved_back(&rack.memory, &rack.directory), (OK, old));
}

/// After a move in, a release has the first number above one word; then 20.
#[test]
fn calls_after_a_move_in() {
    let mut rack = released_rack();
    let mut old = old_released_memory();
    let area = |card: usize| card * old_layout::area_words(4);
    for at in [area(1), area(2) + old_layout::record_at(1), area(2) + old_layout::record_at(1) + 1] {
        old[at] = u32::MAX;
    }
    let (answer, memory) = moved_in(&old, &rack.directory);
    assert_eq!(answer, OK);
    rack.memory = memory;
    assert_eq!(rack.stamp(1), 4_294_967_295);
    assert_eq!(back(&rack), OK);
    assert_eq!(rack.open(1, 4_294_967_296, [9; 8], &two_prices()), OK);
    assert_eq!(back(&rack), refused(15));
    assert_eq!(rack.steps(1, 19), (OK, 19));
    assert_eq!(back(&rack), refused(20));
}

/// A dead card's record on live cards keeps a memory from going back, its area does not.
#[test]
fn high_words_of_a_dead_card() {
    let mut rack = Rack::new(3, 4);
    rack.set_last_number(1, 4_294_967_295);
    assert_eq!(back(&rack), OK);
    assert_eq!(rack.open(1, 4_294_967_296, [7; 8], &two_prices()), OK);
    assert_eq!(rack.steps(1, 19), (OK, 19));
    assert_eq!(back(&rack), refused(20));
    assert_eq!(rack.fail(1), OK);
    assert_eq!(back(&rack), refused(11));
    assert_eq!(rack.recover().0, Answer::Given(4_294_967_296));
    assert_eq!(back(&rack), refused(20));
    for (card, at) in [(0, stamp_at(1)), (0, done_mark_at(1)), (2, stamp_at(1)), (2, done_mark_at(1))] {
        assert_eq!(back(&rack), refused(20));
        rack.set_number(card, at, 5);
    }
    assert_eq!(rack.stamp(1), 4_294_967_296);
    let (answer, old) = moved_back(&rack.memory, &rack.directory);
    assert_eq!((answer, &old), (OK, &in_old_form(&rack.memory, &rack.directory)));
    assert_eq!(old[old_layout::area_words(4)], 0);
}

/// Every word of a dead card's area is carried over, whatever it holds.
#[test]
fn a_dead_cards_area_may_hold_anything() {
    let mut random = Random::new(21);
    for _ in 0..200 {
        let mut rack = released_rack();
        assert_eq!(rack.fail(1), OK);
        assert_eq!(rack.recover().0, Answer::Given(1));
        rack.scramble(1, &mut random);
        let (answer, old) = moved_back(&rack.memory, &rack.directory);
        assert_eq!((answer, &old), (OK, &in_old_form(&rack.memory, &rack.directory)));
        assert_eq!(moved_in(&old, &rack.directory), (OK, in_new_form(&old, 4)));
    }
}

/// Refusal 20: the own stamp, and the marks of all eight records of a live card's area.
#[test]
fn refusal_20() {
    assert_eq!(STAMP_TOO_HIGH, 20);
    let marks = (0..8).flat_map(|card| [stamp_at(card), done_mark_at(card)]);
    for at in marks.chain([OWN_STAMP]) {
        for card in 0..3 {
            let mut rack = released_rack();
            rack.set_number(card, at, 4_294_967_295);
            assert_eq!(back(&rack), OK);
            for number in [4_294_967_296, 4_294_967_297, 1 << 63, Number::MAX] {
                rack.set_number(card, at, number);
                assert_eq!(back(&rack), refused(20), "word {at} of card {card}");
            }
        }
    }
}

/// The high word of a release's number is dropped, with none open.
#[test]
fn a_release_number_may_be_high() {
    let mut rack = released_rack();
    rack.set(0, NUMBER, 6);
    rack.set(0, NUMBER + 1, 9);
    let (answer, old) = moved_back(&rack.memory, &rack.directory);
    assert_eq!(answer, OK);
    assert_eq!(old[old_layout::NUMBER..][..2], [6, 0]);
}

/// Changes the released rack and moves it both ways, in from its old form: both moves
/// must give the refusal.
fn both_refuse(number: u32, change: impl Fn(&mut Rack)) {
    let mut rack = released_rack();
    change(&mut rack);
    let old = in_old_form(&rack.memory, &Rack::new(3, 4).directory);
    let (mut new, mut back) = (vec![5; rack.memory.len()], vec![6; old.len()]);
    assert_eq!(move_in(&old, &rack.directory, &mut new), refused(number));
    assert_eq!(move_back(&rack.memory, &rack.directory, &mut back), refused(number));
    assert!(new.iter().all(|word| *word == 5) && back.iter().all(|word| *word == 6));
}

fn await_card_1(rack: &mut Rack) {
    rack.directory.live[1] = false;
    rack.directory.status = Status::Awaiting(1);
}

fn make_high(rack: &mut Rack) {
    rack.set_stamp(0, 4_294_967_296);
}

#[test]
fn refusal_1_by_limits() {
    for (cards, pages) in [(2, 4), (9, 4), (3, 0), (3, 65), (0, 0), (u32::MAX, u32::MAX), (4, 4), (3, 5)] {
        both_refuse(1, |rack| (rack.directory.cards, rack.directory.pages) = (cards, pages));
    }
}

/// Either memory of another length; 1 comes before all others.
#[test]
fn refusal_1_by_lengths() {
    let mut rack = released_rack();
    rack.set_open(2, &[0], 0);
    make_high(&mut rack);
    await_card_1(&mut rack);
    let old = in_old_form(&rack.memory, &rack.directory);
    let lengths = [(2796, 2849), (2796, 2851), (2795, 2850), (2797, 2850), (2850, 2796), (2796, 0), (0, 2850)];
    for (old_length, new_length) in lengths {
        let (mut from_old, mut from_new) = (old.clone(), rack.memory.clone());
        from_old.resize(old_length, 0);
        from_new.resize(new_length, 0);
        let (mut to_new, mut to_old) = (vec![5; new_length], vec![5; old_length]);
        assert_eq!(move_in(&from_old, &rack.directory, &mut to_new), refused(1));
        assert_eq!(move_back(&from_new, &rack.directory, &mut to_old), refused(1));
        assert!(to_new.iter().chain(&to_old).all(|word| *word == 5));
    }
}

/// 2 comes before 11, 15 and 20.
#[test]
fn refusal_2() {
    for word in [2, 77, u32::MAX] {
        both_refuse(2, |rack| rack.set(2, OPEN, word));
    }
    both_refuse(2, |rack| rack.directory.live = [false, false, true, true, true, true, true, true]);
    both_refuse(2, |rack| rack.directory.primary[3] = 3);
    both_refuse(2, |rack| rack.directory.secondary[0] = rack.directory.primary[0]);
    both_refuse(2, |rack| rack.directory.live[1] = false);
    both_refuse(2, |rack| rack.directory.status = Status::Awaiting(1));
    both_refuse(2, |rack| rack.set_open(2, &[0], 0));
    both_refuse(2, |rack| rack.set_open(2, &list_of(&[(4, 0, 1)]), 0));
    both_refuse(2, |rack| rack.set_open(2, &two_prices(), 19));
    both_refuse(2, |rack| {
        rack.set_open(2, &two_prices(), 19);
        rack.set_open(0, &[0xF000_0000], 0);
        make_high(rack);
        await_card_1(rack);
    });
}

/// 2 reads the words of the form moved from, not those that stand there in the other.
#[test]
fn refusal_2_by_the_form_moved_from() {
    let mut rack = released_rack();
    for card in 0..3 {
        rack.set(card, OWN_DESK + DESK_WORDS - 1, 2);
        rack.set(card, STEPS, 3);
        rack.set(card, LIST, 4);
    }
    let (answer, old) = moved_back(&rack.memory, &rack.directory);
    assert_eq!((answer, old[old_layout::OPEN], old[OPEN]), (OK, 0, 3));
    assert_eq!(moved_in(&old, &rack.directory), (OK, rack.memory));
}

/// 11 comes before 15 and 20.
#[test]
fn refusal_11() {
    both_refuse(11, await_card_1);
    both_refuse(11, |rack| {
        rack.set(1, OPEN, 77);
        await_card_1(rack);
    });
    both_refuse(11, |rack| {
        rack.set_open(2, &two_prices(), 18);
        make_high(rack);
        await_card_1(rack);
    });
}

/// 15 comes before 20; a dead card's release is none.
#[test]
fn refusal_15() {
    for steps in [0, 12, 13, 18] {
        both_refuse(15, |rack| rack.set_open(2, &two_prices(), steps));
    }
    both_refuse(15, |rack| {
        rack.set_open(2, &[0xF000_0000], 10);
        make_high(rack);
    });
    let mut rack = released_rack();
    assert_eq!((rack.fail(2), rack.recover().0), (OK, OK));
    rack.set_open(2, &two_prices(), 5);
    let (answer, old) = moved_back(&rack.memory, &rack.directory);
    assert_eq!((answer, moved_in(&old, &rack.directory)), (OK, (OK, rack.memory)));
}

/// The refusal of a rack in the new form by 1, 2, 11 or 15, found by other calls.
fn refusal_of_rack(memory: &[u32], directory: &Directory) -> Answer {
    let live = |card: u32| directory.live[card as usize];
    match ask_desk(memory, directory, 0).0 {
        OK if (0..directory.cards).any(|card| live(card) && area(memory, directory.pages, card)[OPEN] == 1) => {
            refused(15)
        }
        answer => answer,
    }
}

/// Whether a live card's area has a high word, but in a release's number: the second of
/// the numbers of an area.
fn has_high_word(memory: &[u32], directory: &Directory) -> bool {
    let places = number_places(directory);
    places.chunks(places.len() / directory.cards as usize).zip(directory.live).any(|(places, live)| {
        let mut marks = places.iter().enumerate().filter(|(nth, _)| *nth != 1);
        live && marks.any(|(_, at)| memory[at + 1] != 0)
    })
}

/// A random rack with few high words; its memory has the stated length.
fn rack_to_move(random: &mut Random) -> Rack {
    let mut rack = match random.one_in(2) {
        true => any_rack(random),
        false => reached_rack(random),
    };
    let rarity = random.of(&[4, 40, 400]);
    for at in number_places(&rack.directory).into_iter().filter(|_| !random.one_in(rarity)) {
        rack.memory[at + 1] = 0;
    }
    let (cards, pages) = (rack.directory.cards, rack.directory.pages);
    damage(&mut rack, random);
    (rack.directory.cards, rack.directory.pages) = (cards, pages);
    rack.memory.resize(new_words(&rack.directory), 1);
    rack
}

/// Answers by their number, 0 for accepted ones.
#[derive(Default, Debug)]
struct Tally([u32; STAMP_TOO_HIGH as usize + 1]);

impl Tally {
    fn count(&mut self, answer: Answer) {
        match answer {
            Answer::Given(_) => self.0[0] += 1,
            Answer::Refused(number, _) => self.0[number as usize] += 1,
        }
    }

    fn holds(&self, numbers: &[usize], least: u32) {
        println!("{:?}", self.0);
        assert!(numbers.iter().all(|number| self.0[*number] >= least), "{:?}", self.0);
    }
}

#[test]
fn random_memories_in_and_back() {
    let mut random = Random::new(22);
    let mut tally = Tally::default();
    for _ in 0..6_000 {
        let Rack { memory, directory } = rack_to_move(&mut random);
        let old = in_old_form(&memory, &directory);
        let new = in_new_form(&old, directory.pages);
        let (answer, moved) = moved_in(&old, &directory);
        assert_eq!(answer, refusal_of_rack(&new, &directory));
        tally.count(answer);
        if answer == OK {
            assert!(moved == new, "move in");
            let (answer, back) = moved_back(&moved, &directory);
            assert!(answer == OK && back == old, "{answer:?}");
        }
    }
    tally.holds(&[0, 2, 11, 15], 100);
}

#[test]
fn random_memories_back() {
    let mut random = Random::new(23);
    let mut tally = Tally::default();
    for _ in 0..12_000 {
        let Rack { memory, directory } = rack_to_move(&mut random);
        let expected = match refusal_of_rack(&memory, &directory) {
            OK if has_high_word(&memory, &directory) => refused(20),
            answer => answer,
        };
        let (answer, moved) = moved_back(&memory, &directory);
        assert_eq!(answer, expected);
        tally.count(answer);
        if answer == OK {
            assert!(moved == in_old_form(&memory, &directory), "move back");
        }
    }
    tally.holds(&[0, 2, 11, 15, 20], 100);
}
