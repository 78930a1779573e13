//! Demand 1: on any memory and directory every call answers, and a refusal
//! changes nothing.

mod common;

use common::racks::{any_rack, damage, reached_rack};
use common::{list_of, random_changes, Rack, OK};
use random::Random;
use second::layout::{memory_words, own_stamp, Number};
use second::refusals::{OUTSIDE_LIMITS, PAGE_IN_COUNTING_RELEASE};
use second::*;

/// One call of each kind on a copy of the rack; counts the accepted ones.
fn all_calls(rack: &Rack, random: &mut Random) -> u32 {
    let card = if random.one_in(9) { random.odd_word() } else { random.below(8) };
    let page = if random.one_in(9) { random.odd_word() } else { random.below(6) };
    let words = if random.one_in(9) { random.below(70) } else { 32 };
    let mut buffer: Vec<u32> = (0..words).map(|_| random.word()).collect();
    let lent = buffer.clone();
    let number = match own_stamp(&rack.memory, rack.directory.pages, card % 8) {
        Some(stamp) => stamp.wrapping_add(Number::from(random.below(12) / 4)),
        None => random.word().into(),
    };
    let mut list = list_of(&random_changes(random, rack.directory.pages.min(8), 40));
    if random.one_in(5) {
        let at = random.below(list.len() as u32) as usize;
        list[at] = random.odd_word();
    }
    let desk = random.array();
    let mut accepted = 0;
    accepted += held(rack, |rack| rack.open(card, number, desk, &list));
    accepted += held(rack, |rack| rack.step(card));
    let fetched = held(rack, |rack| rack.fetch(page, &mut buffer));
    assert!(fetched == 1 || buffer == lent, "a refused fetch wrote");
    accepted += fetched;
    accepted += held(rack, |rack| rack.fail(card));
    accepted += held(rack, |rack| desk_or_zeros(rack.recover()));
    accepted += held(rack, |rack| rack.join(card));
    accepted += held(rack, |rack| desk_or_zeros(rack.ask(card)));
    batched_calls(rack, card, random);
    accepted
}

fn desk_or_zeros((answer, desk): (Answer, [u32; 8])) -> Answer {
    assert!(matches!(answer, Answer::Given(_)) || desk == [0; 8], "a refusal with a desk");
    answer
}

/// Makes a call on a copy of the rack, with other marks and homes past its cards
/// and pages too: these are kept and change nothing else. 1 if accepted.
fn held(rack: &Rack, mut call: impl FnMut(&mut Rack) -> Answer) -> u32 {
    let mut made = rack.clone();
    let answer = call(&mut made);
    assert!(matches!(answer, Answer::Given(_)) || made == *rack, "{answer:?} changed something");
    let mut other = rack.clone();
    turn_the_rest(&mut other.directory);
    assert_eq!(call(&mut other), answer);
    turn_the_rest(&mut other.directory);
    assert!(other == made, "{answer:?} read or wrote past the rack");
    u32::from(matches!(answer, Answer::Given(_)))
}

/// Turns the marks and homes past the cards and pages into others; twice turns
/// them back.
fn turn_the_rest(directory: &mut Directory) {
    let (cards, pages) = (directory.cards as usize, directory.pages as usize);
    directory.live.iter_mut().skip(cards).for_each(|mark| *mark = !*mark);
    directory.primary.iter_mut().skip(pages).for_each(|home| *home = !*home);
    directory.secondary.iter_mut().skip(pages).for_each(|home| *home = !*home);
}

/// The batched calls equal single ones, one after the other.
fn batched_calls(rack: &Rack, card: u32, random: &mut Random) {
    let count = random.below(90);
    let (mut batched, mut single) = (rack.clone(), rack.clone());
    let (mut answer, mut made) = (OK, 0);
    while made < count && answer == OK {
        answer = single.step(card);
        made += u32::from(answer == OK);
    }
    assert_eq!(batched.steps(card, count), (answer, made));
    assert!(batched == single, "{count} steps");
    fetch_of_all_pages(rack);
}

fn fetch_of_all_pages(rack: &Rack) {
    let pages = rack.directory.pages.min(70);
    let mut buffer = vec![3; 32 * pages as usize];
    let (directory, answer, shown) = fetch_all(&rack.memory, rack.directory, &mut buffer);
    assert_eq!(directory, rack.directory);
    assert!(shown[pages.min(64) as usize..].iter().all(|mark| !mark));
    for (page, words) in (0..pages).zip(buffer.chunks(32)) {
        let mut expected = [3; 32];
        let single = rack.clone().fetch(page, &mut expected);
        assert_eq!(words, expected);
        match single {
            Answer::Given(_) => assert!(answer == OK && shown[page as usize]),
            Answer::Refused(PAGE_IN_COUNTING_RELEASE, _) => assert!(answer == OK && !shown[page as usize]),
            refused => assert_eq!((answer, shown), (refused, [false; 64])),
        }
    }
}

#[test]
fn reached_racks_with_damage() {
    let mut random = Random::new(10);
    let mut accepted = 0;
    for _ in 0..6_000 {
        let mut rack = reached_rack(&mut random);
        damage(&mut rack, &mut random);
        accepted += all_calls(&rack, &mut random);
    }
    println!("{accepted} accepted");
    assert!((4_000..38_000).contains(&accepted), "{accepted}");
}

#[test]
fn racks_without_any_order() {
    let mut random = Random::new(11);
    let mut accepted = 0;
    for _ in 0..12_000 {
        let rack = any_rack(&mut random);
        accepted += all_calls(&rack, &mut random);
    }
    println!("{accepted} accepted");
    assert!((1_000..80_000).contains(&accepted), "{accepted}");
}

/// Recoveries and joins of damaged racks that are accepted, and what follows on
/// them.
#[test]
fn calls_after_calls_on_damaged_racks() {
    let mut random = Random::new(12);
    let mut recovered = 0;
    for _ in 0..4_000 {
        let mut rack = if random.one_in(2) { any_rack(&mut random) } else { reached_rack(&mut random) };
        for _ in 0..12 {
            let card = random.below(8);
            rack.fail(card);
            recovered += u32::from(matches!(rack.recover().0, Answer::Given(_)));
            rack.join(random.below(8));
            rack.steps(random.below(8), random.below(60));
            damage(&mut rack, &mut random);
        }
    }
    println!("{recovered} recovered");
    assert!(recovered > 1_000, "{recovered}");
}

#[test]
fn formatting_on_anything() {
    for cards in (0..12).chain([u32::MAX, 1 << 31]) {
        for pages in (0..3).chain([64, 65, u32::MAX, 1 << 26]) {
            let words = memory_words(cards, pages).unwrap_or(100);
            for length in [words - 1, words, words + 1] {
                let mut memory = vec![6; length];
                let (directory, answer) = format_rack(&mut memory, cards, pages);
                let fits = memory_words(cards, pages) == Some(length);
                assert_eq!(answer == OK, fits);
                assert!(memory.iter().all(|word| *word == if fits { 0 } else { 6 }));
                assert_eq!(directory.status, Status::Running);
                if fits {
                    formatted(&directory, cards, pages);
                } else {
                    assert_eq!(answer, Answer::Refused(OUTSIDE_LIMITS, 0));
                    assert_eq!((directory.cards, directory.pages), (0, 0));
                    assert_eq!(directory.live, [false; 8]);
                    assert_eq!((directory.primary, directory.secondary), ([0; 64], [0; 64]));
                }
            }
        }
    }
}

fn formatted(directory: &Directory, cards: u32, pages: u32) {
    assert_eq!((directory.cards, directory.pages), (cards, pages));
    assert_eq!(directory.live, std::array::from_fn(|card| card < cards as usize));
    for page in 0..64 {
        let homes = (directory.primary[page as usize], directory.secondary[page as usize]);
        let expected = if page < pages { (page % cards, (page + 1) % cards) } else { (0, 0) };
        assert_eq!(homes, expected);
    }
}
