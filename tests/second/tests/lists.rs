//! The list of changes: its rules and the place of refusal 7.

mod common;

use common::{list_of, random_changes, refused_at};
use random::Random;
use second::refusals::FAULTY_LIST;
use second::*;

const P: u32 = 0x1000_0000;
const R: u32 = 0x2000_0000;
const E: u32 = 0xF000_0000;

fn run(offset: u32, count: u32) -> u32 {
    R | offset << 16 | count
}

#[test]
fn allowed_lists() {
    let allowed: [(&[u32], u64); 6] = [
        (&[E], 0),
        (&[P, run(0, 1), 9, E | 3], 1),
        (&[P, run(0, 1), 9, run(2, 1), 9, E | 5], 2),
        (&[P, run(31, 1), 9, P | 3, run(0, 2), 9, 9, E | 7], 3),
        (&[P | 3, run(1, 2), P, E, E | 4], 2),
        (&[P | 2, run(3, 1), u32::MAX, E | 3], 1),
    ];
    for (list, prices) in allowed {
        assert_eq!(check_list(list, 4), Answer::Given(prices), "{list:x?}");
    }
}

#[test]
fn faulty_lists_and_their_places() {
    let faulty: [(&[u32], u64); 25] = [
        // Kinds, and a run before the first page word.
        (&[0], 0),
        (&[3 << 28, E | 1], 0),
        (&[14 << 28], 0),
        (&[run(0, 1), 5, E | 2], 0),
        (&[P, run(0, 1), 5, 4 << 28, E | 4], 3),
        // The end word: its own index, and nothing after it.
        (&[E | 1], 0),
        (&[P, run(0, 1), 5, E | 4], 3),
        (&[E, E | 1], 1),
        (&[P, run(0, 1), 5, E | 3, 0], 4),
        // Pages: below the rack's pages, ascending strictly.
        (&[P | 4, run(0, 1), 5, E | 3], 0),
        (&[P | 0x0FFF_FFFF, run(0, 1), 5, E | 3], 0),
        (&[P | 1, run(0, 1), 5, P | 1, run(3, 1), 5, E | 6], 3),
        (&[P | 1, run(0, 1), 5, P, run(3, 1), 5, E | 6], 3),
        // A page without a run: the word after it.
        (&[P, E | 1], 1),
        (&[P, P | 1, run(0, 1), 5, E | 4], 1),
        (&[P], 1),
        // Runs: count, end, and apart from the run before.
        (&[P, run(0, 0), E | 2], 1),
        (&[P, run(31, 2), 5, 5, E | 4], 1),
        (&[P, run(0xFFF, 0xFFFF), 5, E | 3], 1),
        (&[P, run(0, 2), 5, 5, run(2, 1), 5, E | 6], 4),
        (&[P, run(4, 2), 5, 5, run(0, 1), 5, E | 6], 4),
        // A list that stops early: its length.
        (&[P, run(0, 1)], 2),
        (&[P, run(0, 3), 5, E | 3], 4),
        (&[P, run(0, 1), 5], 3),
        (&[], 0),
    ];
    for (list, place) in faulty {
        assert_eq!(check_list(list, 4), refused_at(FAULTY_LIST, place), "{list:x?}");
    }
}

/// Full pages, 34 words each: with the end word, fifteen of them make 511.
fn full_pages(count: u32) -> Vec<u32> {
    let mut list = Vec::new();
    for page in 0..count {
        list.extend([P | page, run(0, 32)]);
        list.extend([5; 32]);
    }
    list
}

fn ended(mut list: Vec<u32>) -> Vec<u32> {
    list.push(E | list.len() as u32);
    list
}

#[test]
fn at_most_512_words() {
    let mut list = full_pages(14);
    list.extend([P | 14, run(2, 30)]);
    list.extend([5; 30]);
    list.extend([P | 15, run(7, 1), 5]);
    assert_eq!(list.len(), 511);
    let whole = ended(list.clone());
    assert_eq!(check_list(&whole, 64), Answer::Given(479));
    // No end word in 512, a word after it, and more than that.
    list.push(P | 16);
    assert_eq!(check_list(&list, 64), refused_at(FAULTY_LIST, 512));
    assert_eq!(check_list(&[&whole[..], &[0]].concat(), 64), refused_at(FAULTY_LIST, 512));
    assert_eq!(check_list(&[&whole[..], &[0; 100]].concat(), 64), refused_at(FAULTY_LIST, 512));
    assert_eq!(check_list(&ended(full_pages(15)), 64), Answer::Given(480));
    assert_eq!(check_list(&ended(full_pages(16)), 64), refused_at(FAULTY_LIST, 512));
    // A fault before comes first, one after does not count.
    let mut early = ended(full_pages(16));
    early[34] = 0;
    assert_eq!(check_list(&early, 64), refused_at(FAULTY_LIST, 34));
    let mut late = full_pages(40);
    late[34 * 20] = 0;
    assert_eq!(check_list(&late, 64), refused_at(FAULTY_LIST, 512));
}

/// The place of the first fault, found another way: each word that is no price
/// is held against all such words before it.
fn slow_place(list: &[u32], pages: u32) -> Option<usize> {
    let list_end = list.len().min(512);
    let mut marks: Vec<usize> = Vec::new();
    let mut at = 0;
    while at < list_end {
        let before: Vec<u32> = marks.iter().map(|&mark| list[mark]).collect();
        if breaks_rule(list[at], at, &before, pages) {
            return Some(at);
        }
        if list[at] >= E {
            return (at + 1 < list.len()).then_some(at + 1);
        }
        marks.push(at);
        at += 1 + if list[at] >> 28 == 2 { (list[at] & 0xFFFF) as usize } else { 0 };
    }
    Some(list_end)
}

fn breaks_rule(word: u32, at: usize, before: &[u32], pages: u32) -> bool {
    let last_page = before.iter().rposition(|word| word >> 28 == 1);
    let after_page = last_page.is_some_and(|page| page + 1 == before.len());
    match word >> 28 {
        1 => {
            let lower = before.iter().filter(|mark| *mark >> 28 == 1).any(|mark| *mark >= word);
            after_page || lower || word - P >= pages
        }
        2 => {
            let Some(page) = last_page else { return true };
            let (offset, count) = ((word - R) >> 16, word & 0xFFFF);
            let near = before[page + 1..].iter().any(|run| offset <= ((run - R) >> 16) + (run & 0xFFFF));
            near || count == 0 || !(0..=32).contains(&(offset + count))
        }
        15 => after_page || (word - E) as usize != at,
        _ => true,
    }
}

#[test]
fn places_found_another_way() {
    let mut random = Random::new(1);
    let mut faults = 0;
    for _ in 0..60_000 {
        let pages = random.within(5, 8);
        let rarity = random.within(2, 60);
        let mut list = list_of(&random_changes(&mut random, 6, rarity));
        for _ in 0..random.below(3) {
            let at = random.below(list.len() as u32) as usize;
            match random.below(4) {
                0 => list[at] = random.odd_word(),
                1 => list.truncate(at),
                2 => list.insert(at, random.odd_word()),
                _ => list[at] = list[at].wrapping_add(random.below(3)).wrapping_sub(1),
            }
            if list.is_empty() {
                break;
            }
        }
        let place = slow_place(&list, pages);
        faults += u32::from(place.is_some());
        match check_list(&list, pages) {
            Answer::Given(_) => assert_eq!(place, None, "{list:x?}"),
            Answer::Refused(number, at) => {
                assert_eq!((number, Some(at as usize)), (FAULTY_LIST, place), "{list:x?}")
            }
        }
    }
    assert!((10_000..50_000).contains(&faults), "{faults}");
}
