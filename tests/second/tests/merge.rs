//! Two lists made one (document 02, "Two lists made one"): the worked lists, each refusal
//! with its place and the order of them, and what a merged list does to pages.

mod common;

use common::{list_of, refused, refused_at, Change};
use random::Random;
use second::refusals::{FAULTY_LIST, LIST_TOO_LONG, WRONG_BUFFER};
use second::*;
use std::collections::BTreeMap;
use std::ops::Range;

const NO_CHANGE: [u32; 1] = [0xF000_0000];

/// Prices by label, 32 × page + word.
type Labels = BTreeMap<u32, u32>;

/// The list of prices by label, built another way than by a merge.
fn list(prices: &Labels) -> Vec<u32> {
    let changes: Vec<Change> = prices.iter().map(|(label, &price)| (label / 32, label % 32, price)).collect();
    list_of(&changes)
}

fn list_with<const COUNT: usize>(prices: [(u32, u32); COUNT]) -> Vec<u32> {
    list(&Labels::from(prices))
}

/// The list that has every label of a range at one price.
fn list_at(labels: Range<u32>, price: u32) -> Vec<u32> {
    list(&labels.map(|label| (label, price)).collect())
}

/// The merged list, or the refusal. It is made in a buffer of more words than any list has;
/// those past it, and all in a refused call, must be kept.
fn merge(first: &[u32], second: &[u32]) -> Result<Vec<u32>, Answer> {
    let mut buffer = vec![77; 600];
    let answer = merge_lists(first, second, &mut buffer);
    let length = if let Answer::Given(length) = answer { length as usize } else { 0 };
    assert!(buffer.split_off(length).iter().all(|word| *word == 77));
    match answer {
        Answer::Given(_) => Ok(buffer),
        refusal => Err(refusal),
    }
}

/// A merge that must be accepted.
fn merged(first: &[u32], second: &[u32]) -> Vec<u32> {
    merge(first, second).unwrap_or_else(|refusal| panic!("{refusal:?}: {first:x?}, {second:x?}"))
}

/// A merge into a buffer of so many words that must be refused, and keep them.
fn assert_refused(first: &[u32], second: &[u32], room: usize, refusal: Answer) {
    let mut buffer = vec![77; room];
    assert_eq!(merge_lists(first, second, &mut buffer), refusal, "room {room}: {first:x?}, {second:x?}");
    assert_eq!(buffer, vec![77; room]);
}

#[test]
fn worked_lists() {
    let (first, second) = (list_with([(34, 250), (35, 199)]), list_with([(35, 175), (64, 5)]));
    let head = [0x1000_0001, 0x2002_0002, 0x0000_00FA];
    let tail = [0x1000_0002, 0x2000_0001, 0x0000_0005, 0xF000_0007];
    assert_eq!(merged(&first, &second), [&head[..], &[0x0000_00AF], &tail].concat());
    assert_eq!(merged(&second, &first), [&head[..], &[0x0000_00C7], &tail].concat());
}

#[test]
fn runs_that_touch_become_one() {
    let (zero, one) = (list_with([(0, 1)]), list_with([(1, 2)]));
    let both = [0x1000_0000, 0x2000_0002, 1, 2, 0xF000_0004];
    assert_eq!(merged(&zero, &one), both);
    assert_eq!(merged(&one, &zero), both);
    // One between two, one over both, and one that does not touch.
    let apart = list_with([(2, 7), (4, 7)]);
    assert_eq!(merged(&apart, &list_with([(3, 8)])), list_with([(2, 7), (3, 8), (4, 7)]));
    assert_eq!(merged(&apart, &list_at(1..6, 8)), list_at(1..6, 8));
    assert_eq!(merged(&list_at(1..6, 8), &apart), list_with([(1, 8), (2, 7), (3, 8), (4, 7), (5, 8)]));
    let three = [0x1000_0000, 0x2002_0001, 7, 0x2004_0001, 7, 0x2006_0001, 8, 0xF000_0007];
    assert_eq!(merged(&apart, &list_with([(6, 8)])), three);
    // Every other word, and those between: a page whole.
    let every_other = |first: u32| list(&(first..32).step_by(2).map(|label| (label, label)).collect());
    assert_eq!(merged(&every_other(0), &every_other(1)), list(&(0..32).map(|label| (label, label)).collect()));
    // The last word of a page and the first of the next do not touch.
    let pages = [0x1000_0000, 0x201F_0001, 8, 0x1000_0001, 0x2000_0001, 9, 0xF000_0006];
    assert_eq!(merged(&list_with([(31, 8)]), &list_with([(32, 9)])), pages);
    assert_eq!(merged(&list_with([(32, 9)]), &list_with([(31, 8)])), pages);
}

#[test]
fn a_price_equal_in_both_stays() {
    let twice = list_with([(34, 250), (35, 199)]);
    assert_eq!(merged(&twice, &twice), twice);
    assert_eq!(merged(&twice, &list_with([(35, 199)])), twice);
    assert_eq!(merged(&list_with([(34, 250)]), &twice), twice);
    assert_eq!(merged(&list_with([(7, 0)]), &list_with([(7, 0)])), list_with([(7, 0)]));
}

#[test]
fn the_end_word_alone_changes_nothing() {
    assert_eq!(merged(&NO_CHANGE, &NO_CHANGE), NO_CHANGE);
    for list in [list_with([(34, 250), (35, 199)]), list_at(0..480, 3), list_with([(0, 0), (2047, u32::MAX)])] {
        assert_eq!(merged(&list, &NO_CHANGE), list);
        assert_eq!(merged(&NO_CHANGE, &list), list);
    }
}

#[test]
fn pages_to_63() {
    let (low, high) = (list_with([(0, 1)]), list_with([(2046, 3), (2047, 4)]));
    assert_eq!(merged(&low, &high), list_with([(0, 1), (2046, 3), (2047, 4)]));
    assert_eq!(merged(&high, &list_with([(2015, 2), (2046, 9)])), list_with([(2015, 2), (2046, 9), (2047, 4)]));
    // A word of each of the 64 pages in both.
    let of_each_page = |word: u32| list(&(0..64).map(|page| (32 * page + word, page)).collect());
    let both = list(&(0..64).flat_map(|page| [(32 * page + 3, page), (32 * page + 9, page)]).collect());
    assert_eq!(merged(&of_each_page(9), &of_each_page(3)), both);
    let page_64 = list_with([(0, 1), (2048, 5)]);
    assert_refused(&page_64, &high, 600, refused_at(FAULTY_LIST, 3));
    assert_refused(&high, &page_64, 600, refused_at(FAULTY_LIST, 3));
}

/// Faulty lists with the places of their faults, one of each kind.
fn faulty_lists() -> Vec<(Vec<u32>, u64)> {
    let full = list_at(0..256, 5);
    let too_long = list_at(0..512, 5);
    assert_eq!((full.len(), too_long.len()), (273, 545));
    vec![
        (vec![], 0),
        (full[..272].to_vec(), 272),
        (too_long, 512),
        (vec![0x2000_0001, 5, 0xF000_0002], 0),
        (vec![0x1000_0040, 0x2000_0001, 5, 0xF000_0003], 0),
        (vec![0x1000_0001, 0x2000_0001, 5, 0x1000_0001, 0x2002_0001, 5, 0xF000_0006], 3),
        (vec![0x1000_0001, 0xF000_0001], 1),
        (vec![0x1000_0001, 0x201F_0002, 5, 5, 0xF000_0004], 1),
        (vec![0x1000_0001, 0x2000_0001, 5, 0x2001_0001, 5, 0xF000_0005], 3),
        (vec![0x1000_0001, 0x2000_0001, 5, 0x3000_0000, 0xF000_0004], 3),
        (vec![0x1000_0001, 0x2000_0001, 5, 0xF000_0004], 3),
        (vec![0x1000_0001, 0x2000_0001, 5, 0xF000_0003, 0], 4),
        (vec![0xF000_0000, 0xF000_0001], 1),
    ]
}

#[test]
fn refusal_7_has_the_place_in_the_list() {
    let allowed = [NO_CHANGE.to_vec(), list_with([(34, 250), (35, 199)]), list_at(0..480, 3)];
    for (faulty, place) in faulty_lists() {
        for allowed in &allowed {
            for room in [0, 3, 600] {
                assert_refused(&faulty, allowed, room, refused_at(FAULTY_LIST, place));
                assert_refused(allowed, &faulty, room, refused_at(FAULTY_LIST, place));
            }
        }
    }
}

#[test]
fn the_first_list_is_looked_at_first() {
    for (first, place) in faulty_lists() {
        for (second, _) in faulty_lists() {
            assert_refused(&first, &second, 600, refused_at(FAULTY_LIST, place));
            assert_refused(&first, &second, 0, refused_at(FAULTY_LIST, place));
        }
    }
}

#[test]
fn refusal_19() {
    assert_eq!(LIST_TOO_LONG, 19);
    let (low, high) = (list_at(0..256, 5), list_at(256..512, 6));
    assert_eq!((low.len(), high.len()), (273, 273));
    for room in [0, 511, 512, 544, 545, 600] {
        assert_refused(&low, &high, room, refused(LIST_TOO_LONG));
        assert_refused(&high, &low, room, refused(LIST_TOO_LONG));
    }
    // The fault of either list comes before.
    assert_refused(&low[..272], &high, 600, refused_at(FAULTY_LIST, 272));
    assert_refused(&low, &high[..272], 600, refused_at(FAULTY_LIST, 272));
}

#[test]
fn at_most_512_words() {
    // 14 pages whole and 30 words of the next; then a page word, a run word and a price, or
    // two prices.
    let long = list_at(0..478, 5);
    assert_eq!(long.len(), 509);
    let (fits, over) = (list_with([(600, 6)]), list_with([(600, 6), (601, 6)]));
    for (first, second) in [(&long, &fits), (&fits, &long)] {
        let result = merged(first, second);
        assert_eq!((result.len(), result[511]), (512, 0xF000_01FF));
        assert_eq!(check_list(&result, 64), Answer::Given(479));
        // It merges again, with what it names already and with nothing.
        assert_eq!(merged(&result, first), result);
        assert_eq!(merged(&NO_CHANGE, &result), result);
        assert_refused(first, second, 511, refused(WRONG_BUFFER));
    }
    for room in [0, 512, 513, 600] {
        assert_refused(&long, &over, room, refused(LIST_TOO_LONG));
        assert_refused(&over, &long, room, refused(LIST_TOO_LONG));
    }
    // The word between two runs takes no word more: its price stands for a run word.
    let with_gap = merged(&long, &list_with([(479, 5)]));
    let whole = list_at(0..480, 5);
    assert_eq!((with_gap.len(), whole.len()), (511, 511));
    assert_eq!(merged(&with_gap, &list_with([(478, 5)])), whole);
    assert_refused(&whole, &list_with([(480, 5)]), 600, refused(LIST_TOO_LONG));
}

#[test]
fn short_buffers() {
    let (first, second) = (list_with([(34, 250), (35, 199)]), list_with([(35, 175), (64, 5)]));
    for room in 0..8 {
        assert_refused(&first, &second, room, refused(WRONG_BUFFER));
    }
    let mut buffer = [77; 8];
    assert_eq!(merge_lists(&first, &second, &mut buffer), Answer::Given(8));
    assert_eq!(buffer[..], merged(&first, &second));
    assert_refused(&NO_CHANGE, &NO_CHANGE, 0, refused(WRONG_BUFFER));
    assert_eq!(merge_lists(&NO_CHANGE, &NO_CHANGE, &mut buffer), Answer::Given(1));
    assert_eq!(buffer[..3], [0xF000_0000, 0x2002_0002, 0x0000_00FA]);
}

/// Few, so that lists often agree in one; some would be words of a list by their kind.
const PRICES: [u32; 5] = [0, 199, 0x1000_0002, 0x2001_0001, 0xF000_0003];

/// The most labels, from the first on, whose list is allowed. A label has at most three
/// words of it.
fn cut(mut prices: Labels) -> Labels {
    while let excess @ 1.. = list(&prices).len().saturating_sub(512) {
        for _ in 0..excess.div_ceil(3) {
            prices.pop_last();
        }
    }
    prices
}

/// Prices of a list: none, few, or many, of a few pages or of all.
fn random_prices(random: &mut Random) -> Labels {
    let pages = random.of(&[1, 2, 4, 16, 64]);
    let start = random.below(65 - pages);
    let rarity = random.of(&[1, 2, 3, 10, 100, 1_000]);
    let mut prices = Labels::new();
    for label in 32 * start..32 * (start + pages) {
        if random.one_in(rarity) {
            prices.insert(label, random.of(&PRICES));
        }
    }
    cut(prices)
}

/// Prices of a list that often has words of another, at their price or another, and words
/// beside those.
fn prices_near(random: &mut Random, others: &Labels) -> Labels {
    let (rarity, mut prices) = (random.of(&[1, 2, 5, 50]), Labels::new());
    for (&label, &price) in others {
        if random.one_in(rarity) {
            let near = (label + random.below(3)).saturating_sub(1).min(2047);
            let any_price = random.of(&PRICES);
            prices.insert(near, random.of(&[price, any_price]));
        }
    }
    if random.one_in(3) {
        prices.extend(random_prices(random));
    }
    cut(prices)
}

/// The pages after the changes of a list.
fn laid_on(list: &[u32], pages: &[u32]) -> Vec<u32> {
    let mut pages = pages.to_vec();
    for Price { page, word, price } in prices(list) {
        pages[32 * page as usize + word as usize] = price;
    }
    pages
}

#[test]
fn the_effect_is_the_firsts_and_then_the_seconds() {
    let mut random = Random::new(9);
    let (mut too_long, mut equal, mut unequal) = (0, 0, 0);
    for _ in 0..8_000 {
        let first_prices = random_prices(&mut random);
        let second_prices = prices_near(&mut random, &first_prices);
        let (first, second) = (list(&first_prices), list(&second_prices));
        for (label, price) in &second_prices {
            equal += u32::from(first_prices.get(label) == Some(price));
            unequal += u32::from(first_prices.get(label).is_some_and(|before| before != price));
        }
        let mut both = first_prices;
        both.extend(&second_prices);
        let expected = list(&both);
        if expected.len() > 512 {
            too_long += 1;
            assert_eq!(merge(&first, &second), Err(refused(LIST_TOO_LONG)));
            continue;
        }
        let result = merged(&first, &second);
        assert_eq!(result, expected);
        assert_eq!(check_list(&result, 64), Answer::Given(both.len() as u64));
        let pages = random.words(2_048);
        assert_eq!(laid_on(&result, &pages), laid_on(&second, &laid_on(&first, &pages)));
        assert_refused(&first, &second, result.len() - 1, refused(WRONG_BUFFER));
        assert_eq!(merged(&NO_CHANGE, &result), result);
        assert_eq!(merged(&result, &NO_CHANGE), result);
    }
    assert!((200..2_000).contains(&too_long), "{too_long}");
    assert!(equal > 10_000 && unequal > 10_000, "{equal} {unequal}");
}

/// A word more never makes a list shorter: so what is too long in one bracketing is too
/// long in the other.
#[test]
fn either_bracketing_of_three_lists() {
    let mut random = Random::new(10);
    let (mut accepted, mut too_long) = (0, 0);
    for _ in 0..8_000 {
        let first = random_prices(&mut random);
        let second = prices_near(&mut random, &first);
        let third = match random.one_in(2) {
            true => prices_near(&mut random, &first),
            false => prices_near(&mut random, &second),
        };
        let [first, second, third] = [first, second, third].map(|prices| list(&prices));
        let left = merge(&first, &second).and_then(|both| merge(&both, &third));
        let right = merge(&second, &third).and_then(|both| merge(&first, &both));
        assert_eq!(left, right);
        match left {
            Ok(_) => accepted += 1,
            Err(refusal) => {
                assert_eq!(refusal, refused(LIST_TOO_LONG));
                too_long += 1;
            }
        }
    }
    assert!(accepted > 4_000 && too_long > 200, "{accepted} {too_long}");
}

/// Damaged lists get the refusal of the first that is faulty, by the check of one list.
#[test]
fn damaged_lists() {
    let mut random = Random::new(11);
    let mut faults = [0; 3];
    for _ in 0..20_000 {
        let first = random_prices(&mut random);
        let second = prices_near(&mut random, &first);
        let lists = [first, second].map(|prices| damaged(&mut random, list(&prices)));
        let faulty = lists.each_ref().map(|list| match check_list(list, 64) {
            Answer::Given(_) => None,
            refusal => Some(refusal),
        });
        faults[faulty.iter().flatten().count()] += 1;
        if let Some(refusal) = faulty[0].or(faulty[1]) {
            let room = random.of(&[0, 600]);
            assert_refused(&lists[0], &lists[1], room, refusal);
        }
    }
    assert!(faults.iter().all(|count| *count > 1_000), "{faults:?}");
}

/// A list, or one with a word changed, left out or put in.
fn damaged(random: &mut Random, mut list: Vec<u32>) -> Vec<u32> {
    let at = random.below(list.len() as u32) as usize;
    match random.below(6) {
        0 => list[at] = random.odd_word(),
        1 => list.truncate(at),
        2 => list.insert(at, random.odd_word()),
        3 => list.push(random.odd_word()),
        _ => {}
    }
    list
}
