//! Two lists made one by both: lists of every size, up to the limit of 512 words and past it, with runs that touch and
//! words that both have, at one price or at two, on pages to 63; and faulty ones, the first, the second or both.

use crate::library;
use crate::list_work::{self, room};
use crate::lists::{self, LIMIT};
use crate::seen::Seen;
use random::Random;
use second::layout::{LIST_WORDS, MOST_PAGES, PAGE_WORDS};
use second::Price;
use std::collections::BTreeMap;

const PAGES: u32 = MOST_PAGES as u32;

/// The labels of all pages, from 0.
const LABELS: u32 = (MOST_PAGES * PAGE_WORDS) as u32;

/// Prices by label.
type Labels = BTreeMap<u32, u32>;

pub fn compare(random: &mut Random, seen: &mut Seen) -> Result<(), String> {
    let [first, second] = any_lists(random);
    let list = second::merge_lists(&first, &second, &mut [0; LIST_WORDS]);
    let buffer: Vec<u32> = (0..room(random, list)).collect();
    let reply = list_work::compare(
        || format!("merge: {first:x?}, second list {second:x?}, room {}", buffer.len()),
        &buffer,
        |buffer| second::merge_lists(&first, &second, buffer),
        |flush| library::merge_lists(&first, &second, &buffer, flush),
    )?;
    seen.count_merge(&reply);
    Ok(())
}

/// Two lists, of which one, the other or both are now and then faulty.
fn any_lists(random: &mut Random) -> [Vec<u32>; 2] {
    let mut labels = match random.below(4) {
        0 => split_near_limit(random),
        1 => [any_labels(random), any_labels(random)],
        _ => {
            let labels = any_labels(random);
            let near = labels_near(random, &labels);
            [labels, near]
        }
    };
    if random.one_in(2) {
        labels.reverse();
    }
    labels.map(|labels| match random.one_in(6) {
        true => faulty_list(random, labels),
        false => lists::of_labels(&labels),
    })
}

/// Labels of no list, of a few pages or all, or as many as a list of any length has.
fn any_labels(random: &mut Random) -> Labels {
    let (pages, rarity) = (random.of(&[1, 3, 16, PAGES]), random.of(&[1, 2, 10, 100, 1_000]));
    let words = random.within(20, LIMIT);
    let list = match random.below(6) {
        0 => return Labels::new(),
        1 => lists::near_limit(random, PAGES),
        2 => lists::of_length(random, PAGES, words),
        _ => lists::allowed(random, pages, rarity),
    };
    labels_of(random, &list)
}

/// The labels of a list, at their prices, or at ones that are small or would be words of a list by their kind.
fn labels_of(random: &mut Random, list: &[u32]) -> Labels {
    let mut labels: Labels =
        second::prices(list).map(|Price { page, word, price }| (32 * page + word, price)).collect();
    if random.one_in(3) {
        labels.values_mut().for_each(|price| *price = random.odd_word());
    }
    labels
}

/// The labels of a list of about 512 words, each in the first, in the second or in both.
fn split_near_limit(random: &mut Random) -> [Labels; 2] {
    let words = random.within(LIMIT - 3, LIMIT + 3);
    let whole = lists::of_length(random, PAGES, words);
    let (mut first, mut second) = (Labels::new(), Labels::new());
    for (label, price) in labels_of(random, &whole) {
        let place = random.below(3);
        if place != 0 {
            first.insert(label, price);
        }
        if place != 1 {
            second.insert(label, about(random, price));
        }
    }
    [first, second]
}

/// Some of the labels of a list, or all, or those before or after each, at their prices or at others.
fn labels_near(random: &mut Random, labels: &Labels) -> Labels {
    let rarity = random.of(&[1, 1, 2, 5]);
    let moves: &[u32] = random.of(&[&[0][..], &[1], &[2], &[0, 1, 2]]);
    let mut near = Labels::new();
    for (&label, &price) in labels {
        if random.one_in(rarity) {
            let moved = (label + random.of(moves)).saturating_sub(1).min(LABELS - 1);
            near.insert(moved, about(random, price));
        }
    }
    near
}

/// Mostly the price itself.
fn about(random: &mut Random, price: u32) -> u32 {
    match random.below(4) {
        0 => random.odd_word(),
        1 => price ^ 1 << random.below(32),
        _ => price,
    }
}

/// A list that is mostly faulty: with a price of page 64 or later, of more than 512 words, or damaged in one place.
fn faulty_list(random: &mut Random, mut labels: Labels) -> Vec<u32> {
    match random.below(5) {
        0 => {
            labels.insert(LABELS + random.below(LABELS), random.word());
            lists::of_labels(&labels)
        }
        1 => {
            let words = random.within(LIMIT + 1, LIMIT + 200);
            lists::of_length(random, PAGES, words)
        }
        _ => lists::damaged(random, &lists::of_labels(&labels)),
    }
}
