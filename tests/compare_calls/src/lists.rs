//! Lists of changes: random ones that are allowed, ones near the limit of 512 words, and faulty ones.

use random::Random;
use second::layout::LIST_WORDS;
use std::collections::BTreeMap;

/// The most words of a list.
pub const LIMIT: u32 = LIST_WORDS as u32;

/// An allowed list that prices about one word in `rarity`, as far as 512 words go.
pub fn allowed(random: &mut Random, pages: u32, rarity: u32) -> Vec<u32> {
    let mut list = Vec::new();
    for page in 0..pages {
        let start = list.len();
        list.push(0x1000_0000 | page);
        add_runs(random, &mut list, rarity);
        if list.len() == start + 1 || list.len() >= LIST_WORDS {
            list.truncate(start);
        }
    }
    list.push(0xF000_0000 | list.len() as u32);
    list
}

/// The runs of one page.
fn add_runs(random: &mut Random, list: &mut Vec<u32>, rarity: u32) {
    let mut word = 0;
    while word < 32 {
        if !random.one_in(rarity) {
            word += 1;
            continue;
        }
        let count = random.within(1, (32 - word).min(5));
        list.push(0x2000_0000 | word << 16 | count);
        for _ in 0..count {
            list.push(random.word());
        }
        word += count + 1;
    }
}

/// A list that prices one word of each page.
pub fn of_each_page(random: &mut Random, pages: u32) -> Vec<u32> {
    let mut list = Vec::new();
    for page in 0..pages {
        list.extend([0x1000_0000 | page, 0x2000_0001 | random.below(32) << 16, random.word()]);
    }
    list.push(0xF000_0000 | list.len() as u32);
    list
}

/// The list of prices by label.
pub fn of_labels(prices: &BTreeMap<u32, u32>) -> Vec<u32> {
    let (mut list, mut run, mut before) = (Vec::new(), 0, None);
    for (&label, &price) in prices {
        let (page, word) = (label / 32, label % 32);
        let is_new_page = before.is_none_or(|before| before / 32 != page);
        if is_new_page {
            list.push(0x1000_0000 | page);
        }
        if is_new_page || before != Some(label - 1) {
            run = list.len();
            list.push(0x2000_0000 | word << 16);
        }
        list[run] += 1;
        list.push(price);
        before = Some(label);
    }
    list.push(0xF000_0000 | list.len() as u32);
    list
}

/// A list of 510 to 513 words, or as many as the pages have room for: with 513 it keeps every other rule.
pub fn near_limit(random: &mut Random, pages: u32) -> Vec<u32> {
    let words = random.within(LIMIT - 2, LIMIT + 1);
    of_length(random, pages, words)
}

/// A list of so many words, or as many as the pages have room for, that keeps every rule but that of its length. It
/// prices few pages, most of them whole, so that one of 511 words often holds 480 prices.
pub fn of_length(random: &mut Random, pages: u32, words: u32) -> Vec<u32> {
    let mut left = (words - 1).min(34 * pages);
    let mut used = (left.div_ceil(34) + random.of(&[0, 0, 1, 2])).min(pages);
    let (one_run, mut list) = (!random.one_in(3), Vec::new());
    for page in 0..pages {
        if random.below(pages - page) >= used {
            continue;
        }
        used -= 1;
        let least = left.saturating_sub(34 * used).max(3);
        let most = (left - 3 * used).min(34);
        let size = if random.one_in(3) { random.within(least, most) } else { most };
        let runs = if one_run { 1 } else { random.within(1, (size - 1) / 2) };
        add_page(random, &mut list, page, size, runs);
        left -= size;
    }
    list.push(0xF000_0000 | list.len() as u32);
    list
}

/// The page word and so many runs of one page, 3 to 34 words.
fn add_page(random: &mut Random, list: &mut Vec<u32>, page: u32, size: u32, runs: u32) {
    list.push(0x1000_0000 | page);
    let (mut prices, mut skipped, mut word) = (size - 1 - runs, 34 - size, 0);
    for later in (0..runs).rev() {
        let count = if later == 0 { prices } else { random.within(1, prices - later) };
        let skip = random.below(skipped + 1);
        word += skip;
        skipped -= skip;
        list.push(0x2000_0000 | word << 16 | count);
        list.extend(random.words(count as usize));
        word += count + 1;
        prices -= count;
    }
}

/// The places of a list's words that are no prices.
fn ruled(list: &[u32]) -> Vec<usize> {
    let (mut places, mut at) = (Vec::new(), 0);
    while let Some(&word) = list.get(at) {
        places.push(at);
        at += 1 + if word >> 28 == 2 { word as usize & 0xFFFF } else { 0 };
    }
    places
}

/// The labels that an allowed list prices.
pub fn priced(list: &[u32]) -> Vec<u32> {
    let (mut labels, mut page) = (Vec::new(), 0);
    for word in ruled(list).into_iter().map(|at| list[at]) {
        let (offset, count) = (word >> 16 & 0xFFF, word & 0xFFFF);
        match word >> 28 {
            1 => page = word & 0x0FFF_FFFF,
            2 => labels.extend((offset..offset + count).map(|word| 32 * page + word)),
            _ => {}
        }
    }
    labels
}

/// The steps of a release of an allowed list.
pub fn all_steps(list: &[u32]) -> u32 {
    4 * priced(list).len() as u32 + 11
}

/// A list with a word changed, left out or put in, or cut short: mostly faulty.
pub fn damaged(random: &mut Random, list: &[u32]) -> Vec<u32> {
    let mut list = list.to_vec();
    let at = random.below(list.len() as u32) as usize;
    let rule = random.of(&ruled(&list));
    match random.below(10) {
        0 => list[at] = random.odd_word(),
        1 => drop(list.remove(at)),
        2 => list.insert(at, random.odd_word()),
        3 => list.truncate(at),
        4 => list[rule] = random.odd_word(),
        5 => list[rule] = list[rule].wrapping_add(random.of(&[1, u32::MAX, 1 << 16, u32::MAX << 16])),
        6 => split_run(&mut list, rule),
        7 => list[rule] ^= 1 << random.below(32),
        8 => add_empty_page(&mut list, rule),
        _ => list.resize(list.len() + random.below(600) as usize, random.odd_word()),
    }
    list
}

/// Makes a run of two or more prices two runs that touch.
fn split_run(list: &mut Vec<u32>, at: usize) {
    let (run, count) = (list[at], list[at] & 0xFFFF);
    if run >> 28 == 2 && count > 1 {
        list[at] = run - (count - 1);
        insert(list, at + 2, run - 1 + (1 << 16));
    }
}

/// Puts a page without a run before a page.
fn add_empty_page(list: &mut Vec<u32>, at: usize) {
    let page = list[at];
    if page >> 28 == 1 && page << 4 != 0 {
        insert(list, at, page - 1);
    }
}

/// Inserts a word; the end word's index grows with it.
fn insert(list: &mut Vec<u32>, at: usize, word: u32) {
    list.insert(at, word);
    *list.last_mut().expect("it has an end word") += 1;
}
