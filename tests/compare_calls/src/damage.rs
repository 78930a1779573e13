//! Single calls on damaged memories and directories: random words anywhere, lists without an end word, steps past the
//! last, records and homes that no call left, releases that overlap, memories of another length.

use crate::call::{Call, Reply};
use crate::library::words_of;
use crate::racks::{bounded_pages, Racks};
use crate::seen::Seen;
use crate::{lists, numbers};
use random::Random;
use second::layout::{
    area_words, done_mark_at, memory_words, number_at, own_stamp, put_number, record_at, stamp_at, EVEN_DESK, LIST,
    LIST_WORDS, NUMBER, NUMBER_WORDS, OPEN, OWN_STAMP, PAGES, PAGE_WORDS, RECORD_WORDS, RELEASE, STEPS,
};
use second::{Directory, Status};

/// The damaged rack of this number, and a few calls on it.
pub fn compare(random: &mut Random, at: u64, seen: &mut Seen) -> Result<u64, String> {
    let (cards, pages) = size(random, at);
    let (memory, directory) = reached(random, cards, pages);
    let (memory, directory) = damaged(random, memory, directory);
    let mut racks = Racks::new(&memory, &words_of(&directory));
    let calls = random.within(1, 6);
    for _ in 0..calls {
        let call = any_call(random, &racks);
        make(random, &mut racks, &call, seen)?;
    }
    Ok(calls.into())
}

/// Makes a call and counts it; before, a live mark may get another word.
pub fn make(random: &mut Random, racks: &mut Racks, call: &Call, seen: &mut Seen) -> Result<Reply, String> {
    let mark = random.odd_word();
    racks.disguise_mark(random.below(8) as usize, mark);
    let reply = racks.call(call)?;
    seen.count(call, &reply);
    Ok(reply)
}

/// The cards and pages of the rack of this number.
pub fn size(random: &mut Random, at: u64) -> (u32, u32) {
    match at % 40 {
        0 => (8, 64),
        1 => (3, 1),
        2..=5 => (random.within(3, 8), random.within(16, 64)),
        _ => (random.within(3, 8), random.within(1, 4)),
    }
}

/// A rack that calls have led to, with releases open, cards dead or awaited.
pub fn reached(random: &mut Random, cards: u32, pages: u32) -> (Vec<u32>, Directory) {
    let mut memory = vec![0; memory_words(cards, pages).expect("within the limits")];
    let (mut directory, _) = second::format_rack(&mut memory, cards, pages);
    if random.one_in(4) {
        put_numbers(random, &mut memory, &directory);
    }
    for _ in 0..random.below(14) {
        let card = random.below(cards);
        let after = match random.below(7) {
            0 | 1 => second::fail_card(&memory, directory, card).0,
            2 | 3 => second::recover(&mut memory, directory).0,
            4 => second::join_card(&mut memory, directory, card).0,
            _ => {
                let number = own_stamp(&memory, pages, card).expect("a card of the rack").wrapping_add(1);
                let list = lists::allowed(random, pages, 30 * pages);
                second::open_release(&mut memory, directory, card, number, random.array(), &list);
                let count = random.below(40);
                second::make_steps(&mut memory, directory, card, count).0
            }
        };
        directory = after;
    }
    if random.one_in(4) {
        directory = with_dead_cards(random, &mut memory, directory);
    }
    (memory, directory)
}

/// Cards fail one after the other, each with its recovery.
fn with_dead_cards(random: &mut Random, memory: &mut [u32], mut directory: Directory) -> Directory {
    for _ in 0..random.below(directory.cards) {
        directory = second::fail_card(memory, directory, random.below(directory.cards)).0;
        directory = second::recover(memory, directory).0;
    }
    directory
}

pub fn damaged(random: &mut Random, mut memory: Vec<u32>, mut directory: Directory) -> (Vec<u32>, Directory) {
    for _ in 0..random.below(4) {
        match random.below(13) {
            0 => damage_directory(random, &mut directory),
            1 => overlap(random, &mut memory, &directory),
            2 if random.one_in(6) => memory.resize(random.below(6_000) as usize, 1),
            3 | 4 => damage_area(random, &mut memory, &directory),
            5 | 6 => put_release(random, &mut memory, &directory),
            7 | 8 => damage_record(random, &mut memory, &directory),
            9 => put_numbers(random, &mut memory, &directory),
            10 | 11 => put_homes(random, &mut memory, &mut directory),
            _ if memory.is_empty() => {}
            _ => {
                let at = random.below(memory.len() as u32) as usize;
                memory[at] = random.odd_word();
            }
        }
    }
    (memory, directory)
}

fn area_of(directory: &Directory) -> usize {
    area_words(bounded_pages(directory))
}

/// A few numbers at the edges of one word and of two: own stamps, releases' numbers, and stamps and done marks in any
/// of the eight records, also past the number of cards.
pub fn put_numbers(random: &mut Random, memory: &mut [u32], directory: &Directory) {
    for _ in 0..random.within(1, 3) {
        let (card, record) = (random.below(directory.cards.clamp(1, 8)), random.below(8));
        let offset = random.of(&[OWN_STAMP, NUMBER, stamp_at(record), done_mark_at(record)]);
        let at = card as usize * area_of(directory) + offset;
        if let Some(words) = memory.get_mut(at..at + NUMBER_WORDS) {
            put_number(words, 0, numbers::at_edge(random));
        }
    }
}

/// A word that the checks look at, that a list is read from, or of a page.
fn damage_area(random: &mut Random, memory: &mut [u32], directory: &Directory) {
    let area = area_of(directory);
    let page_word = random.within(PAGES as u32, area as u32) as usize;
    let release = [OWN_STAMP, OWN_STAMP, OPEN, OPEN, STEPS, STEPS, NUMBER];
    let list = [LIST, LIST, LIST + 1, LIST + 2, LIST + 4, PAGES - 1];
    let offset = random.of(&[&release[..], &list, &[page_word, page_word]].concat());
    let at = random.below(8) as usize * area + offset;
    if let Some(word) = memory.get_mut(at) {
        *word = random.odd_word();
    }
}

/// A release on one card, about to count or to close, or past that. Its list may go on past its own words, in those of
/// the first pages.
fn put_release(random: &mut Random, memory: &mut [u32], directory: &Directory) {
    let (area, pages) = (area_of(directory), directory.pages.clamp(1, 64));
    let list = match random.below(6) {
        0 => lists::near_limit(random, pages),
        1 => {
            let over = random.within(1, 2 * PAGE_WORDS as u32);
            lists::of_length(random, pages, LIST_WORDS as u32 + over)
        }
        _ => lists::allowed(random, pages, 30 * pages),
    };
    let prices = lists::priced(&list).len() as u32;
    let list = if random.one_in(4) { lists::damaged(random, &list) } else { list };
    let steps = match random.below(4) {
        0 => random.below(4 * prices + 11),
        1 => 2 * prices + random.within(7, 10),
        _ => 4 * prices + random.within(8, 12),
    };
    let at = random.below(directory.cards.clamp(1, 8)) as usize * area;
    if let Some(own) = memory.get_mut(at..at + area) {
        let number = number_at(own, OWN_STAMP).wrapping_add(random.of(&[1, 1, 1, 2]));
        (own[OPEN], own[STEPS]) = (1, steps);
        put_number(own, NUMBER, number);
        own[LIST..].iter_mut().zip(list).for_each(|(word, listed)| *word = listed);
    }
}

/// One word of a card's record, on every card: a dead card's if there is one, and mostly the stamp or done mark, so
/// that either may be the greater.
fn damage_record(random: &mut Random, memory: &mut [u32], directory: &Directory) {
    let card = dead_card(random, directory).unwrap_or(random.below(8));
    let words = if random.one_in(3) { RECORD_WORDS } else { EVEN_DESK };
    let offset = random.below(words as u32) as usize;
    let word = if random.one_in(2) { random.below(4) } else { random.odd_word() };
    let at = record_at(card) + offset;
    memory.iter_mut().skip(at).step_by(area_of(directory)).for_each(|record| *record = word);
}

/// The first card's release words and list also on another card: the two overlap.
fn overlap(random: &mut Random, memory: &mut [u32], directory: &Directory) {
    let area = area_of(directory);
    let to = random.within(1, 7) as usize * area;
    if to + area <= memory.len() {
        RELEASE.into_iter().for_each(|words| memory.copy_within(words.clone(), to + words.start));
    }
}

fn damage_directory(random: &mut Random, directory: &mut Directory) {
    let page = random.below(64) as usize % (directory.pages as usize).clamp(1, 64);
    match random.below(8) {
        0 => directory.cards = random.odd_word(),
        1 => directory.pages = random.odd_word(),
        2 => directory.cards = random.below(10),
        3 => directory.live[random.below(8) as usize] ^= true,
        4 => directory.primary[page] = random.odd_word() % 11,
        5 => directory.secondary[page] = random.below(9),
        6 => directory.primary[random.below(64) as usize] = random.odd_word(),
        // 4294967295 stands for a running rack in the words of a directory
        _ => directory.status = Status::Awaiting(random.below(9) * random.of(&[1, 1, 1, 400_000_000])),
    }
}

/// Homes that pass check 2, on some of the cards that may be homes: so cards may be home to many pages, to few or to
/// none, or to as many as others. The pages get any words, so that it shows which are copied. Then one of these cards
/// may fail.
fn put_homes(random: &mut Random, memory: &mut [u32], directory: &mut Directory) {
    let may_be_home = |card: &u32| !is_dead(directory, *card) || directory.status == Status::Awaiting(*card);
    let mut homes: Vec<u32> = (0..directory.cards.min(8)).filter(may_be_home).collect();
    while homes.len() > 2 && random.one_in(3) {
        homes.remove(random.below(homes.len() as u32) as usize);
    }
    if homes.len() < 2 {
        return;
    }
    for page in 0..directory.pages.min(64) as usize {
        let primary = random.of(&homes);
        let others: Vec<u32> = homes.iter().copied().filter(|&card| card != primary).collect();
        (directory.primary[page], directory.secondary[page]) = (primary, random.of(&others));
    }
    put_pages(random, memory, directory);
    if random.one_in(2) {
        *directory = second::fail_card(memory, *directory, random.of(&homes)).0;
    }
}

/// Any words in the pages of every area.
fn put_pages(random: &mut Random, memory: &mut [u32], directory: &Directory) {
    let pages = memory.chunks_mut(area_of(directory)).filter_map(|area| area.get_mut(PAGES..));
    pages.flatten().for_each(|word| *word = random.word());
}

/// The awaited card, or any dead one.
fn dead_card(random: &mut Random, directory: &Directory) -> Option<u32> {
    let start = random.below(8);
    match directory.status {
        Status::Awaiting(card) if card < 8 => Some(card),
        _ => (0..8).map(|up| (start + up) % 8).find(|&card| is_dead(directory, card)),
    }
}

fn is_dead(directory: &Directory, card: u32) -> bool {
    card < directory.cards && !directory.live[card as usize]
}

fn any_call(random: &mut Random, racks: &Racks) -> Call {
    let directory = &racks.directory;
    match (directory.status, dead_card(random, directory)) {
        (Status::Awaiting(_), _) if random.one_in(2) => return Call::Recover,
        (Status::Running, Some(card)) if random.one_in(4) => return Call::Join { card },
        _ => {}
    }
    let card = if random.one_in(6) { random.odd_word() } else { random.below(8) };
    let page = if random.one_in(6) { random.odd_word() } else { random.below(4) };
    match random.below(15) {
        0 => Call::Format { cards: random.below(10), pages: random.below(66) },
        1 | 2 | 11..=13 => opening(random, racks, card),
        3 => Call::Step { card },
        4 => Call::Fetch { page, buffer: vec![5; if random.one_in(6) { 31 } else { 32 }] },
        5 => Call::Fail { card },
        6 => Call::Recover,
        7 => Call::Join { card },
        8 => Call::Steps { card, count: random.of(&[0, 1, 5, 30, 300, u32::MAX]) },
        9 | 10 => {
            let room = 32 * (directory.pages as usize).min(70);
            Call::FetchAll { buffer: vec![5; if random.one_in(6) { room + 1 } else { room }] }
        }
        _ => Call::AskDesk { card },
    }
}

/// Mostly the number after the card's stamp, whatever that is.
fn opening(random: &mut Random, racks: &Racks, card: u32) -> Call {
    let stamp = racks.stamp(card);
    let number = match random.one_in(4) {
        true => numbers::not_after(random, stamp),
        false => stamp.wrapping_add(1),
    };
    Call::Open { card, number, desk: random.array(), list: any_list(random, &racks.directory) }
}

fn any_list(random: &mut Random, directory: &Directory) -> Vec<u32> {
    let pages = directory.pages.clamp(1, 64);
    let list = match random.below(6) {
        0 => lists::near_limit(random, pages),
        _ => lists::allowed(random, pages, 30 * pages),
    };
    match random.one_in(2) {
        true => lists::damaged(random, &list),
        false => list,
    }
}
