//! The lent memory and the words of one card's area ("Cards, pages, memory", with the
//! numbers of two words of "Stamps that outlast the shop"). Where a thing stands there,
//! and how many words it takes, is said in this file alone; `old_layout` says it of the
//! form with numbers of one word.

use std::ops::{Range, RangeInclusive};

pub const CARD_LIMITS: RangeInclusive<u32> = 3..=8;
pub const PAGE_LIMITS: RangeInclusive<u32> = 1..=64;

/// The most cards and pages a directory has room for.
pub const MOST_CARDS: usize = 8;
pub const MOST_PAGES: usize = 64;

pub const PAGE_WORDS: usize = 32;
pub const DESK_WORDS: usize = 8;
/// The most words of a list ("At most 512 words in all").
pub const LIST_WORDS: usize = 512;
/// A number is 64 bits, "low word first".
pub const NUMBER_WORDS: usize = 2;

// The table of one area, by the first word of each row.
pub const OWN_STAMP: usize = 0;
pub const OWN_DESK: usize = 2;
pub const OPEN: usize = 10;
pub const STEPS: usize = 11;
pub const NUMBER: usize = 12;
pub const DESK: usize = 14;
pub const RECORDS: usize = 22;
pub const LIST: usize = 182;
pub const PAGES: usize = 694;

// A card's record: "stamp, done mark, even desk, odd desk".
pub const STAMP: usize = 0;
pub const DONE_MARK: usize = 2;
pub const EVEN_DESK: usize = 4;
pub const ODD_DESK: usize = 12;
pub const RECORD_WORDS: usize = 20;

/// The words of a card's open release: what stands before the records, and the list.
pub const RELEASE: [Range<usize>; 2] = [OPEN..RECORDS, LIST..PAGES];

pub type Desk = [u32; DESK_WORDS];

/// A release's number; a stamp and a done mark are such numbers.
pub type Number = u64;

/// What the checks of a rack need of a form of the memory: where an area holds the open
/// release, and where its pages start.
pub struct Form {
    pub open: usize,
    pub steps: usize,
    pub list: usize,
    pub pages: usize,
}

impl Form {
    /// An area is 64 words for each page and those before the pages.
    pub const fn area_words(&self, pages: u32) -> usize {
        self.pages + 2 * PAGE_WORDS * pages as usize
    }

    /// The stated length of the memory, or `None` outside the limits.
    pub fn memory_words(&self, cards: u32, pages: u32) -> Option<usize> {
        let within = CARD_LIMITS.contains(&cards) && PAGE_LIMITS.contains(&pages);
        within.then(|| cards as usize * self.area_words(pages))
    }

    pub fn area<'a>(&self, memory: &'a [u32], pages: u32, card: u32) -> &'a [u32] {
        let words = self.area_words(pages);
        &memory[card as usize * words..][..words]
    }
}

/// The form of this file.
pub const FORM: Form = Form { open: OPEN, steps: STEPS, list: LIST, pages: PAGES };

/// An area is 694 + 64 × pages words.
pub const fn area_words(pages: u32) -> usize {
    FORM.area_words(pages)
}

/// The stated length of the memory, or `None` outside the limits.
pub fn memory_words(cards: u32, pages: u32) -> Option<usize> {
    FORM.memory_words(cards, pages)
}

/// The first word of a card's area in the memory.
pub fn area_at(pages: u32, card: u32) -> usize {
    card as usize * area_words(pages)
}

pub fn area(memory: &[u32], pages: u32, card: u32) -> &[u32] {
    FORM.area(memory, pages, card)
}

pub fn area_mut(memory: &mut [u32], pages: u32, card: u32) -> &mut [u32] {
    &mut memory[area_at(pages, card)..][..area_words(pages)]
}

/// Where an area holds the record of a card: 22 + 20c.
pub fn record_at(card: u32) -> usize {
    RECORDS + RECORD_WORDS * card as usize
}

/// Where an area holds the stamp of a card's record.
pub fn stamp_at(card: u32) -> usize {
    record_at(card) + STAMP
}

/// Where an area holds the done mark of a card's record.
pub fn done_mark_at(card: u32) -> usize {
    record_at(card) + DONE_MARK
}

/// Where an area holds the desk of a card's record for a release's number:
/// "even desk if the number is even, else odd".
pub fn desk_of_number_at(card: u32, number: Number) -> usize {
    let desk = if number.is_multiple_of(2) { EVEN_DESK } else { ODD_DESK };
    record_at(card) + desk
}

/// Where an area holds a page's tentative words: 694 + 64p.
pub fn tentative_at(page: u32) -> usize {
    PAGES + 2 * PAGE_WORDS * page as usize
}

/// Where an area holds a page's committed words, after the tentative ones.
pub fn committed_at(page: u32) -> usize {
    tentative_at(page) + PAGE_WORDS
}

/// The number that starts at a word of an area.
pub fn number_at(area: &[u32], at: usize) -> Number {
    Number::from(area[at]) | Number::from(area[at + 1]) << u32::BITS
}

pub fn put_number(area: &mut [u32], at: usize, number: Number) {
    area[at..at + NUMBER_WORDS].copy_from_slice(&[low_word(number), high_word(number)]);
}

pub const fn low_word(number: Number) -> u32 {
    number as u32
}

pub const fn high_word(number: Number) -> u32 {
    (number >> u32::BITS) as u32
}

/// A card's own stamp, `None` where the memory ends before its last word.
pub fn own_stamp(memory: &[u32], pages: u32, card: u32) -> Option<Number> {
    let words = memory.get(area_at(pages, card) + OWN_STAMP..)?;
    (words.len() >= NUMBER_WORDS).then(|| number_at(words, 0))
}

/// The eight desk words that start at a word of an area.
pub fn desk_at(area: &[u32], at: usize) -> Desk {
    let mut desk = [0; DESK_WORDS];
    desk.copy_from_slice(&area[at..at + DESK_WORDS]);
    desk
}

pub fn put_desk(area: &mut [u32], at: usize, desk: &Desk) {
    area[at..at + DESK_WORDS].copy_from_slice(desk);
}
