//! The form of the memory with numbers of one word ("Cards, pages, memory"), which the
//! mover takes to the form of `layout` and back. Both forms have the same order; a desk,
//! a list and a page have as many words here as there.

use crate::layout::Form;

// The table of one area, by the first word of each row.
pub const OWN_STAMP: usize = 0;
pub const OWN_DESK: usize = 1;
pub const OPEN: usize = 9;
pub const STEPS: usize = 10;
pub const NUMBER: usize = 11;
pub const DESK: usize = 12;
pub const RECORDS: usize = 20;
pub const LIST: usize = 164;
pub const PAGES: usize = 676;

// A card's record: "stamp, done mark, even desk, odd desk".
pub const STAMP: usize = 0;
pub const DONE_MARK: usize = 1;
pub const EVEN_DESK: usize = 2;
pub const ODD_DESK: usize = 10;
pub const RECORD_WORDS: usize = 18;

/// The form of this file.
pub const FORM: Form = Form { open: OPEN, steps: STEPS, list: LIST, pages: PAGES };

/// An area is 676 + 64 × pages words.
pub const fn area_words(pages: u32) -> usize {
    FORM.area_words(pages)
}

/// The stated length of the memory, or `None` outside the limits.
pub fn memory_words(cards: u32, pages: u32) -> Option<usize> {
    FORM.memory_words(cards, pages)
}

/// Where an area holds the record of a card: 20 + 18c.
pub fn record_at(card: u32) -> usize {
    RECORDS + RECORD_WORDS * card as usize
}
