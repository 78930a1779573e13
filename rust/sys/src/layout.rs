//! Limits and lengths, and how long the memory of a rack is.

pub const MAX_CARDS: usize = 8;
pub const MAX_PAGES: usize = 64;

/// The words of a page, one price in cents each.
pub const PAGE_WORDS: usize = 32;

/// The words of a desk, which the price desk wants back.
pub const DESK_WORDS: usize = 8;

/// The longest list of changes.
pub const LIST_WORDS: usize = 512;

/// The words of a directory.
pub const DIRECTORY_WORDS: usize = 139;

/// The memory of a rack, in words of 32 bits.
pub const fn memory_words(cards: u32, pages: u32) -> usize {
    areas_words(cards, pages, 694)
}

/// The memory of a rack in the old form, whose numbers have one word.
pub const fn old_memory_words(cards: u32, pages: u32) -> usize {
    areas_words(cards, pages, 676)
}

/// An area for each card: words before its pages, and two copies of each page.
const fn areas_words(cards: u32, pages: u32, before_pages: usize) -> usize {
    cards as usize * (before_pages + 2 * PAGE_WORDS * pages as usize)
}
