//! The mover ("Stamps that outlast the shop"): takes a memory of the old form, whose
//! numbers have one word, to the form of `layout`, whose numbers have two, and back.

use crate::answer::Answer;
use crate::checks;
use crate::directory::Directory;
use crate::layout::{
    area_words, done_mark_at, low_word, number_at, put_number, record_at, stamp_at, Number, DESK, DESK_WORDS,
    EVEN_DESK, LIST, LIST_WORDS, MOST_CARDS, NUMBER, ODD_DESK, OPEN, OWN_DESK, OWN_STAMP, PAGES, STEPS,
};
use crate::old_layout;

const NOTHING: Answer = Answer::Given(0);

/// Takes an old memory to the new form: "Going in, every high word is 0."
#[inline(always)]
pub fn move_in(old: &[u32], directory: &Directory, memory: &mut [u32]) -> Answer {
    if let Err(refusal) = checks::moving_in(old, directory, memory) {
        return refusal.into();
    }
    let pages = directory.pages;
    let old_areas = old.chunks_exact(old_layout::area_words(pages));
    for (old, new) in old_areas.zip(memory.chunks_exact_mut(area_words(pages))) {
        for (old_at, new_at) in numbers() {
            put_old_number(new, new_at, old[old_at]);
        }
        for block in blocks(pages) {
            new[block.new..][..block.words].copy_from_slice(&old[block.old..][..block.words]);
        }
    }
    NOTHING
}

/// Takes a memory back to the old form. High words are dropped: 20 leaves none above 0
/// but in "a dead card's high words, and those of release numbers".
#[inline(always)]
pub fn move_back(memory: &[u32], directory: &Directory, old: &mut [u32]) -> Answer {
    if let Err(refusal) = checks::moving_back(memory, directory, old) {
        return refusal.into();
    }
    let pages = directory.pages;
    let old_areas = old.chunks_exact_mut(old_layout::area_words(pages));
    for (old, new) in old_areas.zip(memory.chunks_exact(area_words(pages))) {
        for (old_at, new_at) in numbers() {
            old[old_at] = low_word(number_at(new, new_at));
        }
        for block in blocks(pages) {
            old[block.old..][..block.words].copy_from_slice(&new[block.new..][..block.words]);
        }
    }
    NOTHING
}

fn put_old_number(area: &mut [u32], at: usize, number: u32) {
    if cfg!(feature = "wrong_high_words_left") {
        area[at] = number;
        return;
    }
    put_number(area, at, Number::from(number));
}

/// Where the old and the new form of an area hold each number.
fn numbers() -> impl Iterator<Item = (usize, usize)> {
    let own = [(old_layout::OWN_STAMP, OWN_STAMP), (old_layout::NUMBER, NUMBER)];
    let of_records = slots().flat_map(|card| {
        let old = old_layout::record_at(card);
        [(old + old_layout::STAMP, stamp_at(card)), (old + old_layout::DONE_MARK, done_mark_at(card))]
    });
    own.into_iter().chain(of_records)
}

/// Words that are no numbers: where the old and the new form of an area hold them.
struct Block {
    old: usize,
    new: usize,
    words: usize,
}

/// All words of an area that are no numbers.
fn blocks(pages: u32) -> impl Iterator<Item = Block> {
    let block = |old, new, words| Block { old, new, words };
    let own = [
        block(old_layout::OWN_DESK, OWN_DESK, DESK_WORDS),
        block(old_layout::OPEN, OPEN, 1),
        block(old_layout::STEPS, STEPS, 1),
        block(old_layout::DESK, DESK, DESK_WORDS),
        block(old_layout::LIST, LIST, LIST_WORDS),
        block(old_layout::PAGES, PAGES, area_words(pages) - PAGES),
    ];
    let of_records = slots().flat_map(move |card| {
        let (old, new) = (old_layout::record_at(card), record_at(card));
        [(old_layout::EVEN_DESK, EVEN_DESK), (old_layout::ODD_DESK, ODD_DESK)]
            .map(|(old_desk, new_desk)| block(old + old_desk, new + new_desk, DESK_WORDS))
    });
    own.into_iter().chain(of_records)
}

/// The records that an area has room for, also past the number of cards.
fn slots() -> impl Iterator<Item = u32> {
    0..MOST_CARDS as u32
}
