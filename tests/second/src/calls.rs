//! What each call of the rack does, with the directory lent. Each checks
//! everything first, so a refusal changes nothing. `by_value` and
//! `by_reference` offer the calls; both have this code inside.

use crate::answer::Answer;
use crate::checks;
use crate::directory::{Directory, Status};
use crate::layout::{
    area, area_mut, committed_at, desk_at, Desk, Number, DESK_WORDS, MOST_PAGES, OWN_DESK, PAGE_WORDS,
};
use crate::record::Record;
use crate::recovery;
use crate::release;

const NOTHING: Answer = Answer::Given(0);
const NO_DESK: Desk = [0; DESK_WORDS];

/// Formatting: zeroes the memory and makes all cards live.
#[inline(always)]
pub fn format_rack(memory: &mut [u32], cards: u32, pages: u32, directory: &mut Directory) -> Answer {
    if let Err(refusal) = checks::formatting(memory, cards, pages) {
        *directory = Directory::empty();
        return refusal.into();
    }
    memory.fill(0);
    *directory = Directory::formatted(cards, pages);
    NOTHING
}

/// Opens a release on a live card.
#[inline(always)]
pub fn open_release(
    memory: &mut [u32],
    directory: &Directory,
    card: u32,
    number: Number,
    desk: &Desk,
    list: &[u32],
) -> Answer {
    if let Err(refusal) = checks::opening(memory, directory, card, number, list) {
        return refusal.into();
    }
    release::open(area_mut(memory, directory.pages, card), number, desk, list);
    NOTHING
}

/// Makes one step of a card's open release.
#[inline(always)]
pub fn make_step(memory: &mut [u32], directory: &Directory, card: u32) -> Answer {
    if let Err(refusal) = checks::step(memory, directory, card) {
        return refusal.into();
    }
    release::step(memory, directory, card, None);
    NOTHING
}

/// Single steps until the count or a refusal, and how many were made. A count
/// of 0 makes no call.
#[inline(always)]
pub fn make_steps(memory: &mut [u32], directory: &Directory, card: u32, count: u32) -> (Answer, u32) {
    for made in 0..count {
        let answer = make_step(memory, directory, card);
        if answer != NOTHING {
            return (answer, made);
        }
    }
    (NOTHING, count)
}

/// "A fetch copies the committed page at its primary."
#[inline(always)]
pub fn fetch_page(memory: &[u32], directory: &Directory, page: u32, buffer: &mut [u32]) -> Answer {
    if let Err(refusal) = checks::fetch(memory, directory, page, buffer) {
        return refusal.into();
    }
    buffer.copy_from_slice(committed_page(memory, directory, page));
    NOTHING
}

/// Fetches every page into one buffer and marks the pages shown. The words of a
/// page that a single fetch refuses with 10 are kept.
#[inline(always)]
pub fn fetch_all(memory: &[u32], directory: &Directory, buffer: &mut [u32]) -> (Answer, [bool; MOST_PAGES]) {
    let mut shown = [false; MOST_PAGES];
    if let Err(refusal) = checks::fetch_of_all(memory, directory, buffer) {
        return (refusal.into(), shown);
    }
    let pages = (0..directory.pages).zip(buffer.chunks_mut(PAGE_WORDS));
    for ((page, words), mark) in pages.zip(&mut shown) {
        if cfg!(feature = "wrong_last_page") && page == 63 {
            continue;
        }
        if checks::counting_card(memory, directory, page).is_none() {
            words.copy_from_slice(committed_page(memory, directory, page));
            *mark = true;
        }
    }
    (NOTHING, shown)
}

fn committed_page<'a>(memory: &'a [u32], directory: &Directory, page: u32) -> &'a [u32] {
    let primary = area(memory, directory.pages, directory.primary_of(page));
    &primary[committed_at(page)..][..PAGE_WORDS]
}

/// "A failure marks the card dead"; its recovery is then awaited.
#[inline(always)]
pub fn fail_card(memory: &[u32], directory: &mut Directory, card: u32) -> Answer {
    if let Err(refusal) = checks::failure(memory, directory, card) {
        return refusal.into();
    }
    directory.mark_dead(card);
    directory.status = Status::Awaiting(card);
    NOTHING
}

/// Recovers the awaited card: "The answer is f's stamp and desk."
#[inline(always)]
pub fn recover(memory: &mut [u32], directory: &mut Directory) -> (Answer, Desk) {
    match checks::recovery(memory, directory) {
        Err(refusal) => (refusal.into(), NO_DESK),
        Ok(failed) => {
            let record = recovery::recover_card(memory, directory, failed);
            (Answer::Given(record.stamp), record.desk)
        }
    }
}

/// Joins a dead card.
#[inline(always)]
pub fn join_card(memory: &mut [u32], directory: &mut Directory, card: u32) -> Answer {
    if let Err(refusal) = checks::joining(memory, directory, card) {
        return refusal.into();
    }
    recovery::join(memory, directory, card);
    NOTHING
}

/// "A desk question reads the own desk of a live card, or a dead card's record."
#[inline(always)]
pub fn ask_desk(memory: &[u32], directory: &Directory, card: u32) -> (Answer, Desk) {
    if let Err(refusal) = checks::desk_question(memory, directory, card) {
        return (refusal.into(), NO_DESK);
    }
    let desk = if directory.is_live(card) {
        desk_at(area(memory, directory.pages, card), OWN_DESK)
    } else {
        let keeper = directory.record_keeper(card);
        Record::read(area(memory, directory.pages, keeper), card).desk
    };
    (NOTHING, desk)
}
