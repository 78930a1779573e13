//! What the rack refuses ("What the rack refuses, by who caused it"). "Checks
//! run 1, 2, 11 (for recovery 12), then 3 or 9, then the rest in rising number."

use crate::answer::Refusal;
use crate::directory::{Directory, Status};
use crate::layout::{area, done_mark_at, number_at, stamp_at, Form, Number, FORM, MOST_CARDS, OWN_STAMP, PAGE_WORDS};
use crate::list::{prices, read_handed_in, read_list};
use crate::old_layout;
use crate::refusals::*;
use crate::release::{all_steps, list_of, Release};

type Checked = Result<(), Refusal>;

/// 0; 1 with the deliberate error that takes a release of 4k + 11 steps as open.
const LAST_STEP_AGAIN: u32 = cfg!(feature = "wrong_steps") as u32;

fn refuse_if(condition: bool, number: u32) -> Checked {
    match condition {
        true => Err(Refusal::plain(number)),
        false => Ok(()),
    }
}

/// Formatting: 1.
pub fn formatting(memory: &[u32], cards: u32, pages: u32) -> Checked {
    stated_length(&FORM, memory, cards, pages)
}

/// Opening a release: 1, 2, 11, 3, 4, 5, 6, 7, 8.
pub fn opening(memory: &[u32], directory: &Directory, card: u32, number: Number, list: &[u32]) -> Checked {
    running(memory, directory)?;
    refuse_if(!directory.is_live(card), NO_SUCH_CARD)?;
    let own = area(memory, directory.pages, card);
    refuse_if(Release::read(own).is_some(), RELEASE_OPEN)?;
    release_number(number_at(own, OWN_STAMP), number)?;
    read_handed_in(list, directory.pages).map_err(|place| Refusal::at(FAULTY_LIST, place as u64))?;
    match sharing_card(memory, directory, card, list) {
        Some(other) => Err(Refusal::at(WORD_IN_OTHER_RELEASE, u64::from(other))),
        None => Ok(()),
    }
}

/// A single step: 1, 2, 11, 3, 16.
pub fn step(memory: &[u32], directory: &Directory, card: u32) -> Checked {
    running(memory, directory)?;
    refuse_if(!directory.is_live(card), NO_SUCH_CARD)?;
    refuse_if(Release::read(area(memory, directory.pages, card)).is_none(), NO_RELEASE_OPEN)
}

/// A fetch: 1, 2, 11, 9, 10, 17.
pub fn fetch(memory: &[u32], directory: &Directory, page: u32, buffer: &[u32]) -> Checked {
    running(memory, directory)?;
    refuse_if(page >= directory.pages, NO_SUCH_PAGE)?;
    if let Some(card) = counting_card(memory, directory, page) {
        return Err(Refusal::at(PAGE_IN_COUNTING_RELEASE, u64::from(card)));
    }
    refuse_if(buffer.len() != PAGE_WORDS, WRONG_BUFFER)
}

/// A fetch of all pages: 1, 2, 11, 17.
pub fn fetch_of_all(memory: &[u32], directory: &Directory, buffer: &[u32]) -> Checked {
    running(memory, directory)?;
    refuse_if(buffer.len() != PAGE_WORDS * directory.pages as usize, WRONG_BUFFER)
}

/// A failure: 1, 2, 11, 3, 13.
pub fn failure(memory: &[u32], directory: &Directory, card: u32) -> Checked {
    running(memory, directory)?;
    refuse_if(!directory.is_live(card), NO_SUCH_CARD)?;
    refuse_if(directory.live_cards().count() == 2, TWO_LIVE)
}

/// Recovery: 1, 2, 12. Gives the awaited card.
pub fn recovery(memory: &[u32], directory: &Directory) -> Result<u32, Refusal> {
    rack(&FORM, memory, directory)?;
    match directory.status {
        Status::Awaiting(card) => Ok(card),
        Status::Running => Err(Refusal::plain(NONE_AWAITED)),
    }
}

/// A join: 1, 2, 11, 3, 14, 15.
pub fn joining(memory: &[u32], directory: &Directory, card: u32) -> Checked {
    running(memory, directory)?;
    refuse_if(card >= directory.cards, NO_SUCH_CARD)?;
    refuse_if(directory.is_live(card), JOINING_LIVE_CARD)?;
    none_open(&FORM, memory, directory)
}

/// A desk question: 1, 2, 11, 3.
pub fn desk_question(memory: &[u32], directory: &Directory, card: u32) -> Checked {
    running(memory, directory)?;
    refuse_if(card >= directory.cards, NO_SUCH_CARD)
}

/// A move from the old form to the new one: 1, 2, 11, 15.
pub fn moving_in(old: &[u32], directory: &Directory, memory: &[u32]) -> Checked {
    stated_length(&FORM, memory, directory.cards, directory.pages)?;
    running_with_none_open(&old_layout::FORM, old, directory)
}

/// A move from the new form back to the old one: 1, 2, 11, 15, 20.
pub fn moving_back(memory: &[u32], directory: &Directory, old: &[u32]) -> Checked {
    stated_length(&old_layout::FORM, old, directory.cards, directory.pages)?;
    running_with_none_open(&FORM, memory, directory)?;
    let slots = slots_looked_at(directory);
    let high = directory.live_cards().any(|card| is_too_high(area(memory, directory.pages, card), slots));
    refuse_if(high, STAMP_TOO_HIGH)
}

/// Refusals 1, 2 and 11.
fn running(memory: &[u32], directory: &Directory) -> Checked {
    running_in_form(&FORM, memory, directory)
}

/// Refusals 1, 2, 11 and 15 of a move, the rack read in the form moved from.
fn running_with_none_open(form: &Form, memory: &[u32], directory: &Directory) -> Checked {
    running_in_form(form, memory, directory)?;
    none_open(form, memory, directory)
}

/// Refusals 1, 2 and 11 of a rack in either form.
fn running_in_form(form: &Form, memory: &[u32], directory: &Directory) -> Checked {
    rack(form, memory, directory)?;
    refuse_if(directory.status != Status::Running, RECOVERY_AWAITED)
}

/// Refusals 1 and 2. What comes after them may rely on the lengths, the homes
/// and the open releases.
fn rack(form: &Form, memory: &[u32], directory: &Directory) -> Checked {
    let (cards, pages) = (directory.cards, directory.pages);
    stated_length(form, memory, cards, pages)?;
    let sound = directory.live_cards().count() >= 2
        && awaited_is_sound(directory)
        && (0..pages).all(|page| homes_are_sound(directory, page))
        && directory.live_cards().all(|card| release_is_sound(form, form.area(memory, pages, card), pages));
    refuse_if(!sound, UNSOUND_RACK)
}

/// Refusal 1.
fn stated_length(form: &Form, memory: &[u32], cards: u32, pages: u32) -> Checked {
    refuse_if(form.memory_words(cards, pages) != Some(memory.len()), OUTSIDE_LIMITS)
}

/// Not "an awaited card that is live or does not exist".
fn awaited_is_sound(directory: &Directory) -> bool {
    match directory.status {
        Status::Running => true,
        Status::Awaiting(card) => card < directory.cards && !directory.is_live(card),
    }
}

/// Not "homes equal, not below the number of cards, or dead and not the awaited
/// card".
fn homes_are_sound(directory: &Directory, page: u32) -> bool {
    let [primary, secondary] = directory.homes_of(page);
    primary != secondary
        && [primary, secondary].into_iter().all(|home| {
            let awaited = directory.status == Status::Awaiting(home);
            home < directory.cards && (directory.is_live(home) || awaited)
        })
}

/// Not a live card's open word "above 1, or an open release whose list is faulty
/// or whose steps exceed 4k + 10".
fn release_is_sound(form: &Form, area: &[u32], pages: u32) -> bool {
    match area[form.open] {
        0 => true,
        1 => read_list(list_of(form, area), pages)
            .is_ok_and(|extent| area[form.steps] < all_steps(extent.prices) + LAST_STEP_AGAIN),
        _ => false,
    }
}

/// Refusal 15, on a rack that 2 does not refuse.
fn none_open(form: &Form, memory: &[u32], directory: &Directory) -> Checked {
    let is_open = |card| form.area(memory, directory.pages, card)[form.open] == 1;
    refuse_if(directory.live_cards().any(is_open), JOINING_WITH_RELEASE_OPEN)
}

/// The records whose marks 20 looks at: all that an area has room for, also past
/// the number of cards.
fn slots_looked_at(directory: &Directory) -> u32 {
    if cfg!(feature = "wrong_too_high_own") {
        return 0;
    }
    if cfg!(feature = "wrong_too_high_cards") {
        return directory.cards;
    }
    MOST_CARDS as u32
}

/// "A stamp or done mark on a live card's area is above 4294967295."
fn is_too_high(area: &[u32], slots: u32) -> bool {
    let of_records = (0..slots).flat_map(|card| [stamp_at(card), done_mark_at(card)]);
    let mut marks = of_records.chain([OWN_STAMP]);
    marks.any(|at| number_at(area, at) > Number::from(u32::MAX))
}

/// Refusals 5 and 6.
fn release_number(stamp: Number, number: Number) -> Checked {
    if number <= stamp {
        return Err(Refusal::at(NUMBER_TOO_LOW, stamp));
    }
    refuse_if(number - stamp > 1, NUMBER_TOO_HIGH)
}

/// The releases open on live cards, ascending.
fn open_releases<'a>(memory: &'a [u32], directory: &'a Directory) -> impl Iterator<Item = (u32, Release<'a>)> {
    directory
        .live_cards()
        .filter_map(|card| Release::read(area(memory, directory.pages, card)).map(|release| (card, release)))
}

/// The lowest other card whose open release shares a page word with the list.
fn sharing_card(memory: &[u32], directory: &Directory, card: u32, list: &[u32]) -> Option<u32> {
    open_releases(memory, directory)
        .filter(|(other, _)| *other != card)
        .find(|(_, release)| prices(list).any(|price| release.prices_word(price.page, price.word)))
        .map(|(other, _)| other)
}

/// The lowest card with an open release that already counts and holds the page.
pub fn counting_card(memory: &[u32], directory: &Directory, page: u32) -> Option<u32> {
    open_releases(memory, directory)
        .find(|(_, release)| release.counts() && release.prices_page(page))
        .map(|(card, _)| card)
}
