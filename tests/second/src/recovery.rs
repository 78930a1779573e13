//! What recovery and join do ("Failure, recovery, join"; where a lost home goes, "New
//! homes shared evenly").

use crate::directory::{Directory, PageCounts, Status};
use crate::layout::{
    area, area_at, area_mut, committed_at, low_word, put_desk, put_number, record_at, tentative_at, OWN_DESK,
    OWN_STAMP, PAGE_WORDS, RECORD_WORDS,
};
use crate::record::Record;
use crate::release::{all_steps, step, Release};

/// Recovers the failed card of a checked rack; gives the card's record.
pub fn recover_card(memory: &mut [u32], directory: &mut Directory, failed: u32) -> Record {
    let mut before = *directory;
    before.mark_live(failed);
    close_releases(memory, directory, &before, failed);
    let keeper = directory.record_keeper(failed);
    let record = Record::read(area(memory, directory.pages, keeper), failed);
    settle_pages(memory, directory, second_phase(&record));
    move_homes(memory, directory, failed);
    write_records(memory, &before, directory, failed, &record);
    directory.status = Status::Running;
    record
}

/// "Each open release on a live card, ascending, is run to its close." Homes and
/// backups are those from before the failure, stores meant for the failed card
/// are dropped.
fn close_releases(memory: &mut [u32], now: &Directory, before: &Directory, failed: u32) {
    for card in now.live_cards() {
        for _ in 0..steps_left(area(memory, now.pages, card)) {
            step(memory, before, card, Some(failed));
        }
    }
}

/// The steps an area's open release has yet to make, 0 with none open.
fn steps_left(area: &[u32]) -> u32 {
    Release::read(area).map_or(0, |release| all_steps(release.prices).saturating_sub(release.steps))
}

/// "If stamp and done mark differ": the failed card's release counts and its
/// committed stores may be missing.
fn second_phase(record: &Record) -> bool {
    if cfg!(feature = "wrong") {
        return record.stamp != 0;
    }
    if cfg!(feature = "wrong_done_mark") {
        return record.stamp > record.done_mark;
    }
    if cfg!(feature = "wrong_under_way_low") {
        return low_word(record.stamp) != low_word(record.done_mark);
    }
    record.stamp != record.done_mark
}

/// "Each live home of each page copies tentative to committed. If they agree,
/// committed to tentative."
fn settle_pages(memory: &mut [u32], directory: &Directory, second_phase: bool) {
    for page in 0..directory.pages {
        let (from, to) = match second_phase {
            true => (tentative_at(page), committed_at(page)),
            false => (committed_at(page), tentative_at(page)),
        };
        let homes = directory.homes_of(page);
        for home in homes.into_iter().filter(|&home| directory.is_live(home)) {
            area_mut(memory, directory.pages, home).copy_within(from..from + PAGE_WORDS, to);
        }
    }
}

/// "A page whose primary was f takes its secondary as primary." A page that lost a
/// home gets a new secondary, with both copies. "Pages are taken in rising order,
/// each choice counted in the next."
fn move_homes(memory: &mut [u32], directory: &mut Directory, failed: u32) {
    let mut counts = directory.page_counts();
    for page in 0..directory.pages {
        let primary = match directory.homes_of(page) {
            [primary, secondary] if primary == failed => secondary,
            [primary, secondary] if secondary == failed => primary,
            _ => continue,
        };
        let secondary = new_home(directory, &counts, primary);
        if !cfg!(feature = "wrong_choice_not_counted") {
            counts[secondary as usize] += 1;
        }
        directory.set_homes(page, primary, secondary);
        copy_page(memory, directory, page);
    }
}

/// Where a lost home goes: "to the live card, other than the primary, that is home
/// to the fewest pages at that moment, lowest number on a tie". There is one, as two
/// cards are live.
fn new_home(directory: &Directory, counts: &PageCounts, primary: u32) -> u32 {
    if cfg!(feature = "wrong_next_live_home") {
        return directory.next_live(primary);
    }
    let pages_of = |card| match cfg!(feature = "wrong_primaries_alone") {
        true => (0..directory.pages).filter(|&page| directory.primary_of(page) == card).count() as u32,
        false => counts[card as usize],
    };
    let on_a_tie = |card| match cfg!(feature = "wrong_tie") {
        true => directory.cards - card,
        false => card,
    };
    let others = directory.live_cards().filter(|&card| card != primary);
    others.min_by_key(|&card| (pages_of(card), on_a_tie(card))).unwrap_or(primary)
}

/// Copies both copies of a page from its primary to its secondary.
fn copy_page(memory: &mut [u32], directory: &Directory, page: u32) {
    let [primary, secondary] = directory.homes_of(page);
    let from = area_at(directory.pages, primary) + tentative_at(page);
    let to = area_at(directory.pages, secondary) + tentative_at(page);
    memory.copy_within(from..from + 2 * PAGE_WORDS, to);
}

/// The failed card's record goes on every live card, and the record of each live
/// card whose backup it was goes on that card's new backup.
fn write_records(memory: &mut [u32], before: &Directory, after: &Directory, failed: u32, record: &Record) {
    for card in after.live_cards() {
        record.write(area_mut(memory, after.pages, card), failed);
    }
    for card in before.backed_by(failed) {
        let own = Record::of_live(area(memory, after.pages, card));
        own.write(area_mut(memory, after.pages, after.backup(card)), card);
    }
}

/// Joins a dead card of a checked rack.
pub fn join(memory: &mut [u32], directory: &mut Directory, joining: u32) {
    let before = *directory;
    directory.mark_live(joining);
    let pages = before.pages;
    let keeper = before.record_keeper(joining);
    let record = Record::read(area(memory, pages, keeper), joining);
    let own = area_mut(memory, pages, joining);
    own.fill(0);
    put_number(own, OWN_STAMP, record.stamp);
    put_desk(own, OWN_DESK, &record.desk);
    for dead in directory.dead_cards() {
        copy_record(memory, pages, dead, before.record_keeper(dead), joining);
    }
    for card in directory.backed_by(joining) {
        let record = Record::of_live(area(memory, pages, card));
        record.write(area_mut(memory, pages, joining), card);
    }
}

/// Copies the whole record of a dead card from one card to another.
fn copy_record(memory: &mut [u32], pages: u32, dead: u32, from: u32, to: u32) {
    if cfg!(feature = "wrong_join") {
        let record = Record::read(area(memory, pages, from), dead);
        return record.write(area_mut(memory, pages, to), dead);
    }
    let start = area_at(pages, from) + record_at(dead);
    let to = area_at(pages, to) + record_at(dead);
    memory.copy_within(start..start + RECORD_WORDS, to);
}
