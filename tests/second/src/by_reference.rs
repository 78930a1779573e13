//! The calls of the rack with the directory lent. None is inlined, so that a
//! caller who times them times a call.

use crate::answer::Answer;
use crate::calls;
use crate::directory::Directory;
use crate::layout::{Desk, Number, MOST_PAGES};
use crate::mover;

#[inline(never)]
pub fn format_rack(memory: &mut [u32], cards: u32, pages: u32, directory: &mut Directory) -> Answer {
    calls::format_rack(memory, cards, pages, directory)
}

#[inline(never)]
pub fn open_release(
    memory: &mut [u32],
    directory: &Directory,
    card: u32,
    number: Number,
    desk: &Desk,
    list: &[u32],
) -> Answer {
    calls::open_release(memory, directory, card, number, desk, list)
}

#[inline(never)]
pub fn make_step(memory: &mut [u32], directory: &Directory, card: u32) -> Answer {
    calls::make_step(memory, directory, card)
}

#[inline(never)]
pub fn make_steps(memory: &mut [u32], directory: &Directory, card: u32, count: u32) -> (Answer, u32) {
    calls::make_steps(memory, directory, card, count)
}

#[inline(never)]
pub fn fetch_page(memory: &[u32], directory: &Directory, page: u32, buffer: &mut [u32]) -> Answer {
    calls::fetch_page(memory, directory, page, buffer)
}

#[inline(never)]
pub fn fetch_all(memory: &[u32], directory: &Directory, buffer: &mut [u32]) -> (Answer, [bool; MOST_PAGES]) {
    calls::fetch_all(memory, directory, buffer)
}

#[inline(never)]
pub fn fail_card(memory: &[u32], directory: &mut Directory, card: u32) -> Answer {
    calls::fail_card(memory, directory, card)
}

#[inline(never)]
pub fn recover(memory: &mut [u32], directory: &mut Directory) -> (Answer, Desk) {
    calls::recover(memory, directory)
}

#[inline(never)]
pub fn join_card(memory: &mut [u32], directory: &mut Directory, card: u32) -> Answer {
    calls::join_card(memory, directory, card)
}

#[inline(never)]
pub fn ask_desk(memory: &[u32], directory: &Directory, card: u32) -> (Answer, Desk) {
    calls::ask_desk(memory, directory, card)
}

#[inline(never)]
pub fn move_in(old: &[u32], directory: &Directory, memory: &mut [u32]) -> Answer {
    mover::move_in(old, directory, memory)
}

#[inline(never)]
pub fn move_back(memory: &[u32], directory: &Directory, old: &mut [u32]) -> Answer {
    mover::move_back(memory, directory, old)
}
