//! The calls of the rack with the directory as a value, handed in and handed
//! back. None is inlined, so that a caller who times them pays for it.

use crate::answer::Answer;
use crate::calls;
use crate::directory::Directory;
use crate::layout::{Desk, Number, MOST_PAGES};

#[inline(never)]
pub fn format_rack(memory: &mut [u32], cards: u32, pages: u32) -> (Directory, Answer) {
    let mut directory = Directory::empty();
    let answer = calls::format_rack(memory, cards, pages, &mut directory);
    (directory, answer)
}

#[inline(never)]
pub fn open_release(
    memory: &mut [u32],
    directory: Directory,
    card: u32,
    number: Number,
    desk: Desk,
    list: &[u32],
) -> (Directory, Answer) {
    let answer = calls::open_release(memory, &directory, card, number, &desk, list);
    (directory, answer)
}

#[inline(never)]
pub fn make_step(memory: &mut [u32], directory: Directory, card: u32) -> (Directory, Answer) {
    let answer = calls::make_step(memory, &directory, card);
    (directory, answer)
}

#[inline(never)]
pub fn make_steps(memory: &mut [u32], directory: Directory, card: u32, count: u32) -> (Directory, Answer, u32) {
    let (answer, made) = calls::make_steps(memory, &directory, card, count);
    (directory, answer, made)
}

#[inline(never)]
pub fn fetch_page(memory: &[u32], directory: Directory, page: u32, buffer: &mut [u32]) -> (Directory, Answer) {
    let answer = calls::fetch_page(memory, &directory, page, buffer);
    (directory, answer)
}

#[inline(never)]
pub fn fetch_all(memory: &[u32], directory: Directory, buffer: &mut [u32]) -> (Directory, Answer, [bool; MOST_PAGES]) {
    let (answer, shown) = calls::fetch_all(memory, &directory, buffer);
    (directory, answer, shown)
}

#[inline(never)]
pub fn fail_card(memory: &[u32], mut directory: Directory, card: u32) -> (Directory, Answer) {
    let answer = calls::fail_card(memory, &mut directory, card);
    (directory, answer)
}

#[inline(never)]
pub fn recover(memory: &mut [u32], mut directory: Directory) -> (Directory, Answer, Desk) {
    let (answer, desk) = calls::recover(memory, &mut directory);
    (directory, answer, desk)
}

#[inline(never)]
pub fn join_card(memory: &mut [u32], mut directory: Directory, card: u32) -> (Directory, Answer) {
    let answer = calls::join_card(memory, &mut directory, card);
    (directory, answer)
}

#[inline(never)]
pub fn ask_desk(memory: &[u32], directory: Directory, card: u32) -> (Directory, Answer, Desk) {
    let (answer, desk) = calls::ask_desk(memory, &directory, card);
    (directory, answer, desk)
}
