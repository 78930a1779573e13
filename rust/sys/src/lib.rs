//! The C interface of the static library: the functions and types of `include/bandsawpink.h`, which is the manual. The
//! package `bandsawpink` makes safe calls of them.

pub mod layout;
pub mod refusals;

use layout::{DESK_WORDS, DIRECTORY_WORDS, MAX_CARDS, MAX_PAGES};
use std::mem::{offset_of, size_of, transmute};

/// The awaited card of a rack that awaits none.
pub const RUNNING: u32 = u32::MAX;

/// Which cards are live, where the pages live, and whether the rack awaits a recovery.
#[repr(C)]
#[derive(Clone, Debug, PartialEq, Eq)]
pub struct Directory {
    pub cards: u32,
    pub pages: u32,
    pub awaited: u32,
    pub live: [u32; MAX_CARDS],
    pub primary: [u32; MAX_PAGES],
    pub secondary: [u32; MAX_PAGES],
}

impl Directory {
    /// What a refused formatting writes: every call refuses it.
    pub const EMPTY: Directory = Directory {
        cards: 0,
        pages: 0,
        awaited: RUNNING,
        live: [0; MAX_CARDS],
        primary: [0; MAX_PAGES],
        secondary: [0; MAX_PAGES],
    };

    /// Any words are a directory.
    pub fn from_words(words: [u32; DIRECTORY_WORDS]) -> Directory {
        // SAFETY: a directory is so many words, one after the other, and each may be any.
        unsafe { transmute(words) }
    }

    pub fn into_words(self) -> [u32; DIRECTORY_WORDS] {
        // SAFETY: as in `from_words`.
        unsafe { transmute(self) }
    }
}

#[repr(C)]
#[derive(Clone, Copy)]
pub struct Answer {
    pub number: u32,
    pub value: u64,
}

#[repr(C)]
#[derive(Clone, Copy)]
pub struct DeskAnswer {
    pub number: u32,
    pub value: u64,
    pub desk: [u32; DESK_WORDS],
}

#[repr(C)]
#[derive(Clone, Copy)]
pub struct StepsAnswer {
    pub number: u32,
    pub made: u32,
    pub value: u64,
}

#[repr(C)]
#[derive(Clone, Copy)]
pub struct FetchAllAnswer {
    pub number: u32,
    pub value: u64,
    pub shown: [u8; MAX_PAGES],
}

// The library was built for this layout.
const _: () = {
    assert!(size_of::<Directory>() == DIRECTORY_WORDS * 4);
    assert!(offset_of!(Directory, pages) == 4);
    assert!(offset_of!(Directory, awaited) == 2 * 4);
    assert!(offset_of!(Directory, live) == 3 * 4);
    assert!(offset_of!(Directory, primary) == 11 * 4);
    assert!(offset_of!(Directory, secondary) == 75 * 4);
    assert!(size_of::<Answer>() == 16 && offset_of!(Answer, value) == 8);
    assert!(size_of::<DeskAnswer>() == 48 && offset_of!(DeskAnswer, value) == 8);
    assert!(offset_of!(DeskAnswer, desk) == 16);
    assert!(size_of::<StepsAnswer>() == 16 && offset_of!(StepsAnswer, made) == 4);
    assert!(offset_of!(StepsAnswer, value) == 8);
    assert!(size_of::<FetchAllAnswer>() == 80 && offset_of!(FetchAllAnswer, value) == 8);
    assert!(offset_of!(FetchAllAnswer, shown) == 16);
    assert!(size_of::<usize>() == 8);
};

extern "C" {
    pub fn rack_format(memory: *mut u32, words: usize, cards: u32, pages: u32, directory: *mut Directory) -> Answer;
    pub fn rack_open(
        memory: *mut u32,
        words: usize,
        directory: *const Directory,
        card: u32,
        number: u64,
        desk: *const [u32; DESK_WORDS],
        list: *const u32,
        list_words: usize,
    ) -> Answer;
    pub fn rack_step(memory: *mut u32, words: usize, directory: *const Directory, card: u32) -> Answer;
    pub fn rack_steps(
        memory: *mut u32,
        words: usize,
        directory: *const Directory,
        card: u32,
        count: u32,
    ) -> StepsAnswer;
    pub fn rack_fetch(
        memory: *const u32,
        words: usize,
        directory: *const Directory,
        page: u32,
        buffer: *mut u32,
        buffer_words: usize,
    ) -> Answer;
    pub fn rack_fetch_all(
        memory: *const u32,
        words: usize,
        directory: *const Directory,
        buffer: *mut u32,
        buffer_words: usize,
    ) -> FetchAllAnswer;
    pub fn rack_fail(memory: *const u32, words: usize, directory: *mut Directory, card: u32) -> Answer;
    pub fn rack_recover(memory: *mut u32, words: usize, directory: *mut Directory) -> DeskAnswer;
    pub fn rack_join(memory: *mut u32, words: usize, directory: *mut Directory, card: u32) -> Answer;
    pub fn rack_desk(memory: *const u32, words: usize, directory: *const Directory, card: u32) -> DeskAnswer;
    pub fn rack_move_in(
        old_memory: *const u32,
        old_words: usize,
        directory: *const Directory,
        memory: *mut u32,
        words: usize,
    ) -> Answer;
    pub fn rack_move_back(
        memory: *const u32,
        words: usize,
        directory: *const Directory,
        old_memory: *mut u32,
        old_words: usize,
    ) -> Answer;
    pub fn rack_make_list(
        working: *const u32,
        working_words: usize,
        twins: *const u32,
        twins_words: usize,
        marks: *const u32,
        marks_words: usize,
        buffer: *mut u32,
        buffer_words: usize,
    ) -> Answer;
    pub fn rack_mark_changes(
        working: *const u32,
        working_words: usize,
        twins: *const u32,
        twins_words: usize,
        marks: *mut u32,
        marks_words: usize,
    ) -> Answer;
    pub fn rack_merge_lists(
        first: *const u32,
        first_words: usize,
        second: *const u32,
        second_words: usize,
        buffer: *mut u32,
        buffer_words: usize,
    ) -> Answer;
}
