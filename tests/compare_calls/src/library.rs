//! The proved library's calls, through its C interface.

use crate::call::{Call, Reply};
use crate::guard::{Access, Flush, Guarded};
use bandsawpink_sys::layout::DIRECTORY_WORDS;
use bandsawpink_sys::refusals::ACCEPTED;
use bandsawpink_sys::{self as sys, RUNNING};
use second::{Answer, Directory, Status};
use std::mem::{offset_of, size_of};

fn reply(number: u32, value: u64, beside: &[u32]) -> Reply {
    let answer = match number {
        ACCEPTED => Answer::Given(value),
        _ => Answer::Refused(number, value),
    };
    Reply { answer, beside: beside.to_vec() }
}

impl From<sys::Answer> for Reply {
    fn from(given: sys::Answer) -> Reply {
        reply(given.number, given.value, &[])
    }
}

impl From<sys::DeskAnswer> for Reply {
    fn from(given: sys::DeskAnswer) -> Reply {
        reply(given.number, given.value, &given.desk)
    }
}

/// A directory as words.
pub type Words = [u32; DIRECTORY_WORDS];

/// The word that is the mark of card 0; those of the other cards follow.
pub const FIRST_MARK: usize = offset_of!(sys::Directory, live) / size_of::<u32>();

/// The words of a directory as a call that changes it writes them: marks are 0 and 1.
pub fn words_of(directory: &Directory) -> Words {
    let awaited = match directory.status {
        Status::Running => RUNNING,
        Status::Awaiting(card) => card,
    };
    let Directory { cards, pages, live, primary, secondary, .. } = *directory;
    sys::Directory { cards, pages, awaited, live: live.map(u32::from), primary, secondary }.into_words()
}

/// What any words are as a directory.
pub fn directory_of(words: &Words) -> Directory {
    let sys::Directory { cards, pages, awaited, live, primary, secondary } = sys::Directory::from_words(*words);
    let status = match awaited {
        RUNNING => Status::Running,
        card => Status::Awaiting(card),
    };
    Directory { cards, pages, live: live.map(|mark| mark != 0), primary, secondary, status }
}

/// A rack of the library's: every lent part stands at a page that may not be touched, and what a call must not write
/// may only be read while it runs.
#[derive(Clone)]
pub struct Rack {
    pub memory: Guarded,
    pub directory: Guarded,
}

impl Rack {
    pub fn new(memory: &[u32], directory: &Words, flush: Flush) -> Self {
        Self { memory: Guarded::new(memory, flush), directory: Guarded::new(directory, flush) }
    }

    pub fn make(&mut self, call: &Call) -> Reply {
        self.memory.allow(if call.keeps_memory() { Access::Read } else { Access::ReadWrite });
        self.directory.allow(if call.keeps_directory() { Access::Read } else { Access::ReadWrite });
        let (at, len, d) = (self.memory.first(), self.memory.len(), self.directory.first().cast());
        let flush = self.memory.flush();
        // SAFETY: pointers and lengths are those of words that live through the call, and no two of them overlap.
        unsafe {
            match call {
                Call::Format { cards, pages } => sys::rack_format(at, len, *cards, *pages, d).into(),
                Call::Open { card, number, desk, list } => {
                    let desk = Guarded::read_only(desk, flush);
                    let list = Guarded::read_only(list, flush);
                    sys::rack_open(at, len, d, *card, *number, desk.first().cast(), list.first(), list.len()).into()
                }
                Call::Step { card } => sys::rack_step(at, len, d, *card).into(),
                Call::Steps { card, count } => {
                    let given = sys::rack_steps(at, len, d, *card, *count);
                    reply(given.number, given.value, &[given.made])
                }
                Call::Fetch { page, buffer } => {
                    let buffer = Guarded::new(buffer, flush);
                    let given = sys::rack_fetch(at, len, d, *page, buffer.first(), buffer.len());
                    reply(given.number, given.value, &buffer)
                }
                Call::FetchAll { buffer } => {
                    let buffer = Guarded::new(buffer, flush);
                    let given = sys::rack_fetch_all(at, len, d, buffer.first(), buffer.len());
                    let marks = given.shown.map(u32::from);
                    reply(given.number, given.value, &[&*buffer, &marks].concat())
                }
                Call::Fail { card } => sys::rack_fail(at, len, d, *card).into(),
                Call::Recover => sys::rack_recover(at, len, d).into(),
                Call::Join { card } => sys::rack_join(at, len, d, *card).into(),
                Call::AskDesk { card } => sys::rack_desk(at, len, d, *card).into(),
                Call::MoveIn { old } => self.move_in(old),
                Call::MoveBack { buffer } => self.move_back(buffer),
            }
        }
    }

    fn move_in(&self, old: &[u32]) -> Reply {
        let old = Guarded::read_only(old, self.memory.flush());
        let (at, len, d) = (self.memory.first(), self.memory.len(), self.directory.first().cast());
        // SAFETY: as in `make`.
        unsafe { sys::rack_move_in(old.first(), old.len(), d, at, len) }.into()
    }

    fn move_back(&self, buffer: &[u32]) -> Reply {
        let buffer = Guarded::new(buffer, self.memory.flush());
        let (at, len, d) = (self.memory.first(), self.memory.len(), self.directory.first().cast());
        // SAFETY: as in `make`.
        let given = unsafe { sys::rack_move_back(at, len, d, buffer.first(), buffer.len()) };
        reply(given.number, given.value, &buffer)
    }
}

/// The list maker: its answer, and the buffer.
pub fn make_list(working: &[u32], twins: &[u32], marks: &[u32], buffer: &[u32], flush: Flush) -> Reply {
    let [working, twins, marks] = [working, twins, marks].map(|words| Guarded::read_only(words, flush));
    let buffer = Guarded::new(buffer, flush);
    // SAFETY: as in `make`.
    let given = unsafe {
        sys::rack_make_list(
            working.first(),
            working.len(),
            twins.first(),
            twins.len(),
            marks.first(),
            marks.len(),
            buffer.first(),
            buffer.len(),
        )
    };
    reply(given.number, given.value, &buffer)
}

/// The marks of what differs: the answer, and the words of marks.
pub fn mark_changes(working: &[u32], twins: &[u32], marks: &[u32], flush: Flush) -> Reply {
    let [working, twins] = [working, twins].map(|words| Guarded::read_only(words, flush));
    let marks = Guarded::new(marks, flush);
    let (pages, twin, mark) = (working.first(), twins.first(), marks.first());
    // SAFETY: as in `make`.
    let given = unsafe { sys::rack_mark_changes(pages, working.len(), twin, twins.len(), mark, marks.len()) };
    reply(given.number, given.value, &marks)
}

/// Two lists merged: the answer, and the buffer.
pub fn merge_lists(first: &[u32], second: &[u32], buffer: &[u32], flush: Flush) -> Reply {
    let [first, second] = [first, second].map(|words| Guarded::read_only(words, flush));
    let buffer = Guarded::new(buffer, flush);
    let (one, other, list) = (first.first(), second.first(), buffer.first());
    // SAFETY: as in `make`.
    let given = unsafe { sys::rack_merge_lists(one, first.len(), other, second.len(), list, buffer.len()) };
    reply(given.number, given.value, &buffer)
}
