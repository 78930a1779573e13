//! The calls that are timed, of the proved library and of the second implementation. Releases are number 1 of card 0; a
//! call that is refused, but for `check`, ends the program.

use crate::racks::Rack;
use bandsawpink_sys as sys;
use bandsawpink_sys::refusals::{ACCEPTED, NO_PAGE};
use second::{by_reference, Answer, Directory};
use std::hint::black_box;

pub trait Calls {
    fn rack(&mut self) -> &mut Rack;
    fn open(&mut self, list: &[u32]);
    fn step(&mut self);
    fn steps(&mut self, count: u32);
    fn fetch(&mut self, page: u32, buffer: &mut [u32]);
    fn fetch_all(&mut self, buffer: &mut [u32]);
    /// A fetch of a page that the rack does not have: refused with 9, after checks 1, 2 and 11.
    fn check(&mut self, buffer: &mut [u32]);
    /// A card fails and is recovered; the directory is kept as it was.
    fn fail_and_recover(&mut self, card: u32);
    fn format(&mut self, cards: u32, pages: u32);
}

fn accepted(number: u32) {
    assert_eq!(number, ACCEPTED, "a timed call was refused");
}

fn given(answer: Answer) {
    assert!(matches!(answer, Answer::Given(_)), "a timed call was refused");
}

fn refused(answer: Answer) {
    assert_eq!(answer, Answer::Refused(NO_PAGE, 0), "a page that is not there was fetched");
}

/// The proved library, through its C interface.
pub struct Proved(pub Rack);

// SAFETY of each call: a directory, and pointers and lengths of slices, that live through the call and do not overlap.
impl Calls for Proved {
    fn rack(&mut self) -> &mut Rack {
        &mut self.0
    }

    fn open(&mut self, list: &[u32]) {
        let Rack { memory, proved, .. } = &mut self.0;
        let (at, len, desk) = (memory.as_mut_ptr(), memory.len(), [0; 8]);
        accepted(unsafe { sys::rack_open(at, len, proved, 0, 1, &desk, list.as_ptr(), list.len()).number });
    }

    fn step(&mut self) {
        let Rack { memory, proved, .. } = &mut self.0;
        accepted(unsafe { sys::rack_step(memory.as_mut_ptr(), memory.len(), proved, 0).number });
    }

    fn steps(&mut self, count: u32) {
        let Rack { memory, proved, .. } = &mut self.0;
        accepted(unsafe { sys::rack_steps(memory.as_mut_ptr(), memory.len(), proved, 0, count).number });
    }

    fn fetch(&mut self, page: u32, buffer: &mut [u32]) {
        let Rack { memory, proved, .. } = &self.0;
        let (at, len) = (memory.as_ptr(), memory.len());
        accepted(unsafe { sys::rack_fetch(at, len, proved, page, buffer.as_mut_ptr(), buffer.len()).number });
    }

    fn fetch_all(&mut self, buffer: &mut [u32]) {
        let Rack { memory, proved, .. } = &self.0;
        let (at, len) = (memory.as_ptr(), memory.len());
        accepted(unsafe { sys::rack_fetch_all(at, len, proved, buffer.as_mut_ptr(), buffer.len()).number });
    }

    fn check(&mut self, buffer: &mut [u32]) {
        let Rack { memory, proved, directory } = &self.0;
        let (at, len, page) = (memory.as_ptr(), memory.len(), directory.pages);
        let answer = unsafe { sys::rack_fetch(at, len, proved, page, buffer.as_mut_ptr(), buffer.len()) };
        refused(Answer::Refused(answer.number, answer.value));
    }

    fn fail_and_recover(&mut self, card: u32) {
        let Rack { memory, proved, .. } = &mut self.0;
        let (at, len, mut proved) = (memory.as_mut_ptr(), memory.len(), proved.clone());
        accepted(unsafe { sys::rack_fail(at, len, &mut proved, card).number });
        accepted(unsafe { sys::rack_recover(at, len, &mut proved).number });
    }

    fn format(&mut self, cards: u32, pages: u32) {
        let Rack { memory, proved, .. } = &mut self.0;
        accepted(unsafe { sys::rack_format(memory.as_mut_ptr(), memory.len(), cards, pages, proved).number });
    }
}

/// The second implementation, with the directory in and out by value. What is handed back is looked at and dropped.
pub struct ByValue(pub Rack);

fn handed_back(directory: &Directory, answer: Answer) {
    black_box(directory);
    given(answer);
}

impl Calls for ByValue {
    fn rack(&mut self) -> &mut Rack {
        &mut self.0
    }

    fn open(&mut self, list: &[u32]) {
        let (after, answer) = second::open_release(&mut self.0.memory, self.0.directory, 0, 1, [0; 8], list);
        handed_back(&after, answer);
    }

    fn step(&mut self) {
        let (after, answer) = second::make_step(&mut self.0.memory, self.0.directory, 0);
        handed_back(&after, answer);
    }

    fn steps(&mut self, count: u32) {
        let (after, answer, _) = second::make_steps(&mut self.0.memory, self.0.directory, 0, count);
        handed_back(&after, answer);
    }

    fn fetch(&mut self, page: u32, buffer: &mut [u32]) {
        let (after, answer) = second::fetch_page(&self.0.memory, self.0.directory, page, buffer);
        handed_back(&after, answer);
    }

    fn fetch_all(&mut self, buffer: &mut [u32]) {
        let (after, answer, _) = second::fetch_all(&self.0.memory, self.0.directory, buffer);
        handed_back(&after, answer);
    }

    fn check(&mut self, buffer: &mut [u32]) {
        let page = self.0.directory.pages;
        let (after, answer) = second::fetch_page(&self.0.memory, self.0.directory, page, buffer);
        black_box(&after);
        refused(answer);
    }

    fn fail_and_recover(&mut self, card: u32) {
        let (failed, answer) = second::fail_card(&self.0.memory, self.0.directory, card);
        given(answer);
        let (after, answer, _) = second::recover(&mut self.0.memory, failed);
        handed_back(&after, answer);
    }

    fn format(&mut self, cards: u32, pages: u32) {
        let (after, answer) = second::format_rack(&mut self.0.memory, cards, pages);
        handed_back(&after, answer);
    }
}

/// The second implementation, with the directory lent.
pub struct ByReference(pub Rack);

impl Calls for ByReference {
    fn rack(&mut self) -> &mut Rack {
        &mut self.0
    }

    fn open(&mut self, list: &[u32]) {
        given(by_reference::open_release(&mut self.0.memory, &self.0.directory, 0, 1, &[0; 8], list));
    }

    fn step(&mut self) {
        given(by_reference::make_step(&mut self.0.memory, &self.0.directory, 0));
    }

    fn steps(&mut self, count: u32) {
        given(by_reference::make_steps(&mut self.0.memory, &self.0.directory, 0, count).0);
    }

    fn fetch(&mut self, page: u32, buffer: &mut [u32]) {
        given(by_reference::fetch_page(&self.0.memory, &self.0.directory, page, buffer));
    }

    fn fetch_all(&mut self, buffer: &mut [u32]) {
        given(by_reference::fetch_all(&self.0.memory, &self.0.directory, buffer).0);
    }

    fn check(&mut self, buffer: &mut [u32]) {
        let Rack { memory, directory, .. } = &self.0;
        refused(by_reference::fetch_page(memory, directory, directory.pages, buffer));
    }

    fn fail_and_recover(&mut self, card: u32) {
        let mut directory = self.0.directory;
        given(by_reference::fail_card(&self.0.memory, &mut directory, card));
        given(by_reference::recover(&mut self.0.memory, &mut directory).0);
    }

    fn format(&mut self, cards: u32, pages: u32) {
        given(by_reference::format_rack(&mut self.0.memory, cards, pages, &mut self.0.directory));
    }
}
