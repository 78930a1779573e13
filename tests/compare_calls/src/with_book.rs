//! Racks with the book held beside them.

use crate::call::{Call, Reply};
use crate::library::Words;
use crate::lists;
use crate::racks::Racks;
use bandsawpink_sys::layout::DIRECTORY_WORDS;
use second::book::{self, Book};
use second::layout::{
    area_mut, desk_of_number_at, done_mark_at, memory_words, put_desk, put_number, stamp_at, Desk, Number, OWN_DESK,
    OWN_STAMP,
};
use second::Answer;

#[derive(Clone)]
pub struct WithBook {
    pub racks: Racks,
    pub book: Book,
    /// The cards that have failed and not joined.
    pub offline: Vec<u32>,
}

impl WithBook {
    /// A newly formatted rack, whatever the memory and the words of the directory were.
    pub fn formatted(memory: &[u32], words: &Words, cards: u32, pages: u32) -> Result<Self, String> {
        let mut racks = Racks::new(memory, words);
        let reply = racks.call(&Call::Format { cards, pages })?;
        match reply.accepted() {
            true => Ok(Self { racks, book: Book::new(), offline: Vec::new() }),
            false => Err(format!("formatting: {reply:?}")),
        }
    }

    /// A rack on which card 0 has released a list, and nothing else was done.
    pub fn released(cards: u32, pages: u32, list: Vec<u32>) -> Result<Self, String> {
        let memory = vec![9; memory_words(cards, pages).expect("within the limits")];
        let mut both = Self::formatted(&memory, &[7; DIRECTORY_WORDS], cards, pages)?;
        let count = lists::all_steps(&list);
        both.accepted(&Call::Open { card: 0, number: 1, desk: [8; 8], list })?;
        both.accepted(&Call::Steps { card: 0, count })?;
        Ok(both)
    }

    /// The cards that have not failed, or have joined again.
    pub fn live_cards(&self) -> Vec<u32> {
        (0..self.racks.directory.cards).filter(|card| !self.offline.contains(card)).collect()
    }

    /// Gives a card of a newly formatted rack a last release, of no price: in its area, in its record on its backup,
    /// and in the book, where it takes 11 steps.
    pub fn set_last(&mut self, card: u32, number: Number, desk: Desk) {
        let (pages, backup) = (self.racks.directory.pages, (card + 1) % self.racks.directory.cards);
        self.racks.change(|memory| {
            let own = area_mut(memory, pages, card);
            put_number(own, OWN_STAMP, number);
            put_desk(own, OWN_DESK, &desk);
            let other = area_mut(memory, pages, backup);
            put_number(other, stamp_at(card), number);
            put_number(other, done_mark_at(card), number);
            put_desk(other, desk_of_number_at(card, number), &desk);
        });
        self.book.feed(&book::Call::Open { card, number, desk, list: vec![0xF000_0000] }, true);
        for _ in 0..11 {
            self.book.feed(&book::Call::Step { card }, true);
        }
    }

    /// Makes the call of all, and holds the book beside.
    pub fn call(&mut self, call: &Call) -> Result<Reply, String> {
        let reply = self.racks.call(call)?;
        self.hold(call, &reply).map_err(|error| format!("{call:?}: {error}"))?;
        self.note(call, &reply);
        Ok(reply)
    }

    /// A call that must be accepted.
    pub fn accepted(&mut self, call: &Call) -> Result<Reply, String> {
        self.call(call)?.must_be_accepted(call)
    }

    /// What demand 3 says of an accepted call's answer.
    fn hold(&self, call: &Call, reply: &Reply) -> Result<(), String> {
        let expected = match call {
            _ if !reply.accepted() => return Ok(()),
            Call::Fetch { page, .. } => self.book.page(*page).to_vec(),
            Call::FetchAll { buffer } => self.all_pages(buffer, &reply.beside),
            Call::Recover => self.book.last(self.book.failed()).1.to_vec(),
            Call::AskDesk { card } if !self.book.is_open(*card) => self.book.last(*card).1.to_vec(),
            _ => return Ok(()),
        };
        let stamp = Answer::Given(self.book.last(self.book.failed()).0);
        match reply.beside == expected && (!matches!(call, Call::Recover) || reply.answer == stamp) {
            true => Ok(()),
            false => Err(format!("{reply:?}, the book has {expected:?}, {stamp:?}")),
        }
    }

    /// The book's words of each page that is marked as shown, those before of the others; then the marks.
    fn all_pages(&self, before: &[u32], beside: &[u32]) -> Vec<u32> {
        let marks = &beside[before.len()..];
        let pages = before.chunks(32).zip(0..).flat_map(|(words, page)| match marks[page as usize] {
            0 => words.to_vec(),
            _ => self.book.page(page).to_vec(),
        });
        pages.chain(marks.iter().copied()).collect()
    }

    fn note(&mut self, call: &Call, reply: &Reply) {
        let accepted = reply.accepted();
        let noted = match call.clone() {
            Call::Open { card, number, desk, list } => book::Call::Open { card, number, desk, list },
            Call::Step { card } => book::Call::Step { card },
            Call::Steps { card, .. } => {
                (0..reply.beside[0]).for_each(|_| self.book.feed(&book::Call::Step { card }, true));
                return;
            }
            Call::Fail { card } => {
                self.offline.extend(accepted.then_some(card));
                book::Call::Fail { card }
            }
            Call::Join { card } => {
                self.offline.retain(|&other| !accepted || other != card);
                book::Call::Join { card }
            }
            Call::Recover => book::Call::Recover,
            Call::Fetch { .. } | Call::FetchAll { .. } | Call::AskDesk { .. } | Call::Format { .. } => return,
            // a rack that is moved is the same rack
            Call::MoveIn { .. } | Call::MoveBack { .. } => return,
        };
        self.book.feed(&noted, accepted);
    }
}
