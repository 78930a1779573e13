//! Chains of failures on racks of 4 to 8 cards: cards fail one after the other, each recovered, until two are live.
//! Releases stand at any of their steps when a card fails, dead cards join again now and then, the areas of dead cards
//! hold anything, and the book is held beside.

use crate::call::{Call, Reply};
use crate::lists;
use crate::seen::Seen;
use crate::with_book::WithBook;
use bandsawpink_sys::refusals::TWO_LIVE;
use random::Random;
use second::layout::{area_mut, area_words};
use second::Answer;

struct Chain<'a> {
    both: WithBook,
    pages: u32,
    random: Random,
    seen: &'a mut Seen,
    calls: u64,
}

/// The chain of this number, and how many calls it took. Racks of each number of cards take turns, every fourth of them
/// with 64 pages.
pub fn compare(random: &mut Random, at: u64, seen: &mut Seen) -> Result<u64, String> {
    let mut random = random.fork();
    let cards = 4 + (at % 5) as u32;
    let most_pages = random.of(&[4, 16, 64]);
    let pages = if (at / 5).is_multiple_of(4) { 64 } else { random.within(1, most_pages) };
    let list = lists::of_each_page(&mut random, pages);
    WithBook::released(cards, pages, list)
        .and_then(|both| Chain { both, pages, random, seen, calls: 0 }.run())
        .map_err(|error| format!("{cards} cards, {pages} pages: {error}"))
}

impl Chain<'_> {
    /// Gives how many calls were made; the last one is a failure with two live, which must be refused as such.
    fn run(mut self) -> Result<u64, String> {
        while self.both.live_cards().len() > 2 {
            self.open_releases()?;
            self.lose_card()?;
            if self.random.one_in(4) {
                let card = self.random.of(&self.both.offline);
                self.accepted(&Call::Join { card })?;
            }
        }
        let last = Call::Fail { card: self.live_card() };
        let reply = self.call(&last)?;
        match reply.answer {
            Answer::Refused(TWO_LIVE, _) => Ok(self.calls),
            _ => Err(format!("{last:?}: {reply:?}")),
        }
    }

    fn call(&mut self, call: &Call) -> Result<Reply, String> {
        self.scramble();
        self.calls += 1;
        let reply = self.both.call(call)?;
        self.seen.count(call, &reply);
        Ok(reply)
    }

    fn accepted(&mut self, call: &Call) -> Result<Reply, String> {
        self.call(call)?.must_be_accepted(call)
    }

    /// "A card's area may hold anything at each call", from its failure to its join.
    fn scramble(&mut self) {
        for &card in &self.both.offline {
            if self.random.one_in(3) {
                let words = self.random.words(area_words(self.pages));
                self.both.racks.change(|memory| area_mut(memory, self.pages, card).copy_from_slice(&words));
            }
        }
    }

    fn live_card(&mut self) -> u32 {
        let live = self.both.live_cards();
        self.random.of(&live)
    }

    /// Opens releases on about half of the live cards, each with any number of its steps made. One that shares a word
    /// with another is refused, and so are its steps.
    fn open_releases(&mut self) -> Result<(), String> {
        for card in self.both.live_cards() {
            if self.random.one_in(2) {
                continue;
            }
            let list = lists::allowed(&mut self.random, self.pages, 20 * self.pages);
            let count = self.random.below(lists::all_steps(&list) + 1);
            let number = self.both.book.last(card).0 + 1;
            let desk = self.random.array();
            self.call(&Call::Open { card, number, desk, list })?;
            self.call(&Call::Steps { card, count })?;
        }
        Ok(())
    }

    fn lose_card(&mut self) -> Result<(), String> {
        let card = self.live_card();
        self.accepted(&Call::Fail { card })?;
        self.accepted(&Call::Recover)?;
        self.accepted(&Call::FetchAll { buffer: vec![5; 32 * self.pages as usize] })?;
        self.accepted(&Call::AskDesk { card })?;
        Ok(())
    }
}
