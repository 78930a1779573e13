//! Random lists of calls on a formatted rack, with anything in the areas of cards that are offline, and the book held
//! beside both.

use crate::call::Call;
use crate::seen::Seen;
use crate::with_book::WithBook;
use crate::{lists, numbers};
use random::Random;
use second::layout::area_words;
use second::{old_layout, Status};

pub struct Play {
    both: WithBook,
    area: usize,
    random: Random,
}

impl Play {
    pub fn new(mut random: Random, cards: u32, pages: u32) -> Result<Self, String> {
        let area = area_words(pages);
        let memory = random.words(cards as usize * area);
        let directory = random.array();
        let mut both = WithBook::formatted(&memory, &directory, cards, pages)?;
        if random.one_in(2) {
            (0..cards).for_each(|card| both.set_last(card, numbers::at_edge(&mut random), random.array()));
        }
        Ok(Self { both, area, random })
    }

    pub fn run(&mut self, calls: u32, seen: &mut Seen) -> Result<(), String> {
        for at in 0..calls {
            self.scramble();
            if self.random.one_in(10) {
                let mark = self.random.of(&[1, 2, 7, u32::MAX]);
                self.both.racks.disguise_mark(self.random.below(8) as usize, mark);
            }
            let call = self.choose();
            self.make(&call, seen).map_err(|error| format!("call {at}: {error}"))?;
        }
        Ok(())
    }

    /// Makes a call. What is moved back moves in again, into a memory of any words, and the play goes on with it.
    fn make(&mut self, call: &Call, seen: &mut Seen) -> Result<(), String> {
        let reply = self.both.call(call)?;
        seen.count(call, &reply);
        if !matches!(call, Call::MoveBack { .. }) || !reply.accepted() {
            return Ok(());
        }
        let words = self.random.words(self.area * self.both.racks.directory.cards as usize);
        self.both.racks.change(|memory| memory.copy_from_slice(&words));
        let call = Call::MoveIn { old: reply.beside };
        let reply = self.both.call(&call)?;
        seen.count(&call, &reply);
        match reply.accepted() {
            true => Ok(()),
            false => Err(format!("what was moved back does not move in: {reply:?}")),
        }
    }

    /// "A card's area may hold anything at each call."
    fn scramble(&mut self) {
        for &card in &self.both.offline {
            for _ in 0..self.random.below(4) {
                let at = card as usize * self.area + self.random.below(self.area as u32) as usize;
                let word = self.random.odd_word();
                self.both.racks.change(|memory| memory[at] = word);
            }
        }
    }

    fn choose(&mut self) -> Call {
        let directory = self.both.racks.directory;
        let awaits = directory.status != Status::Running;
        if awaits && !self.random.one_in(3) {
            return Call::Recover;
        }
        let card = match self.random.one_in(30) {
            true => self.random.odd_word(),
            false => self.random.below(directory.cards),
        };
        match self.random.below(42) {
            0..=7 => self.opening(card),
            8..=24 => Call::Step { card },
            25..=27 => Call::Steps { card, count: self.random.of(&[0, 1, 2, 7, 12, 20, 700, u32::MAX]) },
            28..=31 => self.fetch(),
            32 => self.fetch_all(),
            33 => Call::Fail { card },
            34 => Call::Recover,
            35..=36 => Call::Join { card: self.both.offline.first().copied().unwrap_or(card) },
            37 => Call::Join { card },
            38 | 39 => self.move_back(),
            _ => Call::AskDesk { card },
        }
    }

    fn fetch(&mut self) -> Call {
        let page = match self.random.one_in(12) {
            true => self.random.odd_word(),
            false => self.random.below(self.both.racks.directory.pages),
        };
        let room = if self.random.one_in(12) { self.random.below(40) } else { 32 };
        Call::Fetch { page, buffer: vec![7; room as usize] }
    }

    fn fetch_all(&mut self) -> Call {
        let room = 32 * self.both.racks.directory.pages;
        let room = if self.random.one_in(12) { self.random.below(2 * room) } else { room };
        Call::FetchAll { buffer: vec![7; room as usize] }
    }

    fn move_back(&mut self) -> Call {
        let words = self.both.racks.directory.cards as usize * old_layout::area_words(self.both.racks.directory.pages);
        Call::MoveBack { buffer: self.random.words(words) }
    }

    /// Mostly the next number, and short lists, so that releases come to their close; now and then as long a list as
    /// fits.
    fn opening(&mut self, card: u32) -> Call {
        let pages = self.both.racks.directory.pages;
        let last = self.both.book.last(card).0;
        let number = match self.random.one_in(8) {
            true => numbers::not_after(&mut self.random, last),
            false => last.wrapping_add(1),
        };
        let rarity = self.random.of(&[20, 60, 200, 200]) * pages;
        let list = match self.random.one_in(8) {
            true => lists::near_limit(&mut self.random, pages),
            false => lists::allowed(&mut self.random, pages, rarity),
        };
        let list = match self.random.one_in(10) {
            true => lists::damaged(&mut self.random, &list),
            false => list,
        };
        Call::Open { card, number, desk: self.random.array(), list }
    }
}
