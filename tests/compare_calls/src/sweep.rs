//! Every card fails at every step of one release, and of two that are open on different cards, on racks of 3 to 8
//! cards; then the others are asked, the card joins, and the next one fails. On two pages also with numbers that go
//! past 2^32, and with the last ones below 2^64.

use crate::call::{Call, Reply};
use crate::numbers::TWO_WORDS;
use crate::with_book::WithBook;
use bandsawpink_sys::layout::DIRECTORY_WORDS;
use second::layout::{low_word, memory_words, Number};
use std::cell::Cell;

/// A rack on which releases are open. The first has two prices and 19 steps, the other one price and 15 steps.
#[derive(Clone)]
struct Swept<'a> {
    both: WithBook,
    cards: u32,
    pages: u32,
    first: u32,
    other: u32,
    /// The calls made of this rack and of its clones.
    calls: &'a Cell<u64>,
}

const FIRST_STEPS: u32 = 19;
const OTHER_STEPS: u32 = 15;

/// Makes all calls, and says how many.
pub fn compare() -> Result<u64, String> {
    let calls = Cell::new(0);
    for cards in 3..=8 {
        for (pages, last) in [(1, 0), (2, 0), (64, 0), (2, TWO_WORDS - 2), (2, Number::MAX - 3)] {
            for (first, other) in [(1, 2), (cards - 1, 0)] {
                Swept::new(cards, pages, [first, other], last, &calls)
                    .and_then(Swept::fail_everywhere)
                    .map_err(|error| format!("sweep, {cards} cards, {pages} pages, numbers after {last}: {error}"))?;
            }
        }
    }
    Ok(calls.get())
}

impl<'a> Swept<'a> {
    /// Both cards have made a release after the last number, so that their stamps and desks are not those of a
    /// formatted rack. The release that is swept has the second number after it, the one after a recovery at most the
    /// third.
    fn new(
        cards: u32,
        pages: u32,
        [first, other]: [u32; 2],
        last: Number,
        calls: &'a Cell<u64>,
    ) -> Result<Self, String> {
        let memory = vec![9; memory_words(cards, pages).expect("within the limits")];
        let mut both = WithBook::formatted(&memory, &[7; DIRECTORY_WORDS], cards, pages)?;
        if last > 0 {
            [first, other].into_iter().for_each(|card| both.set_last(card, last, [card; 8]));
        }
        let mut swept = Self { both, cards, pages, first, other, calls };
        swept.open(first)?;
        swept.open(other)?;
        for card in [first, other] {
            swept.call(Call::Steps { card, count: FIRST_STEPS })?;
        }
        swept.open(first)?;
        Ok(swept)
    }

    fn call(&mut self, call: Call) -> Result<Reply, String> {
        self.calls.set(self.calls.get() + 1);
        self.both.call(&call)
    }

    /// A call that must be accepted.
    fn accepted(&mut self, call: Call) -> Result<(), String> {
        self.calls.set(self.calls.get() + 1);
        self.both.accepted(&call).map(drop)
    }

    /// The next release of a card: page 0 word 2 and the last page's last word, or page 0 word 4.
    fn open(&mut self, card: u32) -> Result<(), String> {
        let number = self.both.book.last(card).0 + 1;
        let price = low_word(number).wrapping_mul(100).wrapping_add(card);
        let list = match (card == self.first, self.pages) {
            (true, 1) => vec![0x1000_0000, 0x2002_0001, price, 0x201F_0001, price, 0xF000_0005],
            (true, pages) => {
                vec![0x1000_0000, 0x2002_0001, price, 0x1000_0000 | (pages - 1), 0x201F_0001, price, 0xF000_0006]
            }
            (false, _) => vec![0x1000_0000, 0x2004_0001, price, 0xF000_0003],
        };
        self.accepted(Call::Open { card, number, desk: [price; 8], list })
    }

    fn fetch(&mut self, page: u32) -> Result<Reply, String> {
        self.call(Call::Fetch { page, buffer: vec![5; 32] })
    }

    fn fetch_all(&mut self) -> Result<(), String> {
        self.accepted(Call::FetchAll { buffer: vec![5; 32 * self.pages as usize] })
    }

    fn fail_everywhere(self) -> Result<(), String> {
        self.one_release()?;
        self.two_releases()
    }

    /// The steps are made one by one, and in one call.
    fn one_release(&self) -> Result<(), String> {
        let mut stepped = self.clone();
        for count in 0..=FIRST_STEPS {
            self.clone().call(Call::Steps { card: self.first, count })?;
            stepped.each_fails()?;
            stepped.call(Call::Step { card: self.first })?;
        }
        Ok(())
    }

    /// Every pair of steps; on 64 pages, whose memory is long, the two cards make their steps by turns.
    fn two_releases(mut self) -> Result<(), String> {
        self.open(self.other)?;
        for first in 0..=FIRST_STEPS {
            let mut stepped = self.clone();
            let turn = first.min(OTHER_STEPS);
            for other in 0..=OTHER_STEPS {
                if self.pages < 64 || other == turn || other + 1 == turn {
                    stepped.each_fails()?;
                }
                stepped.call(Call::Step { card: self.other })?;
            }
            self.call(Call::Step { card: self.first })?;
        }
        Ok(())
    }

    fn each_fails(&self) -> Result<(), String> {
        (0..self.cards).try_for_each(|failing| {
            self.clone().fails(failing).map_err(|error| format!("card {failing} fails: {error}"))
        })
    }

    fn fails(&mut self, failing: u32) -> Result<(), String> {
        self.fetch_all()?;
        self.accepted(Call::Fail { card: failing })?;
        self.fetch(0)?;
        self.accepted(Call::Recover)?;
        self.fetch(self.pages - 1)?;
        self.fetch_all()?;
        for card in 0..self.cards {
            self.accepted(Call::AskDesk { card })?;
        }
        self.accepted(Call::Join { card: failing })?;
        self.open(self.first)?;
        self.call(Call::Steps { card: self.first, count: 7 })?;
        self.accepted(Call::Fail { card: (failing + 1) % self.cards })?;
        self.accepted(Call::Recover)?;
        self.fetch_all()
    }
}
