//! The book of demand 3 ("The book of demand 3"). It sees neither memory nor
//! directory: it is fed the calls and whether they were accepted.

use crate::layout::{Desk, Number, DESK_WORDS, MOST_CARDS, MOST_PAGES, PAGE_WORDS};
use crate::list::prices;
use crate::release::{all_steps, counting_steps};

/// Which call was made, its card or page, and an opening's number, desk and
/// list.
#[derive(Clone, PartialEq, Eq, Debug)]
pub enum Call {
    Open { card: u32, number: Number, desk: Desk, list: Vec<u32> },
    Step { card: u32 },
    Fetch { page: u32 },
    Fail { card: u32 },
    Recover,
    Join { card: u32 },
    AskDesk { card: u32 },
}

/// An open release: number, desk, list and steps.
#[derive(Clone, Debug)]
struct Open {
    number: Number,
    desk: Desk,
    list: Vec<u32>,
    steps: u32,
}

impl Open {
    /// The number of prices, k.
    fn prices(&self) -> u32 {
        prices(&self.list).count() as u32
    }
}

/// What the book holds of one card.
#[derive(Clone, Debug, Default)]
struct Card {
    number: Number,
    desk: Desk,
    open: Option<Open>,
}

#[derive(Clone, Debug)]
pub struct Book {
    pages: [[u32; PAGE_WORDS]; MOST_PAGES],
    cards: [Card; MOST_CARDS],
    failed: u32,
}

impl Default for Book {
    fn default() -> Book {
        Book::new()
    }
}

impl Book {
    /// "It starts with zeros and none open."
    pub fn new() -> Book {
        Book { pages: [[0; PAGE_WORDS]; MOST_PAGES], cards: Default::default(), failed: 0 }
    }

    /// Takes a call into the book. "Fetches, joins, desk questions and refused
    /// calls change nothing."
    pub fn feed(&mut self, call: &Call, accepted: bool) {
        if !accepted {
            return;
        }
        match call {
            Call::Open { card, number, desk, list } => {
                let open = Open { number: *number, desk: *desk, list: list.clone(), steps: 0 };
                self.set_open(*card, Some(open));
            }
            Call::Step { card } => self.step(*card),
            Call::Fail { card } => {
                self.failed = *card;
                self.set_open(*card, None);
            }
            Call::Recover => self.recover(),
            Call::Fetch { .. } | Call::Join { .. } | Call::AskDesk { .. } => {}
        }
    }

    /// The 32 prices of a page.
    pub fn page(&self, page: u32) -> [u32; PAGE_WORDS] {
        self.pages.get(page as usize).copied().unwrap_or([0; PAGE_WORDS])
    }

    /// The last number and desk of a card.
    pub fn last(&self, card: u32) -> (Number, Desk) {
        let card = self.cards.get(card as usize);
        card.map_or((0, [0; DESK_WORDS]), |card| (card.number, card.desk))
    }

    pub fn is_open(&self, card: u32) -> bool {
        self.cards.get(card as usize).is_some_and(|card| card.open.is_some())
    }

    /// The card that failed last.
    pub fn failed(&self) -> u32 {
        self.failed
    }

    fn set_open(&mut self, card: u32, open: Option<Open>) {
        if let Some(card) = self.cards.get_mut(card as usize) {
            card.open = open;
        }
    }

    /// "Steps grow by 1; at 2k + 9 the release is counted, at 4k + 11 struck
    /// out."
    fn step(&mut self, card: u32) {
        let Some(open) = self.cards.get_mut(card as usize).and_then(|card| card.open.as_mut()) else {
            return;
        };
        open.steps += 1;
        let (steps, prices) = (open.steps, open.prices());
        if steps == counting_steps(prices) {
            self.count(card);
        }
        if steps == all_steps(prices) {
            self.set_open(card, None);
        }
    }

    /// "Open releases of fewer than 2k + 9 steps are counted, cards ascending,
    /// then all open ones struck out."
    fn recover(&mut self) {
        for card in 0..MOST_CARDS as u32 {
            let open = self.cards[card as usize].open.as_ref();
            if open.is_some_and(|open| open.steps < counting_steps(open.prices())) {
                self.count(card);
            }
        }
        for card in &mut self.cards {
            card.open = None;
        }
    }

    /// "To count a release sets every word its list prices to that price, and
    /// its card's last number and desk to the release's own."
    fn count(&mut self, card: u32) {
        let card = &mut self.cards[card as usize];
        let Some(open) = &card.open else {
            return;
        };
        (card.number, card.desk) = (open.number, open.desk);
        for price in prices(&open.list) {
            let page = self.pages.get_mut(price.page as usize);
            if let Some(word) = page.and_then(|page| page.get_mut(price.word as usize)) {
                *word = price.price;
            }
        }
    }
}
