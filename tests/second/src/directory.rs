//! The directory: live cards, homes and status ("Cards, pages, memory").

use crate::layout::{MOST_CARDS, MOST_PAGES};

/// Whether the rack is running or awaits recovery of a named card.
#[derive(Clone, Copy, PartialEq, Eq, Debug)]
pub enum Status {
    Running,
    Awaiting(u32),
}

/// A value handed in and handed back. Marks and homes past its cards and pages
/// are never read.
#[derive(Clone, Copy, PartialEq, Eq, Debug)]
pub struct Directory {
    pub cards: u32,
    pub pages: u32,
    pub live: [bool; MOST_CARDS],
    pub primary: [u32; MOST_PAGES],
    pub secondary: [u32; MOST_PAGES],
    pub status: Status,
}

/// A number of pages for each card.
pub type PageCounts = [u32; MOST_CARDS];

impl Directory {
    /// What refused formatting gives: running, nothing in it.
    pub(crate) fn empty() -> Directory {
        Directory {
            cards: 0,
            pages: 0,
            live: [false; MOST_CARDS],
            primary: [0; MOST_PAGES],
            secondary: [0; MOST_PAGES],
            status: Status::Running,
        }
    }

    /// What accepted formatting gives: all cards live, page p on p mod cards.
    pub(crate) fn formatted(cards: u32, pages: u32) -> Directory {
        let mut directory = Directory { cards, pages, ..Directory::empty() };
        for card in 0..cards {
            directory.mark_live(card);
        }
        for page in 0..pages {
            let primary = page % cards;
            directory.set_homes(page, primary, directory.next_live(primary));
        }
        directory
    }

    pub(crate) fn is_live(&self, card: u32) -> bool {
        card < self.cards && self.live.get(card as usize) == Some(&true)
    }

    pub(crate) fn live_cards(&self) -> impl Iterator<Item = u32> + '_ {
        (0..self.cards).filter(|&card| self.is_live(card))
    }

    pub(crate) fn dead_cards(&self) -> impl Iterator<Item = u32> + '_ {
        (0..self.cards).filter(|&card| !self.is_live(card))
    }

    /// "The first live one going up from c + 1, round the end."
    pub(crate) fn next_live(&self, card: u32) -> u32 {
        let mut upward = (1..=self.cards).map(|up| (card + up) % self.cards);
        upward.find(|&other| self.is_live(other)).unwrap_or(card)
    }

    /// "A card's backup is the next live after it."
    pub(crate) fn backup(&self, card: u32) -> u32 {
        self.next_live(card)
    }

    /// The live cards whose backup is the given card.
    pub(crate) fn backed_by(&self, card: u32) -> impl Iterator<Item = u32> + '_ {
        self.live_cards().filter(move |&other| self.backup(other) == card)
    }

    /// "A dead card's record is the one on the next live after it": that card.
    pub(crate) fn record_keeper(&self, dead: u32) -> u32 {
        self.next_live(dead)
    }

    pub(crate) fn primary_of(&self, page: u32) -> u32 {
        self.primary[page as usize]
    }

    pub(crate) fn secondary_of(&self, page: u32) -> u32 {
        self.secondary[page as usize]
    }

    pub(crate) fn homes_of(&self, page: u32) -> [u32; 2] {
        [self.primary_of(page), self.secondary_of(page)]
    }

    /// How many pages each card is home to, as primary or secondary.
    pub(crate) fn page_counts(&self) -> PageCounts {
        let mut counts = [0; MOST_CARDS];
        for home in (0..self.pages).flat_map(|page| self.homes_of(page)) {
            counts[home as usize] += 1;
        }
        counts
    }

    pub(crate) fn mark_live(&mut self, card: u32) {
        self.live[card as usize] = true;
    }

    pub(crate) fn mark_dead(&mut self, card: u32) {
        self.live[card as usize] = false;
    }

    pub(crate) fn set_homes(&mut self, page: u32, primary: u32, secondary: u32) {
        self.primary[page as usize] = primary;
        self.secondary[page as usize] = secondary;
    }
}
