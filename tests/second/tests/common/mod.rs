//! What the tests share: a rack with its memory, and lists built word by word.

#![allow(dead_code)]

pub mod play;
pub mod racks;

use random::Random;
use second::layout::{
    area_at, done_mark_at, memory_words, number_at, put_desk, put_number, stamp_at, Desk, Number, LIST, OPEN,
    OWN_STAMP, PAGE_WORDS, STEPS,
};
use second::*;

/// A rack: memory and directory.
#[derive(Clone, PartialEq, Debug)]
pub struct Rack {
    pub memory: Vec<u32>,
    pub directory: Directory,
}

impl Rack {
    pub fn new(cards: u32, pages: u32) -> Rack {
        let mut memory = vec![7; memory_words(cards, pages).unwrap()];
        let (directory, answer) = format_rack(&mut memory, cards, pages);
        assert_eq!(answer, Answer::Given(0));
        Rack { memory, directory }
    }

    /// The place in the memory of a word of a card's area.
    pub fn at(&self, card: u32, word: usize) -> usize {
        area_at(self.directory.pages, card) + word
    }

    pub fn set(&mut self, card: u32, word: usize, value: u32) {
        let at = self.at(card, word);
        self.memory[at] = value;
    }

    pub fn number(&self, card: u32, word: usize) -> Number {
        number_at(&self.memory, self.at(card, word))
    }

    pub fn set_number(&mut self, card: u32, word: usize, number: Number) {
        let at = self.at(card, word);
        put_number(&mut self.memory, at, number);
    }

    pub fn set_desk(&mut self, card: u32, word: usize, desk: &Desk) {
        let at = self.at(card, word);
        put_desk(&mut self.memory, at, desk);
    }

    /// Sets the list of a card's open release.
    pub fn set_list(&mut self, card: u32, list: &[u32]) {
        let at = self.at(card, LIST);
        self.memory[at..at + list.len()].copy_from_slice(list);
    }

    /// Has a release open on a card, with this list and so many steps made; its number and
    /// its desk stay as they are.
    pub fn set_open(&mut self, card: u32, list: &[u32], steps: u32) {
        self.set(card, OPEN, 1);
        self.set(card, STEPS, steps);
        self.set_list(card, list);
    }

    pub fn stamp(&self, card: u32) -> Number {
        self.number(card, OWN_STAMP)
    }

    pub fn set_stamp(&mut self, card: u32, stamp: Number) {
        self.set_number(card, OWN_STAMP, stamp);
    }

    /// Makes a number the last one of a card: its own stamp, and stamp and done mark of
    /// its record on every card.
    pub fn set_last_number(&mut self, card: u32, number: Number) {
        self.set_stamp(card, number);
        for other in 0..self.directory.cards {
            self.set_number(other, stamp_at(card), number);
            self.set_number(other, done_mark_at(card), number);
        }
    }

    pub fn open(&mut self, card: u32, number: Number, desk: Desk, list: &[u32]) -> Answer {
        let (directory, answer) = open_release(&mut self.memory, self.directory, card, number, desk, list);
        self.directory = directory;
        answer
    }

    pub fn step(&mut self, card: u32) -> Answer {
        let (directory, answer) = make_step(&mut self.memory, self.directory, card);
        self.directory = directory;
        answer
    }

    pub fn steps(&mut self, card: u32, count: u32) -> (Answer, u32) {
        let (directory, answer, made) = make_steps(&mut self.memory, self.directory, card, count);
        self.directory = directory;
        (answer, made)
    }

    pub fn fetch(&mut self, page: u32, buffer: &mut [u32]) -> Answer {
        let (directory, answer) = fetch_page(&self.memory, self.directory, page, buffer);
        self.directory = directory;
        answer
    }

    pub fn fail(&mut self, card: u32) -> Answer {
        let (directory, answer) = fail_card(&self.memory, self.directory, card);
        self.directory = directory;
        answer
    }

    pub fn recover(&mut self) -> (Answer, Desk) {
        let (directory, answer, desk) = recover(&mut self.memory, self.directory);
        self.directory = directory;
        (answer, desk)
    }

    pub fn join(&mut self, card: u32) -> Answer {
        let (directory, answer) = join_card(&mut self.memory, self.directory, card);
        self.directory = directory;
        answer
    }

    pub fn ask(&mut self, card: u32) -> (Answer, Desk) {
        let (directory, answer, desk) = ask_desk(&self.memory, self.directory, card);
        self.directory = directory;
        (answer, desk)
    }

    /// A page that must be shown.
    pub fn page(&mut self, page: u32) -> [u32; PAGE_WORDS] {
        let mut buffer = [5; PAGE_WORDS];
        assert_eq!(self.fetch(page, &mut buffer), Answer::Given(0));
        buffer
    }

    /// Puts anything into a card's area.
    pub fn scramble(&mut self, card: u32, random: &mut Random) {
        let (start, end) = (self.at(card, 0), self.at(card + 1, 0));
        match random.below(3) {
            0 => self.memory[start..end].iter_mut().for_each(|word| *word = random.odd_word()),
            1 => self.memory[start..end].fill(random.word()),
            _ => {
                let other = random.below(self.directory.cards);
                let from = self.at(other, 0);
                self.memory.copy_within(from..from + end - start, start);
            }
        }
    }
}

pub const OK: Answer = Answer::Given(0);

pub fn refused(number: u32) -> Answer {
    Answer::Refused(number, 0)
}

pub fn refused_at(number: u32, place: u64) -> Answer {
    Answer::Refused(number, place)
}

/// A number of two words, often at the edges of one or both.
pub fn wide_number(random: &mut Random) -> Number {
    Number::from(random.odd_word()) | Number::from(random.odd_word()) << 32
}

/// A change: page, word, price.
pub type Change = (u32, u32, u32);

/// The list of changes that ascend by page and word, each a word of its own or
/// next to the one before. Built another way than by the list maker.
pub fn list_of(changes: &[Change]) -> Vec<u32> {
    let mut list: Vec<u32> = Vec::new();
    let mut run = 0;
    for (index, &(page, word, price)) in changes.iter().enumerate() {
        let before = index.checked_sub(1).map(|before| changes[before]);
        if before.is_none_or(|before| before.0 != page) {
            list.push(0x1000_0000 + page);
        }
        if before.is_none_or(|before| before.0 != page || before.1 + 1 != word) {
            run = list.len();
            list.push(0x2000_0000 + 0x1_0000 * word);
        }
        list[run] += 1;
        list.push(price);
    }
    list.push(0xF000_0000 + list.len() as u32);
    list
}

/// Random changes on a few pages, ascending; one word in so many is changed.
pub fn random_changes(random: &mut Random, pages: u32, rarity: u32) -> Vec<Change> {
    let words = (0..pages).flat_map(|page| (0..32).map(move |word| (page, word)));
    let mut changes = Vec::new();
    for (page, word) in words {
        if random.one_in(rarity) {
            changes.push((page, word, random.word()));
        }
    }
    changes
}
