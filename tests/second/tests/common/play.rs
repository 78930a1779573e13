//! Plays random lists of calls on a rack and holds the book beside it.

use super::{list_of, random_changes, wide_number, Change, Rack};
use random::Random;
use second::book::{Book, Call};
use second::layout::Number;
use second::refusals::*;
use second::{check_list, fetch_all, Answer, Status};

/// How often each call was accepted, and each number refused.
#[derive(Default, Debug)]
pub struct Tally {
    pub accepted: [u32; 7],
    pub refused: [u32; UNREADABLE_LINE as usize + 1],
    /// Recoveries by where the failed card's release stood: none open, before
    /// its stamp, after it.
    pub recovered: [u32; 3],
    /// Releases of live cards that a recovery ran to their close.
    pub closed: u32,
}

/// What the test itself knows of an open release.
#[derive(Clone)]
struct Open {
    changes: Vec<Change>,
    steps: usize,
}

impl Open {
    fn counts(&self) -> bool {
        self.steps >= 2 * self.changes.len() + 9
    }
}

/// A rack, the book and what the test knows of cards and releases.
pub struct Play {
    rack: Rack,
    book: Book,
    random: Random,
    live: Vec<bool>,
    awaited: Option<u32>,
    open: Vec<Option<Open>>,
    pub tally: Tally,
}

type Outcome = Result<(), String>;

/// An answer with what came beside it: a page, a desk, or nothing.
type Answered = (Answer, Vec<u32>);

fn hold(claim: bool, message: impl Fn() -> String) -> Outcome {
    if claim {
        Ok(())
    } else {
        Err(message())
    }
}

impl Play {
    pub fn new(seed: u64, cards: u32, pages: u32) -> Play {
        Play {
            rack: Rack::new(cards, pages),
            book: Book::new(),
            random: Random::new(seed),
            live: vec![true; cards as usize],
            awaited: None,
            open: vec![None; cards as usize],
            tally: Tally::default(),
        }
    }

    /// Plays so many calls. The error says where rack and book part.
    pub fn run(&mut self, calls: u32) -> Outcome {
        for number in 0..calls {
            let call = self.choose();
            self.call(&call).map_err(|error| format!("call {number}, {call:?}: {error}"))?;
        }
        Ok(())
    }

    /// Makes one call and holds its answer, and then all pages, against the
    /// book.
    pub fn call(&mut self, call: &Call) -> Outcome {
        self.scramble_dead();
        let buffer_words = if self.random.one_in(40) { self.random.below(40) } else { 32 };
        let expected = self.expected(call, buffer_words as usize);
        let before = self.rack.clone();
        let (answer, beside) = self.make(call, buffer_words as usize);
        let accepted = matches!(answer, Answer::Given(_));
        hold(answer == expected, || format!("{answer:?}, expected {expected:?}"))?;
        hold(accepted || self.rack == before, || "the refusal changed something".into())?;
        self.count(call, answer);
        self.book.feed(call, accepted);
        self.note(call, accepted);
        if accepted {
            self.hold_answer(call, answer, &beside)?;
        }
        self.hold_pages()
    }

    /// The pages shown are the book's.
    fn hold_pages(&mut self) -> Outcome {
        let pages = self.rack.directory.pages;
        let mut buffer = vec![3; 32 * pages as usize];
        let (_, answer, shown) = fetch_all(&self.rack.memory, self.rack.directory, &mut buffer);
        if self.awaited.is_some() {
            return hold(answer == Answer::Refused(RECOVERY_AWAITED, 0), || "shown while awaiting".into());
        }
        for (page, words) in (0..pages).zip(buffer.chunks(32)) {
            let hidden = self.counting_card(page).is_some();
            hold(shown[page as usize] != hidden, || format!("page {page}: wrong mark"))?;
            let expected = if hidden { [3; 32] } else { self.book.page(page) };
            hold(words == expected, || format!("page {page}: {words:?}, book {expected:?}"))?;
        }
        Ok(())
    }

    /// What demand 3 says of an accepted call's answer.
    fn hold_answer(&self, call: &Call, answer: Answer, beside: &[u32]) -> Outcome {
        let expected: Vec<u32> = match call {
            Call::Fetch { page } => self.book.page(*page).into(),
            Call::Recover => {
                let (number, desk) = self.book.last(self.book.failed());
                hold(answer == Answer::Given(number), || format!("book {number}"))?;
                desk.into()
            }
            Call::AskDesk { card } if !self.book.is_open(*card) => self.book.last(*card).1.into(),
            _ => return Ok(()),
        };
        hold(beside == expected, || format!("{beside:?}, book {expected:?}"))
    }

    /// The answer document 01 asks for, from what the test knows.
    fn expected(&self, call: &Call, buffer_words: usize) -> Answer {
        let refused = |number| Answer::Refused(number, 0);
        let known = |card: u32| (card as usize) < self.live.len();
        let live = |card: u32| known(card) && self.live[card as usize];
        if let Call::Recover = call {
            return match self.awaited {
                None => refused(NONE_AWAITED),
                Some(_) => Answer::Given(self.last_of_awaited()),
            };
        }
        if self.awaited.is_some() {
            return refused(RECOVERY_AWAITED);
        }
        match call {
            Call::Open { card, .. } | Call::Step { card } | Call::Fail { card } if !live(*card) => {
                refused(NO_SUCH_CARD)
            }
            Call::Join { card } | Call::AskDesk { card } if !known(*card) => refused(NO_SUCH_CARD),
            Call::Open { card, number, list, .. } => self.expected_opening(*card, *number, list),
            Call::Step { card } if self.open[*card as usize].is_none() => refused(NO_RELEASE_OPEN),
            Call::Fetch { page } => self.expected_fetch(*page, buffer_words),
            Call::Fail { .. } if self.live.iter().filter(|live| **live).count() == 2 => refused(TWO_LIVE),
            Call::Join { card } if live(*card) => refused(JOINING_LIVE_CARD),
            Call::Join { .. } if self.open.iter().any(Option::is_some) => refused(JOINING_WITH_RELEASE_OPEN),
            _ => Answer::Given(0),
        }
    }

    /// The number the book will hold for the awaited card after recovery: a dead
    /// card's open release was struck out, so recovery does not change it.
    fn last_of_awaited(&self) -> Number {
        self.book.last(self.book.failed()).0
    }

    fn expected_opening(&self, card: u32, number: Number, list: &[u32]) -> Answer {
        let (last, _) = self.book.last(card);
        if self.open[card as usize].is_some() {
            return Answer::Refused(RELEASE_OPEN, 0);
        }
        if number <= last {
            return Answer::Refused(NUMBER_TOO_LOW, last);
        }
        if number - last > 1 {
            return Answer::Refused(NUMBER_TOO_HIGH, 0);
        }
        if let refused @ Answer::Refused(..) = check_list(list, self.rack.directory.pages) {
            return refused;
        }
        let mine = changes_of(list);
        let shares = |open: &Open| open.changes.iter().any(|a| mine.iter().any(|b| (a.0, a.1) == (b.0, b.1)));
        match self.open.iter().position(|open| open.as_ref().is_some_and(shares)) {
            Some(other) => Answer::Refused(WORD_IN_OTHER_RELEASE, other as u64),
            None => Answer::Given(0),
        }
    }

    fn expected_fetch(&self, page: u32, buffer_words: usize) -> Answer {
        if page >= self.rack.directory.pages {
            return Answer::Refused(NO_SUCH_PAGE, 0);
        }
        match self.counting_card(page) {
            Some(card) => Answer::Refused(PAGE_IN_COUNTING_RELEASE, card as u64),
            None if buffer_words != 32 => Answer::Refused(WRONG_BUFFER, 0),
            None => Answer::Given(0),
        }
    }

    fn counting_card(&self, page: u32) -> Option<usize> {
        let hides = |open: &Open| open.counts() && open.changes.iter().any(|a| a.0 == page);
        self.open.iter().position(|open| open.as_ref().is_some_and(hides))
    }

    /// Makes the call.
    fn make(&mut self, call: &Call, buffer_words: usize) -> Answered {
        let rack = &mut self.rack;
        match call {
            Call::Open { card, number, desk, list } => (rack.open(*card, *number, *desk, list), vec![]),
            Call::Step { card } => (rack.step(*card), vec![]),
            Call::Fetch { page } => {
                let mut buffer = vec![9; buffer_words];
                let answer = rack.fetch(*page, &mut buffer);
                if let Answer::Refused(..) = answer {
                    assert!(buffer.iter().all(|word| *word == 9), "a refused fetch wrote");
                }
                (answer, buffer)
            }
            Call::Fail { card } => (rack.fail(*card), vec![]),
            Call::Recover => {
                let (answer, desk) = rack.recover();
                (answer, desk.into())
            }
            Call::Join { card } => (rack.join(*card), vec![]),
            Call::AskDesk { card } => {
                let (answer, desk) = rack.ask(*card);
                (answer, desk.into())
            }
        }
    }

    /// Keeps what the test knows up to date.
    fn note(&mut self, call: &Call, accepted: bool) {
        match call {
            _ if !accepted => {}
            Call::Open { card, list, .. } => {
                let open = Open { changes: changes_of(list), steps: 0 };
                self.open[*card as usize] = Some(open);
            }
            Call::Step { card } => self.note_step(*card as usize),
            Call::Fail { card } => {
                let open = self.open[*card as usize].take();
                let stood = open.map_or(0, |open| 1 + usize::from(open.counts()));
                self.tally.recovered[stood] += 1;
                self.live[*card as usize] = false;
                self.awaited = Some(*card);
                assert_eq!(self.rack.directory.status, Status::Awaiting(*card));
            }
            Call::Recover => {
                self.tally.closed += self.open.iter().flatten().count() as u32;
                self.open.fill(None);
                self.awaited = None;
            }
            Call::Join { card } => self.live[*card as usize] = true,
            Call::Fetch { .. } | Call::AskDesk { .. } => {}
        }
    }

    fn note_step(&mut self, card: usize) {
        let Some(open) = &mut self.open[card] else {
            return;
        };
        open.steps += 1;
        if open.steps == 4 * open.changes.len() + 11 {
            self.open[card] = None;
        }
    }

    fn count(&mut self, call: &Call, answer: Answer) {
        match answer {
            Answer::Given(_) => self.tally.accepted[place_of(call)] += 1,
            Answer::Refused(number, _) => self.tally.refused[number as usize] += 1,
        }
    }

    /// A dead card's area may hold anything at each call.
    fn scramble_dead(&mut self) {
        for card in 0..self.live.len() {
            if !self.live[card] && self.random.one_in(3) {
                self.rack.scramble(card as u32, &mut self.random);
            }
        }
    }

    /// A random call, mostly one that will be accepted.
    fn choose(&mut self) -> Call {
        if self.awaited.is_some() && !self.random.one_in(6) {
            return Call::Recover;
        }
        let any = self.any_card();
        let live = self.live.iter().filter(|live| **live).count();
        if live == 2 && !self.random.one_in(6) {
            return self.choose_towards_join(any);
        }
        match self.random.below(100) {
            0..=9 => {
                let idle = self.card_from(any, |live, open| live && !open);
                self.choose_opening(idle)
            }
            10..=81 => Call::Step { card: self.card_from(any, |_, open| open) },
            82..=86 => Call::Fetch { page: self.random.below(self.rack.directory.pages + 1) },
            87..=90 => Call::AskDesk { card: any },
            91..=94 => Call::Fail { card: self.card_from(any, |live, _| live) },
            95 => Call::Recover,
            _ => Call::Join { card: self.card_from(any, |live, _| !live) },
        }
    }

    /// With two cards live no more can fail: a step that brings the close
    /// nearer, or a join.
    fn choose_towards_join(&mut self, any: u32) -> Call {
        match self.open.iter().any(Option::is_some) {
            true => Call::Step { card: self.card_from(any, |_, open| open) },
            false => Call::Join { card: self.card_from(any, |live, _| !live) },
        }
    }

    fn any_card(&mut self) -> u32 {
        match self.random.one_in(60) {
            true => self.random.odd_word(),
            false => self.random.below(self.live.len() as u32),
        }
    }

    /// Mostly the first card, from the one given and round the end, that is such
    /// a card (live, with a release open); else the one given.
    fn card_from(&mut self, card: u32, such: fn(bool, bool) -> bool) -> u32 {
        let cards = self.live.len() as u32;
        if card >= cards || self.random.one_in(12) {
            return card;
        }
        let is_such = |card: usize| such(self.live[card], self.open[card].is_some());
        (card..cards).chain(0..card).find(|card| is_such(*card as usize)).unwrap_or(card)
    }

    fn choose_opening(&mut self, card: u32) -> Call {
        let random = &mut self.random;
        let rarity = random.within(4, 80);
        let mut list = list_of(&random_changes(random, self.rack.directory.pages, rarity));
        if random.one_in(12) {
            let at = random.below(list.len() as u32);
            list[at as usize] = random.odd_word();
        }
        let (last, _) = self.book.last(card);
        let number = match random.below(15) {
            0 => last,
            1 => last.wrapping_add(2),
            2 => wide_number(random),
            _ => last.wrapping_add(1),
        };
        Call::Open { card, number, desk: random.array(), list }
    }
}

fn place_of(call: &Call) -> usize {
    match call {
        Call::Open { .. } => 0,
        Call::Step { .. } => 1,
        Call::Fetch { .. } => 2,
        Call::Fail { .. } => 3,
        Call::Recover => 4,
        Call::Join { .. } => 5,
        Call::AskDesk { .. } => 6,
    }
}

/// The changes of an allowed list.
pub fn changes_of(list: &[u32]) -> Vec<Change> {
    let mut changes = Vec::new();
    let (mut at, mut page) = (0, 0);
    while list[at] >> 28 != 15 {
        if list[at] >> 28 == 1 {
            page = list[at] & 0x0FFF_FFFF;
            at += 1;
            continue;
        }
        let (offset, count) = (list[at] >> 16 & 0xFFF, list[at] & 0xFFFF);
        for word in 0..count {
            changes.push((page, offset + word, list[at + 1 + word as usize]));
        }
        at += 1 + count as usize;
    }
    changes
}
