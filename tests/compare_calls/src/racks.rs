//! One call, made of both: the answers, the words of the directories and every lent word must be equal.

use crate::call::{Call, Reply};
use crate::guard::Flush;
use crate::library::{directory_of, words_of, Rack, Words, FIRST_MARK};
use second::layout::{own_stamp, Desk, Number};
use second::{by_reference, Answer, Directory};
use std::fmt::Debug;

/// Racks that must stay equal: two of the proved library's, one flush left and one flush right, and the second
/// implementation's.
#[derive(Clone)]
pub struct Racks {
    proved: [Rack; 2],
    twin: Vec<u32>,
    /// The words of the directory, whose marks may be any.
    words: Words,
    pub directory: Directory,
}

impl Racks {
    pub fn new(memory: &[u32], words: &Words) -> Self {
        Self {
            proved: [Flush::Left, Flush::Right].map(|flush| Rack::new(memory, words, flush)),
            twin: memory.to_vec(),
            words: *words,
            directory: directory_of(words),
        }
    }

    /// The stamp of a card, 0 if the memory ends before it.
    pub fn stamp(&self, card: u32) -> Number {
        own_stamp(&self.twin, bounded_pages(&self.directory), card).unwrap_or(0)
    }

    /// Makes the same change in every memory.
    pub fn change(&mut self, change: impl Fn(&mut [u32])) {
        self.proved.iter_mut().for_each(|rack| change(&mut rack.memory));
        change(&mut self.twin);
    }

    /// Gives a live mark another word: the directory is the same.
    pub fn disguise_mark(&mut self, card: usize, word: u32) {
        let at = FIRST_MARK + card;
        if word != 0 && self.words[at] != 0 {
            self.proved.iter_mut().for_each(|rack| rack.directory[at] = word);
            self.words[at] = word;
        }
    }

    /// Makes the call of all and compares all that they hand back.
    pub fn call(&mut self, call: &Call) -> Result<Reply, String> {
        let (after, expected) = make_second(&mut self.twin, self.directory, call);
        let differ = |what: String| format!("{}: {what}; second implementation {}", brief(call), brief(&expected));
        if call.changes_directory(&expected) {
            self.words = words_of(&after);
        } else if after != self.directory {
            return Err(differ("the directory is not kept".into()));
        }
        for rack in &mut self.proved {
            let reply = rack.make(call);
            if reply.answer != expected.answer {
                return Err(differ(format!("the answers differ: {}", brief(&reply))));
            }
            if let Some(at) = first_difference(&reply.beside, &expected.beside) {
                return Err(differ(format!("word {at} beside the answers differs: {}", brief(&reply))));
            }
            if let Some(at) = first_difference(&rack.directory, &self.words) {
                return Err(differ(format!("word {at} of the directory differs")));
            }
            if let Some(at) = first_difference(&rack.memory, &self.twin) {
                return Err(differ(format!("word {at} of the memory differs")));
            }
        }
        self.directory = after;
        Ok(expected)
    }
}

/// The pages of a directory that may name any number of them, cut off so that the place of every area is a number.
pub fn bounded_pages(directory: &Directory) -> u32 {
    directory.pages % 4096
}

/// To be read by people: a list of changes is whole, a memory is not.
fn brief(shown: &impl Debug) -> String {
    let mut text = format!("{shown:?}");
    if text.len() > 8_000 {
        text.truncate(8_000);
        text += "...";
    }
    text
}

/// The first word that differs, or that only one of both has.
fn first_difference(words: &[u32], expected: &[u32]) -> Option<usize> {
    match words == expected {
        true => None,
        false => (0..words.len().max(expected.len())).find(|&at| words.get(at) != expected.get(at)),
    }
}

fn make_second(memory: &mut [u32], directory: Directory, call: &Call) -> (Directory, Reply) {
    let plain = |(directory, answer)| (directory, Reply { answer, beside: Vec::new() });
    let with_desk =
        |(directory, answer, desk): (Directory, Answer, Desk)| (directory, Reply { answer, beside: desk.into() });
    match call {
        Call::Format { cards, pages } => plain(second::format_rack(memory, *cards, *pages)),
        Call::Open { card, number, desk, list } => {
            plain(second::open_release(memory, directory, *card, *number, *desk, list))
        }
        Call::Step { card } => plain(second::make_step(memory, directory, *card)),
        Call::Steps { card, count } => {
            let (directory, answer, made) = second::make_steps(memory, directory, *card, *count);
            // document 01 names no value for it: the library gives the steps made
            let answer = if answer == Answer::Given(0) { Answer::Given(made.into()) } else { answer };
            (directory, Reply { answer, beside: vec![made] })
        }
        Call::Fetch { page, buffer } => {
            with_buffer(buffer, |words| second::fetch_page(memory, directory, *page, words))
        }
        Call::FetchAll { buffer } => {
            let mut words = buffer.clone();
            let (directory, answer, shown) = second::fetch_all(memory, directory, &mut words);
            words.extend(shown.map(u32::from));
            (directory, Reply { answer, beside: words })
        }
        Call::Fail { card } => plain(second::fail_card(memory, directory, *card)),
        Call::Recover => with_desk(second::recover(memory, directory)),
        Call::Join { card } => plain(second::join_card(memory, directory, *card)),
        Call::AskDesk { card } => with_desk(second::ask_desk(memory, directory, *card)),
        Call::MoveIn { old } => plain((directory, by_reference::move_in(old, &directory, memory))),
        Call::MoveBack { buffer } => {
            with_buffer(buffer, |words| (directory, by_reference::move_back(memory, &directory, words)))
        }
    }
}

/// A call that writes a buffer, which stands beside its answer.
fn with_buffer(before: &[u32], call: impl FnOnce(&mut [u32]) -> (Directory, Answer)) -> (Directory, Reply) {
    let mut beside = before.to_vec();
    let (directory, answer) = call(&mut beside);
    (directory, Reply { answer, beside })
}
