//! Moves from the old form to the new and back: of sound racks and of damaged ones, with dead cards, open releases and
//! numbers at the edges of a word, from memories of either form and of any length, into memories of any words.

use crate::call::Call;
use crate::damage::{damaged, make, put_numbers, reached, size};
use crate::library::words_of;
use crate::racks::{bounded_pages, Racks};
use crate::seen::Seen;
use random::Random;
use second::layout::{area_mut, area_words, done_mark_at, stamp_at, MOST_CARDS, NUMBER, OWN_STAMP};
use second::Directory;

/// The rack of this number moves back, and in from the old form; what moved in moves back again.
pub fn compare(random: &mut Random, at: u64, seen: &mut Seen) -> Result<u64, String> {
    let (cards, pages) = size(random, at);
    let (memory, directory) = rack_to_move(random, cards, pages);
    let (words, old) = (words_of(&directory), in_old_form(&memory, &directory));

    let mut racks = Racks::new(&source(random, &memory, &old), &words);
    let buffer = target(random, &old, &memory);
    make(random, &mut racks, &Call::MoveBack { buffer }, seen)?;

    let mut racks = Racks::new(&target(random, &memory, &old), &words);
    let from = source(random, &old, &memory);
    if !make(random, &mut racks, &Call::MoveIn { old: from.clone() }, seen)?.accepted() {
        return Ok(2);
    }

    let buffer = random.words(from.len());
    let back = make(random, &mut racks, &Call::MoveBack { buffer }, seen)?;
    match back.accepted() && back.beside == from {
        true => Ok(3),
        false => Err("what moved in does not move back to the words that it came from".into()),
    }
}

/// Mostly a rack that no recovery awaits and on which no release is open.
fn rack_to_move(random: &mut Random, cards: u32, pages: u32) -> (Vec<u32>, Directory) {
    let (mut memory, mut directory) = reached(random, cards, pages);
    if !random.one_in(5) {
        directory = second::recover(&mut memory, directory).0;
        for card in 0..cards {
            second::make_steps(&mut memory, directory, card, u32::MAX);
        }
    }
    if random.one_in(3) {
        put_numbers(random, &mut memory, &directory);
    }
    for card in (0..cards).filter(|&card| !directory.live[card as usize]) {
        if random.one_in(2) {
            area_mut(&mut memory, pages, card).fill_with(|| random.odd_word());
        }
    }
    match random.one_in(3) {
        true => damaged(random, memory, directory),
        false => (memory, directory),
    }
}

/// The old form of a memory: without the high word of each number.
fn in_old_form(memory: &[u32], directory: &Directory) -> Vec<u32> {
    let of_records = (0..MOST_CARDS as u32).flat_map(|card| [stamp_at(card), done_mark_at(card)]);
    let high_words: Vec<usize> = of_records.chain([OWN_STAMP, NUMBER]).map(|low| low + 1).collect();
    let area = area_words(bounded_pages(directory));
    let kept = memory.iter().enumerate().filter(|(at, _)| !high_words.contains(&(at % area)));
    kept.map(|(_, &word)| word).collect()
}

/// Words to be moved, mostly those of the form moved from, and of its length.
fn source(random: &mut Random, words: &[u32], of_other_form: &[u32]) -> Vec<u32> {
    let mut source = if random.one_in(8) { of_other_form } else { words }.to_vec();
    source.resize(length(random, words, of_other_form), 0);
    source
}

/// Any words to be overwritten, mostly of the length of the form moved to.
fn target(random: &mut Random, words: &[u32], of_other_form: &[u32]) -> Vec<u32> {
    let length = length(random, words, of_other_form);
    random.words(length)
}

fn length(random: &mut Random, words: &[u32], of_other_form: &[u32]) -> usize {
    match random.below(24) {
        0 => words.len() + 1,
        1 => words.len().saturating_sub(1),
        2 => of_other_form.len(),
        _ => words.len(),
    }
}
