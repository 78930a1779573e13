//! List work of both: the list maker and the marks of what differs, on random pages, marks and buffers.

use crate::call::Reply;
use crate::guard::Flush;
use crate::library;
use crate::lists::{self, LIMIT};
use random::Random;
use second::layout::{LIST_WORDS, PAGE_WORDS};
use second::Answer;

/// The list maker.
pub fn compare_makers(random: &mut Random) -> Result<(), String> {
    let ((working, twins), marks) = if random.one_in(4) { marked_near_limit(random) } else { any_marked(random) };
    let list = second::make_list(&working, &twins, &marks, &mut [0; LIST_WORDS]);
    let buffer: Vec<u32> = (0..room(random, list)).collect();
    compare(
        || format!("list maker: {working:?}, twins {twins:?}, marks {marks:x?}, room {}", buffer.len()),
        &buffer,
        |buffer| second::make_list(&working, &twins, &marks, buffer),
        |flush| library::make_list(&working, &twins, &marks, &buffer, flush),
    )
    .map(drop)
}

/// The marks of what differs.
pub fn compare_marks(random: &mut Random) -> Result<(), String> {
    let (working, twins) = any_pages(random);
    let pages = pages_of(random, &working);
    let words = about(random, pages);
    let marks = random.words(words);
    compare(
        || format!("marks of what differs: {working:?}, twins {twins:?}, marks before {marks:x?}"),
        &marks,
        |marks| second::mark_changes(&working, &twins, marks),
        |flush| library::mark_changes(&working, &twins, &marks, flush),
    )
    .map(drop)
}

/// A call of both that writes a buffer, which stands beside its answer. Gives what both answer.
pub fn compare(
    call: impl Fn() -> String,
    buffer: &[u32],
    of_second: impl FnOnce(&mut [u32]) -> Answer,
    of_library: impl Fn(Flush) -> Reply,
) -> Result<Reply, String> {
    let mut beside = buffer.to_vec();
    let answer = of_second(&mut beside);
    let expected = Reply { answer, beside };
    for flush in [Flush::Left, Flush::Right] {
        let reply = of_library(flush);
        if reply != expected {
            return Err(format!("{}: {reply:?}; second implementation {expected:?}", call()));
        }
    }
    Ok(expected)
}

/// The words of a buffer: few, any, or about as many as the list, or the longest one, has.
pub fn room(random: &mut Random, list: Answer) -> u32 {
    let length = match list {
        Answer::Given(length) => length as u32,
        Answer::Refused(..) => 0,
    };
    match random.below(5) {
        0 => random.below(60),
        1 => random.within(LIMIT - 4, LIMIT + 2),
        2 => (length + random.below(3)).saturating_sub(1),
        _ => random.below(700),
    }
}

/// Working pages and their twins.
type Pages = (Vec<u32>, Vec<u32>);

/// Working pages, their twins and marks: any of them, also of wrong lengths.
fn any_marked(random: &mut Random) -> (Pages, Vec<u32>) {
    let (working, twins) = any_pages(random);
    let mut marks = any_marks(random, &working, &twins);
    let words = about(random, marks.len());
    marks.resize(words, random.word());
    ((working, twins), marks)
}

/// Pages with marks whose list has 510 to 513 words. Of the marked words some, all or none are equal to their twins.
fn marked_near_limit(random: &mut Random) -> (Pages, Vec<u32>) {
    let pages = random.within(16, 64) as usize;
    let labels = lists::priced(&lists::near_limit(random, pages as u32));
    let twins = random.words(PAGE_WORDS * pages);
    let marks = marks_of(pages, labels.into_iter().map(|label| label as usize));
    ((changed(random, &twins), twins), marks)
}

/// Working pages and their twins, now and then not whole pages, not 1 to 64 or not of one length.
fn any_pages(random: &mut Random) -> Pages {
    let pages = match random.below(16) {
        0..=3 => random.within(1, 64),
        4 => random.within(63, 66),
        _ => random.within(1, 3),
    };
    let words = about(random, PAGE_WORDS * pages as usize);
    let twins = random.words(words);
    let mut working = changed(random, &twins);
    working.resize(about(random, words), random.word());
    (working, twins)
}

/// The pages with some words, all or none changed, each in one bit.
fn changed(random: &mut Random, pages: &[u32]) -> Vec<u32> {
    let rarity = random.of(&[1, 2, 5, 40, 400]);
    let change = |word: &u32| if random.one_in(rarity) { word ^ 1 << random.below(32) } else { *word };
    pages.iter().map(change).collect()
}

/// Marks for the pages: any words, none, all, those of what differs, or these but for one bit.
fn any_marks(random: &mut Random, working: &[u32], twins: &[u32]) -> Vec<u32> {
    let pages = pages_of(random, working);
    let in_both = 0..working.len().min(twins.len()).min(PAGE_WORDS * pages);
    let mut of_changes = marks_of(pages, in_both.filter(|&label| working[label] != twins[label]));
    match random.below(6) {
        0 => vec![0; pages],
        1 => vec![u32::MAX; pages],
        2 => of_changes,
        3 => {
            let at = random.below(pages.max(1) as u32) as usize;
            if let Some(marks) = of_changes.get_mut(at) {
                *marks ^= 1 << random.below(32);
            }
            of_changes
        }
        _ => {
            let rarity = random.of(&[1, 2, 8]);
            (0..pages).map(|_| if random.one_in(rarity) { random.marks() } else { 0 }).collect()
        }
    }
}

/// The marks of so many pages, with these labels marked.
fn marks_of(pages: usize, labels: impl Iterator<Item = usize>) -> Vec<u32> {
    let mut marks = vec![0; pages];
    labels.for_each(|label| marks[label / PAGE_WORDS] |= 1 << (label % PAGE_WORDS));
    marks
}

/// The number of pages, with or without one that is not whole.
fn pages_of(random: &mut Random, working: &[u32]) -> usize {
    let whole = working.len() / PAGE_WORDS;
    random.of(&[whole, working.len().div_ceil(PAGE_WORDS)])
}

/// Mostly the length itself, now and then another.
fn about(random: &mut Random, length: usize) -> usize {
    match random.below(60) {
        0 => 0,
        1 => length + 1,
        2 => length.saturating_sub(1),
        3 => length + PAGE_WORDS,
        4 => random.below(2 * length as u32 + 1) as usize,
        _ => length,
    }
}
