//! Two lists made one (document 02, "Two lists made one"), page by page: a page that one
//! list alone names is taken over as it stands there, and the prices of a page that both
//! name are laid on it one after the other.

use crate::answer::Answer;
use crate::layout::{LIST_WORDS, MOST_PAGES, PAGE_WORDS};
use crate::list::{differing, kind, low_bits, page_words, read_handed_in, run_count, run_offset, Writer, PAGE, RUN};
use crate::refusals::{FAULTY_LIST, LIST_TOO_LONG, WRONG_BUFFER};
use std::cmp::Ordering;

/// Merges a first and a second list, "pages to 63", into "one list whose effect on any
/// pages is the first's and then the second's": it names what either names, at the
/// second's price where the second names it. That "is an allowed list again", and there
/// is one for those words and prices. Gives its length; words past its end in the buffer
/// are kept. "A faulty input gets 7, the first list looked at first, a result over 512
/// words 19, then a short buffer 17."
pub fn merge_lists(first: &[u32], second: &[u32], buffer: &mut [u32]) -> Answer {
    if let Err(place) = check(first, second) {
        return Answer::Refused(FAULTY_LIST, place as u64);
    }
    let (first, second) = if cfg!(feature = "wrong_first_wins") { (second, first) } else { (first, second) };
    let length = merged_words(first, second);
    let has_room = length <= buffer.len();
    if length > LIST_WORDS && (has_room || !cfg!(feature = "wrong_room_first")) {
        return Answer::Refused(LIST_TOO_LONG, 0);
    }
    if !has_room {
        return Answer::Refused(WRONG_BUFFER, 0);
    }
    write_merged(first, second, buffer);
    Answer::Given(length as u64)
}

/// The place of the fault of a list, "the first list looked at first".
fn check(first: &[u32], second: &[u32]) -> Result<(), usize> {
    let lists = if cfg!(feature = "wrong_second_first") { [second, first] } else { [first, second] };
    lists.into_iter().try_for_each(|list| read_handed_in(list, MOST_PAGES as u32).map(drop))
}

/// The words of the merged list: those of each page, and the end word.
fn merged_words(first: &[u32], second: &[u32]) -> usize {
    Pages { first, second }.map(|page| page.words()).sum::<usize>() + 1
}

/// Writes the merged list into a buffer that has room for it.
fn write_merged(first: &[u32], second: &[u32], buffer: &mut [u32]) {
    let mut list = Writer::new(buffer);
    Pages { first, second }.for_each(|page| page.write(&mut list));
    list.put_end();
}

/// The pages of the merged list, ascending: what is left of two allowed lists.
struct Pages<'a> {
    first: &'a [u32],
    second: &'a [u32],
}

impl<'a> Iterator for Pages<'a> {
    type Item = MergedPage<'a>;

    fn next(&mut self) -> Option<MergedPage<'a>> {
        // Page words ascend as their pages do, and an end word is above them all.
        let (first, second) = (self.first[0], self.second[0]);
        if kind(first.min(second)) != PAGE {
            return None;
        }
        Some(match first.cmp(&second) {
            Ordering::Less => MergedPage::OfOne(ListPage::take(&mut self.first)),
            Ordering::Greater => MergedPage::OfOne(ListPage::take(&mut self.second)),
            Ordering::Equal => MergedPage::OfBoth(ListPage::take(&mut self.first), ListPage::take(&mut self.second)),
        })
    }
}

/// A page that one list names, or both.
enum MergedPage<'a> {
    OfOne(ListPage<'a>),
    OfBoth(ListPage<'a>, ListPage<'a>),
}

impl MergedPage<'_> {
    /// The words of the page in the merged list.
    fn words(&self) -> usize {
        match self {
            MergedPage::OfOne(page) => page.words.len(),
            MergedPage::OfBoth(first, second) if are_left_apart(first, second) => {
                first.words.len() + second.words.len() - 1
            }
            MergedPage::OfBoth(first, second) => page_words(merged_marks(first, second)) as usize,
        }
    }

    /// Puts the page into the merged list.
    fn write(&self, list: &mut Writer) {
        match self {
            MergedPage::OfOne(page) => list.put(page.words),
            MergedPage::OfBoth(first, second) if are_left_apart(first, second) => {
                list.put(first.words);
                list.put(&second.words[1..]);
            }
            MergedPage::OfBoth(first, second) => {
                let mut words = [0; PAGE_WORDS];
                first.lay_on(&mut words);
                second.lay_on(&mut words);
                list.put_page(first.number(), merged_marks(first, second), &words);
            }
        }
    }
}

/// The marks of the words that either list names.
fn merged_marks(first: &ListPage, second: &ListPage) -> u32 {
    let left_out = if cfg!(feature = "wrong_equal_left_out") { equally_priced(first, second) } else { 0 };
    (first.marks() | second.marks()) & !left_out
}

/// The marks of the words that both lists have at one price.
fn equally_priced(first: &ListPage, second: &ListPage) -> u32 {
    let [mut one, mut other] = [[0; PAGE_WORDS]; 2];
    first.lay_on(&mut one);
    second.lay_on(&mut other);
    first.marks() & second.marks() & !differing(&one, &other)
}

/// Whether the page is built with an error: the second's runs, all past the first's, are
/// put behind these as they stand, also where they touch.
fn are_left_apart(first: &ListPage, second: &ListPage) -> bool {
    cfg!(feature = "wrong_runs_apart") && first.marks() < 1 << second.marks().trailing_zeros()
}

/// What an allowed list has of one page: the page word, and the runs with their prices.
struct ListPage<'a> {
    words: &'a [u32],
}

impl<'a> ListPage<'a> {
    /// Takes the first page off what is left of a list.
    fn take(list: &mut &'a [u32]) -> ListPage<'a> {
        let mut at = 1;
        while kind(list[at]) == RUN {
            at += 1 + run_count(list[at]) as usize;
        }
        let (words, rest) = list.split_at(at);
        *list = rest;
        ListPage { words }
    }

    fn number(&self) -> u32 {
        low_bits(self.words[0])
    }

    /// The runs, by offset and prices.
    fn runs(&self) -> impl Iterator<Item = (usize, &'a [u32])> {
        let mut words = &self.words[1..];
        std::iter::from_fn(move || {
            let (&run, rest) = words.split_first()?;
            let (prices, rest) = rest.split_at(run_count(run) as usize);
            words = rest;
            Some((run_offset(run) as usize, prices))
        })
    }

    /// The marks of the words that the list names.
    fn marks(&self) -> u32 {
        let of_run = |(offset, prices): (usize, &[u32])| u32::MAX >> (PAGE_WORDS - prices.len()) << offset;
        self.runs().map(of_run).fold(0, |marks, run| marks | run)
    }

    /// Sets the words that the list names to their prices.
    fn lay_on(&self, page: &mut [u32; PAGE_WORDS]) {
        for (offset, prices) in self.runs() {
            page[offset..][..prices.len()].copy_from_slice(prices);
        }
    }
}
