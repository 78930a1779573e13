//! The list of changes: its rules, its prices and its maker ("The list of changes"),
//! which goes by marks ("A price set again to what it was").

use crate::answer::Answer;
use crate::layout::{LIST_WORDS, PAGE_LIMITS, PAGE_WORDS};
use crate::refusals::{FAULTY_LIST, OUTSIDE_LIMITS, WRONG_BUFFER};

pub const PAGE: u32 = 1;
pub const RUN: u32 = 2;
const END: u32 = 15;

/// "A word's top four bits are its kind."
pub fn kind(word: u32) -> u32 {
    word >> 28
}

pub fn low_bits(word: u32) -> u32 {
    word & 0x0FFF_FFFF
}

pub fn run_offset(word: u32) -> u32 {
    (word >> 16) & 0xFFF
}

pub fn run_count(word: u32) -> u32 {
    word & 0xFFFF
}

fn page_word(page: u32) -> u32 {
    PAGE << 28 | page
}

fn run_word(offset: u32, count: u32) -> u32 {
    RUN << 28 | offset << 16 | count
}

fn end_word(index: u32) -> u32 {
    END << 28 | index
}

/// What a list read to its end word holds.
pub struct Extent {
    /// The number of prices, k.
    pub prices: u32,
    /// The words up to and with the end word.
    pub words: usize,
}

/// What the reader remembers between two words of a list.
#[derive(Default)]
struct Reader {
    /// The page named last.
    page: Option<u32>,
    /// The end of that page's last run, `None` while it has no run.
    run_end: Option<u32>,
    prices: u32,
}

impl Reader {
    /// Whether the page named last, if any, has its run.
    fn page_has_run(&self) -> bool {
        self.page.is_none() || self.run_end.is_some()
    }

    /// "Pages ascend strictly, each below the rack's pages and with at least
    /// one run."
    fn take_page(&mut self, page: u32, pages: u32) -> bool {
        let ascends = self.page.is_none_or(|before| page > before);
        let allowed = self.page_has_run() && ascends && page < pages;
        if allowed {
            self.page = Some(page);
            self.run_end = None;
        }
        allowed
    }

    /// A run stands on a page, "has count 1 or more and offset + count at most
    /// 32", and its "offset is greater than the end of the run before".
    fn take_run(&mut self, offset: u32, count: u32) -> bool {
        let apart = self.run_end.is_none_or(|end| offset > end);
        let fits = count >= 1 && offset + count <= PAGE_WORDS as u32;
        let allowed = self.page.is_some() && apart && fits;
        if allowed {
            self.run_end = Some(offset + count);
            self.prices += count;
        }
        allowed
    }
}

/// Reads a list to its end word, or gives the place of its fault. Words past
/// the first 512 are not looked at: a list that goes on there is at fault at 512,
/// and one that stops before its end word is at fault at its length.
pub fn read_list(list: &[u32], pages: u32) -> Result<Extent, usize> {
    let list = match cfg!(feature = "wrong_stored_list") {
        true => list,
        false => &list[..list.len().min(LIST_WORDS)],
    };
    let mut reader = Reader::default();
    let mut at = 0;
    while let Some(&word) = list.get(at) {
        let allowed = match kind(word) {
            PAGE => reader.take_page(low_bits(word), pages),
            RUN => reader.take_run(run_offset(word), run_count(word)),
            END => reader.page_has_run() && low_bits(word) as usize == at,
            _ => false,
        };
        match kind(word) {
            _ if !allowed => return Err(at),
            END => return Ok(Extent { prices: reader.prices, words: at + 1 }),
            RUN => at += 1 + run_count(word) as usize,
            _ => at += 1,
        }
    }
    Err(list.len())
}

/// Reads a list handed in: "Nothing follows the end word".
pub fn read_handed_in(list: &[u32], pages: u32) -> Result<Extent, usize> {
    if cfg!(feature = "wrong_handed_in") && list.len() == LIST_WORDS {
        return Err(LIST_WORDS);
    }
    let extent = match read_list(&list[..list.len().min(LIST_WORDS)], pages) {
        Err(LIST_WORDS) if cfg!(feature = "wrong_place") => return Err(list.len()),
        read => read?,
    };
    if extent.words < list.len() {
        return Err(extent.words);
    }
    Ok(extent)
}

/// Checks a list handed in: its number of prices, or refusal 7 and its place.
pub fn check_list(list: &[u32], pages: u32) -> Answer {
    match read_handed_in(list, pages) {
        Ok(extent) => Answer::Given(u64::from(extent.prices)),
        Err(place) => Answer::Refused(FAULTY_LIST, place as u64),
    }
}

/// One price of a list and the page word it is for.
pub struct Price {
    pub page: u32,
    pub word: u32,
    pub price: u32,
}

/// The prices of a list, in order, up to its end word.
pub struct Prices<'a> {
    list: &'a [u32],
    at: usize,
    page: u32,
    word: u32,
    left: u32,
}

pub fn prices(list: &[u32]) -> Prices<'_> {
    Prices { list, at: 0, page: 0, word: 0, left: 0 }
}

impl Prices<'_> {
    fn next_word(&mut self) -> Option<u32> {
        let word = *self.list.get(self.at)?;
        self.at += 1;
        Some(word)
    }

    /// Reads on to the first price of the next run; `None` at the end word.
    fn enter_run(&mut self) -> Option<()> {
        while self.left == 0 {
            let word = self.next_word()?;
            match kind(word) {
                PAGE => self.page = low_bits(word),
                RUN => (self.word, self.left) = (run_offset(word), run_count(word)),
                _ => return None,
            }
        }
        Some(())
    }
}

impl Iterator for Prices<'_> {
    type Item = Price;

    fn next(&mut self) -> Option<Price> {
        self.enter_run()?;
        let price = self.next_word()?;
        let word = self.word;
        self.word += 1;
        self.left -= 1;
        Some(Price { page: self.page, word, price })
    }
}

/// The list of one price.
pub fn one_price(page: u32, word: u32, price: u32) -> [u32; 4] {
    [page_word(page), run_word(word, 1), price, end_word(3)]
}

/// The list maker ("A price set again to what it was"): takes one word of marks per
/// page, bit w for word w, and writes the list that names exactly the marked words, at
/// their prices on the working pages. Of the twins only the length counts. Gives the
/// list's length; words past its end in the buffer are kept.
pub fn make_list(working: &[u32], twins: &[u32], marks: &[u32], buffer: &mut [u32]) -> Answer {
    let wrong_marks = TAKES_MARKS_WRONG.then(|| marks_taken_wrong(working, twins, marks));
    let marks = wrong_marks.as_deref().unwrap_or(marks);
    if !are_within_limits(working, twins, marks) {
        return Answer::Refused(OUTSIDE_LIMITS, 0);
    }
    let length = list_words(marks);
    let longest = LIST_WORDS - usize::from(cfg!(feature = "wrong_maker"));
    if length > longest || length > buffer.len() {
        return Answer::Refused(WRONG_BUFFER, 0);
    }
    write_list(working, marks, buffer);
    Answer::Given(length as u64)
}

/// Marks the words that differ from their twins, for a desk that keeps no marks, as the
/// C interface has it. All words of marks are written.
pub fn mark_changes(working: &[u32], twins: &[u32], marks: &mut [u32]) -> Answer {
    if !are_within_limits(working, twins, marks) {
        return Answer::Refused(OUTSIDE_LIMITS, 0);
    }
    for (marks, (new, old)) in marks.iter_mut().zip(page_pairs(working, twins)) {
        let kept = if cfg!(feature = "wrong_marks_added") { *marks } else { 0 };
        *marks = kept | differing(new, old);
    }
    Answer::Given(0)
}

/// Lent pages are of equal length, "32 words times 1 to 64", with "one mark word per
/// page".
fn are_within_limits(working: &[u32], twins: &[u32], marks: &[u32]) -> bool {
    let pages = working.len() / PAGE_WORDS;
    let whole = working.len().is_multiple_of(PAGE_WORDS);
    let within = u32::try_from(pages).is_ok_and(|pages| PAGE_LIMITS.contains(&pages));
    whole && within && twins.len() == working.len() && marks.len() == pages
}

/// The pages with their twins.
fn page_pairs<'a>(working: &'a [u32], twins: &'a [u32]) -> impl Iterator<Item = (&'a [u32], &'a [u32])> {
    working.chunks_exact(PAGE_WORDS).zip(twins.chunks_exact(PAGE_WORDS))
}

/// The marks of the words in which two pages differ.
pub fn differing(new: &[u32], old: &[u32]) -> u32 {
    let words = new.iter().zip(old).enumerate();
    words.fold(0, |marks, (word, (new, old))| marks | u32::from(new != old) << word)
}

/// Whether the maker is built with an error in how it takes the marks.
const TAKES_MARKS_WRONG: bool =
    cfg!(any(feature = "wrong_unchanged_left_out", feature = "wrong_mark_order", feature = "wrong_marks_unchecked"));

/// The marks as the maker takes them with such an error.
fn marks_taken_wrong(working: &[u32], twins: &[u32], marks: &[u32]) -> Vec<u32> {
    let mut taken = marks.to_vec();
    if cfg!(feature = "wrong_marks_unchecked") {
        taken.resize(working.len() / PAGE_WORDS, 0);
    }
    for (marks, (new, old)) in taken.iter_mut().zip(page_pairs(working, twins)) {
        if cfg!(feature = "wrong_mark_order") {
            *marks = marks.reverse_bits();
        }
        if cfg!(feature = "wrong_unchanged_left_out") {
            *marks &= differing(new, old);
        }
    }
    taken
}

/// The words of the list that names the marked words: those of each page, and the end
/// word.
fn list_words(marks: &[u32]) -> usize {
    marks.iter().map(|&marks| page_words(marks)).sum::<u32>() as usize + 1
}

/// The words of a list on one page: for a page with marks its page word, a word for each
/// run and "the number of ones in its marks" for the prices.
pub fn page_words(marks: u32) -> u32 {
    match marks {
        0 => 0,
        _ => 1 + run_starts(marks).count_ones() + marks.count_ones(),
    }
}

/// The marks of the words that begin a run: the word before is not marked.
fn run_starts(marks: u32) -> u32 {
    marks & !(marks << 1)
}

/// The runs of a page, by offset and count. A run is as long as it can be, since the
/// next one must start past its end.
fn runs(mut marks: u32) -> impl Iterator<Item = (usize, usize)> {
    std::iter::from_fn(move || {
        if marks == 0 {
            return None;
        }
        let offset = marks.trailing_zeros();
        let count = (marks >> offset).trailing_ones();
        // The carry of the sum takes the marks of the run away.
        marks &= marks.wrapping_add(1 << offset);
        Some((offset as usize, count as usize))
    })
}

/// Writes the list of the marked words into a buffer that has room for it.
fn write_list(working: &[u32], marks: &[u32], buffer: &mut [u32]) {
    let mut list = Writer::new(buffer);
    for (page, (&marks, words)) in (0..).zip(marks.iter().zip(working.chunks_exact(PAGE_WORDS))) {
        list.put_page(page, marks, words);
    }
    list.put_end();
}

/// Puts words into a buffer, one after the other.
pub struct Writer<'a> {
    buffer: &'a mut [u32],
    at: usize,
}

impl Writer<'_> {
    pub fn new(buffer: &mut [u32]) -> Writer<'_> {
        Writer { buffer, at: 0 }
    }

    pub fn put(&mut self, words: &[u32]) {
        self.buffer[self.at..][..words.len()].copy_from_slice(words);
        self.at += words.len();
    }

    /// The marked words of a page; nothing if none is marked. Inlined, so that the list maker
    /// makes no call for such a page.
    #[inline(always)]
    pub fn put_page(&mut self, page: u32, marks: u32, words: &[u32]) {
        if marks != 0 {
            self.put(&[page_word(page)]);
        }
        for (offset, count) in runs(marks) {
            self.put(&[run_word(offset as u32, count as u32)]);
            self.put(&words[offset..offset + count]);
        }
    }

    pub fn put_end(&mut self) {
        self.put(&[end_word(self.at as u32)]);
    }
}
