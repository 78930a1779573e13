//! Racks to be timed, and lists of forty prices.

use bandsawpink_sys as sys;
use second::layout::{memory_words, put_number, OPEN, OWN_STAMP};
use second::{Answer, Directory};

/// The prices of a release.
pub const PRICES: u32 = 40;

/// The list of 40 prices on 2 pages, words 48 × region to 48 × region + 39 of the rack: lists of two regions share no
/// word.
pub fn list(region: u32) -> Vec<u32> {
    list_of(48 * region..48 * region + PRICES)
}

/// The list of 40 prices on 40 pages: word 5 of each.
pub fn spread_list() -> Vec<u32> {
    list_of((0..PRICES).map(|page| 32 * page + 5))
}

/// The list of these labels, each its own price. Those of a page follow one another.
pub fn list_of(words: impl Iterator<Item = u32>) -> Vec<u32> {
    let mut list = Vec::new();
    let words: Vec<u32> = words.collect();
    for run in words.chunk_by(|one, next| one / 32 == next / 32) {
        list.push(0x1000_0000 | (run[0] / 32));
        list.push(0x2000_0000 | ((run[0] % 32) << 16) | run.len() as u32);
        list.extend(run);
    }
    list.push(0xF000_0000 | list.len() as u32);
    list
}

/// The memory with its directory: the proved library's, and the second implementation's.
#[derive(Clone)]
pub struct Rack {
    pub memory: Vec<u32>,
    pub proved: sys::Directory,
    pub directory: Directory,
}

impl Rack {
    /// Newly formatted, with a release open on each of the last `others` cards.
    pub fn new(cards: u32, pages: u32, others: u32) -> Self {
        let mut memory = vec![0; memory_words(cards, pages).expect("within the limits")];
        let mut proved = sys::Directory::EMPTY;
        // SAFETY: pointer and length of one slice, and a directory beside it.
        let answer = unsafe { sys::rack_format(memory.as_mut_ptr(), memory.len(), cards, pages, &mut proved) };
        assert_eq!(answer.number, sys::refusals::ACCEPTED);
        let (directory, _) = second::format_rack(&mut memory, cards, pages);
        for other in 1..=others {
            let (_, answer) = second::open_release(&mut memory, directory, cards - other, 1, [0; 8], &list(other));
            assert_eq!(answer, Answer::Given(0));
        }
        Self { memory, proved, directory }
    }

    /// Card 0 with no release open and stamp 0, so that number 1 can be opened again.
    pub fn reset(&mut self) {
        put_number(&mut self.memory, OWN_STAMP, 0);
        self.memory[OPEN] = 0;
    }
}
