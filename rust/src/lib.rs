//! A price rack whose behaviour is proved: 3 to 8 cards, 1 to 64 pages of 32 prices, each page on two
//! cards. A [`Rack`] owns its memory and directory; every call answers what the rack's specification
//! defines, and one that is refused has changed nothing (but see [`Stopped`]). `include/bandsawpink.h`
//! is the manual. [`make_list`], [`mark_changes`] and [`merge_lists`] make lists of changes and look at no rack.

mod refusal;

pub use bandsawpink_sys::layout::{old_memory_words, LIST_WORDS, PAGE_WORDS};
pub use bandsawpink_sys::Directory;
pub use refusal::{Refusal, Stopped};

use bandsawpink_sys::layout::{memory_words, DESK_WORDS, MAX_CARDS, MAX_PAGES};
use bandsawpink_sys::{self as sys, Answer, DeskAnswer, RUNNING};

/// The prices of a page, in cents.
pub type Page = [u32; PAGE_WORDS];

/// Words that the price desk wants back.
pub type Desk = [u32; DESK_WORDS];

/// What a recovery finds: the failed card's last release that counts.
#[derive(Clone, Copy, Debug, PartialEq, Eq)]
pub struct Recovered {
    /// The release's number, 0 if there was none.
    pub stamp: u64,
    pub desk: Desk,
}

/// A rack, with its memory and directory.
#[derive(Clone, Debug, PartialEq, Eq)]
pub struct Rack {
    memory: Vec<u32>,
    directory: Directory,
}

fn accepted(answer: Answer) -> Result<u64, Refusal> {
    Refusal::of(answer.number, answer.value).map_or(Ok(answer.value), Err)
}

fn accepted_desk(answer: DeskAnswer) -> Result<Recovered, Refusal> {
    let found = Recovered { stamp: answer.value, desk: answer.desk };
    Refusal::of(answer.number, answer.value).map_or(Ok(found), Err)
}

/// A memory for a rack of this size.
fn memory_for(cards: u32, pages: u32) -> Result<Vec<u32>, Refusal> {
    // A memory of any length would be refused; none is allocated.
    if cards as usize > MAX_CARDS || pages as usize > MAX_PAGES {
        return Err(Refusal::Limits);
    }
    Ok(vec![0; memory_words(cards, pages)])
}

// Each call below lends slices that it owns or was lent, with their lengths, a directory of the
// library's layout, and nothing twice if it is written: what the header asks of a caller.
impl Rack {
    /// A newly formatted rack: all prices 0, all cards live.
    pub fn format(cards: u32, pages: u32) -> Result<Rack, Refusal> {
        let mut memory = memory_for(cards, pages)?;
        let mut directory = Directory::EMPTY;
        // SAFETY: see above.
        accepted(unsafe { sys::rack_format(memory.as_mut_ptr(), memory.len(), cards, pages, &mut directory) })?;
        Ok(Rack { memory, directory })
    }

    /// The rack of a memory in the old form, whose numbers have one word, and of its directory. Refused
    /// if cards or pages are outside their limits, if the memory is not of [`old_memory_words`], if
    /// memory and directory do not make a rack, if a recovery is awaited or a release open: the library
    /// that left such a rack recovers it, or closes the release, before it is moved.
    ///
    /// ```
    /// use bandsawpink::{old_memory_words, Directory, Rack, Refusal};
    ///
    /// // as they were stored: a rack of 3 cards and 4 pages, newly formatted
    /// # let stored = Rack::format(3, 4)?.directory().clone().into_words();
    /// let old = vec![0; old_memory_words(3, 4)];
    /// let directory = Directory::from_words(stored);
    ///
    /// let mut rack = Rack::from_old(&old, directory)?;
    /// rack.release(1, 1, &[7; 8], &[0x1000_0001, 0x2002_0001, 250, 0xF000_0003])?;
    /// assert_eq!(rack.fetch(1)?[2], 250);
    /// # Ok::<(), Refusal>(())
    /// ```
    pub fn from_old(old: &[u32], directory: Directory) -> Result<Rack, Refusal> {
        let mut memory = memory_for(directory.cards, directory.pages)?;
        let words = memory.len();
        // SAFETY: see above.
        accepted(unsafe { sys::rack_move_in(old.as_ptr(), old.len(), &directory, memory.as_mut_ptr(), words) })?;
        Ok(Rack { memory, directory })
    }

    /// The memory in the old form, which goes with the same [directory](Rack::directory). Refused if a
    /// recovery is awaited, a release open, or a stamp or done mark on a live card above 4294967295.
    /// After [`from_old`](Rack::from_old) it is the old memory again.
    ///
    /// ```
    /// use bandsawpink::{Rack, Refusal};
    ///
    /// let mut rack = Rack::format(3, 4)?;
    /// rack.open(1, 1, &[7; 8], &[0x1000_0001, 0x2002_0001, 250, 0xF000_0003])?;
    /// assert_eq!(rack.to_old(), Err(Refusal::JoinWhileOpen));
    ///
    /// rack.steps(1, 15)?;
    /// let old = rack.to_old()?;
    /// assert_eq!(Rack::from_old(&old, rack.directory().clone())?, rack);
    /// # Ok::<(), Refusal>(())
    /// ```
    pub fn to_old(&self) -> Result<Vec<u32>, Refusal> {
        let mut old = vec![0; old_memory_words(self.cards(), self.pages())];
        let (memory, words, old_words) = (self.memory.as_ptr(), self.memory.len(), old.len());
        // SAFETY: see above.
        accepted(unsafe { sys::rack_move_back(memory, words, &self.directory, old.as_mut_ptr(), old_words) })
            .map(|_| old)
    }

    /// Which cards are live, where the pages live, and whether a recovery is awaited.
    pub fn directory(&self) -> &Directory {
        &self.directory
    }

    pub fn cards(&self) -> u32 {
        self.directory.cards
    }

    pub fn pages(&self) -> u32 {
        self.directory.pages
    }

    pub fn is_live(&self, card: u32) -> bool {
        card < self.cards() && self.directory.live[card as usize] != 0
    }

    /// The card whose recovery is awaited.
    pub fn awaited(&self) -> Option<u32> {
        (self.directory.awaited != RUNNING).then_some(self.directory.awaited)
    }

    /// The primary and the secondary of a page.
    pub fn homes(&self, page: u32) -> Option<(u32, u32)> {
        let at = page as usize;
        (page < self.pages()).then(|| (self.directory.primary[at], self.directory.secondary[at]))
    }

    /// Opens a release on a card. Its number is the one after the card's last.
    pub fn open(&mut self, card: u32, number: u64, desk: &Desk, list: &[u32]) -> Result<(), Refusal> {
        let words = self.memory.len();
        // SAFETY: see above.
        accepted(unsafe {
            let memory = self.memory.as_mut_ptr();
            sys::rack_open(memory, words, &self.directory, card, number, desk, list.as_ptr(), list.len())
        })
        .map(|_| ())
    }

    /// Makes one step of the release that is open on a card.
    pub fn step(&mut self, card: u32) -> Result<(), Refusal> {
        let words = self.memory.len();
        // SAFETY: see above.
        accepted(unsafe { sys::rack_step(self.memory.as_mut_ptr(), words, &self.directory, card) }).map(|_| ())
    }

    /// Makes so many steps of the release that is open on a card; gives the count. A refusal stops
    /// them: the close is among those made, or the first is refused.
    pub fn steps(&mut self, card: u32, count: u32) -> Result<u32, Stopped> {
        let words = self.memory.len();
        // SAFETY: see above.
        let answer = unsafe { sys::rack_steps(self.memory.as_mut_ptr(), words, &self.directory, card, count) };
        let made = answer.made;
        Refusal::of(answer.number, answer.value).map_or(Ok(made), |refusal| Err(Stopped { made, refusal }))
    }

    /// Opens a release and makes its steps to the close; gives their number.
    pub fn release(&mut self, card: u32, number: u64, desk: &Desk, list: &[u32]) -> Result<u32, Refusal> {
        self.open(card, number, desk, list)?;
        match self.steps(card, u32::MAX) {
            Ok(made) => Ok(made),
            Err(stopped) if stopped.refusal == Refusal::NoneOpen => Ok(stopped.made),
            Err(stopped) => Err(stopped.refusal),
        }
    }

    /// The prices of a page.
    pub fn fetch(&self, page: u32) -> Result<Page, Refusal> {
        let mut prices = [0; PAGE_WORDS];
        let (memory, words) = (self.memory.as_ptr(), self.memory.len());
        // SAFETY: see above.
        accepted(unsafe { sys::rack_fetch(memory, words, &self.directory, page, prices.as_mut_ptr(), PAGE_WORDS) })
            .map(|_| prices)
    }

    /// The prices of every page; none of a page in motion, which a single fetch would refuse.
    pub fn fetch_all(&self) -> Result<Vec<Option<Page>>, Refusal> {
        let mut prices = vec![[0; PAGE_WORDS]; self.pages() as usize];
        let (memory, words) = (self.memory.as_ptr(), self.memory.len());
        let room = prices.as_flattened().len();
        // SAFETY: see above.
        let answer = unsafe {
            let buffer = prices.as_flattened_mut().as_mut_ptr();
            sys::rack_fetch_all(memory, words, &self.directory, buffer, room)
        };
        if let Some(refusal) = Refusal::of(answer.number, answer.value) {
            return Err(refusal);
        }
        let pages = prices.into_iter().zip(answer.shown);
        Ok(pages.map(|(page, shown)| (shown != 0).then_some(page)).collect())
    }

    /// A card fails: it is dead, and its recovery awaited.
    pub fn fail(&mut self, card: u32) -> Result<(), Refusal> {
        let (memory, words) = (self.memory.as_ptr(), self.memory.len());
        // SAFETY: see above.
        accepted(unsafe { sys::rack_fail(memory, words, &mut self.directory, card) }).map(|_| ())
    }

    /// Recovers the card that failed. A page that lost a home gets as secondary the live card, other
    /// than its primary, that is home, as primary or secondary, to the fewest pages at that moment, and
    /// of several the one of lowest number. Pages are taken in rising order, and each choice counts in
    /// the next.
    ///
    /// ```
    /// use bandsawpink::{Rack, Refusal};
    ///
    /// let mut rack = Rack::format(4, 2)?;
    /// assert_eq!([rack.homes(0), rack.homes(1)], [Some((0, 1)), Some((1, 2))]);
    ///
    /// // card 3 is home to no page, card 2 to one
    /// rack.fail(0)?;
    /// rack.recover()?;
    /// assert_eq!([rack.homes(0), rack.homes(1)], [Some((1, 3)), Some((1, 2))]);
    /// # Ok::<(), Refusal>(())
    /// ```
    pub fn recover(&mut self) -> Result<Recovered, Refusal> {
        let words = self.memory.len();
        // SAFETY: see above.
        accepted_desk(unsafe { sys::rack_recover(self.memory.as_mut_ptr(), words, &mut self.directory) })
    }

    /// A dead card joins again.
    pub fn join(&mut self, card: u32) -> Result<(), Refusal> {
        let words = self.memory.len();
        // SAFETY: see above.
        accepted(unsafe { sys::rack_join(self.memory.as_mut_ptr(), words, &mut self.directory, card) }).map(|_| ())
    }

    /// The desk of a card's last release.
    pub fn desk(&self, card: u32) -> Result<Desk, Refusal> {
        let (memory, words) = (self.memory.as_ptr(), self.memory.len());
        // SAFETY: see above.
        accepted_desk(unsafe { sys::rack_desk(memory, words, &self.directory, card) }).map(|found| found.desk)
    }
}

/// The list of changes of the marked words, at their prices on the working pages. There is one word of marks for each
/// page, in which bit w marks word w. Of the twins, the pages as they were fetched, only the number of words counts.
/// Refused with [`Refusal::Limits`] for any wrong length, then with [`Refusal::WrongBuffer`] for a list over 512 words.
///
/// A desk that confirms a price marks its word, and the price travels although it is what it was:
///
/// ```
/// use bandsawpink::{make_list, mark_changes};
///
/// let twins = [199; 4 * 32];
/// let mut working = twins;
/// let mut marks = [0; 4];
/// marks[1] |= 1 << 2; // page 1, word 2: 199, confirmed
/// let list = make_list(&working, &twins, &marks)?;
/// assert_eq!(list, [0x1000_0001, 0x2002_0001, 199, 0xF000_0003]);
///
/// // a desk that keeps no marks has them made of what differs
/// working[35] = 250;
/// assert_eq!(mark_changes(&working, &twins)?, [0, 1 << 3, 0, 0]);
/// # Ok::<(), bandsawpink::Refusal>(())
/// ```
pub fn make_list(working: &[u32], twins: &[u32], marks: &[u32]) -> Result<Vec<u32>, Refusal> {
    let mut list = vec![0; LIST_WORDS];
    let (pages, pages_words) = (working.as_ptr(), working.len());
    let (buffer, room) = (list.as_mut_ptr(), list.len());
    // SAFETY: the slices are lent with their lengths, and the list is not one of them.
    let length = accepted(unsafe {
        sys::rack_make_list(pages, pages_words, twins.as_ptr(), twins.len(), marks.as_ptr(), marks.len(), buffer, room)
    })?;
    list.truncate(length as usize);
    Ok(list)
}

/// The marks of the words of the working pages that differ from their twins, one word for each page: for a desk that
/// keeps no marks. The list made with them turns the twins into the working pages. Refused with [`Refusal::Limits`] for
/// any wrong length.
pub fn mark_changes(working: &[u32], twins: &[u32]) -> Result<Vec<u32>, Refusal> {
    let mut marks = vec![0; working.len() / PAGE_WORDS];
    let (pages, pages_words) = (working.as_ptr(), working.len());
    let (buffer, room) = (marks.as_mut_ptr(), marks.len());
    // SAFETY: as in `make_list`.
    accepted(unsafe { sys::rack_mark_changes(pages, pages_words, twins.as_ptr(), twins.len(), buffer, room) })?;
    Ok(marks)
}

/// Two lists of changes made one, for a desk with poor radio that has several waiting. Its effect on any pages is the
/// first's and then the second's: it names what either names, at the second's price where the second names it. A word
/// that both name at the same price stays named. Runs that touch become one: the merged list is the only allowed one
/// with this effect. Pages go to 63, whatever a rack has; a rack that allows both lists allows the merged one.
///
/// Refused with [`Refusal::FaultyList`] for a fault of the first list, then for one of the second, then with
/// [`Refusal::ListTooLong`] if the merged list would have over 512 words: the first list is released by itself then.
///
/// The list of no change, `[0xF000_0000]`, changes nothing on either side. Nothing says which of the two lists has the
/// fault: to tell, merge the first with the list of no change; that is refused exactly if the first is faulty. Of three
/// lists, the first two may be merged first or the last two: the list is the same, where all the merges are accepted.
///
/// The merged list goes out as one release, under one number: either it shows whole or not at all. Merge lists that
/// were never sent: one that was sent and got no answer may be open, or count already, and under its number the merged
/// list is then refused with [`Refusal::ReleaseOpen`] or [`Refusal::NumberUsed`].
///
/// ```
/// use bandsawpink::{merge_lists, Rack, Refusal};
///
/// let first = [0x1000_0001, 0x2002_0002, 250, 199, 0xF000_0004]; // labels 34 and 35
/// let second = [0x1000_0001, 0x2003_0001, 175, 0x1000_0002, 0x2000_0001, 5, 0xF000_0006]; // labels 35 and 64
/// let merged = merge_lists(&first, &second)?;
/// assert_eq!(merged, [0x1000_0001, 0x2002_0002, 250, 175, 0x1000_0002, 0x2000_0001, 5, 0xF000_0007]);
///
/// let mut rack = Rack::format(3, 4)?;
/// rack.release(1, 1, &[7; 8], &merged)?;
/// assert_eq!(rack.fetch(1)?[2..4], [250, 175]);
/// # Ok::<(), Refusal>(())
/// ```
pub fn merge_lists(first: &[u32], second: &[u32]) -> Result<Vec<u32>, Refusal> {
    let mut list = vec![0; LIST_WORDS];
    let (buffer, room) = (list.as_mut_ptr(), list.len());
    // SAFETY: as in `make_list`.
    let length = accepted(unsafe {
        sys::rack_merge_lists(first.as_ptr(), first.len(), second.as_ptr(), second.len(), buffer, room)
    })?;
    list.truncate(length as usize);
    Ok(list)
}
