//! A release and its 4k + 11 steps ("A release and its 4k + 11 steps").

use crate::directory::Directory;
use crate::layout::{
    area, area_mut, committed_at, desk_at, desk_of_number_at, done_mark_at, low_word, number_at, put_desk, put_number,
    stamp_at, tentative_at, Desk, Form, Number, DESK, DESK_WORDS, FORM, LIST, LIST_WORDS, NUMBER, OPEN, OWN_DESK,
    OWN_STAMP, RELEASE, STEPS,
};
use crate::list::prices;

/// "step 2k + 9; from here the release counts".
pub fn counting_steps(prices: u32) -> u32 {
    2 * prices + 9
}

/// The steps of a whole release: 4k + 11.
pub fn all_steps(prices: u32) -> u32 {
    if cfg!(feature = "wrong_long_release") {
        return (4 * prices + 11).min(700);
    }
    4 * prices + 11
}

/// The words of an area, in a form of the memory, that hold the open release's list.
pub fn list_of<'a>(form: &Form, area: &'a [u32]) -> &'a [u32] {
    if cfg!(feature = "wrong_stored_list") {
        return &area[form.list..];
    }
    &area[form.list..form.list + LIST_WORDS]
}

/// The release open on a card, as the card's own area holds it.
pub struct Release<'a> {
    pub steps: u32,
    pub number: Number,
    pub desk: Desk,
    pub list: &'a [u32],
    /// The number of prices, k.
    pub prices: u32,
}

/// The one store of a step.
enum Store {
    Put { card: u32, at: usize, value: Value },
    Close,
}

/// What a store puts into an area.
enum Value {
    Word(u32),
    Number(Number),
}

impl Value {
    fn put(&self, area: &mut [u32], at: usize) {
        match *self {
            Value::Word(word) => area[at] = word,
            Value::Number(number) => put_number(area, at, number),
        }
    }
}

impl Release<'_> {
    /// The release open on the area's card, or `None`.
    pub fn read(area: &[u32]) -> Option<Release<'_>> {
        let list = list_of(&FORM, area);
        (area[OPEN] == 1).then(|| Release {
            steps: area[STEPS],
            number: number_at(area, NUMBER),
            desk: desk_at(area, DESK),
            list,
            prices: prices(list).count() as u32,
        })
    }

    pub fn counts(&self) -> bool {
        self.steps >= counting_steps(self.prices)
    }

    pub fn prices_page(&self, page: u32) -> bool {
        prices(self.list).any(|price| price.page == page)
    }

    pub fn prices_word(&self, page: u32, word: u32) -> bool {
        prices(self.list).any(|price| price.page == page && price.word == word)
    }

    /// The store of the next step of a card's release, in the order of the six
    /// parts. `None` only for a price past the list's end.
    fn next_store(&self, card: u32, homes: &Directory) -> Option<Store> {
        let backup = homes.backup(card);
        let to_backup = |at, value| Some(Store::Put { card: backup, at, value });
        let stamping = 2 * self.prices + DESK_WORDS as u32;
        let marking = stamping + 1 + 2 * self.prices;
        let step = self.steps;
        if step < 2 * self.prices {
            self.price_store(step, homes, tentative_at)
        } else if step < stamping {
            let word = (step - 2 * self.prices) as usize;
            to_backup(desk_of_number_at(card, self.number) + word, Value::Word(self.desk[word]))
        } else if step == stamping {
            to_backup(stamp_at(card), self.stamp())
        } else if step < marking {
            self.price_store(step - stamping - 1, homes, committed_at)
        } else if step == marking {
            to_backup(done_mark_at(card), Value::Number(self.number))
        } else {
            Some(Store::Close)
        }
    }

    /// What part 3 stores: the number, "both words one store".
    fn stamp(&self) -> Value {
        if cfg!(feature = "wrong_low_word_alone") {
            return Value::Word(low_word(self.number));
        }
        Value::Number(self.number)
    }

    /// A store of parts 1 and 4: "for each price, the word at the secondary,
    /// then at the primary", into the copies that `copy_at` finds.
    fn price_store(&self, nth: u32, homes: &Directory, copy_at: fn(u32) -> usize) -> Option<Store> {
        let price = prices(self.list).nth(nth as usize / 2)?;
        let card = match nth % 2 {
            0 => homes.secondary_of(price.page),
            _ => homes.primary_of(price.page),
        };
        let at = copy_at(price.page) + price.word as usize;
        Some(Store::Put { card, at, value: Value::Word(price.price) })
    }
}

/// Opens a release: "copies list, desk and number to the card's own area and
/// sets steps to 0".
pub fn open(area: &mut [u32], number: Number, desk: &Desk, list: &[u32]) {
    area[OPEN] = 1;
    area[STEPS] = 0;
    put_number(area, NUMBER, number);
    put_desk(area, DESK, desk);
    area[LIST..LIST + list.len()].copy_from_slice(list);
}

/// Makes one step of a card's open release. A store meant for the `lost` card is
/// dropped. Each step "makes one store and, but for the close, adds 1" to the steps.
pub fn step(memory: &mut [u32], homes: &Directory, card: u32, lost: Option<u32>) {
    let own = area(memory, homes.pages, card);
    let store = Release::read(own).and_then(|release| release.next_store(card, homes));
    match store {
        Some(Store::Put { card: to, at, value }) => {
            if lost != Some(to) {
                value.put(area_mut(memory, homes.pages, to), at);
            }
            area_mut(memory, homes.pages, card)[STEPS] += 1;
        }
        Some(Store::Close) => close(area_mut(memory, homes.pages, card)),
        None => {}
    }
}

/// The close: "own stamp and desk are set", and the words of the open release
/// become 0.
fn close(area: &mut [u32]) {
    let (number, desk) = (number_at(area, NUMBER), desk_at(area, DESK));
    match cfg!(feature = "wrong_close_low_word") {
        true => area[OWN_STAMP] = low_word(number),
        false => put_number(area, OWN_STAMP, number),
    }
    put_desk(area, OWN_DESK, &desk);
    RELEASE.into_iter().for_each(|words| area[words].fill(0));
}
