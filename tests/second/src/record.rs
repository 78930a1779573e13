//! A card's record as another card's area holds it: stamp, done mark, even desk,
//! odd desk ("Cards, pages, memory").

use crate::layout::{
    desk_at, desk_of_number_at, done_mark_at, number_at, put_desk, put_number, stamp_at, Desk, Number, DESK_WORDS,
    OWN_DESK, OWN_STAMP,
};

/// The part of a record that a reader looks at.
pub struct Record {
    pub stamp: Number,
    pub done_mark: Number,
    /// The desk by evenness of the stamp.
    pub desk: Desk,
}

impl Record {
    /// The record of a card on the area given.
    pub fn read(area: &[u32], card: u32) -> Record {
        let stamp = number_at(area, stamp_at(card));
        let done_mark = number_at(area, done_mark_at(card));
        let desk = desk_at(area, desk_of_number_at(card, stamp));
        Record { stamp, done_mark, desk }
    }

    /// A live card's record, made from its own stamp and desk.
    pub fn of_live(area: &[u32]) -> Record {
        let stamp = number_at(area, OWN_STAMP);
        Record { stamp, done_mark: stamp, desk: desk_at(area, OWN_DESK) }
    }

    /// Writes the record of a card as recovery does: "stamp, done mark equal to
    /// it, desk by evenness, other desk 0".
    pub fn write(&self, area: &mut [u32], card: u32) {
        put_number(area, stamp_at(card), self.stamp);
        put_number(area, done_mark_at(card), self.stamp);
        put_desk(area, desk_of_number_at(card, self.stamp), &self.desk);
        let other = desk_of_number_at(card, self.stamp ^ 1);
        put_desk(area, other, &[0; DESK_WORDS]);
    }
}
