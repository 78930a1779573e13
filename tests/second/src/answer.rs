//! What a call answers ("What the rack refuses, by who caused it").

/// What an accepted call gives (0 if nothing), or a refusal's number and place.
#[derive(Clone, Copy, PartialEq, Eq, Debug)]
pub enum Answer {
    Given(u64),
    Refused(u32, u64),
}

/// A refusal's number and place.
pub(crate) struct Refusal {
    number: u32,
    place: u64,
}

impl Refusal {
    /// A refusal without a named place: "0 unless named".
    pub fn plain(number: u32) -> Refusal {
        Refusal { number, place: 0 }
    }

    pub fn at(number: u32, place: u64) -> Refusal {
        Refusal { number, place }
    }
}

impl From<Refusal> for Answer {
    fn from(refusal: Refusal) -> Answer {
        Answer::Refused(refusal.number, refusal.place)
    }
}
