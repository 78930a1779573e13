//! How often each refusal was answered, so that a comparison that never meets one is not taken for more than it is.

use crate::call::{Call, Reply};
use crate::numbers::{NEAR_LAST, NEAR_ONE_WORD};
use bandsawpink_sys::refusals::*;
use second::layout::Number;
use second::Answer;
use std::fmt;
use std::ops::RangeInclusive;

/// How often calls of one kind were answered with each number, 0 for those accepted. The number 18 is shelfrun's alone,
/// 19 is that of merges.
struct Tally {
    name: &'static str,
    /// The numbers that must be among the answers.
    needed: Vec<u32>,
    answers: [u64; STAMP_TOO_HIGH as usize + 1],
}

impl Tally {
    fn new(name: &'static str, needed: impl IntoIterator<Item = u32>) -> Self {
        Self { name, needed: needed.into_iter().collect(), answers: Default::default() }
    }

    fn count(&mut self, reply: &Reply) {
        let number = match reply.answer {
            Answer::Given(_) => ACCEPTED,
            Answer::Refused(number, _) => number,
        };
        self.answers[number as usize] += 1;
    }

    /// A number that must be among the answers, and is not.
    fn missing(&self) -> Option<u32> {
        self.needed.iter().copied().find(|&number| self.answers[number as usize] == 0)
    }
}

/// Calls of racks of one kind.
struct Kind {
    holds: fn(&Call) -> bool,
    tally: Tally,
}

impl Kind {
    fn new(name: &'static str, needed: impl IntoIterator<Item = u32>, holds: fn(&Call) -> bool) -> Self {
        Self { holds, tally: Tally::new(name, needed) }
    }
}

/// Whether a call opens a release whose number is among these.
fn opens(call: &Call, numbers: RangeInclusive<Number>) -> bool {
    matches!(call, Call::Open { number, .. } if numbers.contains(number))
}

pub struct Seen {
    of_racks: Vec<Kind>,
    merges: Tally,
}

impl Seen {
    pub fn new() -> Self {
        let of_opening = [ACCEPTED, NUMBER_USED, NUMBER_AHEAD];
        let of_move_in = [ACCEPTED, LIMITS, UNFIT, RECOVERY_AWAITED, JOIN_WHILE_OPEN];
        let of_move_back = of_move_in.into_iter().chain([STAMP_TOO_HIGH]);
        let of_racks = vec![
            Kind::new("calls", LIMITS..=WRONG_BUFFER, |call| {
                !matches!(call, Call::MoveIn { .. } | Call::MoveBack { .. })
            }),
            Kind::new("recoveries", [ACCEPTED, LIMITS, UNFIT, NONE_AWAITED], |call| matches!(call, Call::Recover)),
            Kind::new("moves in", of_move_in, |call| matches!(call, Call::MoveIn { .. })),
            Kind::new("moves back", of_move_back, |call| matches!(call, Call::MoveBack { .. })),
            Kind::new("openings near 2^32", of_opening, |call| opens(call, NEAR_ONE_WORD)),
            Kind::new("openings near 2^64", of_opening, |call| opens(call, NEAR_LAST)),
        ];
        let merges = Tally::new("merges", [ACCEPTED, FAULTY_LIST, WRONG_BUFFER, LIST_TOO_LONG]);
        Self { of_racks, merges }
    }

    pub fn count(&mut self, call: &Call, reply: &Reply) {
        for kind in self.of_racks.iter_mut().filter(|kind| (kind.holds)(call)) {
            kind.tally.count(reply);
        }
    }

    pub fn count_merge(&mut self, reply: &Reply) {
        self.merges.count(reply);
    }

    fn tallies(&self) -> impl Iterator<Item = &Tally> {
        self.of_racks.iter().map(|kind| &kind.tally).chain([&self.merges])
    }

    /// A kind of calls, and a number that none of them was answered with, but must be.
    pub fn missing(&self) -> Option<(&str, u32)> {
        self.tallies().find_map(|tally| tally.missing().map(|number| (tally.name, number)))
    }
}

impl fmt::Display for Seen {
    fn fmt(&self, f: &mut fmt::Formatter) -> fmt::Result {
        write!(f, "answers by number (0: accepted)")?;
        self.tallies().try_for_each(|tally| write!(f, "; {} {:?}", tally.name, tally.answers))
    }
}
