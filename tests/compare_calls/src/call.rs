//! A call of the rack, and what it answers, whoever makes it.

use second::layout::{Desk, Number};
use second::Answer;

/// A call with its arguments. A buffer is given by what stands in it before; that of a move back is an old memory.
#[derive(Clone, Debug)]
pub enum Call {
    Format { cards: u32, pages: u32 },
    Open { card: u32, number: Number, desk: Desk, list: Vec<u32> },
    Step { card: u32 },
    Steps { card: u32, count: u32 },
    Fetch { page: u32, buffer: Vec<u32> },
    FetchAll { buffer: Vec<u32> },
    Fail { card: u32 },
    Recover,
    Join { card: u32 },
    AskDesk { card: u32 },
    MoveIn { old: Vec<u32> },
    MoveBack { buffer: Vec<u32> },
}

impl Call {
    /// The memory is lent to be read.
    pub fn keeps_memory(&self) -> bool {
        matches!(
            self,
            Call::Fetch { .. }
                | Call::FetchAll { .. }
                | Call::Fail { .. }
                | Call::AskDesk { .. }
                | Call::MoveBack { .. }
        )
    }

    /// The directory is lent to be read.
    pub fn keeps_directory(&self) -> bool {
        !matches!(self, Call::Format { .. } | Call::Fail { .. } | Call::Recover | Call::Join { .. })
    }

    /// The directory is written anew: by formatting, and by another call that is accepted.
    pub fn changes_directory(&self, reply: &Reply) -> bool {
        matches!(self, Call::Format { .. }) || !self.keeps_directory() && reply.accepted()
    }
}

/// What a call answers: the answer, and beside it a page, a desk, the steps made, all pages with a mark for each that
/// was shown, an old memory, or nothing.
#[derive(Clone, PartialEq, Eq, Debug)]
pub struct Reply {
    pub answer: Answer,
    pub beside: Vec<u32>,
}

impl Reply {
    pub fn accepted(&self) -> bool {
        matches!(self.answer, Answer::Given(_))
    }

    /// The reply to a call that must be accepted, so that a comparison shows what it is meant to.
    pub fn must_be_accepted(self, call: &Call) -> Result<Reply, String> {
        match self.accepted() {
            true => Ok(self),
            false => Err(format!("{call:?}: {self:?}")),
        }
    }
}
