use bandsawpink_sys::refusals;
use std::fmt;

/// Why a call was refused. It has changed nothing.
#[derive(Clone, Copy, Debug, PartialEq, Eq, Hash)]
pub enum Refusal {
    /// Cards, pages or lengths outside their limits.
    Limits,
    /// Memory and directory do not make a rack.
    Unfit,
    NoCard,
    ReleaseOpen,
    /// The number is at or below the card's stamp, as that of a release sent twice.
    NumberUsed {
        stamp: u64,
    },
    NumberAhead,
    /// The first word of the list that breaks a rule; of two lists to be merged, in the first if that is faulty.
    FaultyList {
        word: u64,
    },
    /// A label of the list is in the open release of another card, this one the lowest.
    WordInUse {
        card: u64,
    },
    NoPage,
    /// The page is in an open release that already counts, this card's the lowest.
    PageInMotion {
        card: u64,
    },
    RecoveryAwaited,
    NoneAwaited,
    TwoLive,
    CardLive,
    /// A join, or a move to or from the old form, while a release is open.
    JoinWhileOpen,
    /// A step with no release open.
    NoneOpen,
    /// A buffer of the wrong length, or in [`make_list`](crate::make_list) a list over 512 words.
    WrongBuffer,
    /// The merged list would have over 512 words: the first list is released by itself then.
    ListTooLong,
    /// A stamp or a done mark on a live card is above 4294967295, for which the old form has no room.
    StampTooHigh,
}

impl Refusal {
    /// Of a number and a place that a call answered; none if it was accepted.
    pub(crate) fn of(number: u32, place: u64) -> Option<Refusal> {
        Some(match number {
            refusals::ACCEPTED => return None,
            refusals::LIMITS => Refusal::Limits,
            refusals::UNFIT => Refusal::Unfit,
            refusals::NO_CARD => Refusal::NoCard,
            refusals::RELEASE_OPEN => Refusal::ReleaseOpen,
            refusals::NUMBER_USED => Refusal::NumberUsed { stamp: place },
            refusals::NUMBER_AHEAD => Refusal::NumberAhead,
            refusals::FAULTY_LIST => Refusal::FaultyList { word: place },
            refusals::WORD_IN_USE => Refusal::WordInUse { card: place },
            refusals::NO_PAGE => Refusal::NoPage,
            refusals::PAGE_IN_MOTION => Refusal::PageInMotion { card: place },
            refusals::RECOVERY_AWAITED => Refusal::RecoveryAwaited,
            refusals::NONE_AWAITED => Refusal::NoneAwaited,
            refusals::TWO_LIVE => Refusal::TwoLive,
            refusals::CARD_LIVE => Refusal::CardLive,
            refusals::JOIN_WHILE_OPEN => Refusal::JoinWhileOpen,
            refusals::NONE_OPEN => Refusal::NoneOpen,
            refusals::WRONG_BUFFER => Refusal::WrongBuffer,
            refusals::LIST_TOO_LONG => Refusal::ListTooLong,
            refusals::STAMP_TOO_HIGH => Refusal::StampTooHigh,
            _ => unreachable!("no call answers the number {number}"),
        })
    }

    /// The number that the rack's specification gives it.
    pub fn number(self) -> u32 {
        match self {
            Refusal::Limits => refusals::LIMITS,
            Refusal::Unfit => refusals::UNFIT,
            Refusal::NoCard => refusals::NO_CARD,
            Refusal::ReleaseOpen => refusals::RELEASE_OPEN,
            Refusal::NumberUsed { .. } => refusals::NUMBER_USED,
            Refusal::NumberAhead => refusals::NUMBER_AHEAD,
            Refusal::FaultyList { .. } => refusals::FAULTY_LIST,
            Refusal::WordInUse { .. } => refusals::WORD_IN_USE,
            Refusal::NoPage => refusals::NO_PAGE,
            Refusal::PageInMotion { .. } => refusals::PAGE_IN_MOTION,
            Refusal::RecoveryAwaited => refusals::RECOVERY_AWAITED,
            Refusal::NoneAwaited => refusals::NONE_AWAITED,
            Refusal::TwoLive => refusals::TWO_LIVE,
            Refusal::CardLive => refusals::CARD_LIVE,
            Refusal::JoinWhileOpen => refusals::JOIN_WHILE_OPEN,
            Refusal::NoneOpen => refusals::NONE_OPEN,
            Refusal::WrongBuffer => refusals::WRONG_BUFFER,
            Refusal::ListTooLong => refusals::LIST_TOO_LONG,
            Refusal::StampTooHigh => refusals::STAMP_TOO_HIGH,
        }
    }

    /// 0 for a refusal that names no place.
    pub fn place(self) -> u64 {
        match self {
            Refusal::NumberUsed { stamp } => stamp,
            Refusal::FaultyList { word } => word,
            Refusal::WordInUse { card } | Refusal::PageInMotion { card } => card,
            _ => 0,
        }
    }
}

impl fmt::Display for Refusal {
    fn fmt(&self, f: &mut fmt::Formatter<'_>) -> fmt::Result {
        match self {
            Refusal::Limits => write!(f, "cards, pages or lengths are outside their limits"),
            Refusal::Unfit => write!(f, "memory and directory do not make a rack"),
            Refusal::NoCard => write!(f, "there is no such card, or it is dead"),
            Refusal::ReleaseOpen => write!(f, "a release is open on the card"),
            Refusal::NumberUsed { stamp } => {
                write!(f, "the release's number is used: the card's last is {stamp}")
            }
            Refusal::NumberAhead => write!(f, "the release's number is not the card's next"),
            Refusal::FaultyList { word } => {
                write!(f, "the list of changes is faulty at word {word}")
            }
            Refusal::WordInUse { card } => {
                write!(f, "a label of the list is in the open release of card {card}")
            }
            Refusal::NoPage => write!(f, "there is no such page"),
            Refusal::PageInMotion { card } => {
                write!(f, "the page is in motion: the release of card {card} is being committed")
            }
            Refusal::RecoveryAwaited => write!(f, "a card has failed and awaits recovery"),
            Refusal::NoneAwaited => write!(f, "no recovery is awaited"),
            Refusal::TwoLive => write!(f, "only two cards are live: none may fail"),
            Refusal::CardLive => write!(f, "the card is live already"),
            Refusal::JoinWhileOpen => {
                write!(f, "no card joins, and no memory is moved, while a release is open")
            }
            Refusal::NoneOpen => write!(f, "no release is open on the card"),
            Refusal::WrongBuffer => {
                write!(f, "the buffer does not fit, or the list is over 512 words")
            }
            Refusal::ListTooLong => write!(f, "the merged list would have over 512 words"),
            Refusal::StampTooHigh => {
                write!(f, "a stamp or done mark is above 4294967295: the old form has no room for it")
            }
        }
    }
}

impl std::error::Error for Refusal {}

/// A refusal that stopped several steps. Those made before it stand.
#[derive(Clone, Copy, Debug, PartialEq, Eq, Hash)]
pub struct Stopped {
    pub made: u32,
    pub refusal: Refusal,
}

impl From<Stopped> for Refusal {
    fn from(stopped: Stopped) -> Refusal {
        stopped.refusal
    }
}

impl fmt::Display for Stopped {
    fn fmt(&self, f: &mut fmt::Formatter<'_>) -> fmt::Result {
        write!(f, "stopped after {} steps: {}", self.made, self.refusal)
    }
}

impl std::error::Error for Stopped {}

#[cfg(test)]
mod tests {
    use super::Refusal;
    use std::collections::HashSet;

    #[test]
    fn each_has_its_number_its_place_and_a_sentence_of_its_own() {
        assert_eq!(Refusal::of(0, 41), None);
        let mut sentences = HashSet::new();
        for number in (1..=17).chain([19, 20]) {
            let refusal = Refusal::of(number, 41).expect("any number but 0 is a refusal");
            let names_a_place = matches!(number, 5 | 7 | 8 | 10);
            assert_eq!(refusal.number(), number);
            assert_eq!(refusal.place(), if names_a_place { 41 } else { 0 });
            let sentence = refusal.to_string();
            assert_eq!(sentence.contains("41"), names_a_place, "{sentence}");
            assert!(!sentence.is_empty() && sentences.insert(sentence));
        }
    }
}
