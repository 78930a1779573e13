//! Numbers of releases at the edges of one word and of two.

use random::Random;
use second::layout::Number;
use std::ops::RangeInclusive;

/// The first number that does not fit in one word.
pub const TWO_WORDS: Number = 1 << 32;

/// The numbers around 2^32.
pub const NEAR_ONE_WORD: RangeInclusive<Number> = TWO_WORDS - 3..=TWO_WORDS + 2;

/// The last numbers below 2^64.
pub const NEAR_LAST: RangeInclusive<Number> = Number::MAX - 2..=Number::MAX;

/// A number around 2^32, below 2^64, or small.
pub fn at_edge(random: &mut Random) -> Number {
    let edge = random.of(&[0, TWO_WORDS]);
    edge.wrapping_sub(3).wrapping_add(random.below(6).into())
}

/// A number that is mostly not the one after a stamp, so that it is refused with 5 or 6.
pub fn not_after(random: &mut Random, stamp: Number) -> Number {
    let (next, at_edge) = (stamp.wrapping_add(1), at_edge(random));
    random.of(&[0, 1, stamp, next.wrapping_add(1), next ^ TWO_WORDS, at_edge])
}
