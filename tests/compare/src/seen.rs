//! How often each refusal was answered, so that a comparison that never meets one is not taken for
//! more than it is.

use second::refusals::{NONE_AWAITED, OUTSIDE_LIMITS, RECOVERY_AWAITED, UNREADABLE_LINE, UNSOUND_RACK, WRONG_BUFFER};
use std::fmt;

/// What shelfrun cannot answer: its rack is formatted, it recovers in the line in which a card
/// fails, and its buffers have the right length.
const OUT_OF_REACH: [u32; 5] = [OUTSIDE_LIMITS, UNSOUND_RACK, RECOVERY_AWAITED, NONE_AWAITED, WRONG_BUFFER];

/// Lines by number, 0 for accepted ones.
#[derive(Default)]
pub struct Seen([u64; UNREADABLE_LINE as usize + 1]);

impl Seen {
    /// Counts the answers of one output; the first line is the header.
    pub fn read(&mut self, printed: &[u8]) {
        for line in printed.split(|&byte| byte == b'\n').skip(1) {
            let number = line.split(|&byte| byte == b' ').nth(2);
            let number = number.and_then(|field| std::str::from_utf8(field).ok()?.parse::<usize>().ok());
            if let Some(count) = number.and_then(|number| self.0.get_mut(number)) {
                *count += 1;
            }
        }
    }

    /// The numbers that shelfrun can answer, each with how often it did.
    fn counts(&self) -> impl Iterator<Item = (u32, u64)> + '_ {
        (0..).zip(self.0).filter(|(number, _)| !OUT_OF_REACH.contains(number))
    }

    pub fn missing(&self) -> Option<u32> {
        self.counts().find(|&(_, count)| count == 0).map(|(number, _)| number)
    }
}

impl fmt::Display for Seen {
    fn fmt(&self, f: &mut fmt::Formatter) -> fmt::Result {
        let counts: Vec<String> = self.counts().map(|(number, count)| format!("{number}: {count}")).collect();
        f.write_str(&counts.join(", "))
    }
}
