//! A price desk whose radio was down has three lists waiting. It merges them, the oldest first, and releases them as
//! one, under one number: either all of it shows or nothing. The third list is long, and one list of all three would
//! have over 512 words: the first two go out as one release, and the third after them. Then the sender fetches a page.

use bandsawpink::{make_list, merge_lists, Rack, Refusal};
use std::ops::RangeInclusive;

/// A list that waits: one price for several labels.
fn make(labels: RangeInclusive<usize>, price: u32) -> Result<Vec<u32>, Refusal> {
    let twins = [0; 32 * 32];
    let (mut working, mut marks) = (twins, [0; 32]);
    for label in labels {
        working[label] = price;
        marks[label / 32] |= 1 << (label % 32);
    }
    make_list(&working, &twins, &marks)
}

/// Releases a list through card 1.
fn release(rack: &mut Rack, number: u64, list: &[u32]) -> Result<(), Refusal> {
    let steps = rack.release(1, number, &[7; 8], list)?;
    println!("release {number}: {} words, {steps} steps", list.len());
    Ok(())
}

fn main() -> Result<(), Refusal> {
    let mut rack = Rack::format(3, 32)?;
    let waiting = [make(34..=35, 250)?, make(35..=36, 175)?, make(64..=543, 99)?];

    let (mut merged, mut number) = (vec![0xF000_0000], 1); // at first the list of no change
    for (list, at) in waiting.into_iter().zip(1..) {
        print!("list {at} of {} words: ", list.len());
        match merge_lists(&merged, &list) {
            Ok(both) => {
                println!("merged, {} words", both.len());
                merged = both;
            }
            Err(Refusal::ListTooLong) => {
                // what is merged so far goes out by itself, and this list is the first of the next release
                println!("refused with {}", Refusal::ListTooLong.number());
                release(&mut rack, number, &merged)?;
                number += 1;
                merged = list;
            }
            Err(refusal) => return Err(refusal), // a faulty list
        }
    }
    release(&mut rack, number, &merged)?;

    for (word, price) in rack.fetch(1)?.iter().enumerate() {
        if *price != 0 {
            println!("label {}: {}.{:02}", 32 + word, price / 100, price % 100);
        }
    }
    Ok(())
}
