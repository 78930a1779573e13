//! What is timed: a call, or several, on a rack of any of the three.

use crate::calls::{ByReference, ByValue, Calls, Proved};
use crate::measure::{in_turn, Time};
use crate::racks::{Rack, PRICES};
use std::hint::black_box;

/// The steps of a release of 40 prices.
pub const STEPS: u32 = 4 * PRICES + 11;

pub trait Work: Clone {
    fn run(&mut self, rack: &mut impl Calls);
}

/// The proved library, the second implementation by value, and by reference.
pub fn compare(rack: &Rack, work: &impl Work) -> [Time; 3] {
    let (mut proved, mut by_value, mut by_reference) =
        (Proved(rack.clone()), ByValue(rack.clone()), ByReference(rack.clone()));
    let [mut first, mut second, mut third] = [work.clone(), work.clone(), work.clone()];
    in_turn([&mut || first.run(&mut proved), &mut || second.run(&mut by_value), &mut || third.run(&mut by_reference)])
}

#[derive(Clone)]
pub struct Fetch {
    pub buffer: [u32; 32],
}

impl Work for Fetch {
    fn run(&mut self, rack: &mut impl Calls) {
        rack.fetch(1, black_box(&mut self.buffer));
    }
}

/// The checks of a fetch, and no page copied.
#[derive(Clone)]
pub struct Check {
    pub buffer: [u32; 32],
}

impl Work for Check {
    fn run(&mut self, rack: &mut impl Calls) {
        rack.check(black_box(&mut self.buffer));
    }
}

#[derive(Clone)]
pub struct FetchAll {
    pub buffer: Vec<u32>,
}

impl Work for FetchAll {
    fn run(&mut self, rack: &mut impl Calls) {
        rack.fetch_all(black_box(&mut self.buffer));
    }
}

/// A release opened and left open.
#[derive(Clone)]
pub struct Opening {
    pub list: Vec<u32>,
}

impl Work for Opening {
    fn run(&mut self, rack: &mut impl Calls) {
        rack.rack().reset();
        rack.open(&self.list);
    }
}

/// A whole release: opened, and made to its close in single steps.
#[derive(Clone)]
pub struct SingleSteps {
    pub list: Vec<u32>,
}

impl Work for SingleSteps {
    fn run(&mut self, rack: &mut impl Calls) {
        rack.rack().reset();
        rack.open(&self.list);
        for _ in 0..STEPS {
            rack.step();
        }
    }
}

/// A whole release: opened, and made to its close in one call.
#[derive(Clone)]
pub struct OneCall {
    pub list: Vec<u32>,
}

impl Work for OneCall {
    fn run(&mut self, rack: &mut impl Calls) {
        rack.rack().reset();
        rack.open(&self.list);
        rack.steps(STEPS);
    }
}

#[derive(Clone)]
pub struct Recovery;

impl Work for Recovery {
    fn run(&mut self, rack: &mut impl Calls) {
        rack.fail_and_recover(1);
    }
}

#[derive(Clone)]
pub struct Formatting {
    pub cards: u32,
    pub pages: u32,
}

impl Work for Formatting {
    fn run(&mut self, rack: &mut impl Calls) {
        rack.format(self.cards, self.pages);
    }
}
