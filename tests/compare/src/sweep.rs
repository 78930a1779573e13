//! Failures at every step: each card fails after each step of one release, and of two.

use crate::Script;

/// A release of one price has 15 steps.
const STEPS: u32 = 15;

/// Every word that the scripts release, and one that they do not.
const FETCHES: &str = "F 0 5\nF 1 2\nF 1 3\nF 2 0\n";

pub fn scripts() -> impl Iterator<Item = Script> {
    one_release().chain(two_releases())
}

/// After a closed release 1, release 2 is stopped after each step.
fn one_release() -> impl Iterator<Item = Script> {
    let each = (0..3).flat_map(|card| (0..3).map(move |failing| (card, failing)));
    each.flat_map(|(card, failing)| (0..=STEPS).map(move |steps| stopped(card, failing, steps)))
}

fn stopped(card: u32, failing: u32, steps: u32) -> Script {
    let name = format!("card {failing} fails after {steps} steps of card {card}");
    let input = format!(
        "B {card} 1 1 2 250\nS {card} {STEPS}\nB {card} 2 1 3 199\nS {card} {steps}\n{FETCHES}\
         X {failing}\n{FETCHES}J {failing}\n{FETCHES}B {card} 2 1 3 7\nB {card} 3 1 3 8\nS {card} 20\n{FETCHES}"
    );
    Script::new(name, input)
}

/// Two releases in motion, and each card failing.
fn two_releases() -> impl Iterator<Item = Script> {
    let steps = (0..=STEPS).flat_map(|one| (0..=STEPS).map(move |other| (one, other)));
    steps.flat_map(|(one, other)| (0..3).map(move |failing| both(failing, one, other)))
}

fn both(failing: u32, one: u32, other: u32) -> Script {
    let name = format!("card {failing} fails after {one} and {other} steps of cards 0 and 1");
    let input = format!(
        "B 0 1 1 2 250\nB 1 1 1 3 199\nS 0 {one}\nS 1 {other}\n{FETCHES}X {failing}\n{FETCHES}\
         J {failing}\nX {}\n{FETCHES}J {}\nB 0 2 0 5 1\nS 0 {STEPS}\n{FETCHES}",
        (failing + 1) % 3,
        (failing + 1) % 3,
    );
    Script::new(name, input)
}
