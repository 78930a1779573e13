//! With the deliberate error of the feature `wrong`, recovery that goes by the
//! stamp alone, the book must catch it.

#![cfg(feature = "wrong")]

mod common;

use common::list_of;
use common::play::Play;
use second::book::Call;

#[test]
fn random_calls_part_from_the_book() {
    let caught = (0..240).filter(|&seed| {
        let (cards, pages) = (3 + seed as u32 % 6, 1 + seed as u32 / 6 % 5);
        Play::new(seed, cards, pages).run(1_500).is_err_and(|error| error.contains(", book "))
    });
    let caught = caught.count();
    println!("caught in {caught} of 240 plays");
    assert!(caught > 120, "{caught}");
}

/// Release 1 is closed, release 2 in its first phase when its card dies: by the
/// stamp alone, half of release 2 is shown.
#[test]
fn half_a_release_is_caught() {
    let mut play = Play::new(9, 3, 4);
    for (number, steps) in [(1_u32, 19), (2, 2)] {
        let list = list_of(&[(1, 2, 200 + number), (1, 3, 300 + number)]);
        play.call(&Call::Open { card: 1, number: number.into(), desk: [number; 8], list }).unwrap();
        (0..steps).for_each(|_| play.call(&Call::Step { card: 1 }).unwrap());
    }
    play.call(&Call::Fail { card: 1 }).unwrap();
    let error = play.call(&Call::Recover).unwrap_err();
    assert!(error.starts_with("page 1: "), "{error}");
}
