//! Demand 3: random lists of calls, and a card pulled at every step, with the
//! book beside the rack.

#![cfg(not(feature = "wrong"))]

mod common;

use common::play::{Play, Tally};
use common::{list_of, Change};
use second::book::{Book, Call};
use second::refusals::{NO_SUCH_CARD, UNREADABLE_LINE};

fn add(sum: &mut Tally, tally: &Tally) {
    sum.accepted.iter_mut().zip(tally.accepted).for_each(|(sum, count)| *sum += count);
    sum.refused.iter_mut().zip(tally.refused).for_each(|(sum, count)| *sum += count);
    sum.recovered.iter_mut().zip(tally.recovered).for_each(|(sum, count)| *sum += count);
    sum.closed += tally.closed;
}

#[test]
fn random_calls_agree_with_the_book() {
    let mut sum = Tally::default();
    for seed in 0..240 {
        let (cards, pages) = (3 + seed as u32 % 6, 1 + seed as u32 / 6 % 5);
        let mut play = Play::new(seed, cards, pages);
        let outcome = play.run(1_500);
        assert_eq!(outcome, Ok(()), "seed {seed}, {cards} cards, {pages} pages");
        add(&mut sum, &play.tally);
    }
    println!("{sum:?}");
    // The lists reach every call, every refusal but 1, 2 and 18, and every
    // standing of the failed card.
    assert!(sum.accepted.iter().all(|count| *count > 1_000), "{sum:?}");
    assert!((NO_SUCH_CARD..UNREADABLE_LINE).all(|number| sum.refused[number as usize] > 20), "{sum:?}");
    assert!(sum.recovered.iter().all(|count| *count > 300) && sum.closed > 1_000, "{sum:?}");
}

/// Opens a release and makes so many steps, as far as there are any.
fn release(play: &mut Play, card: u32, number: u32, changes: &[Change], steps: u32) {
    let list = list_of(changes);
    play.call(&Call::Open { card, number: number.into(), desk: [number + 10 * card; 8], list }).unwrap();
    for _ in 0..steps {
        play.call(&Call::Step { card }).unwrap();
    }
}

fn pull(play: &mut Play, card: u32) {
    play.call(&Call::Fail { card }).unwrap();
    play.call(&Call::Recover).unwrap();
    for asked in 0..3 {
        play.call(&Call::AskDesk { card: asked }).unwrap();
    }
}

#[test]
fn a_card_pulled_while_two_stand_at_any_steps() {
    let mine = [(0, 2, 11), (1, 7, 12)];
    let theirs = [(1, 8, 13)];
    for cards in [3, 4] {
        for (first, second) in [(0, 1), (1, 0), (0, 2), (2, 0), (1, 2), (2, 1)] {
            for (steps, others, failed) in places(19, 15, cards) {
                let mut play = Play::new(7, cards, 3);
                release(&mut play, first, 1, &[(0, 2, 5)], 15);
                release(&mut play, first, 2, &mine, steps);
                release(&mut play, second, 1, &theirs, others);
                pull(&mut play, failed);
                play.call(&Call::Join { card: failed }).unwrap();
            }
        }
    }
}

/// Every pair of steps and every card.
fn places(first: u32, second: u32, cards: u32) -> impl Iterator<Item = (u32, u32, u32)> {
    (0..=first)
        .flat_map(move |steps| (0..=second).flat_map(move |others| (0..cards).map(move |card| (steps, others, card))))
}

#[test]
fn a_release_of_forty_prices_pulled_after_each_step() {
    let changes: Vec<Change> = (0..40).map(|price| (price / 16, price % 16 * 2, 100 + price)).collect();
    for steps in 0..=171 {
        for failed in 0..3 {
            let mut play = Play::new(8, 3, 4);
            release(&mut play, 1, 1, &changes, steps);
            pull(&mut play, failed);
        }
    }
}

#[test]
fn the_book_by_hand() {
    let mut book = Book::new();
    let open =
        |number: u32| Call::Open { card: 1, number: number.into(), desk: [number; 8], list: list_of(&[(1, 2, 250)]) };
    book.feed(&open(1), false);
    assert!(!book.is_open(1));
    book.feed(&open(1), true);
    assert!(book.is_open(1) && !book.is_open(0) && !book.is_open(8));
    (0..10).for_each(|_| book.feed(&Call::Step { card: 1 }, true));
    assert_eq!((book.page(1)[2], book.last(1)), (0, (0, [0; 8])));
    book.feed(&Call::Step { card: 1 }, false);
    assert_eq!(book.page(1)[2], 0);
    book.feed(&Call::Step { card: 1 }, true);
    assert_eq!((book.page(1)[2], book.last(1)), (250, (1, [1; 8])));
    (0..3).for_each(|_| book.feed(&Call::Step { card: 1 }, true));
    assert!(book.is_open(1));
    book.feed(&Call::Step { card: 1 }, true);
    assert!(!book.is_open(1));
    // Struck out by its card's failure; completed by another card's recovery.
    book.feed(&open(2), true);
    book.feed(&Call::Fail { card: 1 }, true);
    assert_eq!((book.failed(), book.is_open(1), book.last(1).0), (1, false, 1));
    book.feed(&Call::Recover, true);
    book.feed(&Call::Join { card: 1 }, true);
    book.feed(&open(2), true);
    book.feed(&Call::Fail { card: 2 }, true);
    assert_eq!((book.failed(), book.is_open(1), book.last(1).0), (2, true, 1));
    book.feed(&Call::Recover, true);
    assert_eq!((book.is_open(1), book.last(1)), (false, (2, [2; 8])));
    // Counted once: a recovery does not count it again over a later release.
    book.feed(&open(3), true);
    (0..11).for_each(|_| book.feed(&Call::Step { card: 1 }, true));
    let list = list_of(&[(1, 2, 7)]);
    book.feed(&Call::Open { card: 0, number: 1, desk: [9; 8], list }, true);
    (0..15).for_each(|_| book.feed(&Call::Step { card: 0 }, true));
    book.feed(&Call::Recover, true);
    assert_eq!((book.page(1)[2], book.last(1).0, book.last(0)), (7, 3, (1, [9; 8])));
    assert_eq!((book.page(64), book.last(8)), ([0; 32], (0, [0; 8])));
}
