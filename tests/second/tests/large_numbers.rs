//! Numbers around 2^32 and 2^64 (document 02, "Stamps that outlast the shop").

mod common;

use common::{list_of, refused, refused_at, Rack, OK};
use second::layout::*;
use second::*;

const ONE_WORD: Number = 4_294_967_296;
const NO_DESK: Desk = [0; DESK_WORDS];

/// Words 2 and 3 of page 1 to 250 and 199: two prices, 19 steps, the stamp at step 13.
fn two_prices() -> Vec<u32> {
    list_of(&[(1, 2, 250), (1, 3, 199)])
}

/// A rack of three cards and four pages with a card's last number.
fn rack_with_last(card: u32, last: Number) -> Rack {
    let mut rack = Rack::new(3, 4);
    rack.set_last_number(card, last);
    rack
}

fn words<const COUNT: usize>(rack: &Rack, card: u32, word: usize) -> [u32; COUNT] {
    std::array::from_fn(|up| rack.memory[rack.at(card, word + up)])
}

/// Stamp and done mark of a card's record on another.
fn marks(rack: &Rack, on: u32, of: u32) -> (Number, Number) {
    (rack.number(on, stamp_at(of)), rack.number(on, done_mark_at(of)))
}

#[test]
fn the_words_of_a_release_of_number_4294967296() {
    let mut rack = rack_with_last(1, 4_294_967_295);
    assert_eq!(rack.open(1, 4_294_967_296, [7; 8], &two_prices()), OK);
    assert_eq!(words(&rack, 1, NUMBER), [0, 1]);
    // Steps, then the record on card 2 and the own stamp.
    let rows = [
        (12, [4_294_967_295, 0, 4_294_967_295, 0], [4_294_967_295, 0]),
        (1, [0, 1, 4_294_967_295, 0], [4_294_967_295, 0]),
        (4, [0, 1, 4_294_967_295, 0], [4_294_967_295, 0]),
        (1, [0, 1, 0, 1], [4_294_967_295, 0]),
        (1, [0, 1, 0, 1], [0, 1]),
    ];
    for (steps, record, own) in rows {
        assert_eq!(rack.steps(1, steps), (OK, steps));
        assert_eq!((words(&rack, 2, stamp_at(1)), words(&rack, 1, OWN_STAMP)), (record, own));
    }
    assert_eq!(rack.step(1), refused(16));
    // An even number, so the even desk.
    assert_eq!(words(&rack, 2, record_at(1) + EVEN_DESK), [7; 8]);
    assert_eq!(words(&rack, 2, record_at(1) + ODD_DESK), NO_DESK);
    assert_eq!(words(&rack, 1, OWN_DESK), [7; 8]);
    assert_eq!(words(&rack, 1, NUMBER), [0, 0]);
}

/// The card dies at each step of a release across the edge of a word.
#[test]
#[cfg(not(feature = "wrong"))]
fn pulled_after_each_step() {
    for last in [ONE_WORD - 1, ONE_WORD, Number::MAX - 1] {
        for steps in 0..=19 {
            let mut rack = rack_with_last(1, last);
            assert_eq!(rack.open(1, last + 1, [7; 8], &two_prices()), OK);
            assert_eq!(rack.steps(1, steps), (OK, steps));
            assert_eq!(rack.fail(1), OK);
            let (found, desk) = if steps < 13 { (last, NO_DESK) } else { (last + 1, [7; 8]) };
            assert_eq!(rack.recover(), (Answer::Given(found), desk), "step {steps}");
            assert_eq!(rack.page(1)[2..4], if steps < 13 { [0, 0] } else { [250, 199] });
            assert_eq!((marks(&rack, 0, 1), marks(&rack, 2, 1)), ((found, found), (found, found)));
            assert_eq!(rack.join(1), OK);
            assert_eq!((rack.stamp(1), rack.ask(1)), (found, (OK, desk)));
            assert_eq!(rack.open(1, found, NO_DESK, &two_prices()), refused_at(5, found));
        }
    }
}

/// A card that dies while others' releases cross the edge of a word: they are closed,
/// and the record of the card that it backed goes on the new backup.
#[test]
fn records_of_live_cards_have_both_words() {
    let mut rack = rack_with_last(0, ONE_WORD - 1);
    rack.set_last_number(2, 9 * ONE_WORD);
    assert_eq!(rack.open(0, ONE_WORD, [8; 8], &two_prices()), OK);
    assert_eq!(rack.fail(1), OK);
    assert_eq!(rack.recover(), (Answer::Given(0), NO_DESK));
    assert_eq!((rack.stamp(0), marks(&rack, 2, 0)), (ONE_WORD, (ONE_WORD, ONE_WORD)));
    assert_eq!(words(&rack, 2, record_at(0) + EVEN_DESK), [8; 8]);
    assert_eq!(rack.join(1), OK);
    assert_eq!(marks(&rack, 1, 0), (ONE_WORD, ONE_WORD));
    assert_eq!(rack.fail(2), OK);
    assert_eq!(rack.recover().0, Answer::Given(9 * ONE_WORD));
}

#[test]
fn numbers_at_or_below_the_stamp() {
    let rows = [
        (ONE_WORD - 1, [0, 1, 2, ONE_WORD - 1]),
        (ONE_WORD, [0, 1, ONE_WORD - 1, ONE_WORD]),
        (ONE_WORD + 5, [6, 7, ONE_WORD - 1, ONE_WORD + 4]),
        (3 * ONE_WORD, [1, ONE_WORD + 1, 2 * ONE_WORD + 1, 3 * ONE_WORD - 1]),
        (Number::MAX - 1, [0, ONE_WORD - 1, Number::MAX - ONE_WORD, Number::MAX - 1]),
        (Number::MAX, [0, ONE_WORD - 1, Number::MAX - 1, Number::MAX]),
    ];
    for (stamp, numbers) in rows {
        let mut rack = rack_with_last(1, stamp);
        for number in numbers {
            assert_eq!(rack.open(1, number, NO_DESK, &two_prices()), refused_at(5, stamp), "{number}");
        }
    }
}

#[test]
fn numbers_above_the_next_one() {
    let rows = [
        (0, [2, ONE_WORD, ONE_WORD + 1]),
        (ONE_WORD - 1, [ONE_WORD + 1, 2 * ONE_WORD, Number::MAX]),
        (ONE_WORD, [ONE_WORD + 2, 2 * ONE_WORD + 1, Number::MAX]),
        (Number::MAX - 2, [Number::MAX; 3]),
    ];
    for (stamp, numbers) in rows {
        let mut rack = rack_with_last(1, stamp);
        for number in numbers {
            assert_eq!(rack.open(1, number, NO_DESK, &two_prices()), refused(6), "{number}");
        }
        assert_eq!(rack.open(1, stamp + 1, NO_DESK, &two_prices()), OK);
    }
}

#[test]
fn after_the_last_number_every_number_gives_5() {
    let mut rack = rack_with_last(1, 18_446_744_073_709_551_614);
    assert_eq!(rack.open(1, 18_446_744_073_709_551_615, [7; 8], &two_prices()), OK);
    assert_eq!(rack.steps(1, 19), (OK, 19));
    assert_eq!(marks(&rack, 2, 1), (Number::MAX, Number::MAX));
    assert_eq!(words(&rack, 2, record_at(1) + ODD_DESK), [7; 8]);
    for number in [0, 1, ONE_WORD - 1, ONE_WORD, Number::MAX - 1, Number::MAX] {
        let answer = rack.open(1, number, NO_DESK, &two_prices());
        assert_eq!(answer, refused_at(5, 18_446_744_073_709_551_615));
    }
}

/// Stamp and done mark that differ in one of their words only.
#[test]
#[cfg(not(feature = "wrong"))]
fn either_word_makes_stamp_and_done_mark_differ() {
    let rows = [
        (4, 4, false),
        (ONE_WORD + 4, ONE_WORD + 4, false),
        (ONE_WORD + 4, 4, true),
        (4, ONE_WORD + 4, true),
        (ONE_WORD + 4, ONE_WORD + 3, true),
        (ONE_WORD, 0, true),
        (Number::MAX, ONE_WORD - 1, true),
    ];
    for (stamp, done_mark, under_way) in rows {
        let mut rack = Rack::new(3, 4);
        rack.set_number(2, stamp_at(1), stamp);
        rack.set_number(2, done_mark_at(1), done_mark);
        rack.set(0, tentative_at(0) + 6, 70);
        rack.set(0, committed_at(0) + 6, 71);
        assert_eq!(rack.fail(1), OK);
        assert_eq!(rack.recover().0, Answer::Given(stamp));
        assert_eq!(rack.page(0)[6], if under_way { 70 } else { 71 }, "{stamp} {done_mark}");
    }
}
