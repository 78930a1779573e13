//! The numbers of document 01's section "Numbers to hold it against", two of them as
//! document 02 changed them: the words of a memory and the last stamp. "Document 01's
//! worked lists mark the words that differ."

mod common;

use common::{refused, refused_at, Rack, OK};
use second::layout::{memory_words, stamp_at, Number};
use second::*;

const TWO_PRICES: [u32; 5] = [0x1000_0001, 0x2002_0002, 0x0000_00FA, 0x0000_00C7, 0xF000_0004];
const NO_DESK: [u32; 8] = [0; 8];

#[test]
fn three_cards_and_four_pages_take_2850_words() {
    assert_eq!(memory_words(3, 4), Some(2850));
    assert_eq!(format_rack(&mut [1; 2850], 3, 4).1, OK);
    for length in [2849, 2851] {
        let mut memory = vec![1; length];
        let (directory, answer) = format_rack(&mut memory, 3, 4);
        assert_eq!(answer, refused(1));
        assert_eq!(memory, vec![1; length]);
        let empty = Directory {
            cards: 0,
            pages: 0,
            live: [false; 8],
            primary: [0; 64],
            secondary: [0; 64],
            status: Status::Running,
        };
        assert_eq!(directory, empty);
    }
}

#[test]
fn other_lengths_are_refused_by_every_call() {
    for length in [2849, 2851] {
        let mut rack = Rack::new(3, 4);
        rack.memory.resize(length, 0);
        assert_eq!(rack.open(0, 1, NO_DESK, &TWO_PRICES), refused(1));
        assert_eq!(rack.step(0), refused(1));
        assert_eq!(rack.fetch(0, &mut [0; 32]), refused(1));
        assert_eq!(rack.fail(0), refused(1));
        assert_eq!(rack.recover(), (refused(1), NO_DESK));
        assert_eq!(rack.join(0), refused(1));
        assert_eq!(rack.ask(0), (refused(1), NO_DESK));
    }
}

#[test]
fn the_list_of_250_and_199() {
    let twins = [0; 128];
    let mut working = twins;
    working[32 + 2] = 250;
    working[32 + 3] = 199;
    let (mut marks, mut buffer) = ([9; 4], [9; 6]);
    assert_eq!(mark_changes(&working, &twins, &mut marks), OK);
    assert_eq!(marks, [0, 12, 0, 0]);
    assert_eq!(make_list(&working, &twins, &marks, &mut buffer), Answer::Given(5));
    assert_eq!(buffer[..5], TWO_PRICES);
    assert_eq!(buffer[5], 9);
    assert_eq!(check_list(&TWO_PRICES, 4), Answer::Given(2));
}

/// Steps a newly opened release of a list on card 1 takes, and the step at
/// which its stamp arrives at the backup.
fn steps_and_stamping(list: &[u32]) -> (u32, u32) {
    let mut rack = Rack::new(3, 4);
    assert_eq!(rack.open(1, 1, NO_DESK, list), OK);
    let (mut steps, mut stamping) = (0, 0);
    while rack.step(1) == OK {
        steps += 1;
        if stamping == 0 && rack.number(2, stamp_at(1)) == 1 {
            stamping = steps;
        }
    }
    (steps, stamping)
}

#[test]
fn two_prices_take_19_steps_and_stamp_at_13() {
    assert_eq!(steps_and_stamping(&TWO_PRICES), (19, 13));
}

#[test]
fn no_change_takes_11_steps_and_stamps_at_9() {
    let (mut marks, mut buffer) = ([9; 2], [9; 2]);
    assert_eq!(mark_changes(&[4; 64], &[4; 64], &mut marks), OK);
    assert_eq!(make_list(&[4; 64], &[4; 64], &marks, &mut buffer), Answer::Given(1));
    assert_eq!(buffer, [0xF000_0000, 9]);
    assert_eq!(steps_and_stamping(&[0xF000_0000]), (11, 9));
}

/// The rack of the list with 250 and 199, opened by card 1, which dies after so
/// many steps; and what recovery answers.
fn dead_after(steps: u32) -> (Rack, Answer, [u32; 8]) {
    let mut rack = Rack::new(3, 4);
    assert_eq!(rack.open(1, 1, [8; 8], &TWO_PRICES), OK);
    assert_eq!(rack.steps(1, steps), (OK, steps));
    assert_eq!(rack.fail(1), OK);
    let (answer, desk) = rack.recover();
    (rack, answer, desk)
}

#[test]
fn death_after_12_steps_leaves_page_1_zero() {
    let (mut rack, answer, desk) = dead_after(12);
    assert_eq!((answer, desk), (Answer::Given(0), NO_DESK));
    assert_eq!(rack.page(1), [0; 32]);
}

#[test]
fn death_after_13_steps_leaves_250_and_199() {
    let (mut rack, answer, desk) = dead_after(13);
    assert_eq!((answer, desk), (Answer::Given(1), [8; 8]));
    let mut page = [0; 32];
    page[2] = 250;
    page[3] = 199;
    assert_eq!(rack.page(1), page);
    assert_eq!(rack.directory.primary[..4], [0, 2, 2, 0]);
    assert_eq!(rack.directory.secondary[..4], [2, 0, 0, 2]);
}

#[test]
fn a_run_ends_with_its_page() {
    assert_eq!(check_list(&[0x1000_0001, 0x201F_0001, 5, 0xF000_0003], 4), Answer::Given(1));
    assert_eq!(check_list(&[0x1000_0001, 0x201F_0002, 5, 6, 0xF000_0004], 4), refused_at(7, 1));
    assert_eq!(check_list(&[], 4), refused_at(7, 0));
}

#[test]
fn every_number_is_too_low_at_the_last_stamp() {
    let mut rack = Rack::new(3, 4);
    rack.set_stamp(1, Number::MAX);
    for number in [0, 1, 2, 1 << 31, 1 << 32, 1 << 63, Number::MAX - 1, Number::MAX] {
        let answer = rack.open(1, number, NO_DESK, &TWO_PRICES);
        assert_eq!(answer, refused_at(5, 18_446_744_073_709_551_615));
    }
}

#[test]
fn number_0_is_too_low_at_each_stamp() {
    let mut rack = Rack::new(3, 4);
    for stamp in [0, 1, 2, 1 << 31, 1 << 32, 1 << 63, Number::MAX - 1, Number::MAX] {
        rack.set_stamp(1, stamp);
        assert_eq!(rack.open(1, 0, NO_DESK, &TWO_PRICES), refused_at(5, stamp));
    }
}

#[test]
fn a_second_failure_with_two_live() {
    let (mut rack, _, _) = dead_after(13);
    assert_eq!(rack.fail(0), refused(13));
    assert_eq!(rack.fail(2), refused(13));
}

#[test]
fn forty_prices_take_171_steps() {
    let mut list = vec![0x1000_0000, 0x2000_0020];
    list.extend(0..32);
    list.extend([0x1000_0002, 0x2004_0008]);
    list.extend(0..8);
    list.push(0xF000_0000 + list.len() as u32);
    assert_eq!(steps_and_stamping(&list), (171, 89));
}
