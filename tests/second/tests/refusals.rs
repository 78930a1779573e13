//! Each refusal, with the number of document 01, its place, and the order of the
//! checks.

mod common;

use common::{list_of, refused, refused_at, Rack, OK};
use second::layout::{memory_words, Number, LIST_WORDS, OPEN};
use second::*;

const NO_DESK: [u32; 8] = [0; 8];

/// The answers of all calls that take a rack, on card and page 0.
fn answers(rack: &Rack) -> [Answer; 7] {
    let mut buffer = [0; 32];
    let list = list_of(&[(0, 1, 5)]);
    [
        rack.clone().open(0, 1, NO_DESK, &list),
        rack.clone().step(0),
        rack.clone().fetch(0, &mut buffer),
        rack.clone().fail(0),
        rack.clone().join(0),
        rack.clone().ask(0).0,
        rack.clone().recover().0,
    ]
}

fn all_refuse(number: u32, change: impl Fn(&mut Rack)) {
    let mut rack = Rack::new(4, 3);
    change(&mut rack);
    assert_eq!(answers(&rack), [refused(number); 7]);
}

#[test]
fn refusal_1() {
    for (cards, pages) in [(2, 4), (9, 4), (3, 0), (3, 65), (u32::MAX, u32::MAX)] {
        assert_eq!(memory_words(cards, pages), None);
        assert_eq!(format_rack(&mut [], cards, pages).1, refused(1));
        all_refuse(1, |rack| {
            (rack.directory.cards, rack.directory.pages) = (cards, pages);
            rack.directory.live = [false; 8];
        });
    }
    all_refuse(1, |rack| rack.memory.truncate(100));
    assert!(memory_words(8, 64).is_some());
}

#[test]
fn refusal_2() {
    all_refuse(2, |rack| rack.directory.live = [false, false, true, false, true, true, true, true]);
    all_refuse(2, |rack| rack.directory.secondary[2] = rack.directory.primary[2]);
    all_refuse(2, |rack| rack.directory.primary[1] = 4);
    all_refuse(2, |rack| rack.directory.secondary[1] = u32::MAX);
    all_refuse(2, |rack| rack.directory.live[2] = false);
    all_refuse(2, |rack| rack.directory.status = Status::Awaiting(1));
    all_refuse(2, |rack| rack.directory.status = Status::Awaiting(4));
    all_refuse(2, |rack| rack.directory.status = Status::Awaiting(u32::MAX));
    all_refuse(2, |rack| rack.set(3, OPEN, 2));
    all_refuse(2, |rack| rack.set(3, OPEN, u32::MAX));
    // An open release with a list of no kind, without an end, on no such page,
    // and with more steps than it has.
    all_refuse(2, |rack| rack.set(3, OPEN, 1));
    let endless: [u32; LIST_WORDS] = std::array::from_fn(|word| 0x1000_0000 + word as u32);
    all_refuse(2, |rack| rack.set_open(3, &endless, 0));
    all_refuse(2, |rack| rack.set_open(3, &list_of(&[(3, 1, 5)]), 0));
    all_refuse(2, |rack| rack.set_open(3, &[0xF000_0000], 11));
    all_refuse(2, |rack| rack.set_open(3, &list_of(&[(0, 1, 5)]), 15));
    // One live card, with its pages' other homes on the awaited one.
    all_refuse(2, |rack| {
        rack.directory.live = [true, false, false, false, true, true, true, true];
        rack.directory.primary = [0; 64];
        rack.directory.secondary = [1; 64];
        rack.directory.status = Status::Awaiting(1);
    });
    // While card 3 is awaited, a home on another dead card.
    all_refuse(2, |rack| {
        rack.directory.live[2] = false;
        rack.directory.live[3] = false;
        rack.directory.status = Status::Awaiting(3);
    });
}

#[test]
fn what_is_not_refused_by_2() {
    let mut rack = Rack::new(4, 3);
    // The last step is still to come; words after the end word do not matter.
    rack.set_open(3, &[0xF000_0000, 0, 1, 2], 10);
    assert_eq!(rack.clone().step(3), OK);
    assert_eq!(rack.ask(0), (OK, NO_DESK));
    // A dead card's area, homes without order, marks and homes past the rack.
    rack.directory.live = [true, true, true, false, true, true, true, true];
    rack.directory.primary = [u32::MAX; 64];
    rack.directory.secondary = [u32::MAX; 64];
    rack.directory.primary[..3].copy_from_slice(&[2, 0, 1]);
    rack.directory.secondary[..3].copy_from_slice(&[0, 2, 0]);
    rack.set(3, OPEN, 77);
    assert_eq!(rack.ask(0), (OK, NO_DESK));
    assert_eq!(rack.page(2), [0; 32]);
}

#[test]
fn refusals_11_and_12() {
    let mut rack = Rack::new(3, 3);
    assert_eq!(rack.recover(), (refused(12), NO_DESK));
    assert_eq!(rack.fail(1), OK);
    let others = answers(&rack);
    assert_eq!(others[..6], [refused(11); 6]);
    // 11 comes before 3, 9 and the rest.
    assert_eq!(rack.clone().open(9, 0, NO_DESK, &[]), refused(11));
    assert_eq!(rack.clone().fetch(9, &mut []), refused(11));
    assert_eq!(rack.clone().join(9), refused(11));
    assert_eq!(rack.clone().ask(9), (refused(11), NO_DESK));
    assert_eq!(others[6], Answer::Given(0));
}

#[test]
fn refusal_3() {
    let mut rack = Rack::new(4, 2);
    assert_eq!(rack.fail(2), OK);
    assert_eq!(rack.recover().0, OK);
    for card in [2, 4, 7, 8, u32::MAX] {
        assert_eq!(rack.open(card, 0, NO_DESK, &[]), refused(3));
        assert_eq!(rack.step(card), refused(3));
        assert_eq!(rack.fail(card), refused(3));
    }
    for card in [4, 7, 8, u32::MAX] {
        assert_eq!(rack.join(card), refused(3));
        assert_eq!(rack.ask(card), (refused(3), NO_DESK));
    }
    assert_eq!(rack.ask(2), (OK, NO_DESK));
    assert_eq!(rack.join(2), OK);
}

#[test]
fn refusals_of_an_opening_in_order() {
    let mut rack = Rack::new(4, 2);
    let list = list_of(&[(0, 3, 5), (1, 4, 6)]);
    assert_eq!(rack.open(2, 1, NO_DESK, &list), OK);
    assert_eq!(rack.open(2, 0, NO_DESK, &[]), refused(4));
    rack.set_stamp(1, 6);
    for number in [0, 1, 5, 6] {
        assert_eq!(rack.open(1, number, NO_DESK, &[]), refused_at(5, 6));
    }
    for number in [8, 9, Number::MAX] {
        assert_eq!(rack.open(1, number, NO_DESK, &[]), refused(6));
    }
    assert_eq!(rack.open(1, 7, NO_DESK, &[]), refused_at(7, 0));
    assert_eq!(rack.open(1, 7, NO_DESK, &list_of(&[(0, 3, 5), (2, 4, 6)])), refused_at(7, 3));
    assert_eq!(rack.open(1, 7, NO_DESK, &list_of(&[(1, 4, 9)])), refused_at(8, 2));
    // A word next to it, the same word of another page, and the same price.
    assert_eq!(rack.clone().open(1, 7, NO_DESK, &list_of(&[(1, 3, 5), (1, 5, 6)])), OK);
    assert_eq!(rack.open(3, 1, NO_DESK, &list_of(&[(0, 4, 5), (1, 3, 6)])), OK);
    assert_eq!(rack.open(1, 7, NO_DESK, &list_of(&[(0, 4, 1)])), refused_at(8, 3));
    assert_eq!(rack.open(1, 7, NO_DESK, &list_of(&[(0, 3, 1), (0, 4, 1)])), refused_at(8, 2));
}

#[test]
fn refusals_of_a_fetch_in_order() {
    let mut rack = Rack::new(4, 2);
    assert_eq!(rack.open(2, 1, NO_DESK, &list_of(&[(1, 3, 5)])), OK);
    assert_eq!(rack.open(3, 1, NO_DESK, &list_of(&[(1, 4, 5)])), OK);
    let mut buffer = [9; 33];
    for page in [2, 63, 64, u32::MAX] {
        assert_eq!(rack.fetch(page, &mut buffer), refused(9));
    }
    assert_eq!(rack.steps(3, 10), (OK, 10));
    assert_eq!(rack.fetch(1, &mut buffer[..32]), OK);
    assert_eq!(rack.step(3), OK);
    assert_eq!(rack.fetch(1, &mut buffer), refused_at(10, 3));
    assert_eq!(rack.steps(2, 11), (OK, 11));
    assert_eq!(rack.fetch(1, &mut buffer), refused_at(10, 2));
    assert_eq!(rack.fetch(0, &mut buffer), refused(17));
    assert_eq!(rack.fetch(0, &mut buffer[..31]), refused(17));
    assert_eq!(rack.fetch(0, &mut buffer[..32]), OK);
    assert_eq!(rack.steps(2, 9), (refused(16), 4));
    assert_eq!(rack.steps(3, 4), (OK, 4));
    assert_eq!(rack.page(1)[3..5], [5, 5]);
}

#[test]
fn refusals_of_failure_and_join() {
    let mut rack = Rack::new(4, 2);
    assert_eq!(rack.join(1), refused(14));
    for card in [0, 1] {
        assert_eq!(rack.fail(card), OK);
        assert_eq!(rack.recover().0, OK);
    }
    assert_eq!(rack.fail(0), refused(3));
    assert_eq!(rack.fail(2), refused(13));
    assert_eq!(rack.open(3, 1, NO_DESK, &[0xF000_0000]), OK);
    assert_eq!(rack.join(2), refused(14));
    assert_eq!(rack.join(1), refused(15));
    assert_eq!(rack.steps(3, 11), (OK, 11));
    assert_eq!(rack.join(1), OK);
    assert_eq!(rack.fail(2), OK);
}

#[test]
fn a_count_of_0_makes_no_call() {
    let mut rack = Rack::new(4, 2);
    assert_eq!(rack.steps(99, 0), (OK, 0));
    assert_eq!(rack.steps(0, 1), (refused(16), 0));
    rack.memory.clear();
    assert_eq!(rack.steps(0, 0), (OK, 0));
    assert_eq!(rack.steps(0, 5), (refused(1), 0));
}

#[test]
fn a_fetch_of_all_pages() {
    let mut rack = Rack::new(4, 2);
    assert_eq!(rack.open(2, 1, NO_DESK, &list_of(&[(1, 3, 5)])), OK);
    assert_eq!(rack.steps(2, 11), (OK, 11));
    for length in [0, 63, 65, 96] {
        let mut buffer = vec![9; length];
        let (directory, answer, shown) = fetch_all(&rack.memory, rack.directory, &mut buffer);
        assert_eq!((directory, answer, shown), (rack.directory, refused(17), [false; 64]));
        assert_eq!(buffer, vec![9; length]);
    }
    let mut buffer = [9; 64];
    let (_, answer, shown) = fetch_all(&rack.memory, rack.directory, &mut buffer);
    assert_eq!(answer, OK);
    assert_eq!(shown[..3], [true, false, false]);
    assert_eq!((&buffer[..32], &buffer[32..]), (&[0; 32][..], &[9; 32][..]));
}
