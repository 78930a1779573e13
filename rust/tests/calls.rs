//! Each call through the static library: what is accepted, each refusal with its place, and that a
//! refusal changes nothing.

use bandsawpink::{
    make_list, mark_changes, merge_lists, old_memory_words, Desk, Directory, Page, Rack, Recovered, Refusal, Stopped,
};
use std::collections::BTreeMap;

const DESK: Desk = [1, 2, 3, 4, 5, 6, 7, 8];
const LIST: [u32; 5] = [0x1000_0001, 0x2002_0002, 250, 199, 0xF000_0004];
const LATER: [u32; 7] = [0x1000_0001, 0x2003_0001, 175, 0x1000_0002, 0x2000_0001, 5, 0xF000_0006];
const NO_CHANGE: [u32; 1] = [0xF000_0000];

fn page_1() -> Page {
    let mut page = [0; 32];
    page[2] = 250;
    page[3] = 199;
    page
}

fn rack() -> Rack {
    Rack::format(3, 4).expect("3 cards and 4 pages are within the limits")
}

fn opened(steps: usize) -> Rack {
    let mut rack = rack();
    rack.open(1, 1, &DESK, &LIST).unwrap();
    for _ in 0..steps {
        rack.step(1).unwrap();
    }
    rack
}

/// The refusal of several steps of which none was made.
fn none_made(stopped: Stopped) -> Refusal {
    assert_eq!(stopped.made, 0);
    stopped.refusal
}

fn refused<T>(rack: &mut Rack, call: impl FnOnce(&mut Rack) -> Result<T, Refusal>) -> Refusal {
    let before = rack.clone();
    let refusal = call(rack).err().expect("the call is refused");
    assert!(*rack == before, "a refusal changes nothing");
    refusal
}

#[test]
fn formatting() {
    let rack = rack();
    assert_eq!((rack.cards(), rack.pages(), rack.awaited()), (3, 4, None));
    assert_eq!(rack.homes(2), Some((2, 0)));
    assert_eq!(rack.homes(4), None);
    assert!(rack.is_live(2) && !rack.is_live(3));
    for (cards, pages) in [(2, 4), (9, 4), (3, 0), (3, 65), (0, 0), (u32::MAX, u32::MAX)] {
        assert_eq!(Rack::format(cards, pages), Err(Refusal::Limits));
    }
    assert!(Rack::format(8, 64).is_ok());
}

#[test]
fn a_list_and_its_release() {
    let (twins, mut working) = ([0; 128], [0; 128]);
    working[34] = 250;
    working[35] = 199;
    let marks = [0, 12, 0, 0];
    assert_eq!(mark_changes(&working, &twins).unwrap(), marks);
    assert_eq!(make_list(&working, &twins, &marks).unwrap(), LIST);
    assert_eq!(make_list(&working, &twins, &[0; 4]).unwrap(), [0xF000_0000]);
    assert_eq!(make_list(&twins, &twins, &[0, 4, 0, 0]).unwrap(), [0x1000_0001, 0x2002_0001, 0, 0xF000_0003]);
    for (twins, marks) in [(&twins[..96], &marks[..]), (&twins[..], &marks[..3])] {
        assert_eq!(make_list(&working, twins, marks), Err(Refusal::Limits));
    }
    assert_eq!(mark_changes(&working, &twins[..96]), Err(Refusal::Limits));
    assert_eq!(mark_changes(&working[..33], &twins[..33]), Err(Refusal::Limits));
    assert_eq!(make_list(&working, &twins, &[0, 4, 0, 0]).unwrap(), [0x1000_0001, 0x2002_0001, 250, 0xF000_0003]);
    for (marks, words) in [(u32::MAX, 35), (0x5555_5555, 34)] {
        assert_eq!(make_list(&working, &twins, &[0, marks, 0, 0]).unwrap().len(), words);
    }
    let (pages, whole) = ([7; 512], |pages: usize| [vec![u32::MAX; pages], vec![0; 16 - pages]].concat());
    assert_eq!(make_list(&pages, &pages, &whole(15)).unwrap().len(), 511);
    assert_eq!(make_list(&pages, &pages, &whole(16)), Err(Refusal::WrongBuffer));

    let mut rack = rack();
    assert_eq!(rack.release(1, 1, &DESK, &LIST), Ok(19));
    assert_eq!(rack.fetch(1), Ok(page_1()));
    assert_eq!(rack.desk(1), Ok(DESK));
    assert_eq!(rack.release(1, 2, &DESK, &[0xF000_0000]), Ok(11));
}

/// A desk confirms a price that it has as its twin, while another desk has changed it: the confirmation travels.
#[test]
fn a_price_set_again_to_what_it_was() {
    let mut rack = rack();
    let twins = [rack.fetch(0).unwrap(), rack.fetch(1).unwrap()].concat();
    assert_eq!(rack.release(1, 1, &DESK, &LIST), Ok(19));
    let confirmed = make_list(&twins, &twins, &[0, 1 << 2]).unwrap();
    assert_eq!(rack.release(2, 1, &DESK, &confirmed), Ok(15));
    let page = rack.fetch(1).unwrap();
    assert_eq!((page[2], page[3]), (0, 199));
}

#[test]
fn two_lists_made_one() {
    let merged = |price| [0x1000_0001, 0x2002_0002, 0xFA, price, 0x1000_0002, 0x2000_0001, 5, 0xF000_0007];
    assert_eq!(merge_lists(&LIST, &LATER).unwrap(), merged(0xAF));
    assert_eq!(merge_lists(&LATER, &LIST).unwrap(), merged(0xC7));
    let price = |run, price| [0x1000_0000, run, price, 0xF000_0003];
    let one_run = [0x1000_0000, 0x2000_0002, 1, 2, 0xF000_0004];
    assert_eq!(merge_lists(&price(0x2000_0001, 1), &price(0x2001_0001, 2)).unwrap(), one_run);
    assert_eq!(merge_lists(&price(0x2001_0001, 2), &price(0x2000_0001, 1)).unwrap(), one_run);
    for list in [&LIST[..], &LATER, &merged(0xAF), &NO_CHANGE] {
        assert_eq!(merge_lists(list, &NO_CHANGE).unwrap(), list);
        assert_eq!(merge_lists(&NO_CHANGE, list).unwrap(), list);
        assert_eq!(merge_lists(list, list).unwrap(), list);
    }
}

/// The merged list shows what the two show one after the other; where its card fails, it shows whole or not at all.
#[test]
fn a_merged_list_is_one_release() {
    let mut one_by_one = rack();
    assert_eq!(one_by_one.release(1, 1, &DESK, &LIST), Ok(19));
    assert_eq!(one_by_one.release(1, 2, &DESK, &LATER), Ok(19));
    let merged = merge_lists(&LIST, &LATER).unwrap();
    let mut at_once = rack();
    assert_eq!(at_once.release(1, 1, &DESK, &merged), Ok(23));
    assert_eq!(at_once.fetch_all(), one_by_one.fetch_all());
    for (steps, shown) in [(14, rack()), (15, one_by_one)] {
        let mut rack = rack();
        rack.open(1, 1, &DESK, &merged).unwrap();
        rack.steps(1, steps).unwrap();
        rack.fail(1).unwrap();
        rack.recover().unwrap();
        assert_eq!(rack.fetch_all(), shown.fetch_all());
    }
}

/// Labels and their prices.
type Prices = BTreeMap<usize, u32>;

/// The list of these prices, as the list maker makes it.
fn list_of(prices: &Prices) -> Vec<u32> {
    let (mut working, mut marks) = ([0; 64 * 32], [0; 64]);
    for (&label, &price) in prices {
        working[label] = price;
        marks[label / 32] |= 1 << (label % 32);
    }
    make_list(&working, &working, &marks).unwrap()
}

/// The first prices and then the second.
fn then(first: &Prices, second: &Prices) -> Prices {
    first.iter().chain(second).map(|(&label, &price)| (label, price)).collect()
}

/// All lists of labels 30 to 33, on two pages, of which 31 has the same price in each: two of them, and three of which
/// the first two or the last two are merged first.
#[test]
fn merged_lists_name_what_either_names() {
    let set = |bits: usize, hundreds: u32| -> Prices {
        let labels = (30..34).filter(|label| bits >> (label - 30) & 1 == 1);
        labels.map(|label| (label, if label == 31 { 7 } else { 100 * hundreds + label as u32 })).collect()
    };
    for bits in 0..16 * 16 * 16 {
        let [a, b, c] = [set(bits & 15, 0), set(bits >> 4 & 15, 1), set(bits >> 8, 2)];
        let [first, second, third] = [&a, &b, &c].map(list_of);
        let (first_two, last_two) = (merge_lists(&first, &second).unwrap(), merge_lists(&second, &third).unwrap());
        assert_eq!(first_two, list_of(&then(&a, &b)));
        let all = list_of(&then(&then(&a, &b), &c));
        assert_eq!(merge_lists(&first_two, &third).unwrap(), all);
        assert_eq!(merge_lists(&first, &last_two).unwrap(), all);
    }
}

/// The list of these labels, each at its own number as price.
fn numbered(labels: impl Iterator<Item = usize>) -> Vec<u32> {
    list_of(&labels.map(|label| (label, label as u32)).collect())
}

#[test]
fn a_merged_list_has_at_most_512_words() {
    let (even, odd) = (numbered((0..480).step_by(2)), numbered((1..480).step_by(2)));
    let whole = numbered(0..480);
    assert_eq!((even.len(), odd.len(), whole.len()), (496, 496, 511));
    assert_eq!(merge_lists(&even, &odd), Ok(whole));

    // 14 whole pages, and the first words of pages after them
    let after =
        |pages: usize, words: usize| numbered((0..pages * words).map(|at| 448 + 32 * (at / words) + at % words));
    let (most, fits, too_long) = (numbered(0..448), after(5, 5), after(4, 7));
    assert_eq!((most.len(), fits.len(), too_long.len()), (477, 36, 37));
    let longest = [&most[..476], &fits[..35], &[0xF000_01FF]].concat();
    assert_eq!(merge_lists(&most, &fits).as_ref(), Ok(&longest));
    assert_eq!(merge_lists(&longest, &longest).as_ref(), Ok(&longest));
    assert_eq!(merge_lists(&most, &too_long), Err(Refusal::ListTooLong));

    let over = [&most[..476], &too_long[..36], &[0xF000_0200]].concat();
    let (low, high) = (numbered(0..256), numbered(256..512));
    assert_eq!((over.len(), low.len(), high.len()), (513, 273, 273));
    for (first, second, refusal) in [
        (&low[..], &high[..], Refusal::ListTooLong),
        (&high, &low, Refusal::ListTooLong),
        (&low, &high[..272], Refusal::FaultyList { word: 272 }),
        (&low[..272], &high, Refusal::FaultyList { word: 272 }),
        (&over, &NO_CHANGE, Refusal::FaultyList { word: 512 }),
        (&low, &over, Refusal::FaultyList { word: 512 }),
    ] {
        assert_eq!(merge_lists(first, second), Err(refusal));
    }
}

#[test]
fn refusals_of_a_merge() {
    let page = |page: u32| [0x1000_0000 | page, 0x201F_0001, 5, 0xF000_0003];
    assert_eq!(merge_lists(&page(63), &page(63)).unwrap(), page(63));
    for (first, second, word) in [
        (&[][..], &LIST[..], 0),
        (&LIST, &[], 0),
        (&LIST[..4], &[], 4),
        (&[], &LIST[..4], 0),
        (&LIST, &LATER[..6], 6),
        (&LATER[..6], &LIST[..4], 6),
        (&page(64), &LIST, 0),
        (&LIST, &page(64), 0),
    ] {
        assert_eq!(merge_lists(first, second), Err(Refusal::FaultyList { word }));
        // which of the two it is: the first is faulty exactly if this is refused
        let of_first = Rack::format(3, 64).unwrap().open(1, 1, &DESK, first).err();
        assert_eq!(merge_lists(first, &NO_CHANGE).err(), of_first);
    }
}

#[test]
fn several_steps_are_single_steps() {
    for count in 0..=19 {
        let mut rack = opened(0);
        assert_eq!(rack.steps(1, count), Ok(count));
        assert!(rack == opened(count as usize));
    }
    let mut rack = opened(0);
    let closed = Stopped { made: 19, refusal: Refusal::NoneOpen };
    assert_eq!(rack.steps(1, 20), Err(closed));
    assert!(rack == opened(19));
    assert_eq!(rack.steps(1, 0), Ok(0));
    for (card, refusal) in [(1, Refusal::NoneOpen), (3, Refusal::NoCard)] {
        assert_eq!(refused(&mut rack, |r| r.steps(card, 1).map_err(none_made)), refusal);
    }
    assert_eq!(closed.to_string(), "stopped after 19 steps: no release is open on the card");
    assert_eq!(Refusal::from(closed), Refusal::NoneOpen);
}

#[test]
fn all_pages_are_single_pages() {
    let empty = [0; 32];
    assert_eq!(rack().fetch_all().unwrap(), [Some(empty); 4]);
    let mut rack = opened(13);
    let moving = [Some(empty), None, Some(empty), Some(empty)];
    assert_eq!(rack.fetch_all().unwrap(), moving);
    rack.steps(1, 6).unwrap();
    let shown = [Some(empty), Some(page_1()), Some(empty), Some(empty)];
    assert_eq!(rack.fetch_all().unwrap(), shown);
    rack.fail(1).unwrap();
    assert_eq!(refused(&mut rack, |r| r.fetch_all()), Refusal::RecoveryAwaited);
    assert_eq!(Rack::format(8, 64).unwrap().fetch_all().unwrap().len(), 64);
}

#[test]
fn a_card_fails_between_two_steps() {
    for (steps, shown, found) in
        [(12, [0; 32], Recovered { stamp: 0, desk: [0; 8] }), (13, page_1(), Recovered { stamp: 1, desk: DESK })]
    {
        let mut rack = opened(steps);
        rack.fail(1).unwrap();
        assert_eq!((rack.awaited(), rack.is_live(1)), (Some(1), false));
        assert_eq!(refused(&mut rack, |r| r.fetch(1)), Refusal::RecoveryAwaited);
        assert_eq!(rack.recover(), Ok(found));
        assert_eq!(rack.fetch(1), Ok(shown));
        let homes: Vec<_> = (0..4).map(|page| rack.homes(page).unwrap()).collect();
        assert_eq!(homes, [(0, 2), (2, 0), (2, 0), (0, 2)]);
        assert_eq!(refused(&mut rack, |r| r.fail(0)), Refusal::TwoLive);
        rack.join(1).unwrap();
        assert_eq!(rack.desk(1), Ok(found.desk));
    }
}

/// 8 pages on 5 cards: a lost home goes to the card that is home to the fewest pages, the lowest on a
/// tie, and the page can be fetched there once it is the primary.
#[test]
fn lost_homes_are_shared_evenly() {
    let mut rack = Rack::format(5, 8).unwrap();
    rack.release(2, 1, &DESK, &LIST).unwrap();
    let rows = [
        (1, [(0, 4), (2, 0), (2, 3), (3, 4), (4, 0), (0, 3), (2, 4), (2, 3)]),
        (2, [(0, 4), (0, 3), (3, 0), (3, 4), (4, 0), (0, 3), (4, 0), (3, 4)]),
    ];
    for (card, expected) in rows {
        rack.fail(card).unwrap();
        rack.recover().unwrap();
        let homes: Vec<_> = (0..8).map(|page| rack.homes(page).unwrap()).collect();
        assert_eq!(homes, expected);
        assert_eq!(rack.fetch(1), Ok(page_1()));
    }
}

/// 64 pages on 8 cards, of which five fail one after the other: the three that stay carry 42 or 43 each.
#[test]
fn failures_one_after_the_other_leave_even_counts() {
    let mut rack = Rack::format(8, 64).unwrap();
    for card in 3..8 {
        rack.fail(card).unwrap();
        rack.recover().unwrap();
    }
    let mut counts = [0; 8];
    for (primary, secondary) in (0..64).map(|page| rack.homes(page).unwrap()) {
        counts[primary as usize] += 1;
        counts[secondary as usize] += 1;
    }
    assert_eq!(counts, [42, 43, 43, 0, 0, 0, 0, 0]);
}

/// 2 pages on 4 cards: the home that page 0 lost on card 0 goes to card 3, which is home to none, and not to
/// card 2, the next live card after the primary.
#[test]
fn a_lost_home_goes_to_the_card_that_is_home_to_no_page() {
    let mut rack = Rack::format(4, 2).unwrap();
    rack.fail(0).unwrap();
    rack.recover().unwrap();
    assert_eq!([rack.homes(0), rack.homes(1)], [Some((1, 3)), Some((1, 2))]);
}

#[test]
fn refusals_of_a_desk() {
    let mut rack = rack();
    assert_eq!(refused(&mut rack, |r| r.open(3, 1, &DESK, &LIST)), Refusal::NoCard);
    assert_eq!(refused(&mut rack, |r| r.open(1, 0, &DESK, &LIST)), Refusal::NumberUsed { stamp: 0 });
    assert_eq!(refused(&mut rack, |r| r.open(1, 2, &DESK, &LIST)), Refusal::NumberAhead);
    assert_eq!(refused(&mut rack, |r| r.open(1, 1, &DESK, &[])), Refusal::FaultyList { word: 0 });
    let late = Refusal::FaultyList { word: 4 };
    assert_eq!(refused(&mut rack, |r| r.open(1, 1, &DESK, &LIST[..4])), late);
    assert_eq!(refused(&mut rack, |r| r.step(1)), Refusal::NoneOpen);
    assert_eq!(refused(&mut rack, |r| r.desk(3)), Refusal::NoCard);

    let mut rack = opened(13);
    assert_eq!(refused(&mut rack, |r| r.open(1, 1, &DESK, &LIST)), Refusal::ReleaseOpen);
    assert_eq!(refused(&mut rack, |r| r.open(2, 1, &DESK, &LIST)), Refusal::WordInUse { card: 1 });
    assert_eq!(refused(&mut rack, |r| r.fetch(1)), Refusal::PageInMotion { card: 1 });
    assert_eq!(refused(&mut rack, |r| r.fetch(4)), Refusal::NoPage);
}

#[test]
fn refusals_of_the_rack() {
    let mut rack = Rack::format(4, 4).unwrap();
    assert_eq!(refused(&mut rack, |r| r.recover()), Refusal::NoneAwaited);
    assert_eq!(refused(&mut rack, |r| r.join(1)), Refusal::CardLive);
    assert_eq!(refused(&mut rack, |r| r.join(4)), Refusal::NoCard);
    rack.fail(1).unwrap();
    rack.recover().unwrap();
    rack.open(0, 1, &DESK, &LIST).unwrap();
    assert_eq!(refused(&mut rack, |r| r.join(1)), Refusal::JoinWhileOpen);
}

/// Where the old form of a rack of 4 pages has the area of a card.
fn old_area(card: usize) -> usize {
    card * old_memory_words(1, 4)
}

/// Where the old form has the record of card 1 on card 2, its backup: stamp, done mark, two desks.
fn old_record() -> usize {
    old_area(2) + 20 + 18
}

/// A rack on which card 1 has this last number, made in the old form, whose words can be set.
fn with_last(last: u32) -> Rack {
    let rack = rack();
    let mut old = rack.to_old().unwrap();
    for at in [old_area(1), old_record(), old_record() + 1] {
        old[at] = last;
    }
    Rack::from_old(&old, rack.directory().clone()).unwrap()
}

#[test]
fn a_number_of_two_words() {
    let mut rack = with_last(4_294_967_295);
    let used = |stamp| Refusal::NumberUsed { stamp };
    assert_eq!(refused(&mut rack, |r| r.open(1, 7, &DESK, &LIST)), used(4_294_967_295));
    assert_eq!(refused(&mut rack, |r| r.open(1, 4_294_967_295, &DESK, &LIST)), used(4_294_967_295));
    assert_eq!(refused(&mut rack, |r| r.open(1, 4_294_967_297, &DESK, &LIST)), Refusal::NumberAhead);
    assert_eq!(refused(&mut rack, |r| r.open(1, u64::MAX, &DESK, &LIST)), Refusal::NumberAhead);
    assert_eq!(rack.release(1, 4_294_967_296, &DESK, &LIST), Ok(19));
    assert_eq!(refused(&mut rack, |r| r.open(1, 4_294_967_296, &DESK, &LIST)), used(4_294_967_296));
    assert_eq!(refused(&mut rack, |r| r.to_old()), Refusal::StampTooHigh);
    assert_eq!(rack.release(1, 4_294_967_297, &DESK, &LIST), Ok(19));
}

#[test]
fn a_card_fails_between_numbers_of_one_word_and_two() {
    let rows = [
        (12, Recovered { stamp: 4_294_967_295, desk: [0; 8] }, None),
        (13, Recovered { stamp: 4_294_967_296, desk: DESK }, Some(Refusal::StampTooHigh)),
    ];
    for (steps, found, refusal) in rows {
        let mut rack = with_last(4_294_967_295);
        rack.open(1, 4_294_967_296, &DESK, &LIST).unwrap();
        rack.steps(1, steps).unwrap();
        rack.fail(1).unwrap();
        assert_eq!(rack.recover(), Ok(found));
        assert_eq!(rack.to_old().err(), refusal);
        rack.join(1).unwrap();
        assert_eq!(rack.release(1, found.stamp + 1, &DESK, &LIST), Ok(19));
    }
}

/// The old form of a rack on which card 1 released 250 and 199, with a desk of sevens.
fn old_released() -> Vec<u32> {
    let mut old = vec![0; old_memory_words(3, 4)];
    let (own, record) = (old_area(1), old_record());
    old[own] = 1;
    old[own + 1..own + 9].fill(7);
    old[record..record + 2].fill(1);
    old[record + 10..record + 18].fill(7); // the odd desk
    for copy in [old_area(1), old_area(1) + 32, old_area(2), old_area(2) + 32] {
        let page_1 = copy + 676 + 64;
        old[page_1 + 2..page_1 + 4].copy_from_slice(&[250, 199]);
    }
    old
}

#[test]
fn an_old_memory_moves_in_and_back() {
    let mut rack = rack();
    rack.release(1, 1, &[7; 8], &LIST).unwrap();
    let old = old_released();
    assert_eq!(old.len(), 2796);
    let moved = Rack::from_old(&old, rack.directory().clone()).unwrap();
    assert!(moved == rack);
    assert!(moved.to_old() == Ok(old));
    assert_eq!(moved.fetch(1), Ok(page_1()));
}

#[test]
fn refusals_of_a_move_in() {
    let directory = rack().directory().clone();
    let moved = |words: &[u32], directory: &Directory| Rack::from_old(words, directory.clone()).err();
    let mut old = old_released();
    assert_eq!(moved(&old[1..], &directory), Some(Refusal::Limits));
    old.push(0);
    assert_eq!(moved(&old, &directory), Some(Refusal::Limits));
    old.pop();
    for (cards, pages) in [(2, 4), (9, 4), (3, 0), (3, 65), (u32::MAX, u32::MAX), (4, 4)] {
        let other = Directory { cards, pages, ..directory.clone() };
        assert_eq!(moved(&old, &other), Some(Refusal::Limits));
    }
    let mut failed = rack();
    failed.fail(1).unwrap();
    assert_eq!(moved(&old, failed.directory()), Some(Refusal::RecoveryAwaited));
    let (open, list) = (old_area(0) + 9, old_area(0) + 164);
    (old[open], old[list]) = (1, 0xF000_0000);
    assert_eq!(moved(&old, &directory), Some(Refusal::JoinWhileOpen));
    old[open] = 2;
    assert_eq!(moved(&old, &directory), Some(Refusal::Unfit));
}

#[test]
fn refusals_of_a_move_back() {
    let mut rack = opened(13);
    assert_eq!(refused(&mut rack, |r| r.to_old()), Refusal::JoinWhileOpen);
    rack.fail(1).unwrap();
    assert_eq!(refused(&mut rack, |r| r.to_old()), Refusal::RecoveryAwaited);
    rack.recover().unwrap();
    assert!(rack.to_old().is_ok());
}

#[test]
fn a_refusal_has_a_number_a_place_and_a_sentence() {
    let refusal = Refusal::NumberUsed { stamp: 7 };
    assert_eq!((refusal.number(), refusal.place()), (5, 7));
    assert_eq!(refusal.to_string(), "the release's number is used: the card's last is 7");
    assert_eq!((Refusal::ListTooLong.number(), Refusal::ListTooLong.place()), (19, 0));
    assert_eq!((Refusal::StampTooHigh.number(), Refusal::StampTooHigh.place()), (20, 0));
}
