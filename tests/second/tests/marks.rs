//! The list maker with its marks, and the marks of what differs ("A price set again to
//! what it was").

mod common;

use common::{list_of, refused, Change, Rack, OK};
use random::Random;
use second::refusals::{OUTSIDE_LIMITS, WRONG_BUFFER};
use second::*;

const PAGE: usize = 32;
const NO_DESK: [u32; 8] = [0; 8];

/// Four pages of zeros with the labels 34 and 35 at 250 and 199.
fn two_prices() -> [u32; 4 * PAGE] {
    let mut working = [0; 4 * PAGE];
    (working[34], working[35]) = (250, 199);
    working
}

/// The list made in a buffer of more words, all of which past the list must be kept.
fn made(working: &[u32], twins: &[u32], marks: &[u32]) -> Vec<u32> {
    let mut buffer = vec![77; 600];
    let Answer::Given(length) = make_list(working, twins, marks, &mut buffer) else {
        panic!("refused: {marks:x?}");
    };
    let past = buffer.split_off(length as usize);
    assert!(past.iter().all(|word| *word == 77));
    buffer
}

#[test]
fn worked_lists() {
    let (zeros, working) = ([0; 4 * PAGE], two_prices());
    let both = [0x1000_0001, 0x2002_0002, 0x0000_00FA, 0x0000_00C7, 0xF000_0004];
    assert_eq!(made(&working, &zeros, &[0, 12, 0, 0]), both);
    // A price that is what it was, and a new one without a mark.
    assert_eq!(made(&zeros, &zeros, &[0, 4, 0, 0]), [0x1000_0001, 0x2002_0001, 0, 0xF000_0003]);
    assert_eq!(made(&working, &zeros, &[0, 4, 0, 0]), [0x1000_0001, 0x2002_0001, 0x0000_00FA, 0xF000_0003]);
    assert_eq!(made(&working, &zeros, &[0; 4]), [0xF000_0000]);
    assert_eq!(made(&zeros, &zeros, &[0; 4]), [0xF000_0000]);
    // The first and the last word of a page, and two pages that touch.
    assert_eq!(made(&[8; PAGE], &[0; PAGE], &[1]), [0x1000_0000, 0x2000_0001, 8, 0xF000_0003]);
    assert_eq!(made(&[8; PAGE], &[0; PAGE], &[1 << 31]), [0x1000_0000, 0x201F_0001, 8, 0xF000_0003]);
    let touching = [0x1000_0000, 0x201F_0001, 8, 0x1000_0001, 0x2000_0001, 8, 0xF000_0006];
    assert_eq!(made(&[8; 2 * PAGE], &[0; 2 * PAGE], &[1 << 31, 1]), touching);
}

#[test]
fn lengths_of_lists() {
    let page = [5; PAGE];
    assert_eq!(made(&page, &page, &[0xFFFF_FFFF]).len(), 35);
    assert_eq!(made(&page, &page, &[0x5555_5555]).len(), 34);
    assert_eq!(made(&page, &page, &[0xAAAA_AAAA]).len(), 34);
    let pages = [5; 64 * PAGE];
    let mut marks = [0; 64];
    marks[40..55].fill(0xFFFF_FFFF);
    assert_eq!(made(&pages, &pages, &marks).len(), 511);
    marks[55] = 1;
    assert_too_long(&marks);
    marks[54] = 0x7FFF_FFFE;
    assert_eq!(made(&pages, &pages, &marks).len(), 512);
    marks[54] = 0x7FFF_FFFF;
    assert_too_long(&marks);
    marks[54..56].fill(0xFFFF_FFFF);
    assert_too_long(&marks);
    assert_too_long(&[0xFFFF_FFFF; 64]);
}

/// The list of these marks has more than 512 words, however long the buffer.
fn assert_too_long(marks: &[u32]) {
    let pages = vec![5; marks.len() * PAGE];
    let mut buffer = [77; 3_000];
    assert_eq!(make_list(&pages, &pages, marks, &mut buffer), refused(WRONG_BUFFER));
    assert_eq!(buffer, [77; 3_000]);
}

/// Lengths of working pages and of twins, and a number of marks, that get 1.
const WRONG_LENGTHS: [(usize, usize, usize); 16] = [
    // Pages of unequal length.
    (PAGE, 2 * PAGE, 1),
    (2 * PAGE, PAGE, 1),
    (2 * PAGE, PAGE, 2),
    (PAGE, PAGE + 1, 1),
    (PAGE, 0, 1),
    // Not 32 words times 1 to 64.
    (0, 0, 0),
    (0, 0, 1),
    (PAGE - 1, PAGE - 1, 1),
    (PAGE - 1, PAGE - 1, 0),
    (PAGE + 1, PAGE + 1, 1),
    (PAGE + 1, PAGE + 1, 2),
    (65 * PAGE, 65 * PAGE, 65),
    // Not one mark word per page.
    (4 * PAGE, 4 * PAGE, 3),
    (4 * PAGE, 4 * PAGE, 5),
    (PAGE, PAGE, 0),
    (64 * PAGE, 64 * PAGE, 65),
];

#[test]
fn wrong_lengths_come_before_the_buffer() {
    for (working, twins, marks) in WRONG_LENGTHS {
        for (room, mark) in [(0, 0), (0, u32::MAX), (3, u32::MAX), (600, 0), (600, u32::MAX)] {
            let mut buffer = vec![77; room];
            let answer = make_list(&vec![5; working], &vec![5; twins], &vec![mark; marks], &mut buffer);
            assert_eq!(answer, refused(OUTSIDE_LIMITS), "{working} {twins} {marks}");
            assert_eq!(buffer, vec![77; room]);
        }
    }
    assert_eq!(made(&[5; 64 * PAGE], &[5; 64 * PAGE], &[0; 64]), [0xF000_0000]);
}

#[test]
fn short_buffers() {
    let (working, twins, marks) = (two_prices(), [0; 4 * PAGE], [0, 12, 0, 0]);
    for room in 0..5 {
        let mut buffer = vec![77; room];
        assert_eq!(make_list(&working, &twins, &marks, &mut buffer), refused(WRONG_BUFFER));
        assert_eq!(buffer, vec![77; room]);
    }
    let mut buffer = [77; 5];
    assert_eq!(make_list(&working, &twins, &marks, &mut buffer), Answer::Given(5));
    assert_eq!(make_list(&working, &twins, &[0; 4], &mut []), refused(WRONG_BUFFER));
}

/// Random pages and their twins, which differ in about one word in `rarity`.
fn random_pages(random: &mut Random, pages: u32, rarity: u32) -> (Vec<u32>, Vec<u32>) {
    let twins: Vec<u32> = (0..PAGE as u32 * pages).map(|_| random.odd_word()).collect();
    let changed = |twin: &u32| if random.one_in(rarity) { random.odd_word() } else { *twin };
    (twins.iter().map(changed).collect(), twins)
}

/// Random marks of one page, or none.
fn random_marks(random: &mut Random) -> u32 {
    if random.one_in(3) {
        return 0;
    }
    random.marks()
}

fn is_marked(marks: &[u32], label: usize) -> bool {
    marks[label / PAGE] & 1 << (label % PAGE) != 0
}

/// The pages after the changes of a list.
fn laid_on(list: &[u32], pages: &[u32]) -> Vec<u32> {
    let mut pages = pages.to_vec();
    for Price { page, word, price } in prices(list) {
        pages[PAGE * page as usize + word as usize] = price;
    }
    pages
}

/// The list of the marked words, built another way, or `None` if it is too long.
fn expected_list(working: &[u32], marks: &[u32]) -> Option<Vec<u32>> {
    let labels = (0..working.len()).filter(|&label| is_marked(marks, label));
    let change = |label| ((label / PAGE) as u32, (label % PAGE) as u32, working[label]);
    let changes: Vec<Change> = labels.map(change).collect();
    Some(list_of(&changes)).filter(|list| list.len() <= 512)
}

#[test]
fn lists_name_exactly_the_marked_words() {
    let mut random = Random::new(2);
    let (mut too_long, mut unchanged, mut unmarked) = (0, 0, 0);
    for _ in 0..6_000 {
        let pages = random.within(1, 64);
        let rarity = random.within(1, 40);
        let (working, twins) = random_pages(&mut random, pages, rarity);
        let marks: Vec<u32> = (0..pages).map(|_| random_marks(&mut random)).collect();
        let Some(expected) = expected_list(&working, &marks) else {
            too_long += 1;
            assert_too_long(&marks);
            continue;
        };
        let list = made(&working, &twins, &marks);
        assert_eq!(list, expected);

        // Read back: an allowed list, each page with as many prices as its marks have ones.
        let ones: Vec<u32> = marks.iter().map(|marks| marks.count_ones()).collect();
        assert_eq!(check_list(&list, pages), Answer::Given(ones.iter().sum::<u32>().into()));
        let mut counts = vec![0; marks.len()];
        prices(&list).for_each(|price| counts[price.page as usize] += 1);
        assert_eq!(counts, ones);

        // Laid on the twins it sets exactly the marked words.
        for (label, word) in laid_on(&list, &twins).into_iter().enumerate() {
            let marked = is_marked(&marks, label);
            assert_eq!(word, if marked { working[label] } else { twins[label] });
            unchanged += u32::from(marked && working[label] == twins[label]);
            unmarked += u32::from(!marked && working[label] != twins[label]);
        }
    }
    assert!((1_000..5_000).contains(&too_long), "{too_long}");
    assert!(unchanged > 10_000 && unmarked > 10_000, "{unchanged} {unmarked}");
}

#[test]
fn every_run_of_a_page() {
    let (working, twins): (Vec<u32>, _) = ((100..132).collect(), [0; PAGE]);
    for offset in 0..32 {
        for count in 1..=32 - offset {
            let run = u32::MAX >> (32 - count) << offset;
            for marks in [run, !run] {
                let list = made(&working, &twins, &[marks]);
                assert_eq!(Some(list), expected_list(&working, &[marks]), "{marks:x}");
            }
        }
    }
}

#[test]
fn a_confirmed_price_travels() {
    let mut rack = Rack::new(3, 1);
    let release = |rack: &mut Rack, card: u32, number, list: &[u32]| {
        assert_eq!(rack.open(card, number, NO_DESK, list), OK);
        rack.steps(card, u32::MAX);
    };
    let mut twin = [0; PAGE];
    twin[5] = 250;
    release(&mut rack, 1, 1, &made(&twin, &[0; PAGE], &[1 << 5]));
    assert_eq!(rack.page(0), twin);

    // Another desk changes the price; then the first confirms it.
    let mut other = twin;
    other[5] = 300;
    release(&mut rack, 2, 1, &made(&other, &twin, &[1 << 5]));
    assert_eq!(rack.page(0), other);
    release(&mut rack, 1, 2, &made(&twin, &twin, &[1 << 5]));
    assert_eq!(rack.page(0), twin);
}

#[test]
fn marks_of_what_differs() {
    let twins = [0; 4 * PAGE];
    let mut working = two_prices();
    (working[0], working[127]) = (1, u32::MAX);
    let mut marks = [0xA5A5_A5A5; 4];
    assert_eq!(mark_changes(&working, &twins, &mut marks), OK);
    assert_eq!(marks, [1, 12, 0, 0x8000_0000]);
    assert_eq!(mark_changes(&working, &working, &mut marks), OK);
    assert_eq!(marks, [0; 4]);
    assert_eq!(mark_changes(&[1; PAGE], &[0; PAGE], &mut marks[..1]), OK);
    assert_eq!(marks, [u32::MAX, 0, 0, 0]);
}

#[test]
fn wrong_lengths_keep_the_marks() {
    for (working, twins, words) in WRONG_LENGTHS {
        let mut marks = vec![77; words];
        let answer = mark_changes(&vec![5; working], &vec![6; twins], &mut marks);
        assert_eq!(answer, refused(OUTSIDE_LIMITS), "{working} {twins} {words}");
        assert_eq!(marks, vec![77; words]);
    }
}

#[test]
fn marks_of_what_differs_turn_twins_into_working_pages() {
    let mut random = Random::new(3);
    let mut too_long = 0;
    for _ in 0..4_000 {
        let (pages, rarity) = (random.within(1, 64), random.within(1, 40));
        let (working, twins) = random_pages(&mut random, pages, rarity);
        let mut marks = random.words(pages as usize);
        assert_eq!(mark_changes(&working, &twins, &mut marks), OK);
        for (label, word) in working.iter().enumerate() {
            assert_eq!(is_marked(&marks, label), *word != twins[label]);
        }
        match expected_list(&working, &marks) {
            Some(_) => assert_eq!(laid_on(&made(&working, &twins, &marks), &twins), working),
            None => too_long += 1,
        }
    }
    assert!((100..3_900).contains(&too_long), "{too_long}");
}
