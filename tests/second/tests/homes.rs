//! Where lost homes go ("New homes shared evenly"): worked numbers, and any homes that
//! a recovery may meet, beside the rule written another way.

mod common;

use common::{list_of, Change, Rack, OK};
use random::Random;
use second::layout::{area, tentative_at, PAGE_WORDS};
use second::{Directory, Status};

/// Primary and secondary of each page.
type Homes = Vec<(u32, u32)>;

fn homes_of(directory: &Directory) -> Homes {
    let homes = directory.primary.into_iter().zip(directory.secondary);
    homes.take(directory.pages as usize).collect()
}

/// How many pages a card is home to.
fn pages_of(card: u32, homes: &Homes) -> usize {
    homes.iter().filter(|(primary, secondary)| [*primary, *secondary].contains(&card)).count()
}

/// How many pages each of the first cards is home to.
fn pages_of_each<const CARDS: usize>(rack: &Rack) -> [usize; CARDS] {
    let homes = homes_of(&rack.directory);
    std::array::from_fn(|card| pages_of(card as u32, &homes))
}

fn lose(rack: &mut Rack, card: u32) {
    assert_eq!(rack.fail(card), OK);
    assert_eq!(rack.recover(), (OK, [0; 8]));
}

/// A newly formatted rack that has lost these cards, one after the other.
fn rack_without(lost: &[u32], cards: u32, pages: u32) -> Rack {
    let mut rack = Rack::new(cards, pages);
    lost.iter().for_each(|&card| lose(&mut rack, card));
    rack
}

#[test]
fn four_cards_and_two_pages() {
    let rack = rack_without(&[0], 4, 2);
    assert_eq!(homes_of(&rack.directory), [(1, 3), (1, 2)]);
}

#[test]
fn five_cards_and_eight_pages() {
    let rack = rack_without(&[1], 5, 8);
    let homes = [(0, 4), (2, 0), (2, 3), (3, 4), (4, 0), (0, 3), (2, 4), (2, 3)];
    assert_eq!(homes_of(&rack.directory), homes);
    assert_eq!(pages_of_each(&rack), [4, 0, 4, 4, 4]);
}

#[test]
fn eight_cards_and_64_pages_down_to_three_cards() {
    let mut rack = Rack::new(8, 64);
    let pages = [
        [19, 19, 18, 0, 18, 18, 18, 18],
        [22, 22, 21, 0, 0, 21, 21, 21],
        [26, 26, 26, 0, 0, 0, 25, 25],
        [33, 32, 32, 0, 0, 0, 0, 31],
        [42, 43, 43, 0, 0, 0, 0, 0],
    ];
    for (card, pages) in (3..8).zip(pages) {
        lose(&mut rack, card);
        assert_eq!(pages_of_each(&rack), pages, "without card {card}");
    }
}

/// A card that joins is home to no page, so that it is the first to get a lost home.
#[test]
fn lost_homes_go_to_a_card_that_joined() {
    let mut rack = rack_without(&[1], 4, 4);
    assert_eq!(homes_of(&rack.directory), [(0, 2), (2, 0), (2, 3), (3, 0)]);
    assert_eq!(rack.join(1), OK);
    lose(&mut rack, 0);
    assert_eq!(homes_of(&rack.directory), [(2, 1), (2, 1), (2, 3), (3, 1)]);
}

/// Each page is shown as before by whichever home is left, down to two cards.
#[test]
fn new_homes_have_both_copies() {
    let mut rack = Rack::new(8, 64);
    let changes: Vec<Change> = (0..64).map(|page| (page, page % 32, 100 + page)).collect();
    assert_eq!(rack.open(7, 1, [0; 8], &list_of(&changes)), OK);
    assert_eq!(rack.steps(7, 267), (OK, 267));
    for card in [2, 5, 0, 6, 4, 1] {
        lose(&mut rack, card);
        for (page, word, price) in &changes {
            let mut prices = [0; PAGE_WORDS];
            prices[*word as usize] = *price;
            assert_eq!(rack.page(*page), prices);
            let (primary, secondary) = homes_of(&rack.directory)[*page as usize];
            for home in [primary, secondary] {
                let copies = &area(&rack.memory, 64, home)[tentative_at(*page)..][..2 * PAGE_WORDS];
                assert_eq!(copies, [prices, prices].as_flattened(), "page {page} on card {home}");
            }
        }
    }
}

/// A rack of any size that awaits a card, with any homes that it may have: often on few
/// of its cards.
fn rack_of_any_homes(random: &mut Random) -> Rack {
    let (cards, most_pages) = (random.within(3, 8), random.of(&[4, 64]));
    let mut rack = Rack::new(cards, random.within(1, most_pages));
    let failed = random.below(cards);
    assert_eq!(rack.fail(failed), OK);
    let mut able: Vec<u32> = (0..cards).collect();
    for card in (0..cards).filter(|&card| card != failed) {
        if able.len() > 3 && random.one_in(3) {
            rack.directory.live[card as usize] = false;
            able.retain(|&other| other != card);
        }
    }
    while able.len() > 2 && random.one_in(3) {
        able.remove(random.below(able.len() as u32) as usize);
    }
    put_homes(&mut rack.directory, &able, random);
    rack
}

/// Gives each page two of these cards as homes.
fn put_homes(directory: &mut Directory, cards: &[u32], random: &mut Random) {
    for page in 0..directory.pages as usize {
        let primary = random.of(cards);
        let others: Vec<u32> = cards.iter().copied().filter(|&card| card != primary).collect();
        directory.primary[page] = primary;
        directory.secondary[page] = random.of(&others);
    }
}

/// The homes after a recovery: all pages are counted anew for each that lost a home, and
/// the cards are sorted by their pages, the lower first on a tie.
fn homes_after(directory: &Directory, failed: u32) -> Homes {
    let mut homes = homes_of(directory);
    for page in 0..homes.len() {
        let (primary, secondary) = homes[page];
        if primary != failed && secondary != failed {
            continue;
        }
        let left = if primary == failed { secondary } else { primary };
        let able = |card: &u32| directory.live[*card as usize] && *card != left;
        let mut cards: Vec<u32> = (0..directory.cards).filter(able).collect();
        cards.sort_by_key(|&card| pages_of(card, &homes));
        homes[page] = (left, cards[0]);
    }
    homes
}

#[test]
fn any_homes() {
    let mut random = Random::new(13);
    let mut moved = 0;
    for _ in 0..20_000 {
        let mut rack = rack_of_any_homes(&mut random);
        let Status::Awaiting(failed) = rack.directory.status else { unreachable!() };
        let mut expected = rack.directory;
        for (page, (primary, secondary)) in homes_after(&expected, failed).into_iter().enumerate() {
            moved += u32::from(expected.secondary[page] != secondary);
            (expected.primary[page], expected.secondary[page]) = (primary, secondary);
        }
        expected.status = Status::Running;
        assert_eq!(rack.recover(), (OK, [0; 8]));
        assert_eq!(rack.directory, expected);
    }
    println!("{moved} homes moved");
    assert!(moved > 20_000, "{moved}");
}
