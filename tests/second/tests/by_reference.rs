//! The calls with the directory lent do what those with the directory as a value
//! do.

mod common;

use common::{list_of, random_changes, Rack};
use random::Random;
use second::by_reference as lent;
use second::fetch_all;

/// The same random call of both, the first by value.
fn same_call(one: &mut Rack, other: &mut Rack, random: &mut Random) {
    let (card, memory, directory) = (random.below(9), &mut other.memory, &mut other.directory);
    let page = random.below(7);
    match random.below(10) {
        0..=2 => {
            let number = one.stamp(card % directory.cards).wrapping_add(1);
            let (desk, list) = (random.array(), list_of(&random_changes(random, directory.pages, 40)));
            let answer = lent::open_release(memory, directory, card, number, &desk, &list);
            assert_eq!(one.open(card, number, desk, &list), answer);
        }
        3 => assert_eq!(one.step(card), lent::make_step(memory, directory, card)),
        4 => {
            let count = random.below(60);
            assert_eq!(one.steps(card, count), lent::make_steps(memory, directory, card, count));
        }
        5 => {
            let mut buffers = [[3; 32]; 2];
            let answer = one.fetch(page, &mut buffers[0]);
            assert_eq!(answer, lent::fetch_page(memory, directory, page, &mut buffers[1]));
            assert_eq!(buffers[0], buffers[1]);
        }
        6 => {
            let mut buffers = vec![vec![3; 32 * directory.pages as usize]; 2];
            let (_, answer, shown) = fetch_all(&one.memory, one.directory, &mut buffers[0]);
            assert_eq!((answer, shown), lent::fetch_all(memory, directory, &mut buffers[1]));
            assert_eq!(buffers[0], buffers[1]);
        }
        7 => {
            assert_eq!(one.fail(card), lent::fail_card(memory, directory, card));
            assert_eq!(one.recover(), lent::recover(memory, directory));
        }
        8 => assert_eq!(one.join(card), lent::join_card(memory, directory, card)),
        _ => assert_eq!(one.ask(card), lent::ask_desk(memory, directory, card)),
    }
}

#[test]
fn lent_as_by_value() {
    let mut random = Random::new(12);
    for _ in 0..500 {
        let (cards, pages) = (random.within(3, 8), random.within(1, 6));
        let mut one = Rack::new(cards, pages);
        let mut other = one.clone();
        other.memory.fill(7);
        other.directory.cards = 0;
        lent::format_rack(&mut other.memory, cards, pages, &mut other.directory);
        for _ in 0..60 {
            assert!(one == other);
            same_call(&mut one, &mut other, &mut random);
        }
    }
}
