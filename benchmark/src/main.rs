//! Times the proved library beside the second implementation, call by call, and prints tables.

mod calls;
mod measure;
mod racks;
mod work;

use bandsawpink_sys::layout::old_memory_words;
use bandsawpink_sys::refusals::ACCEPTED;
use bandsawpink_sys::{rack_make_list, rack_mark_changes, rack_merge_lists, rack_move_back, rack_move_in};
use measure::{in_turn, Time};
use racks::{list, list_of, spread_list, Rack, PRICES};
use second::layout::LIST_WORDS;
use second::{by_reference, Answer};
use std::hint::black_box;
use work::*;

const SIZES: [(u32, u32); 2] = [(3, 4), (8, 64)];

fn main() {
    println!("Times in nanoseconds. Rust is the second implementation, its directory in and out by value, or lent.");
    println!();
    println!("| call | proved | spread | Rust, by value | spread | ratio | Rust, by reference | spread | ratio |");
    println!("|---|---|---|---|---|---|---|---|---|");
    fetches();
    openings();
    releases();
    recoveries();
    lists();
    formattings();
    println!();
    println!("The second implementation makes several steps one by one, each with its checks.");
    println!();
    println!("One step of a release of {PRICES} prices, the opening spread over its {STEPS} steps, by cards, pages");
    println!("and other open releases:");
    println!();
    println!("| cards | pages | other releases | proved | Rust, by value | ratio | Rust, by reference | ratio |");
    println!("|---|---|---|---|---|---|---|---|");
    for (cards, pages) in [(3, 12), (8, 12), (3, 64), (8, 64)] {
        for others in [0, 1, 2, 7] {
            if others < cards {
                growth(cards, pages, others);
            }
        }
    }
    println!();
    println!("A memory moved from one form to the other, beside the second implementation, with the directory");
    println!("lent, and beside a plain copy of the old memory's words:");
    println!();
    println!("| call | proved | spread | Rust | spread | ratio | plain copy | spread | ratio |");
    println!("|---|---|---|---|---|---|---|---|---|");
    for (cards, pages) in SIZES {
        let (rack, old) = (Rack::new(cards, pages, 0), vec![0; old_memory_words(cards, pages)]);
        row(&format!("move in, {cards} × {pages}"), &moved_in(&rack, &old));
        row(&format!("move back, {cards} × {pages}"), &moved_back(&rack, &old));
    }
}

/// A number with three digits or more.
fn shown(nanoseconds: f64) -> String {
    if nanoseconds < 100.0 {
        format!("{nanoseconds:.1}")
    } else {
        format!("{nanoseconds:.0}")
    }
}

fn row(name: &str, [proved, others @ ..]: &[Time; 3]) {
    let mut line = format!("| {name} | {} | {} |", shown(proved.median), shown(proved.spread));
    for other in others {
        let ratio = proved.median / other.median;
        line += &format!(" {} | {} | {ratio:.2} |", shown(other.median), shown(other.spread));
    }
    println!("{line}");
}

fn fetches() {
    for (cards, pages) in SIZES {
        let rack = Rack::new(cards, pages, 0);
        row(&format!("fetch, {cards} × {pages}"), &compare(&rack, &Fetch { buffer: [0; 32] }));
        row(&format!("checks 1, 2 and 11 of it alone, {cards} × {pages}"), &compare(&rack, &Check { buffer: [0; 32] }));
    }
    for (cards, pages) in SIZES {
        let rack = Rack::new(cards, pages, 0);
        let times = compare(&rack, &FetchAll { buffer: vec![0; 32 * pages as usize] });
        row(&format!("fetch of all pages, {cards} × {pages}"), &times);
        row(&format!("fetch of all pages, {cards} × {pages}, for each page"), &times.map(|time| time.per(pages)));
    }
}

fn openings() {
    for (cards, pages) in SIZES {
        let rack = Rack::new(cards, pages, 0);
        row(&format!("opening of {PRICES} prices, {cards} × {pages}"), &compare(&rack, &Opening { list: list(0) }));
    }
}

fn releases() {
    for (cards, pages) in SIZES {
        let rack = Rack::new(cards, pages, 0);
        let name = format!("release of {PRICES} prices on 2 pages, {cards} × {pages}");
        row(&format!("{name}: opening and {STEPS} single steps"), &compare(&rack, &SingleSteps { list: list(0) }));
        row(&format!("{name}: opening and {STEPS} steps in one call"), &compare(&rack, &OneCall { list: list(0) }));
    }
    let rack = Rack::new(8, 64, 0);
    let name = format!("release of {PRICES} prices on 40 pages, 8 × 64: opening and {STEPS} steps in one call");
    row(&name, &compare(&rack, &OneCall { list: spread_list() }));
}

fn growth(cards: u32, pages: u32, others: u32) {
    let rack = Rack::new(cards, pages, others);
    let [proved, by_value, by_reference] =
        compare(&rack, &SingleSteps { list: list(0) }).map(|time| time.per(STEPS).median);
    println!(
        "| {cards} | {pages} | {others} | {} | {} | {:.2} | {} | {:.2} |",
        shown(proved),
        shown(by_value),
        proved / by_value,
        shown(by_reference),
        proved / by_reference
    );
}

fn recoveries() {
    row("failure and recovery, 8 × 64", &compare(&Rack::new(8, 64, 0), &Recovery));
}

/// List work has no directory: the second implementation's is timed once.
fn lists() {
    let spread = || (0..PRICES as usize).map(|at| 51 * at);
    list_made("list maker, 64 pages, 40 marked words", spread());
    list_made("list maker, 64 pages, 480 marked words on 15 pages", 0..480);
    changes_marked("marks of what differs, 64 pages, 40 words", spread());
    let (low, high) = (list_of(0..256), list_of(128..384));
    lists_merged("merge of two lists, each 256 prices on 8 pages, 4 of them in both", &low, &high);
    let (low, high) = (list_of(1664..1920), list_of(1792..2048));
    lists_merged("the same on the last 12 of 64 pages", &low, &high);
    let (few, other_few) = (list_of(34..36), list_of([35, 64].into_iter()));
    lists_merged("merge of two lists, each 2 prices, 1 of them in both", &few, &other_few);
}

/// Working pages of which the given labels differ from their twins, and the marks of these.
fn changed(labels: impl Iterator<Item = usize>) -> (Vec<u32>, Vec<u32>, Vec<u32>) {
    let twins = vec![7; 32 * 64];
    let (mut working, mut marks) = (twins.clone(), vec![0; 64]);
    for label in labels {
        working[label] = 8;
        marks[label / 32] |= 1 << (label % 32);
    }
    (working, twins, marks)
}

/// A row of list work: the second implementation has no directory to hand over, by value or lent.
fn row_of_list_work(name: &str, proved: &mut dyn FnMut(), second: &mut dyn FnMut()) {
    let [proved, second] = in_turn([proved, second]);
    row(name, &[proved, second, second]);
}

/// A list of the given labels, which are marked.
fn list_made(name: &str, labels: impl Iterator<Item = usize>) {
    let (working, twins, marks) = changed(labels);
    let (pages, twin, mark) = (working.as_ptr(), twins.as_ptr(), marks.as_ptr());
    let (mut first, mut other) = (vec![0u32; LIST_WORDS], vec![0u32; LIST_WORDS]);
    let mut proved = || {
        let list = black_box(&mut first).as_mut_ptr();
        // SAFETY: pointers and lengths of slices that live through the call and do not overlap.
        let made =
            unsafe { rack_make_list(pages, working.len(), twin, twins.len(), mark, marks.len(), list, LIST_WORDS) };
        assert_eq!(made.number, ACCEPTED, "a timed call was refused");
    };
    let mut second = || {
        black_box(second::make_list(&working, &twins, &marks, black_box(&mut other)));
    };
    row_of_list_work(name, &mut proved, &mut second);
}

/// The marks of the given labels, which differ from their twins.
fn changes_marked(name: &str, labels: impl Iterator<Item = usize>) {
    let (working, twins, marks) = changed(labels);
    let (pages, twin) = (working.as_ptr(), twins.as_ptr());
    let (mut first, mut other) = (vec![0u32; marks.len()], vec![0u32; marks.len()]);
    let mut proved = || {
        let made = black_box(&mut first).as_mut_ptr();
        // SAFETY: as in `list_made`.
        let marked = unsafe { rack_mark_changes(pages, working.len(), twin, twins.len(), made, marks.len()) };
        assert_eq!(marked.number, ACCEPTED, "a timed call was refused");
    };
    let mut second = || {
        black_box(second::mark_changes(&working, &twins, black_box(&mut other)));
    };
    row_of_list_work(name, &mut proved, &mut second);
}

/// Two lists made one.
fn lists_merged(name: &str, one: &[u32], next: &[u32]) {
    let (mut first, mut other) = (vec![0u32; LIST_WORDS], vec![0u32; LIST_WORDS]);
    let mut proved = || {
        let list = black_box(&mut first).as_mut_ptr();
        // SAFETY: as in `list_made`.
        let merged = unsafe { rack_merge_lists(one.as_ptr(), one.len(), next.as_ptr(), next.len(), list, LIST_WORDS) };
        assert_eq!(merged.number, ACCEPTED, "a timed call was refused");
    };
    let mut second = || {
        black_box(second::merge_lists(one, next, black_box(&mut other)));
    };
    row_of_list_work(name, &mut proved, &mut second);
}

/// From an old memory into one of the rack's.
fn moved_in(rack: &Rack, old: &[u32]) -> [Time; 3] {
    let [mut first, mut other, mut copy] = [rack.memory.clone(), rack.memory.clone(), rack.memory.clone()];
    let mut proved = || {
        let (at, len) = (black_box(&mut first).as_mut_ptr(), rack.memory.len());
        // SAFETY: pointers and lengths of slices that live through the call and do not overlap.
        let moved = unsafe { rack_move_in(old.as_ptr(), old.len(), &rack.proved, at, len) };
        assert_eq!(moved.number, ACCEPTED, "a timed call was refused");
    };
    let mut second = || {
        let answer = by_reference::move_in(old, &rack.directory, black_box(&mut other));
        assert_eq!(answer, Answer::Given(0), "a timed call was refused");
    };
    let mut plain = || black_box(&mut copy)[..old.len()].copy_from_slice(black_box(old));
    in_turn([&mut proved, &mut second, &mut plain])
}

/// From the rack's memory into one of the old form.
fn moved_back(rack: &Rack, old: &[u32]) -> [Time; 3] {
    let [mut first, mut other, mut copy] = [old.to_vec(), old.to_vec(), old.to_vec()];
    let mut proved = || {
        let (at, len) = (black_box(&mut first).as_mut_ptr(), old.len());
        // SAFETY: pointers and lengths of slices that live through the call and do not overlap.
        let moved = unsafe { rack_move_back(rack.memory.as_ptr(), rack.memory.len(), &rack.proved, at, len) };
        assert_eq!(moved.number, ACCEPTED, "a timed call was refused");
    };
    let mut second = || {
        let answer = by_reference::move_back(&rack.memory, &rack.directory, black_box(&mut other));
        assert_eq!(answer, Answer::Given(0), "a timed call was refused");
    };
    let mut plain = || black_box(&mut copy).copy_from_slice(&black_box(&rack.memory)[..old.len()]);
    in_turn([&mut proved, &mut second, &mut plain])
}

fn formattings() {
    let (cards, pages) = (8, 64);
    row("formatting, 8 × 64", &compare(&Rack::new(cards, pages, 0), &Formatting { cards, pages }));
}
