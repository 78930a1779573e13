//! Makes the same calls of the proved library and of the second implementation, and compares answers, the words of the
//! directories and every lent word; the book is held beside both.
//!
//!     compare_calls [--seed N] [--calls N]

mod call;
mod chains;
mod damage;
mod guard;
mod library;
mod list_work;
mod lists;
mod merges;
mod moves;
mod numbers;
mod orders;
mod play;
mod racks;
mod seen;
mod sweep;
mod with_book;

use play::Play;
use random::Random;
use seen::Seen;
use std::process::ExitCode;

struct Options {
    seed: u64,
    calls: u64,
}

fn options() -> Result<Options, String> {
    let mut options = Options { seed: 20_260, calls: 100_000 };
    let mut words = std::env::args().skip(1);
    while let Some(word) = words.next() {
        let text = words.next().ok_or(format!("{word} needs a number"))?;
        let number = text.parse().map_err(|_| format!("{word}: {text} is no number"))?;
        match word.as_str() {
            "--seed" => options.seed = number,
            "--calls" => options.calls = number,
            _ => return Err(format!("unknown word {word}")),
        }
    }
    Ok(options)
}

fn main() -> ExitCode {
    let compared = options().and_then(|options| compare(&options));
    match compared {
        Ok(report) => {
            println!("compare_calls: {report}");
            ExitCode::SUCCESS
        }
        Err(error) => {
            eprintln!("compare_calls: {error}");
            ExitCode::FAILURE
        }
    }
}

/// Half of the calls in lists on formatted racks, a third on damaged ones, the rest of the list maker; chains of
/// failures, moves, marks of what differs and merges, a sixth as many each, all orders of failures and the sweep come
/// on top.
fn compare(options: &Options) -> Result<String, String> {
    let mut seen = Seen::new();
    let mut random = Random::new(options.seed);
    let played = play_all(&mut random, options.calls / 2, &mut seen)?;
    let chained = compare_all(options.calls / 6, |at| {
        chains::compare(&mut random, at, &mut seen).map_err(|error| format!("chain {at}: {error}"))
    })?;
    let damaged = compare_all(options.calls / 3, |at| {
        damage::compare(&mut random, at, &mut seen).map_err(|error| format!("damaged rack {at}: {error}"))
    })?;
    let moved = compare_all(options.calls / 6, |at| {
        moves::compare(&mut random, at, &mut seen).map_err(|error| format!("moved rack {at}: {error}"))
    })?;
    let made = options.calls / 6;
    for _ in 0..made {
        list_work::compare_makers(&mut random)?;
        list_work::compare_marks(&mut random)?;
        merges::compare(&mut random, &mut seen)?;
    }
    if let Some((kind, number)) = seen.missing() {
        return Err(format!("none of the {kind} was answered with {number}"));
    }
    let ordered = orders::compare(&mut random)?;
    let swept = sweep::compare()?;
    Ok(format!(
        "{swept} swept, {ordered} in every order of failures, {chained} in chains of failures and {played} played \
         with the book, {damaged} on damaged racks, {moved} moves, {made} lists made by marks, {made} times \
         marks of what differs, {made} merges of two lists, each flush left and flush right: all equal (seed {})\n\
         compare_calls: {seen}",
        options.seed
    ))
}

/// The greatest and the smallest rack always come first. Each play draws its own generator from the one of the seed.
fn play_all(random: &mut Random, calls: u64, seen: &mut Seen) -> Result<u64, String> {
    let mut played = 0;
    for at in 0.. {
        if played >= calls {
            break;
        }
        let mut random = random.fork();
        let pages = if random.one_in(8) { random.within(1, 64) } else { random.within(1, 4) };
        let (cards, pages) = match at {
            0 => (8, 64),
            1 => (3, 1),
            2 => (3, 64),
            3 => (8, 1),
            _ => (random.within(3, 8), pages),
        };
        let made = random.within(50, 1_000);
        Play::new(random, cards, pages)
            .and_then(|mut play| play.run(made, seen))
            .map_err(|error| format!("{cards} cards, {pages} pages, play {at}: {error}"))?;
        played += u64::from(made);
    }
    Ok(played)
}

/// Compares racks, by number, that each take some calls, until there are so many calls. Gives how many.
fn compare_all(calls: u64, mut compare: impl FnMut(u64) -> Result<u64, String>) -> Result<u64, String> {
    let mut made = 0;
    for at in 0.. {
        if made >= calls {
            break;
        }
        made += compare(at)?;
    }
    Ok(made)
}
