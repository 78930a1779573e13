//! Random scripts: valid, refused and unreadable lines mixed. The generator remembers roughly what
//! was released, so that most lines are accepted; it need not be right.

use crate::Script;
use random::Random;

/// What the generator remembers of the rack.
struct Rack {
    numbers: [u32; 3],
    dead: Option<u32>,
}

/// Scripts without end, each of a generator of its own.
pub fn random(seed: u64) -> impl Iterator<Item = Script> {
    let mut generators = Random::new(seed);
    (0u64..).map(move |at| Script::new(format!("random script {at} of seed {seed}"), lines(generators.fork())))
}

fn lines(mut random: Random) -> Vec<u8> {
    let mut rack = Rack { numbers: [0; 3], dead: None };
    let mut input = Vec::new();
    for _ in 0..20 + random.below(60) {
        let line = match random.one_in(12) {
            true => unreadable(&mut random, &mut rack),
            false => readable(&mut random, &mut rack).into_bytes(),
        };
        input.extend(line);
        input.push(b'\n');
    }
    if random.one_in(4) {
        input.pop();
    }
    input
}

fn readable(random: &mut Random, rack: &mut Rack) -> String {
    let card = random.below(3);
    match random.below(16) {
        0..=4 => opening(random, rack, card),
        5..=8 => format!("S {card} {}", random.of(&[1, 1, 2, 3, 9, 10, 11, 12, 13, 14, 15, 16])),
        9..=12 => format!("F {} {}", random.below(4), random.below(4)),
        13 => {
            rack.dead = Some(card);
            format!("X {card}")
        }
        14 => format!("J {}", rack.dead.take().unwrap_or(card)),
        _ => strange(random),
    }
}

/// Mostly the card's next number; words 0 to 3 of a page, so that releases meet.
fn opening(random: &mut Random, rack: &mut Rack, card: u32) -> String {
    let known = &mut rack.numbers[card as usize];
    let number = match random.one_in(4) {
        true => random.of(&[0, *known, *known + 2, u32::MAX]),
        false => {
            *known += 1;
            *known
        }
    };
    let price = random.of(&[0, 1, 250, u32::MAX]) ^ random.below(2);
    let page = match random.one_in(12) {
        true => random.of(&[4, 63]),
        false => random.below(4),
    };
    format!("B {card} {number} {page} {} {price}", random.below(4))
}

/// Numbers out of range, of a rack or of a line.
fn strange(random: &mut Random) -> String {
    let numbers: [u64; 13] =
        [0, 2, 3, 4, 8, 31, 32, 63, 64, 4_294_967_295, 4_294_967_296, 9_999_999_999, 10_000_000_000];
    let fields: &[(&str, usize)] = &[("B", 5), ("S", 2), ("X", 1), ("J", 1), ("F", 2)];
    let (letter, count) = random.of(fields);
    let mut line = letter.to_string();
    for _ in 0..count {
        line.push_str(&format!(" {}", random.of(&numbers)));
    }
    line
}

/// A readable line with one byte left out, put in or changed, or bytes of any kind.
fn unreadable(random: &mut Random, rack: &mut Rack) -> Vec<u8> {
    if random.one_in(3) {
        return (0..random.below(40)).map(|_| random.below(256) as u8).collect();
    }
    let mut line = readable(random, rack).into_bytes();
    let at = random.below(line.len() as u32) as usize;
    let byte = random.of(b" 0129BSXJF-\r\t\0,");
    match random.below(3) {
        0 => drop(line.remove(at)),
        1 => line.insert(at, byte),
        _ => line[at] = byte,
    }
    line
}

/// 10 MB of bytes of any kind, and 10 MB of lines.
pub fn large(seed: u64) -> [Script; 2] {
    const SIZE: usize = 10_000_000;
    let mut words = Random::new(seed);
    let bytes: Vec<u8> = (0..SIZE / 4).flat_map(|_| words.word().to_le_bytes()).collect();
    let mut lines = Vec::with_capacity(SIZE + 4_000);
    for script in random(seed ^ 1) {
        lines.extend(script.input);
        if lines.len() >= SIZE {
            break;
        }
    }
    [Script::new("10 MB of random bytes", bytes), Script::new("10 MB of random lines", lines)]
}
