//! The program shelfrun ("Numbers to hold it against").

use std::io::{self, BufRead, ErrorKind, Write};

use crate::answer::Answer;
use crate::by_value::{fail_card, fetch_page, format_rack, join_card, make_steps, open_release, recover};
use crate::directory::Directory;
use crate::layout::{area_words, Number, DESK_WORDS, PAGE_WORDS};
use crate::list::one_price;
use crate::refusals::UNREADABLE_LINE;

const CARDS: u32 = 3;
const PAGES: u32 = 4;
const MEMORY_WORDS: usize = CARDS as usize * area_words(PAGES);

/// The bytes kept of a line. A readable line has at most 56 (a letter and five
/// times a space and ten digits), so a line cut off here is unreadable.
const KEPT_BYTES: usize = 57;

/// Reads lines, runs each on a rack of 3 cards and 4 pages and writes one line
/// for it.
pub fn shelfrun(input: &mut dyn BufRead, output: &mut dyn Write) -> io::Result<()> {
    let mut rack = Rack::new();
    writeln!(output, "rack {CARDS} {PAGES}")?;
    let mut number: u64 = 0;
    while let Some(line) = Line::read(input)? {
        number = number.wrapping_add(1);
        let (letter, refusal, value) = rack.run(line.bytes());
        writeln!(output, "{number} {letter} {refusal} {value}")?;
    }
    output.flush()
}

/// The first bytes of one line, without its line feed.
struct Line {
    kept: [u8; KEPT_BYTES],
    length: usize,
}

impl Line {
    /// Reads to a line feed or the input's end. "Nothing after the last line
    /// feed is no line."
    fn read(input: &mut dyn BufRead) -> io::Result<Option<Line>> {
        let mut line = Line { kept: [0; KEPT_BYTES], length: 0 };
        loop {
            let bytes = match input.fill_buf() {
                Err(error) if error.kind() == ErrorKind::Interrupted => continue,
                bytes => bytes?,
            };
            if bytes.is_empty() {
                return Ok((line.length > 0).then_some(line));
            }
            let line_feed = bytes.iter().position(|&byte| byte == b'\n');
            let length = line_feed.unwrap_or(bytes.len());
            line.keep(&bytes[..length]);
            input.consume(length + usize::from(line_feed.is_some()));
            if line_feed.is_some() {
                return Ok(Some(line));
            }
        }
    }

    /// Keeps as many of the bytes as there is room for.
    fn keep(&mut self, bytes: &[u8]) {
        let room = &mut self.kept[self.length..];
        let count = bytes.len().min(room.len());
        room[..count].copy_from_slice(&bytes[..count]);
        self.length += count;
    }

    fn bytes(&self) -> &[u8] {
        &self.kept[..self.length]
    }
}

/// What a readable line asks for.
enum Command {
    Open { card: u32, number: u32, page: u32, word: u32, price: u32 },
    Steps { card: u32, count: u32 },
    Fail { card: u32 },
    Join { card: u32 },
    Fetch { page: u32, word: u32 },
}

impl Command {
    /// The command of a line, `None` if it is unreadable.
    fn read(line: &[u8]) -> Option<Command> {
        let mut fields = line.split(|&byte| byte == b' ');
        let command = match fields.next()? {
            b"B" => {
                let [card, number, page, word, price] = read_numbers(fields)?;
                Command::Open { card, number, page, word, price }
            }
            b"S" => {
                let [card, count] = read_numbers(fields)?;
                Command::Steps { card, count }
            }
            b"X" => {
                let [card] = read_numbers(fields)?;
                Command::Fail { card }
            }
            b"J" => {
                let [card] = read_numbers(fields)?;
                Command::Join { card }
            }
            b"F" => {
                let [page, word] = read_numbers(fields)?;
                Command::Fetch { page, word }
            }
            _ => return None,
        };
        command.is_within_limits().then_some(command)
    }

    /// Not "pages above 63, words above 31".
    fn is_within_limits(&self) -> bool {
        match self {
            Command::Open { page, word, .. } | Command::Fetch { page, word } => *page <= 63 && *word <= 31,
            _ => true,
        }
    }
}

/// The numbers of exactly so many fields.
fn read_numbers<'a, const COUNT: usize>(mut fields: impl Iterator<Item = &'a [u8]>) -> Option<[u32; COUNT]> {
    let mut numbers = [0; COUNT];
    for number in &mut numbers {
        *number = read_number(fields.next()?)?;
    }
    fields.next().is_none().then_some(numbers)
}

/// "A number is one to ten digits"; above 4294967295 it is unreadable.
fn read_number(field: &[u8]) -> Option<u32> {
    if !(1..=10).contains(&field.len()) || !field.iter().all(u8::is_ascii_digit) {
        return None;
    }
    let number = field.iter().fold(0, |number, digit| 10 * number + u64::from(digit - b'0'));
    u32::try_from(number).ok()
}

/// A letter (- if unreadable), 0 or the refusal, and the value.
type Report = (char, u32, u64);

fn report(letter: char, answer: Answer) -> Report {
    match answer {
        Answer::Given(value) => (letter, 0, value),
        Answer::Refused(refusal, place) => (letter, refusal, place),
    }
}

struct Rack {
    memory: [u32; MEMORY_WORDS],
    directory: Directory,
}

impl Rack {
    fn new() -> Rack {
        let mut memory = [0; MEMORY_WORDS];
        let (directory, _) = format_rack(&mut memory, CARDS, PAGES);
        Rack { memory, directory }
    }

    fn run(&mut self, line: &[u8]) -> Report {
        match Command::read(line) {
            None => ('-', UNREADABLE_LINE, 0),
            Some(Command::Open { card, number, page, word, price }) => {
                report('B', self.open(card, Number::from(number), &one_price(page, word, price)))
            }
            Some(Command::Steps { card, count }) => self.steps(card, count),
            Some(Command::Fail { card }) => report('X', self.fail(card)),
            Some(Command::Join { card }) => report('J', self.join(card)),
            Some(Command::Fetch { page, word }) => report('F', self.fetch(page, word)),
        }
    }

    fn open(&mut self, card: u32, number: Number, list: &[u32]) -> Answer {
        let desk = [0; DESK_WORDS];
        let (directory, answer) = open_release(&mut self.memory, self.directory, card, number, desk, list);
        self.directory = directory;
        answer
    }

    /// "A refusal shows its place, but S its steps made."
    fn steps(&mut self, card: u32, count: u32) -> Report {
        let (directory, answer, made) = make_steps(&mut self.memory, self.directory, card, count);
        self.directory = directory;
        let (letter, refusal, _) = report('S', answer);
        (letter, refusal, u64::from(made))
    }

    /// "Failure, then recovery"; a refused failure is not followed by one.
    fn fail(&mut self, card: u32) -> Answer {
        let (directory, answer) = fail_card(&self.memory, self.directory, card);
        self.directory = directory;
        if let Answer::Refused(..) = answer {
            return answer;
        }
        let (directory, answer, _) = recover(&mut self.memory, self.directory);
        self.directory = directory;
        answer
    }

    fn join(&mut self, card: u32) -> Answer {
        let (directory, answer) = join_card(&mut self.memory, self.directory, card);
        self.directory = directory;
        answer
    }

    /// The price of one word of a fetched page.
    fn fetch(&mut self, page: u32, word: u32) -> Answer {
        let mut buffer = [0; PAGE_WORDS];
        let (directory, answer) = fetch_page(&self.memory, self.directory, page, &mut buffer);
        self.directory = directory;
        match answer {
            Answer::Given(_) => Answer::Given(u64::from(buffer[word as usize])),
            refused => refused,
        }
    }
}
