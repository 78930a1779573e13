//! Two programs, and what each prints for an input.

use std::io::Write;
use std::process::{Command, Stdio};
use std::thread;

pub struct Pair {
    first: String,
    second: String,
}

impl Pair {
    pub fn new(first: &str, second: &str) -> Self {
        Self { first: first.to_string(), second: second.to_string() }
    }

    pub fn first(&self, input: &[u8]) -> Vec<u8> {
        output(&self.first, input)
    }

    pub fn second(&self, input: &[u8]) -> Vec<u8> {
        output(&self.second, input)
    }

    pub fn differ(&self, input: &[u8]) -> bool {
        self.first(input) != self.second(input)
    }
}

/// What the program prints. One that stops with an error has that told at the end, so that it
/// differs from one that does not.
fn output(program: &str, input: &[u8]) -> Vec<u8> {
    let mut child = Command::new(program)
        .stdin(Stdio::piped())
        .stdout(Stdio::piped())
        .spawn()
        .unwrap_or_else(|error| panic!("{program}: {error}"));
    let mut stdin = child.stdin.take().expect("standard input is piped");
    // a program that answers while it reads would wait for its output to be read
    let result = thread::scope(|scope| {
        scope.spawn(move || stdin.write_all(input));
        child.wait_with_output()
    });
    let result = result.unwrap_or_else(|error| panic!("{program}: {error}"));
    let mut printed = result.stdout;
    if !result.status.success() {
        printed.extend(format!("\n{}", result.status).bytes());
    }
    printed
}

/// Bytes to be read by people: at most 4000, those that cannot be printed as numbers.
pub fn shown(bytes: &[u8]) -> String {
    let mut text = String::new();
    for &byte in bytes.iter().take(4000) {
        match byte {
            b'\n' | b' '..=b'~' => text.push(byte as char),
            _ => text.push_str(&format!("\\x{byte:02x}")),
        }
    }
    if bytes.len() > 4000 {
        text.push_str(&format!(".. ({} bytes)", bytes.len()));
    }
    text
}
