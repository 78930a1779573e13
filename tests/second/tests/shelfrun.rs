//! The program shelfrun, byte for byte.

use std::io::{BufReader, Read, Write};
use std::process::{Command, Stdio};

fn run(input: &[u8]) -> String {
    let mut output = Vec::new();
    second::shelfrun(&mut &input[..], &mut output).unwrap();
    // The same through a reader that holds few bytes at a time.
    let mut slow = Vec::new();
    second::shelfrun(&mut BufReader::with_capacity(3, input), &mut slow).unwrap();
    assert_eq!(output, slow);
    String::from_utf8(output).unwrap()
}

/// Runs lines and gives what is printed for each.
fn lines(input: &[u8]) -> Vec<String> {
    let output = run(input);
    assert!(output.starts_with("rack 3 4\n") && output.ends_with('\n'));
    let printed = output.lines().skip(1).enumerate();
    printed
        .map(|(index, line)| {
            let number = format!("{} ", index + 1);
            line.strip_prefix(&number).expect("line number").to_string()
        })
        .collect()
}

#[test]
fn the_transcript() {
    let input = "B 1 1 1 2 250\nS 1 11\nF 1 2\nX 1\nF 1 2\nJ 1\nB 1 1 1 2 225";
    let output = "rack 3 4\n1 B 0 0\n2 S 0 11\n3 F 10 1\n4 X 0 1\n5 F 0 250\n6 J 0 0\n7 B 5 1\n";
    assert_eq!(run(input.as_bytes()), output);
    assert_eq!(run(format!("{input}\n").as_bytes()), output);
}

#[test]
fn the_program_itself() {
    let mut program =
        Command::new(env!("CARGO_BIN_EXE_shelfrun")).stdin(Stdio::piped()).stdout(Stdio::piped()).spawn().unwrap();
    let input = b"B 1 1 1 2 250\n\0\nS 1 99\nF 1 2";
    program.stdin.take().unwrap().write_all(input).unwrap();
    let output = program.wait_with_output().unwrap();
    assert!(output.status.success());
    assert_eq!(output.stdout, b"rack 3 4\n1 B 0 0\n2 - 18 0\n3 S 16 15\n4 F 0 250\n");
}

#[test]
fn what_is_a_line() {
    assert_eq!(run(b""), "rack 3 4\n");
    assert_eq!(lines(b"\n"), ["- 18 0"]);
    assert_eq!(lines(b"\n\n"), ["- 18 0", "- 18 0"]);
    assert_eq!(lines(b"F 0 0"), ["F 0 0"]);
    assert_eq!(lines(b"F 0 0\n"), ["F 0 0"]);
    assert_eq!(lines(b"F 0 0\n\0"), ["F 0 0", "- 18 0"]);
    assert_eq!(lines(b"F 0 0\n "), ["F 0 0", "- 18 0"]);
    assert_eq!(lines(b"F 0 0\r\nF 0 0\r"), ["- 18 0", "- 18 0"]);
}

const UNREADABLE: [&[u8]; 38] = [
    b"F",
    b"F 0",
    b"F 0 ",
    b"F 0 0 ",
    b"F 0 0 0",
    b" F 0 0",
    b"F  0 0",
    b"F 0  0",
    b"f 0 0",
    b"F0 0",
    b"FF 0 0",
    b"F\t0 0",
    b"F 0 32",
    b"F 64 0",
    b"F 0 -1",
    b"F 0 +1",
    b"F 0 1a",
    b"F 0 00000000000",
    b"F 4294967296 0",
    b"F 9999999999 0",
    b"X",
    b"X ",
    b"X 4294967296",
    b"X 0 0",
    b"J",
    b"J 0 0",
    b"S 0",
    b"S 0 4294967296",
    b"S 0 1 1",
    b"B 0 1 0 0",
    b"B 0 1 0 0 4294967296",
    b"B 0 4294967296 0 0 0",
    b"B 0 18446744073709551615 0 0 0",
    b"B 0 1 0 32 0",
    b"B 0 1 64 0 0",
    b"B 0 1 0 0 0 0",
    b"R 0",
    b"F 0\x000",
];

#[test]
fn unreadable_lines() {
    for line in UNREADABLE {
        assert_eq!(lines(line), ["- 18 0"], "{}", String::from_utf8_lossy(line));
    }
    assert_eq!(lines(b"F \xB2 0\nF 0 \xFF"), ["- 18 0", "- 18 0"]);
}

#[test]
fn readable_lines_at_the_edges() {
    let rows: [(&[u8], &str); 18] = [
        (b"F 63 31", "F 9 0"),
        (b"F 3 31", "F 0 0"),
        (b"F 0000000003 0000000031", "F 0 0"),
        (b"F 4 0", "F 9 0"),
        (b"S 4294967295 0", "S 0 0"),
        (b"S 4294967295 1", "S 3 0"),
        (b"S 0 1", "S 16 0"),
        (b"X 3", "X 3 0"),
        (b"X 4294967295", "X 3 0"),
        (b"J 0", "J 14 0"),
        (b"J 3", "J 3 0"),
        (b"B 3 1 0 0 1", "B 3 0"),
        (b"B 0 0 0 0 1", "B 5 0"),
        (b"B 0 2 0 0 1", "B 6 0"),
        (b"B 0 4294967295 0 0 1", "B 6 0"),
        (b"B 0 1 4 0 1", "B 7 0"),
        (b"B 0 1 63 31 1", "B 7 0"),
        (b"B 0000000002 0000000001 0000000003 0000000031 4294967295", "B 0 0"),
    ];
    for (line, printed) in rows {
        assert_eq!(lines(line), [printed], "{}", String::from_utf8_lossy(line));
    }
}

#[test]
fn a_longer_day() {
    let input = b"B 0 1 0 5 4294967295\nB 0 2 0 6 1\nB 1 1 0 5 9\nJ 2\nS 0 4294967295\nF 0 5\n\
        X 1\nX 2\nX 1\nF 0 5\nB 2 1 0 5 12\nS 2 3\nJ 1\nX 0\nS 2 99\nF 0 5\nJ 1\nX 0\nF 0 5\nB 0 1 0 0 0\n";
    let printed = [
        "B 0 0",
        "B 4 0",
        "B 8 0",
        "J 14 0",
        "S 16 15",
        "F 0 4294967295",
        "X 0 0",
        "X 13 0",
        "X 3 0",
        "F 0 4294967295",
        "B 0 0",
        "S 0 3",
        "J 15 0",
        "X 13 0",
        "S 16 12",
        "F 0 12",
        "J 0 0",
        "X 0 1",
        "F 0 12",
        "B 3 0",
    ];
    assert_eq!(lines(input), printed);
}

#[test]
fn a_line_of_a_million_bytes_is_one_line() {
    for filler in [b' ', b'0', b'F', 0, b'\r'] {
        let mut input = b"F 0 0".to_vec();
        input.extend(vec![filler; 1_000_000]);
        input.extend(b"\nF 0 0\n");
        let mut output = Vec::new();
        second::shelfrun(&mut &input[..], &mut output).unwrap();
        assert_eq!(output, b"rack 3 4\n1 - 18 0\n2 F 0 0\n");
    }
}

/// No line of so many bytes can be cut off into a readable one.
#[test]
fn lines_around_the_longest_readable_one() {
    let longest = "B 0000000000 0000000001 0000000000 0000000000 0000000007";
    assert_eq!(longest.len(), 56);
    assert_eq!(lines(longest.as_bytes()), ["B 0 0"]);
    for tail in ["0", " ", "\r", "\0", " 0", "x"] {
        assert_eq!(lines(format!("{longest}{tail}").as_bytes()), ["- 18 0"]);
    }
}

#[test]
fn a_read_error_is_handed_on() {
    struct Broken;
    impl Read for Broken {
        fn read(&mut self, _: &mut [u8]) -> std::io::Result<usize> {
            Err(std::io::Error::other("broken"))
        }
    }
    let mut output = Vec::new();
    assert!(second::shelfrun(&mut BufReader::new(Broken), &mut output).is_err());
    assert_eq!(output, b"rack 3 4\n");
}
