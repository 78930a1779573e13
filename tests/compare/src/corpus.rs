//! Hand-picked inputs: document 01's transcript and numbers, and lines that are easy to read wrong.

use crate::Script;

/// Document 01's input, and the eight lines that it prints.
const TRANSCRIPT: (&str, &str) = (
    "B 1 1 1 2 250\nS 1 11\nF 1 2\nX 1\nF 1 2\nJ 1\nB 1 1 1 2 225\n",
    "rack 3 4\n1 B 0 0\n2 S 0 11\n3 F 10 1\n4 X 0 1\n5 F 0 250\n6 J 0 0\n7 B 5 1\n",
);

/// "A second failure with two live: 13."
const SECOND_FAILURE: (&str, &str) = ("X 1\nX 0\n", "rack 3 4\n1 X 0 0\n2 X 13 0\n");

/// Each script with what document 01 says that it prints, where it says so.
pub fn scripts() -> Vec<(Script, Option<Vec<u8>>)> {
    let printed = [("transcript", TRANSCRIPT), ("second failure", SECOND_FAILURE)];
    let printed = printed.map(|(name, (input, output))| (Script::new(name, input), Some(output.into())));
    let others = calls().into_iter().chain(lines()).chain([long_line()]);
    printed.into_iter().chain(others.map(|script| (script, None))).collect()
}

/// Sequences of calls that document 01 names, or that a wrong rack would answer otherwise.
fn calls() -> Vec<Script> {
    let scripts: [(&str, &str); 14] = [
        ("rolled back", "B 1 1 1 2 250\nS 1 10\nX 1\nF 1 2\nJ 1\nB 1 1 1 2 225\nS 1 15\nF 1 2\n"),
        ("rolled forward", "B 1 1 1 2 250\nS 1 12\nX 1\nF 1 2\nJ 1\nB 1 1 1 2 225\nB 1 2 1 2 225\n"),
        // release 1 is closed, release 2 in its first phase when its card dies
        ("half a release", "B 1 1 1 2 250\nS 1 15\nB 1 2 1 3 199\nS 1 2\nX 1\nF 1 2\nF 1 3\n"),
        ("closed by recovery", "B 0 1 2 7 33\nS 0 3\nX 1\nF 2 7\nB 0 1 2 7 34\nB 0 2 2 7 34\n"),
        ("in use", "B 0 1 1 2 250\nB 1 1 1 2 3\nB 1 1 1 3 3\nB 2 1 1 3 4\nB 2 1 1 2 4\n"),
        ("numbers", "B 0 0 0 0 1\nB 0 2 0 0 1\nB 0 1 0 0 1\nB 0 1 0 0 1\nB 0 2 0 0 1\n"),
        ("cards", "B 3 1 0 0 1\nB 8 1 0 0 1\nS 3 1\nX 3\nJ 3\nX 4294967295\nJ 4294967295\n"),
        ("live and dead", "J 0\nX 2\nJ 2\nJ 2\nX 2\nB 2 1 0 0 1\nS 2 1\n"),
        ("pages", "B 0 1 4 0 1\nB 0 1 63 0 1\nF 4 0\nF 63 31\nF 3 31\n"),
        ("steps", "S 0 0\nS 0 1\nB 0 1 0 0 1\nS 0 0\nS 0 4294967295\nS 0 1\nF 0 0\n"),
        ("join with a release open", "X 0\nB 1 1 1 2 3\nJ 0\nS 1 15\nJ 0\n"),
        ("two in motion", "B 0 1 0 0 5\nB 1 1 0 1 6\nS 1 11\nF 0 0\nS 0 11\nF 0 0\nS 0 4\nF 0 0\n"),
        ("every card in turn", "X 0\nJ 0\nX 1\nJ 1\nX 2\nJ 2\nB 2 1 3 31 4294967295\nS 2 15\nF 3 31\n"),
        ("price 0", "B 0 1 0 0 9\nS 0 15\nB 0 2 0 0 0\nS 0 15\nF 0 0\nX 0\nF 0 0\n"),
    ];
    scripts.map(|(name, input)| Script::new(name, input)).into()
}

/// Forms of a line: read, or unreadable.
const FORMS: [&[u8]; 64] = [
    b"",
    b"\n",
    b"\n\n\n",
    b" \n",
    b"F",
    b"F\n",
    b"F 0 0",
    b"F 0 0\n",
    b"F 0 0\nF 0 0",
    b"F 0 0 \n",
    b" F 0 0\n",
    b"F  0 0\n",
    b"F 0  0\n",
    b"F 0 0 0\n",
    b"F 0\n",
    b"F 0 \n",
    b"F 0 0\r\n",
    b"\r\n",
    b"F\t0 0\n",
    b"F 0 0\0\n",
    b"\0\n",
    b"\0",
    b"F \0 0\n",
    b"f 0 0\n",
    b"FF 0 0\n",
    b"- 0 0\n",
    b"F -1 0\n",
    b"F +1 0\n",
    b"F 00 0\n",
    b"F 0000000000 0\n",
    b"F 00000000000 0\n",
    b"F 0000000003 0\n",
    b"F 64 0\n",
    b"F 63 0\n",
    b"F 0 32\n",
    b"F 0 31\n",
    b"F 0 4294967295\n",
    b"F 4294967296 0\n",
    b"F 9999999999 0\n",
    b"F 0x1 0\n",
    b"X 4294967295\n",
    b"X 4294967296\n",
    b"X 10000000000\n",
    b"X\n",
    b"X 0 0\n",
    b"X 0x\n",
    b"X 0\n",
    b"J 0\n",
    b"J\n",
    b"J 0 1\n",
    b"S 0 4294967296\n",
    b"S 0\n",
    b"S 0 1 1\n",
    b"B 0 1 0 0\n",
    b"B 0 1 0 0 4294967295\n",
    b"B 0 1 0 0 4294967296\n",
    b"B 0 1 0 0 1 1\n",
    b"B 0 1 64 0 1\n",
    b"B 0 1 0 32 1\n",
    b"B 4294967295 4294967295 63 31 4294967295\n",
    b"\xff\xfe\n",
    b"B\xc2\xa00 1 0 0 1\n",
    b"A 0\n",
    b"F 0 0\x0bF 0 0\n",
];

fn lines() -> Vec<Script> {
    let script = |(at, form): (usize, &&[u8])| Script::new(format!("line form {at}"), form.to_vec());
    let mut scripts: Vec<Script> = FORMS.iter().enumerate().map(script).collect();
    scripts.push(Script::new("all line forms", FORMS.concat()));
    scripts
}

/// "Any other form": a line of a million bytes is one unreadable line.
fn long_line() -> Script {
    let mut input = b"F 0 0\nF ".to_vec();
    input.resize(1_000_000, b'0');
    input.extend(b"\nF 0 0\n");
    Script::new("a line of a million bytes", input)
}
