//! Reads lines from standard input and writes shelfrun's lines to standard
//! output.

use std::io::{self, BufWriter};

fn main() -> io::Result<()> {
    let mut input = io::stdin().lock();
    let mut output = BufWriter::new(io::stdout().lock());
    second::shelfrun(&mut input, &mut output)
}
