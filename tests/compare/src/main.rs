//! Runs two programs `shelfrun` on the same scripts and compares what they print, byte for byte.
//!
//!     compare FIRST SECOND            all scripts; they must agree
//!     compare --parted FIRST SECOND   the hand-picked and the exhaustive scripts; they must differ
//!
//! `--seed N` and `--scripts N` change the random scripts. A difference prints the shortest script
//! found that shows it.

mod corpus;
mod run;
mod scripts;
mod seen;
mod shrink;
mod sweep;

use run::Pair;
use seen::Seen;
use std::process::ExitCode;

/// A named input.
pub struct Script {
    pub name: String,
    pub input: Vec<u8>,
}

impl Script {
    pub fn new(name: impl Into<String>, input: impl Into<Vec<u8>>) -> Self {
        Self { name: name.into(), input: input.into() }
    }
}

struct Options {
    parted: bool,
    seed: u64,
    scripts: u64,
    programs: Vec<String>,
}

fn options() -> Result<Options, String> {
    let mut options = Options { parted: false, seed: 20_260, scripts: 3_000, programs: Vec::new() };
    let mut words = std::env::args().skip(1);
    while let Some(word) = words.next() {
        let mut number = || {
            let text = words.next().ok_or(format!("{word} needs a number"))?;
            text.parse().map_err(|_| format!("{word}: {text} is no number"))
        };
        match word.as_str() {
            "--parted" => options.parted = true,
            "--seed" => options.seed = number()?,
            "--scripts" => options.scripts = number()?,
            _ => options.programs.push(word),
        }
    }
    Ok(options)
}

fn main() -> ExitCode {
    let options = match options() {
        Ok(options) if options.programs.len() == 2 => options,
        Ok(_) => return failed("two programs to compare"),
        Err(error) => return failed(&error),
    };
    let pair = Pair::new(&options.programs[0], &options.programs[1]);
    match options.parted {
        true => must_differ(&pair),
        false => must_agree(&pair, &options),
    }
}

fn must_agree(pair: &Pair, options: &Options) -> ExitCode {
    for (script, output) in corpus::scripts() {
        if output.is_some_and(|output| pair.first(&script.input) != output) {
            return failed(&format!("{}: not what document 01 prints", script.name));
        }
    }
    let random = scripts::random(options.seed).take(options.scripts as usize);
    let mut count = 0;
    let mut seen = Seen::default();
    for script in fixed_scripts().chain(random).chain(scripts::large(options.seed)) {
        let printed = pair.first(&script.input);
        if printed != pair.second(&script.input) {
            return report(pair, &script);
        }
        seen.read(&printed);
        count += 1;
    }
    println!("compare: {count} scripts, the two programs agree (seed {})", options.seed);
    println!("compare: lines by refusal (0: accepted): {seen}");
    match seen.missing() {
        Some(number) => failed(&format!("no script is answered with {number}")),
        None => ExitCode::SUCCESS,
    }
}

fn fixed_scripts() -> impl Iterator<Item = Script> {
    corpus::scripts().into_iter().map(|(script, _)| script).chain(sweep::scripts())
}

fn must_differ(pair: &Pair) -> ExitCode {
    let caught = fixed_scripts().filter(|script| pair.differ(&script.input)).count();
    match caught {
        0 => failed("the deliberate error shows in no script"),
        _ => {
            println!("compare: the deliberate error shows in {caught} scripts");
            ExitCode::SUCCESS
        }
    }
}

fn report(pair: &Pair, script: &Script) -> ExitCode {
    let short = shrink::shortest(&script.input, |input| pair.differ(input));
    println!("compare: {}: the two programs differ on", script.name);
    println!("{}", run::shown(&short));
    for (name, output) in [("first", pair.first(&short)), ("second", pair.second(&short))] {
        println!("--- {name} prints\n{}", run::shown(&output));
    }
    ExitCode::FAILURE
}

fn failed(error: &str) -> ExitCode {
    eprintln!("compare: {error}");
    ExitCode::FAILURE
}
