//! Writes a generated book, or commands in hexadecimal.
//!
//! `generate SEED book` writes one book to standard output; `generate SEED N` prints N commands,
//! one line each, with their verdicts.

use second_reader::generate::{book, command, Prng};
use second_reader::verdict;
use std::io::{self, Write};
use std::process::ExitCode;

fn main() -> ExitCode {
    let arguments: Vec<String> = std::env::args().skip(1).collect();
    let done = match arguments.as_slice() {
        [seed, what] => seed.parse().ok().and_then(|seed| generate(seed, what)),
        _ => None,
    };
    match done {
        Some(Ok(())) => ExitCode::SUCCESS,
        Some(Err(error)) => {
            eprintln!("generate: {error}");
            ExitCode::FAILURE
        }
        None => {
            eprintln!("generate SEED book | generate SEED COMMANDS");
            ExitCode::FAILURE
        }
    }
}

fn generate(seed: u64, what: &str) -> Option<io::Result<()>> {
    let mut prng = Prng::new(seed);
    let mut out = io::BufWriter::new(io::stdout().lock());
    if what == "book" {
        return Some(out.write_all(&book(&mut prng)));
    }
    let commands: usize = what.parse().ok()?;
    let mut print = || {
        for _ in 0..commands {
            let octets = command(&mut prng);
            let v = verdict(&octets);
            write!(out, "{} {} {} {} ", v.number, v.place, v.vendor, v.code)?;
            for octet in octets {
                write!(out, "{octet:02X}")?;
            }
            writeln!(out)?;
        }
        Ok(())
    };
    Some(print())
}
