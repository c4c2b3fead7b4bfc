//! Compares another program's listings of generated books with ours.
//!
//! `differ PROGRAM SEED BOOKS` exits 1 at the first difference; with `keep` behind it, it goes on
//! and counts the books that differ. `differ PROGRAM SEED COMMANDS sweep` compares, for that many
//! generated commands, every change of a single octet.

use second_reader::coverage::Coverage;
use second_reader::generate::{book, command, sweep, Prng};
use second_reader::{listing, pieces, verdict, Piece};
use std::io::{self, Write};
use std::process::{Command, ExitCode, Stdio};

/// The longest command that is swept.
const LONGEST_SWEPT: usize = 700;

fn main() -> ExitCode {
    let arguments: Vec<String> = std::env::args().skip(1).collect();
    let (program, seed, number, mode) = match arguments.as_slice() {
        [program, seed, number] => (program, seed.parse(), number.parse(), ""),
        [program, seed, number, mode] => (program, seed.parse(), number.parse(), mode.as_str()),
        _ => return usage(),
    };
    let (Ok(seed), Ok(number)) = (seed, number) else {
        return usage();
    };
    let mut differ = Differ { program, keep: mode == "keep", differences: 0, coverage: Coverage::default() };
    let done = match mode {
        "" | "keep" => differ.books(seed, number),
        "sweep" => differ.sweeps(seed, number),
        _ => return usage(),
    };
    print!("{}", differ.coverage);
    match done {
        Ok(()) if differ.differences == 0 => ExitCode::SUCCESS,
        Ok(()) => {
            println!("{} books differ", differ.differences);
            ExitCode::FAILURE
        }
        Err(error) => {
            eprintln!("differ: {program}: {error}");
            ExitCode::from(2)
        }
    }
}

fn usage() -> ExitCode {
    eprintln!("differ PROGRAM SEED BOOKS [keep] | differ PROGRAM SEED COMMANDS sweep");
    ExitCode::from(2)
}

struct Differ<'a> {
    program: &'a str,
    keep: bool,
    differences: u64,
    coverage: Coverage,
}

impl Differ<'_> {
    /// Compares this many books.
    fn books(&mut self, seed: u64, number: usize) -> io::Result<()> {
        let mut prng = Prng::new(seed);
        for ordinal in 1..=number {
            if !self.compare(&format!("seed {seed}, book {ordinal}"), &book(&mut prng))? {
                break;
            }
        }
        Ok(())
    }

    /// Compares every change of one octet in this many commands.
    fn sweeps(&mut self, seed: u64, number: usize) -> io::Result<()> {
        let mut prng = Prng::new(seed);
        let mut ordinal = 0;
        while ordinal < number {
            let command = command(&mut prng);
            if command.len() > LONGEST_SWEPT || verdict(&command).number != 0 {
                continue;
            }
            ordinal += 1;
            for book in sweep(&command) {
                if !self.compare(&format!("seed {seed}, sweep {ordinal}"), &book)? {
                    return Ok(());
                }
            }
        }
        Ok(())
    }

    /// Compares one book; false if no more is to be compared.
    fn compare(&mut self, name: &str, book: &[u8]) -> io::Result<bool> {
        let ours = listing(book);
        let theirs = run(self.program, book)?;
        note(book, &mut self.coverage);
        if ours == theirs {
            return Ok(true);
        }
        println!("{name}, {} octets:", book.len());
        report(book, &ours, &theirs);
        self.differences += 1;
        Ok(self.keep)
    }
}

/// What the program prints for the book.
fn run(program: &str, book: &[u8]) -> io::Result<Vec<u8>> {
    let mut child = Command::new(program).stdin(Stdio::piped()).stdout(Stdio::piped()).spawn()?;
    let input = child.stdin.take();
    std::thread::scope(|scope| {
        scope.spawn(move || {
            // The program need not read all of a book that is too long.
            let _ = input.map(|mut input| input.write_all(book));
        });
        let output = child.wait_with_output()?;
        if output.status.code().is_none() {
            println!("the program ended with {}", output.status);
        }
        Ok(output.stdout)
    })
}

/// Prints the first differing line with its command.
fn report(book: &[u8], ours: &[u8], theirs: &[u8]) {
    let ours = String::from_utf8_lossy(ours);
    let theirs = String::from_utf8_lossy(theirs);
    let (mut our_lines, mut their_lines) = (ours.split('\n'), theirs.split('\n'));
    for line in 0.. {
        let (our, their) = (our_lines.next(), their_lines.next());
        if our.is_none() && their.is_none() {
            return;
        }
        if our == their {
            continue;
        }
        println!("  line {}: ours   {our:?}", line + 1);
        println!("  line {}: theirs {their:?}", line + 1);
        let command = pieces(book).and_then(|mut pieces| pieces.nth(line.max(1) - 1));
        if let Some(Piece::Command { octets, .. }) = command {
            println!("  ours {:?}", verdict(octets));
            let hex: String = octets.iter().map(|octet| format!("{octet:02X}")).collect();
            println!("  command {hex}");
        }
        return;
    }
}

fn note(book: &[u8], coverage: &mut Coverage) {
    coverage.books += 1;
    let Some(pieces) = pieces(book) else {
        coverage.not_books += 1;
        return;
    };
    for piece in pieces {
        match piece {
            Piece::Command { octets, .. } => coverage.note(octets, &verdict(octets)),
            Piece::Cut { .. } => coverage.cuts += 1,
        }
    }
}
