//! Listings of books. The proved listing has no exported function, so whole processes are measured, start and end
//! among it: the program `verdicts`, and `bench listing`, which prints the second reader's listing.

use crate::commands::{books, Mix};
use crate::summary::Line;
use crate::turns::{turns, Effort};
use std::env;
use std::fs::{self, File};
use std::io::{self, Read, Write};
use std::path::{Path, PathBuf};
use std::process::{Command, Stdio};

/// The environment's variable that names another program than crates/verdicts/out/verdicts.
pub const PROGRAM: &str = "BENCH_VERDICTS";

/// The program `verdicts`, or why there is none.
pub fn program() -> Result<PathBuf, String> {
    let own = || Path::new(env!("CARGO_MANIFEST_DIR")).join("../crates/verdicts/out/verdicts");
    let program = env::var_os(PROGRAM).map_or_else(own, PathBuf::from);
    if program.is_file() {
        Ok(program)
    } else {
        Err(format!("{} is not there; ./verdicts builds it, and {PROGRAM} names another", program.display()))
    }
}

/// Prints the second reader's listing of the book on standard input, as `verdicts` prints the proved one.
pub fn print_second() -> io::Result<()> {
    let mut book = Vec::with_capacity(second_reader::LONGEST_BOOK + 1);
    io::stdin().lock().take(second_reader::LONGEST_BOOK as u64 + 1).read_to_end(&mut book)?;
    io::stdout().lock().write_all(&second_reader::listing(&book))
}

/// The lines of the listings, with the programs for the proved and the second ones. The book without commands says what
/// start and end of a process come to; that is most of what the others take.
pub fn lines(mixes: &[Mix], effort: Effort, verdicts: &Path, bench: &Path) -> Result<Vec<Line>, String> {
    let mut lines = Vec::new();
    for (row, book) in books(mixes) {
        let book = Book::write(&book).map_err(|error| format!("a book cannot be written: {error}"))?;
        let mut ours = Command::new(verdicts);
        let mut theirs = Command::new(bench);
        theirs.arg("listing");
        if book.listing(&mut ours)? != book.listing(&mut theirs)? {
            return Err(format!("{}: another listing than the second reader's, {row}", verdicts.display()));
        }
        let turns = turns(effort, || book.list(&mut ours), || book.list(&mut theirs));
        lines.push(Line::new("listing of a book, whole processes", &row, turns.ratios));
    }
    Ok(lines)
}

/// A book in a file, which goes with it.
struct Book(PathBuf);

impl Book {
    fn write(octets: &[u8]) -> io::Result<Book> {
        let book = Book(env::temp_dir().join(format!("bench-{}.ntb", std::process::id())));
        fs::write(&book.0, octets)?;
        Ok(book)
    }

    /// What a program prints of the book.
    fn listing(&self, program: &mut Command) -> Result<Vec<u8>, String> {
        let output = File::open(&self.0).and_then(|book| program.stdin(book).stdout(Stdio::piped()).output());
        output.map(|output| output.stdout).map_err(|error| format!("{:?}: {error}", program.get_program()))
    }

    /// Has a program list the book, without looking at the listing.
    fn list(&self, program: &mut Command) {
        let book = File::open(&self.0).expect("the book is there");
        program.stdin(book).stdout(Stdio::null()).status().expect("the program was started before");
    }
}

impl Drop for Book {
    fn drop(&mut self) {
        let _ = fs::remove_file(&self.0);
    }
}
