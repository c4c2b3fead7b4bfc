//! Prints the listing of the book on standard input.

use second_reader::{listing, LONGEST_BOOK};
use std::io::{self, Read, Write};

fn main() -> io::Result<()> {
    let mut book = Vec::with_capacity(LONGEST_BOOK + 1);
    io::stdin().lock().take(LONGEST_BOOK as u64 + 1).read_to_end(&mut book)?;
    io::stdout().lock().write_all(&listing(&book))
}
