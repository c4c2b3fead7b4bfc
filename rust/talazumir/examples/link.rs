//! Reads a capture of commands from standard input in pieces, whose size may stand on the command line, and prints the
//! verdict of each command, with the number of AVPs of its record where it is accepted; then the refusal that stops the
//! run, or how many octets are left unfinished. Ends with status
//!
//! - 0 where all commands are accepted and none is left unfinished: there may be no command at all;
//! - 1 where a command is refused or left unfinished, or the run has stopped;
//! - 2 where the arguments are not one size from 1 to 1,048,576 or none, where standard input is closed or reading it
//!   fails, or where writing standard output fails: a line on standard error says which. Where standard output is
//!   closed, nothing fails, and the status alone is left.
//!
//! `tail -c +6 books/sample.ntb | cargo run --example link -- 50`

use std::fs::{self, File};
use std::io::{self, LineWriter, Read, Write};
use std::os::fd::AsFd;
use std::os::unix::fs::MetadataExt;
use std::process::ExitCode;
use talazumir::Link;

const LARGEST: usize = 1_048_576;

fn main() -> ExitCode {
    let words: Vec<_> = std::env::args_os().skip(1).collect();
    let size = match words.as_slice() {
        [] => Some(4096),
        [size] => size.to_str().and_then(|size| size.parse().ok()).filter(|size| (1..=LARGEST).contains(size)),
        _ => None,
    };
    let outcome = match size {
        Some(size) => print_commands(size),
        None => Err(format!("usage: link [SIZE] < CAPTURE (SIZE of the pieces, from 1 to {LARGEST} octets)")),
    };
    match outcome {
        Ok(true) => ExitCode::SUCCESS,
        Ok(false) => ExitCode::FAILURE,
        Err(words) => {
            // No eprintln!, which panics where standard error fails.
            let _ = writeln!(io::stderr(), "{words}");
            ExitCode::from(2)
        }
    }
}

/// Prints what is found on standard input, and says whether all of it is accepted commands.
fn print_commands(size: usize) -> Result<bool, String> {
    let no_input = |error| format!("link: standard input: {error}");
    let no_output = |error| format!("link: standard output: {error}");
    let mut input = open_input().map_err(no_input)?;
    // Standard output as the standard library has it takes a write that is not allowed for done.
    let output = io::stdout().as_fd().try_clone_to_owned().map_err(no_output)?;
    let mut output = LineWriter::new(File::from(output));
    let mut link = Link::new();
    let mut piece = vec![0; size];
    let mut all_accepted = true;
    loop {
        let length = match input.read(&mut piece) {
            Ok(length) => length,
            Err(error) if error.kind() == io::ErrorKind::Interrupted => continue,
            Err(error) => return Err(no_input(error)),
        };
        if length == 0 {
            break;
        }
        all_accepted &= print_piece(&mut link, &piece[..length], &mut output).map_err(no_output)?;
        if link.is_stopped() {
            return Ok(false);
        }
    }
    let unfinished = link.unfinished().len();
    writeln!(output, "unfinished: {unfinished} octets").map_err(no_output)?;
    Ok(all_accepted && unfinished == 0)
}

/// Standard input as a file, since the standard library's takes a read that is not allowed for the end. Where it was
/// closed at the start there is /dev/null in its place, open to read and to write.
fn open_input() -> io::Result<File> {
    let mut input = File::from(io::stdin().as_fd().try_clone_to_owned()?);
    let device = input.metadata()?.rdev();
    let is_null = fs::metadata("/dev/null").is_ok_and(|null| null.rdev() == device);
    if is_null && input.write(&[]).is_ok() {
        return Err(io::Error::other("it is closed"));
    }
    Ok(input)
}

/// Prints the commands that end in a piece, and the refusal that stops the run; says whether all are accepted.
fn print_piece(link: &mut Link, piece: &[u8], output: &mut impl Write) -> io::Result<bool> {
    let mut all_accepted = true;
    let mut commands = link.commands([piece]);
    while let Some(verdict) = commands.next() {
        let record = commands.command().and_then(|octets| talazumir::read(octets).ok());
        all_accepted &= record.is_some();
        match (verdict, record) {
            (Ok(verdict), Some(record)) => writeln!(output, "{verdict}: {} AVPs", record.count())?,
            (Ok(verdict), None) => writeln!(output, "{verdict}")?,
            (Err(refusal), _) => writeln!(output, "stopped: {refusal}")?,
        }
    }
    Ok(all_accepted)
}
