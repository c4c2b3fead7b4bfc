//! Reads a command in hex from the command line, gives it the hop-by-hop identifier that stands before it, writes it,
//! and prints the written command in hex; for a refused command its verdict. Ends with status 0 where it is
//! accepted, 1 where it is refused, 2 where the arguments are no identifier and octets in hex.
//!
//! `cargo run --example rewrite -- 7 $(sed 's/#.*//' tests/commands/S.hex)`

mod hex;

use std::process::ExitCode;

fn main() -> ExitCode {
    let words = hex::words();
    let arguments = words.split_first().and_then(|(first, rest)| Some((first.parse().ok()?, hex::octets_of(rest)?)));
    let Some((identifier, octets)) = arguments else {
        eprintln!("usage: rewrite IDENTIFIER HEX.. (a hop-by-hop identifier, then a command, two hex digits an octet)");
        return ExitCode::from(2);
    };
    let mut record = match talazumir::read(&octets) {
        Ok(record) => record,
        Err(refusal) => {
            println!("{refusal}");
            return ExitCode::FAILURE;
        }
    };
    record.set_hop_by_hop(identifier);
    // A command is written as long as it was read.
    let mut out = vec![0; octets.len()];
    let written = talazumir::write(&record, &octets, &mut out);
    if !written.is_accepted() {
        println!("{}", written.verdict);
        return ExitCode::FAILURE;
    }
    println!("{}", hex::text_of(&out[..written.length as usize]));
    ExitCode::SUCCESS
}
