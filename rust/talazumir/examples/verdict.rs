//! Reads a command in hex from the command line, prints its verdict and, where it is accepted, its AVPs: position,
//! depth, vendor, code, M, P and data. Ends with status 0 where it is accepted, 1 where it is refused, 2 where the
//! arguments are no octets in hex.
//!
//! `cargo run --example verdict -- $(sed 's/#.*//' tests/commands/S.hex)`

mod hex;

use std::process::ExitCode;

fn main() -> ExitCode {
    let words = hex::words();
    let Some(octets) = hex::octets_of(&words) else {
        eprintln!("usage: verdict HEX.. (a command, two hex digits an octet)");
        return ExitCode::from(2);
    };
    let record = match talazumir::read(&octets) {
        Ok(record) => record,
        Err(refusal) => {
            println!("{refusal}");
            return ExitCode::FAILURE;
        }
    };
    println!("0 0 0 0");
    for (position, avp) in record.avps().enumerate() {
        let data = hex::text_of(record.data(position, &octets));
        println!("{position} {} {} {} {} {} {data}", avp.depth, avp.vendor, avp.code, u8::from(avp.m), u8::from(avp.p));
    }
    ExitCode::SUCCESS
}
