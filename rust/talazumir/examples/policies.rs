//! Reads an answer in hex from the command line and prints the Transfer-Policies (4207 of 3GPP) that it offers: their
//! number; Reference-Id and PCRF-Address of the answer, in hex; of each policy its ordinal and position,
//! Transfer-Policy-Id, Rating-Group, bandwidths, and Time-Window with its seconds; then which are the second and the
//! third. What the answer lacks is left out. For a refused command it prints the verdict. Ends with status 0 where the
//! answer is accepted, 1 where it is refused, 2 where the arguments are no octets in hex or the command is a request.
//!
//! `cargo run --example policies -- $(sed 's/#.*//' tests/commands/three-policies.hex)`

mod hex;

use std::process::ExitCode;
use talazumir::{seconds, Record};

const VENDOR_3GPP: u32 = 10415;
const TRANSFER_POLICY: u32 = 4207;

/// A command and its record.
struct Command {
    octets: Vec<u8>,
    record: Record,
}

impl Command {
    /// The position of a group's member with this vendor and code, the first if there are several.
    fn member(&self, group: usize, vendor: u32, code: u32) -> Option<usize> {
        let mut avps = self.record.avps().enumerate().skip(group);
        let depth = avps.next()?.1.depth;
        let name = (depth + 1, vendor, code);
        let mut inside = avps.take_while(|(_, avp)| avp.depth > depth);
        inside.find(|(_, avp)| (avp.depth, avp.vendor, avp.code) == name).map(|(position, _)| position)
    }

    /// The number that such a member holds in four octets.
    fn number(&self, group: usize, vendor: u32, code: u32) -> Option<u32> {
        let data = self.record.data(self.member(group, vendor, code)?, &self.octets);
        data.try_into().ok().map(u32::from_be_bytes)
    }

    /// The start and the end of a policy's Time-Window.
    fn window(&self, policy: usize) -> Option<(u32, u32)> {
        let window = self.member(policy, VENDOR_3GPP, 4204)?;
        Some((self.number(window, VENDOR_3GPP, 4206)?, self.number(window, VENDOR_3GPP, 4205)?))
    }

    /// The data of the first AVP of 3GPP with this code in the command's own list.
    fn print_first(&self, word: &str, code: u32) {
        if let Some(position) = self.record.search(VENDOR_3GPP, code, 0).position {
            println!("{word} in hex: {}", hex::text_of(self.record.data(position, &self.octets)));
        }
    }

    fn print_policy(&self, ordinal: usize, position: usize) {
        print!("{ordinal}: position {position}");
        let numbers = [
            ("id", VENDOR_3GPP, 4208),
            ("rating group", 0, 432),
            ("downlink", VENDOR_3GPP, 515),
            ("uplink", VENDOR_3GPP, 516),
        ];
        for (word, vendor, code) in numbers {
            if let Some(number) = self.number(position, vendor, code) {
                print!(", {word} {number}");
            }
        }
        if let Some((start, end)) = self.window(position) {
            print!(", from {start} to {end}: {} seconds", seconds(start, end));
        }
        println!();
    }

    /// The Transfer-Policy-Id of the policy with this ordinal, which each policy has.
    fn print_nth(&self, word: &str, ordinal: usize) {
        let sought = self.record.search(VENDOR_3GPP, TRANSFER_POLICY, ordinal);
        match sought.position.and_then(|position| self.number(position, VENDOR_3GPP, 4208)) {
            Some(id) => println!("{word} of {}: id {id}", sought.number),
            None => println!("{word} of {}: none", sought.number),
        }
    }
}

fn main() -> ExitCode {
    let words = hex::words();
    let Some(octets) = hex::octets_of(&words) else {
        eprintln!("usage: policies HEX.. (an answer, two hex digits an octet)");
        return ExitCode::from(2);
    };
    let command = match talazumir::read(&octets) {
        Ok(record) => Command { octets, record },
        Err(refusal) => {
            println!("{refusal}");
            return ExitCode::FAILURE;
        }
    };
    if command.record.is_request() {
        eprintln!("policies: the command is a request, which offers no policies");
        return ExitCode::from(2);
    }
    let policies = command.record.all(VENDOR_3GPP, TRANSFER_POLICY);
    println!("policies: {}", policies.len());
    command.print_first("reference", 4202);
    command.print_first("PCRF", 2207);
    for (ordinal, position) in policies.enumerate() {
        command.print_policy(ordinal, position);
    }
    command.print_nth("second", 1);
    command.print_nth("third", 2);
    ExitCode::SUCCESS
}
