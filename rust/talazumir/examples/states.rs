//! A set of states by their canonical octets. Reads commands in hex from the command line, one an argument, and says of
//! each which state it is; a new state with its name, a refused command with its verdict. Ends with status 0 where all
//! are accepted, 1 where one is refused, 2 where an argument is no octets in hex.
//!
//! `cargo run --example states -- "$(sed 's/#.*//' tests/commands/S.hex)" 01000014C080007301000084 ..`

mod hex;

use std::collections::HashMap;
use std::process::ExitCode;

fn main() -> ExitCode {
    let words = hex::words();
    let commands: Option<Vec<Vec<u8>>> = words.iter().map(|word| hex::octets_of(std::slice::from_ref(word))).collect();
    let Some(commands) = commands else {
        eprintln!("usage: states HEX.. (commands, one an argument, two hex digits an octet)");
        return ExitCode::from(2);
    };
    // From the name of a state, its canonical octets, to its number.
    let mut states: HashMap<Vec<u8>, usize> = HashMap::new();
    let mut status = ExitCode::SUCCESS;
    for (command, octets) in (1..).zip(&commands) {
        // A command's canonical form is as long as the command.
        let mut name = vec![0; octets.len()];
        let written = talazumir::canonical(octets, &mut name);
        if !written.is_accepted() {
            println!("{command}: refused, {}", written.verdict);
            status = ExitCode::FAILURE;
            continue;
        }
        let next = states.len() + 1;
        match states.get(&name) {
            Some(state) => println!("{command}: state {state}"),
            None => {
                println!("{command}: state {next}, {}", hex::text_of(&name));
                states.insert(name, next);
            }
        }
    }
    println!("{} commands, {} states", commands.len(), states.len());
    status
}
