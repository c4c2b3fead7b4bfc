//! One reading many times, for callgrind: `instructions READING COMMAND TIMES`. The command is S, L or a file with its
//! octets. `instructions write DIR` writes the bench's own commands there, one to a file, and `instructions books DIR`
//! its books.

use std::hint::black_box;
use std::process::ExitCode;

const USAGE: &str = "usage: instructions proved-verdict|proved-record|second-verdict|second-record S|L|FILE TIMES, \
                     or instructions write|books DIR";

fn main() -> ExitCode {
    let words: Vec<String> = std::env::args().skip(1).collect();
    let words: Vec<&str> = words.iter().map(String::as_str).collect();
    let done = match words[..] {
        ["write", folder] => write(folder),
        ["books", folder] => write_books(folder),
        [reading, command, times] => repeat(reading, command, times),
        _ => Err(USAGE.to_string()),
    };
    match done {
        Ok(()) => ExitCode::SUCCESS,
        Err(words) => {
            eprintln!("{words}");
            ExitCode::from(2)
        }
    }
}

fn write(folder: &str) -> Result<(), String> {
    for mix in bench::commands::mixes(bench::SEED) {
        for (i, octets) in mix.commands.iter().enumerate() {
            let file = format!("{folder}/{}-{i:02}", mix.name().replace([' ', ','], "-"));
            std::fs::write(&file, octets).map_err(|error| format!("{file}: {error}"))?;
        }
    }
    Ok(())
}

fn write_books(folder: &str) -> Result<(), String> {
    for (name, book) in bench::commands::books(&bench::commands::mixes(bench::SEED)) {
        let file = format!("{folder}/{}", name.replace([' ', ','], "-"));
        std::fs::write(&file, book).map_err(|error| format!("{file}: {error}"))?;
    }
    Ok(())
}

fn repeat(reading: &str, command: &str, times: &str) -> Result<(), String> {
    let times: usize = times.parse().map_err(|_| USAGE.to_string())?;
    let octets = match command {
        "S" => commands::S.to_vec(),
        "L" => commands::L.to_vec(),
        file => std::fs::read(file).map_err(|error| format!("{file}: {error}"))?,
    };
    let mut reader = talazumir::Reader::new();
    match reading {
        "proved-verdict" => each(times, &octets, |octets| reader.verdict(octets)),
        "proved-record" => each(times, &octets, talazumir::read),
        "second-verdict" => each(times, &octets, second_reader::verdict),
        "second-record" => each(times, &octets, second_reader::read),
        _ => return Err(USAGE.to_string()),
    }
    Ok(())
}

fn each<A>(times: usize, octets: &[u8], mut read: impl FnMut(&[u8]) -> A) {
    for _ in 0..times {
        black_box(read(black_box(octets)));
    }
}
