//! Measures the proved reader and the second reader side by side and reports ratios: the proved reader's time over the
//! second reader's on the same work. A ratio below 1 says that the proved reader is faster.
//!
//! `bench [SEED]` starts itself as several processes, one after the other, each with stack and heap elsewhere
//! (`processes.rs`), and prints of each row the median and the range over the processes. `bench process SEED` is one
//! of them; it prints the ratios of its rounds. `bench listing` prints the second reader's listing of the book on
//! standard input, to be measured beside the program `verdicts`.

use bench::processes::{EFFORT, LISTING, PROCESSES};
use bench::{listing, processes, summary, SEED};
use std::env;
use std::path::Path;
use std::process::ExitCode;

fn main() -> ExitCode {
    let words: Vec<String> = env::args().skip(1).collect();
    let words: Vec<&str> = words.iter().map(String::as_str).collect();
    let done = match words[..] {
        [] => Some(measure(run, SEED)),
        ["listing"] => Some(listing::print_second().map_err(|error| error.to_string())),
        ["process", seed] => seed.parse().ok().map(|seed| measure(process, seed)),
        [seed] => seed.parse().ok().map(|seed| measure(run, seed)),
        _ => None,
    };
    match done {
        Some(Ok(())) => ExitCode::SUCCESS,
        Some(Err(words)) => {
            eprintln!("bench: {words}");
            ExitCode::FAILURE
        }
        None => {
            eprintln!("usage: bench [SEED] (a number, {SEED} if there is none)");
            ExitCode::from(2)
        }
    }
}

/// Measures, with the path of this program, unless this build says nothing of the times of another.
fn measure(work: fn(&Path, u64) -> Result<(), String>, seed: u64) -> Result<(), String> {
    if cfg!(debug_assertions) {
        return Err("this build has the checks of a debug build, which cost time: run it with --release".to_string());
    }
    let bench = env::current_exe().map_err(|error| error.to_string())?;
    work(&bench, seed)
}

fn run(bench: &Path, seed: u64) -> Result<(), String> {
    let text = summary::summary(&processes::run(bench, seed)?)?;
    println!(
        "seed {seed}, {PROCESSES} processes of {} rounds, {} for a listing; ratio of times, proved reader to second \
         reader: median (least to greatest) of the processes' medians",
        EFFORT.rounds, LISTING.rounds
    );
    print!("{text}");
    if let Err(words) = listing::program() {
        println!("listings were not measured: {words}");
    }
    Ok(())
}

fn process(bench: &Path, seed: u64) -> Result<(), String> {
    for line in processes::lines(bench, seed)? {
        println!("{line}");
    }
    Ok(())
}
