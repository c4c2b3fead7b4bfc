//! The processes of a run. Where stack and heap lie moves the time of the smallest commands by a tenth, and it stays
//! the same while a process lives: each process has them elsewhere, and what they come to is put together.

use crate::commands::mixes;
use crate::summary::Line;
use crate::turns::Effort;
use crate::{growth, listing, rows};
use std::env;
use std::hint::black_box;
use std::path::Path;
use std::process::{Command, Stdio};
use std::time::Duration;

pub const PROCESSES: usize = 7;

/// A process takes about a quarter of a minute with this.
pub const EFFORT: Effort = Effort { rounds: 17, turn: Duration::from_micros(600) };

/// A turn of a listing is one process.
pub const LISTING: Effort = Effort { rounds: 51, turn: Duration::ZERO };

/// The environment's variable whose length moves stack and heap.
const ROOM: &str = "BENCH_ROOM";

/// Octets by which it grows from process to process: nine cache lines and a quarter.
const STEP: usize = 592;

/// Starts the bench once for each process, one after the other, and gives the lines of each.
pub fn run(bench: &Path, seed: u64) -> Result<Vec<Vec<Line>>, String> {
    let mut processes = Vec::new();
    for i in 0..PROCESSES {
        eprintln!("bench: process {} of {PROCESSES}", i + 1);
        let mut process = Command::new(bench);
        process.args(["process", &seed.to_string()]).env(ROOM, "x".repeat(i * STEP)).stderr(Stdio::inherit());
        let output = process.output().map_err(|error| format!("{}: {error}", bench.display()))?;
        if !output.status.success() {
            return Err(format!("process {} has failed", i + 1));
        }
        let lines = String::from_utf8_lossy(&output.stdout);
        processes.push(lines.lines().map(str::parse).collect::<Result<_, _>>()?);
    }
    Ok(processes)
}

/// What one process measures. Its environment has moved the stack; as much memory moves the heap.
pub fn lines(bench: &Path, seed: u64) -> Result<Vec<Line>, String> {
    let room = vec![0u8; env::var_os(ROOM).map_or(0, |room| room.len())];
    let mixes = mixes(seed);
    let mut lines = rows::lines(&mixes, EFFORT);
    if let Ok(verdicts) = listing::program() {
        lines.extend(listing::lines(&mixes, LISTING, &verdicts, bench)?);
    }
    lines.extend(growth::lines(EFFORT));
    black_box(room);
    Ok(lines)
}
