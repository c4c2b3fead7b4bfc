//! What the programs that try a writer or a canonical form have in common.

use std::fmt::Display;
use std::process::ExitCode;

/// The arguments, as numbers.
pub fn numbers<const N: usize>() -> Option<[u64; N]> {
    let numbers: Option<Vec<u64>> = std::env::args().skip(1).map(|word| word.parse().ok()).collect();
    numbers?.try_into().ok()
}

/// Prints what a trial reached and what it did not, or what it found. Both are failures.
pub fn conclude<R: Display>(trial: Result<R, String>, gaps: impl Fn(&R) -> Vec<String>) -> ExitCode {
    let report = match trial {
        Ok(report) => report,
        Err(words) => {
            println!("{words}");
            return ExitCode::FAILURE;
        }
    };
    print!("{report}");
    let gaps = gaps(&report);
    for gap in &gaps {
        println!("not reached: {gap}");
    }
    if gaps.is_empty() {
        ExitCode::SUCCESS
    } else {
        ExitCode::FAILURE
    }
}
