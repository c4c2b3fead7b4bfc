//! Compares the proved reader of a link, over its boundary, with the second one: each call's answer, state, buffer and
//! log, on runs in many cuttings and on made-up states; and each cutting with the run uncut.
//!
//! `compare-links SEED RUNS STATES` ends with a table of what was reached. It exits 1 at the first difference, or where
//! a cell of the table is empty.

use second_reader::link::{Progress, State, Step};
use second_reader::{links, Verdict};
use std::process::ExitCode;
use talazumir::lent::{self, LOG_NUMBERS, NO_VERDICT};

fn main() -> ExitCode {
    // Numbers that no log of a command has.
    let log = std::array::from_fn(|at| u32::MAX - at as u32);
    let mut logs = Logs { lent: log, due: log };
    links::main(&mut |state, fragment, buffer| take(state, fragment, buffer, &mut logs))
}

/// The log that is lent, and as it is to be: a command's verdict alters it, and nothing else does.
struct Logs {
    lent: [u32; LOG_NUMBERS],
    due: [u32; LOG_NUMBERS],
}

/// The proved reader of a link.
fn take(state: State, fragment: &[u8], buffer: &mut [u8], logs: &mut Logs) -> Result<Step, String> {
    let given = lent::State { held: state.held, stopped: state.stopped };
    let step = lent::take(given, fragment, buffer, &mut logs.lent);
    let v = step.verdict;
    let verdict = Verdict { number: v.number, place: v.place, vendor: v.vendor, code: v.code };
    let progress = match step.progress {
        0 if (v.number, v.place, v.vendor, v.code) == (NO_VERDICT, 0, 0, 0) => Progress::Unfinished,
        1 => Progress::Command(verdict),
        2 => Progress::Refusal(verdict),
        _ => return Err(format!("{step:?} is no answer")),
    };
    if let Progress::Command(_) = progress {
        let command = buffer.get(..(state.held as usize).saturating_add(step.taken));
        let _ = lent::verdict(command.ok_or("the command leaves the buffer")?, &mut logs.due);
    }
    if logs.lent != logs.due {
        return Err(format!("the log is not as the verdict leaves it; {step:?}"));
    }
    let state = State { held: step.state.held, stopped: step.state.stopped };
    Ok(Step { taken: step.taken, progress, state })
}
