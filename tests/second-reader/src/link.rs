//! Commands from a link, whose fragments end anywhere (02, request 7): with a count of the octets that
//! are still to come; and beside it what a run holds uncut, by its length fields alone.

use crate::header::{HEADER, LONGEST_COMMAND};
use crate::verdict::{number, Verdict};

/// What a caller hands back from call to call.
#[derive(Clone, Copy, Debug, Default, PartialEq, Eq)]
pub struct State {
    /// Octets of the next command that the buffer holds.
    pub held: u32,
    /// Not 0 once the run has stopped.
    pub stopped: u32,
}

/// What ended a call.
#[derive(Clone, Copy, Debug, PartialEq, Eq)]
pub enum Progress {
    /// The fragment's end.
    Unfinished,
    /// A command's end, with its verdict.
    Command(Verdict),
    /// A refusal of the link's own.
    Refusal(Verdict),
}

/// The answer to one fragment.
#[derive(Clone, Copy, Debug, PartialEq, Eq)]
pub struct Step {
    /// Octets taken.
    pub taken: usize,
    /// What ended the call.
    pub progress: Progress,
    /// To be handed back.
    pub state: State,
}

/// What is still to come of a command.
enum Missing {
    /// Some of its first four octets; those that came are in the word.
    Head { more: u32, word: u32 },
    /// This many octets behind them, one at least.
    Body { more: u32 },
    /// Nothing.
    Nothing,
}

/// Takes octets of a fragment into the buffer until one ends a command, one refuses the run, or
/// there are no more: the first four of a command one by one, the others as many as are there.
pub fn take(state: State, fragment: &[u8], buffer: &mut [u8]) -> Step {
    let refusal = |taken, number, place, state| {
        let progress = Progress::Refusal(Verdict::unnamed(number, place));
        Step { taken, progress, state }
    };
    let mut missing = match resume(state, buffer) {
        Ok(missing) => missing,
        Err(number) => return refusal(0, number, 0, state),
    };
    let held = state.held as usize;
    let mut taken = 0;
    while taken < fragment.len() {
        let rest = &fragment[taken..];
        let part = &rest[..rest.len().min(missing.at_once())];
        buffer[held + taken..][..part.len()].copy_from_slice(part);
        taken += part.len();
        missing = match missing.less(part) {
            Ok(missing) => missing,
            Err(number) => return refusal(taken, number, 1, State { held: 4, stopped: 1 }),
        };
        if let Missing::Nothing = missing {
            let verdict = crate::verdict(&buffer[..held + taken]);
            return Step { taken, progress: Progress::Command(verdict), state: State::default() };
        }
    }
    let state = State { held: state.held + fragment.len() as u32, stopped: 0 };
    Step { taken: fragment.len(), progress: Progress::Unfinished, state }
}

/// What a state waits for, or the number that refuses it.
fn resume(state: State, buffer: &[u8]) -> Result<Missing, u32> {
    if buffer.len() < LONGEST_COMMAND {
        return Err(number::OUTPUT_TOO_SHORT);
    }
    if state.stopped > 0 {
        return Err(number::RUN_STOPPED);
    }
    if state.held < 4 {
        let word = buffer[..state.held as usize].iter().fold(0, |word, &octet| word << 8 | u32::from(octet));
        return Ok(Missing::Head { more: 4 - state.held, word });
    }
    let word = u32::from_be_bytes([buffer[0], buffer[1], buffer[2], buffer[3]]);
    let more = length(word).ok().and_then(|length| length.checked_sub(state.held));
    more.filter(|&more| more > 0).map(|more| Missing::Body { more }).ok_or(number::RUN_STOPPED)
}

/// The length in a command's first four octets, if a link goes on with it.
fn length(word: u32) -> Result<u32, u32> {
    let length = word & 0xFF_FFFF;
    if length < HEADER as u32 {
        Err(number::INVALID_MESSAGE_LENGTH)
    } else if length > LONGEST_COMMAND as u32 {
        Err(number::COMMAND_TOO_LONG)
    } else {
        Ok(length)
    }
}

impl Missing {
    /// How many octets can be taken at once: of the first four one, so that none is taken behind a
    /// length field that refuses the run.
    fn at_once(&self) -> usize {
        match *self {
            Missing::Head { .. } => 1,
            Missing::Body { more } => more as usize,
            Missing::Nothing => 0,
        }
    }

    /// What is missing with these octets more, no more than can be taken at once, or the number
    /// that refuses the run.
    fn less(self, part: &[u8]) -> Result<Missing, u32> {
        let word = |word: u32| part.iter().fold(word, |word, &octet| word << 8 | u32::from(octet));
        Ok(match self {
            Missing::Head { more: 1, word: first } => Missing::Body { more: length(word(first))? - 4 },
            Missing::Head { more, word: first } => Missing::Head { more: more - 1, word: word(first) },
            Missing::Body { more } if more as usize > part.len() => Missing::Body { more: more - part.len() as u32 },
            Missing::Body { .. } | Missing::Nothing => Missing::Nothing,
        })
    }
}

/// What a run comes to.
#[derive(Clone, Debug, PartialEq, Eq)]
pub struct Outcome {
    /// Each command's verdict in order, and the refusal that stops the run.
    pub found: Vec<Progress>,
    /// Octets taken.
    pub taken: usize,
    /// Octets taken of a command that has not ended, or that stop the run.
    pub rest: Vec<u8>,
}

/// What a run comes to, cut by its length fields and by nothing else.
pub fn uncut(run: &[u8]) -> Outcome {
    let mut found = Vec::new();
    let mut rest = run;
    while let Some(&word) = rest.first_chunk::<4>() {
        match length(u32::from_be_bytes(word)) {
            Ok(length) => {
                let Some((command, behind)) = rest.split_at_checked(length as usize) else {
                    break;
                };
                found.push(Progress::Command(crate::verdict(command)));
                rest = behind;
            }
            Err(number) => {
                found.push(Progress::Refusal(Verdict::unnamed(number, 1)));
                return Outcome { found, taken: run.len() - rest.len() + 4, rest: word.to_vec() };
            }
        }
    }
    Outcome { found, taken: run.len(), rest: rest.to_vec() }
}
