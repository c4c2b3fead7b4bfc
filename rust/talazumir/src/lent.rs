//! The calls that need memory, in memory that the caller lends, as a C caller makes them: nothing is allocated. Each
//! has an answer for every content of what it is lent; `include/talazumir.h` says which.

use crate::link::Progress;
use crate::{boundary, Verdict, MOST_AVPS};

/// The numbers of a log, nine for each AVP. It is scratch memory: whatever it holds before a call plays no part, and
/// what it holds afterwards is no record.
pub const LOG_NUMBERS: usize = 9 * MOST_AVPS;

/// The octets of the buffer that a link's commands are put together in, at least.
pub const BUFFER: usize = 16_384;

/// The number of the verdict in a [`Step`] while a command is unfinished: that of no answer, least of all acceptance.
pub const NO_VERDICT: u32 = u32::MAX;

/// The verdict of a command, without its record. [`Reader`](crate::Reader) has a log of its own.
pub fn verdict(octets: &[u8], log: &mut [u32; LOG_NUMBERS]) -> Verdict {
    boundary::verdict(octets, log)
}

/// What the caller keeps for a link between calls of [`take`]. Any numbers are a state.
#[must_use = "it is for the next call"]
#[repr(C)]
#[derive(Clone, Copy, Debug, PartialEq, Eq, Hash)]
pub struct State {
    /// How many octets of the next command the buffer holds.
    pub held: u32,
    /// Whether the run has stopped: 0 if not.
    pub stopped: u32,
}

impl State {
    /// The state to start a run with: no octets held, not stopped.
    pub fn fresh() -> State {
        boundary::link_fresh()
    }
}

impl Default for State {
    fn default() -> State {
        State::fresh()
    }
}

/// What comes back for a fragment, as it crosses the boundary; [`Step::progress()`] puts `progress` and `verdict`
/// together.
#[must_use = "the state in it is for the next call, and octets that were not taken are to be offered again"]
#[repr(C)]
#[derive(Clone, Copy, Debug, PartialEq, Eq, Hash)]
pub struct Step {
    /// How many octets of the fragment were taken.
    pub taken: usize,
    /// What stopped the call: 0 the fragment's end, 1 the end of a command, 2 a refusal.
    pub progress: u32,
    /// Its verdict; [`NO_VERDICT`] and three times 0 while the command is unfinished.
    pub verdict: Verdict,
    /// The state for the next call.
    pub state: State,
}

impl Step {
    /// What stopped the call, with its verdict.
    pub fn progress(&self) -> Progress {
        match self.progress {
            0 => Progress::Unfinished,
            1 => Progress::Command(self.verdict),
            _ => Progress::Refusal(self.verdict),
        }
    }
}

/// Takes a fragment of a run of commands up to the end of one whole command: puts its octets into the buffer behind
/// those held, and says how many it took. [`Link`](crate::Link) sees to what the caller sees to here: to start with
/// [`State::fresh`], hand back the state of each step, lend the same buffer of at least [`BUFFER`] octets to each call,
/// write nothing to it, and offer again what was not taken.
///
/// ```
/// use talazumir::lent::{take, verdict, State, BUFFER, LOG_NUMBERS};
///
/// let header = [1, 0, 0, 20, 0xC0, 0x80, 0, 0x73, 1, 0, 0, 0x84, 0, 0, 0, 1, 0, 0, 0, 2];
/// let (mut buffer, mut log) = ([0; BUFFER], [0; LOG_NUMBERS]);
/// let first = take(State::fresh(), &header[..7], &mut buffer, &mut log);
/// assert_eq!((first.taken, first.state.held), (7, 7));
/// let second = take(first.state, &header[7..], &mut buffer, &mut log);
/// assert_eq!((second.taken, second.state), (13, State::fresh()));
/// assert_eq!(second.verdict, verdict(&header, &mut log));
/// ```
pub fn take(state: State, fragment: &[u8], buffer: &mut [u8], log: &mut [u32; LOG_NUMBERS]) -> Step {
    boundary::link_take(state, fragment, buffer, log)
}
