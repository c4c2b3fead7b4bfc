//! The memory that both readers of a link are lent.

use super::Take;
use crate::link::{self, State, Step};

/// Octets around a lent buffer, which no call may alter.
const AROUND: usize = 64;

/// The same memory for both readers, and as it is to be.
pub struct Lent {
    /// Octets of the buffer.
    pub room: usize,
    ours: Vec<u8>,
    second: Vec<u8>,
    due: Vec<u8>,
}

impl Lent {
    /// A buffer of some content.
    pub fn new(room: usize) -> Lent {
        let octets: Vec<u8> = (0..room + 2 * AROUND).map(|at| (at * 167 + 89) as u8).collect();
        Lent { room, ours: octets.clone(), second: octets.clone(), due: octets }
    }

    /// The buffer as it is to be.
    pub fn buffer(&self) -> &[u8] {
        &self.due[AROUND..][..self.room]
    }

    /// Puts octets into the buffer, as no caller of a run may.
    pub fn put(&mut self, at: usize, octets: &[u8]) {
        for memory in [&mut self.ours, &mut self.second, &mut self.due] {
            memory[AROUND + at..][..octets.len()].copy_from_slice(octets);
        }
    }

    /// One call by both: the same answer, and of all memory only the octets taken are put, from those
    /// held on.
    pub fn call(&mut self, state: State, fragment: &[u8], take: &mut Take) -> Result<Step, String> {
        let answer = take(state, fragment, &mut self.ours[AROUND..][..self.room])?;
        let second = link::take(state, fragment, &mut self.second[AROUND..][..self.room]);
        if answer != second {
            return Err(format!("the answer is {answer:?}, the second reader's {second:?}"));
        }
        if answer.taken > 0 {
            self.due[AROUND + state.held as usize..][..answer.taken].copy_from_slice(&fragment[..answer.taken]);
        }
        for (whose, memory) in [("", &self.ours), ("the second reader's ", &self.second)] {
            if memory != &self.due {
                let at = (0..memory.len()).find(|&at| memory[at] != self.due[at]).unwrap_or(0) as i64;
                return Err(format!("octet {} of {whose}buffer is another; {answer:?}", at - AROUND as i64));
            }
        }
        Ok(answer)
    }
}
