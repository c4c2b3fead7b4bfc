//! Lists of write calls on one output.

use crate::draft::Draft;
use crate::meaning::Meaning;
use crate::writer::Written;

/// The octets that a call lends.
#[derive(Clone, Debug)]
pub enum Lent {
    /// Octets of its own.
    Own(Vec<u8>),
    /// What the calls before it have written.
    Written,
}

/// A call of the writer.
#[derive(Clone, Debug)]
pub struct Call {
    /// The draft.
    pub draft: Draft,
    /// Its lent octets.
    pub lent: Lent,
}

/// Any writer. A trial of one is compiled once for all of them, which are many in the tests.
pub type Writer<'a> = dyn FnMut(&Draft, &[u8], &mut [u8]) -> Written + 'a;

/// What a list of calls leaves.
#[derive(Clone, Debug, Default, PartialEq, Eq)]
pub struct Outcome {
    /// The answer to each call.
    pub answers: Vec<Written>,
    /// Octets written, end to end from the output's start.
    pub written: usize,
    /// The meanings of the accepted drafts, each as it stood at its call.
    pub meanings: Vec<Meaning>,
}

/// Makes the calls with this writer. Each gets the part of the output behind what was written so
/// far; a refused one leaves that part to the next.
pub fn run(calls: &[Call], output: &mut [u8], write: &mut Writer) -> Outcome {
    let mut outcome = Outcome::default();
    for call in calls {
        let (done, part) = output.split_at_mut(outcome.written);
        let octets = match &call.lent {
            Lent::Own(octets) => octets,
            Lent::Written => &*done,
        };
        let answer = write(&call.draft, octets, part);
        if answer.verdict.number == 0 {
            outcome.meanings.push(Meaning::of_draft(&call.draft, octets));
        }
        outcome.written += answer.length as usize;
        outcome.answers.push(answer);
    }
    outcome
}
