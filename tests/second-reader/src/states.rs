//! Holds a canonical form to the second one on generated commands, each with an output of some
//! room: the answer and the whole output; and on pairs of commands that differ in one thing: the
//! forms are the same exactly if the commands agree.

use crate::canonical::canonical;
use crate::command_line::{conclude, numbers};
use crate::generate::drafts::output;
use crate::generate::lists::{twins, Change, Twins};
use crate::generate::{command, Prng};
use crate::meaning::agree;
use crate::properties;
use crate::state_coverage::StateCoverage;
use crate::writer::Written;
use std::process::ExitCode;

/// Any canonical form. A trial of one is compiled once for all of them.
pub type Form<'a> = dyn FnMut(&[u8], &mut [u8]) -> Written + 'a;

/// Tries a canonical form as the arguments SEED COMMANDS PAIRS say, and prints what was reached. It
/// fails at the first difference, and where a cell of the table is empty.
pub fn main(form: &mut Form) -> ExitCode {
    let Some([seed, commands, pairs]) = numbers() else {
        eprintln!("arguments: SEED COMMANDS PAIRS");
        return ExitCode::from(2);
    };
    conclude(trial(seed, commands, pairs, form), StateCoverage::gaps)
}

/// Tries a canonical form on this many commands and pairs; the first difference or broken property
/// is the error, with the command.
pub fn trial(seed: u64, commands: u64, pairs: u64, form: &mut Form) -> Result<StateCoverage, String> {
    let mut prng = Prng::new(seed);
    let mut coverage = StateCoverage::default();
    for ordinal in 1..=commands {
        let octets = any_command(&mut prng);
        let before = output(octets.len(), &mut prng);
        let answer = one(&octets, &before, form).map_err(|words| {
            let (room, hex) = (before.len(), hex(&octets));
            format!("seed {seed}, command {ordinal}, room {room}: {words}\n{hex}")
        })?;
        coverage.note(&octets, before.len(), &answer);
    }
    for ordinal in 1..=pairs {
        let twins = twins(&mut prng);
        both(&twins, form).map_err(|words| {
            let [a, b] = twins.commands.each_ref().map(|octets| hex(octets));
            format!("seed {seed}, pair {ordinal}, {:?}: {words}\n{a}\n{b}", twins.change)
        })?;
        coverage.note_twins(&twins);
    }
    Ok(coverage)
}

/// A generated command; one in fifty loses octets at its end, so that its length field is not the
/// slice's length.
fn any_command(prng: &mut Prng) -> Vec<u8> {
    let mut octets = command(prng);
    if prng.one_in(50) {
        octets.truncate(prng.below(octets.len()));
    }
    octets
}

/// One command by both.
fn one(octets: &[u8], before: &[u8], form: &mut Form) -> Result<Written, String> {
    let (mut ours, mut expected) = (before.to_vec(), before.to_vec());
    let answer = form(octets, &mut ours);
    let second = canonical(octets, &mut expected);
    if answer != second {
        return Err(format!("the answer is {answer:?}, the second form's {second:?}"));
    }
    if let Some(at) = (0..ours.len()).find(|&at| ours[at] != expected[at]) {
        return Err(format!(
            "octet {at} of the output is {:02x}, the second form's {:02x}; {answer:?}",
            ours[at], expected[at]
        ));
    }
    properties::form(octets, before, &ours, &answer)?;
    let written = &ours[..answer.length as usize];
    if answer.verdict.number == 0 && exact(written, form) != written {
        return Err("the form of the form is another".into());
    }
    Ok(answer)
}

/// Two commands: the forms are the same exactly if the commands agree, and as the change says.
fn both(twins: &Twins, form: &mut Form) -> Result<(), String> {
    let [a, b] = &twins.commands;
    let same = exact(a, form) == exact(b, form);
    if same != agree(a, b) {
        return Err(format!("the forms are {}", if same { "the same" } else { "not the same" }));
    }
    if same != (twins.change == Change::Nothing) {
        return Err("the commands agree, or do not, against the change".into());
    }
    Ok(())
}

/// What is written in a room as long as the command.
fn exact(octets: &[u8], form: &mut Form) -> Vec<u8> {
    let mut output = vec![0; octets.len()];
    let length = form(octets, &mut output).length;
    output.truncate(length as usize);
    output
}

fn hex(octets: &[u8]) -> String {
    octets.iter().map(|octet| format!("{octet:02x}")).collect()
}
