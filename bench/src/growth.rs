//! The rows of commands that grow: by the octets of one AVP, and by the number of AVPs.

use crate::commands::{of_avps, of_length, AVPS, LENGTHS};
use crate::rows::{readings, writing, Accepted};
use crate::summary::{median, Line};
use crate::turns::{Effort, Turns};
use std::slice;

/// The lines of both ways to grow. The last of them have no part of the second reader: they say how much faster our
/// time grows than the command does. A number near or below 1 says that it grows no faster than linearly.
pub fn lines(effort: Effort) -> Vec<Line> {
    let [mut lines, mut growths] = [const { Vec::new() }; 2];
    for (group, unit, sizes, command) in [
        ("octets, of S with a longer Session-Id", "octets", &LENGTHS[..], of_length as fn(usize) -> Vec<u8>),
        ("AVPs, of S with more Route-Records", "AVPs", &AVPS, of_avps),
    ] {
        for (work, steps) in works(sizes.iter().map(|&size| command(size)), effort) {
            for (size, turns) in sizes.iter().zip(&steps) {
                lines.push(Line::new(group, &format!("{work}, {} {unit}", commas(*size)), turns.ratios.clone()));
            }
            let (smallest, largest) = (sizes[0], sizes[sizes.len() - 1]);
            let ours = work.split(" against").next().unwrap_or(work);
            let row = format!("{ours}, from {} to {} {unit}", commas(smallest), commas(largest));
            let growth = growth(&steps) / (largest as f64 / smallest as f64);
            growths.push(Line::new("growth of the proved reader's time over that of the command", &row, vec![growth]));
        }
    }
    lines.extend(growths);
    lines
}

/// Each work with its turns at each of these commands.
fn works(commands: impl Iterator<Item = Vec<u8>>, effort: Effort) -> Vec<(&'static str, Vec<Turns>)> {
    let mut works: Vec<(&str, Vec<Turns>)> = Vec::new();
    for octets in commands {
        let [verdict, record] = readings(slice::from_ref(&octets), effort);
        let write = writing(&[Accepted::of(&octets)], effort);
        for (i, (work, turns)) in [verdict, record, write].into_iter().enumerate() {
            if works.len() == i {
                works.push((work, Vec::new()));
            }
            works[i].1.push(turns);
        }
    }
    works
}

/// Our time at the last step over that at the first.
fn growth(steps: &[Turns]) -> f64 {
    let [first, last] = [&steps[0], &steps[steps.len() - 1]].map(|turns| median(&turns.ours));
    last / first
}

/// A number below a million, with a comma before its last three digits.
fn commas(number: usize) -> String {
    match number {
        0..1_000 => number.to_string(),
        _ => format!("{},{:03}", number / 1_000, number % 1_000),
    }
}
