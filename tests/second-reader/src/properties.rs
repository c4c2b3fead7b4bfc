//! What holds of every call and of every pair of lists, whoever writes.

use crate::calls::{Lent, Outcome};
use crate::draft::Draft;
use crate::generate::lists::{Change, Pair};
use crate::meaning::{agree, padding, Meaning};
use crate::verdict::number;
use crate::write_coverage::READER;
use crate::writer::Written;

/// One call: a refusal leaves the output, an acceptance what lies past the length; what is written
/// has the draft's meaning and nothing but 0 in padding and reserved bits; and no number comes that
/// a writer cannot give.
pub fn call(draft: &Draft, octets: &[u8], before: &[u8], after: &[u8], answer: &Written) -> Result<(), String> {
    let written = written(before, after, answer)?;
    match answer.verdict.number {
        number::ACCEPTED => {
            if Meaning::of_command(written) != Some(Meaning::of_draft(draft, octets)) {
                return Err("what is written has not the draft's meaning".into());
            }
            clean(written)
        }
        _ if !written.is_empty() => Err("a refusal has a length".into()),
        number::MALFORMED_DRAFT | number::COMMAND_TOO_LONG | number::OUTPUT_TOO_SHORT
            if (answer.verdict.place, answer.verdict.vendor, answer.verdict.code) == (0, 0, 0) =>
        {
            Ok(())
        }
        number if READER.contains(&number) => Ok(()),
        _ => Err(format!("{:?} is no answer of a writer", answer.verdict)),
    }
}

/// One canonical form: a refusal leaves the output, an acceptance what lies past the length; what is
/// written agrees with the command and has nothing but 0 in padding and reserved bits.
pub fn form(octets: &[u8], before: &[u8], after: &[u8], answer: &Written) -> Result<(), String> {
    let written = written(before, after, answer)?;
    match answer.verdict.number {
        number::ACCEPTED => {
            if crate::verdict(written).number != 0 || !agree(octets, written) {
                return Err("what is written does not agree with the command".into());
            }
            clean(written)
        }
        _ if !written.is_empty() => Err("a refusal has a length".into()),
        _ => Ok(()),
    }
}

/// What a call wrote; what lies past the length is as it was.
fn written<'a>(before: &[u8], after: &'a [u8], answer: &Written) -> Result<&'a [u8], String> {
    let length = answer.length as usize;
    let (Some(written), true) = (after.get(..length), after.len() == before.len()) else {
        return Err(format!("{length} octets written, {} in the output", after.len()));
    };
    if after[length..] != before[length..] {
        return Err("octets past the length are not as they were".into());
    }
    Ok(written)
}

/// Padding and reserved bits of an accepted command are 0.
fn clean(command: &[u8]) -> Result<(), String> {
    let mut padded = padding(command).into_iter().zip(command);
    if command[4] & 0x0F != 0 || padded.any(|(is, &octet)| is && octet != 0) {
        return Err("padding or reserved bits are not 0".into());
    }
    Ok(())
}

/// A pair of lists: the octets written are the same exactly if the accepted drafts' meanings are;
/// with room for both, as the change says; and the commands that were lent agree exactly if they
/// have the same meaning.
pub fn pair(pair: &Pair, outcomes: &[Outcome; 2], outputs: [&[u8]; 2]) -> Result<(), String> {
    let [a, b] = outcomes;
    let same_octets = outputs[0][..a.written] == outputs[1][..b.written];
    let same_meanings = a.meanings == b.meanings;
    if same_octets != same_meanings {
        return Err(format!(
            "{:?}: the octets are {}, the meanings {}",
            pair.change,
            said(same_octets),
            said(same_meanings)
        ));
    }
    let expected = Change::KEEPING.contains(&pair.change);
    if pair.room && same_meanings != expected {
        return Err(format!("{:?}: the meanings are {}", pair.change, said(same_meanings)));
    }
    for (a, b) in pair.lists[0].iter().zip(&pair.lists[1]) {
        if let (Lent::Own(a), Lent::Own(b)) = (&a.lent, &b.lent) {
            if let (Some(meant_a), Some(meant_b)) = (Meaning::of_command(a), Meaning::of_command(b)) {
                if agree(a, b) != (meant_a == meant_b) {
                    return Err("two commands agree, or do not, against their meanings".into());
                }
            }
        }
    }
    Ok(())
}

fn said(same: bool) -> &'static str {
    if same {
        "the same"
    } else {
        "not the same"
    }
}
