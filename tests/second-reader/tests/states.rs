//! The trial accepts the second canonical form, and finds forms that are wrong in one thing.

use second_reader::meaning::{padding, Meaning};
use second_reader::states::trial;
use second_reader::{canonical, number, verdict, Verdict, Written};

const SEED: u64 = 20_261_115;

#[test]
fn the_second_form_passes() {
    let coverage = trial(SEED, 60_000, 3_000, &mut canonical).unwrap_or_else(|words| panic!("{words}"));
    assert_eq!(coverage.gaps(), Vec::<String>::new());
}

/// Expects the trial to find this form wrong.
fn found(name: &str, mut form: impl FnMut(&[u8], &mut [u8]) -> Written) {
    assert!(trial(SEED, 60_000, 0, &mut form).is_err(), "{name}: not found");
}

/// Expects the trial to find this form wrong by pairs of commands alone.
fn found_by_pairs(name: &str, mut form: impl FnMut(&[u8], &mut [u8]) -> Written) {
    assert!(trial(SEED, 0, 3_000, &mut form).is_err(), "{name}: not found");
}

fn no_room() -> Written {
    Written { verdict: Verdict::unnamed(number::OUTPUT_TOO_SHORT, 0), length: 0 }
}

#[test]
fn other_octets() {
    found("the command's own octets", copied);
    found("padding kept", |octets, output| {
        let answer = canonical(octets, output);
        if answer.length > 0 {
            let padding = padding(octets);
            (0..octets.len()).filter(|&at| padding[at]).for_each(|at| output[at] = octets[at]);
        }
        answer
    });
    found("reserved bits kept", |octets, output| {
        let answer = canonical(octets, output);
        if answer.length > 0 {
            output[4] = octets[4];
        }
        answer
    });
    found("one octet past the length", |octets, output| {
        let answer = canonical(octets, output);
        if let Some(octet) = output.get_mut(answer.length as usize).filter(|_| answer.length > 0) {
            *octet = 0;
        }
        answer
    });
    found("the output cleared on a refusal", |octets, output| {
        let answer = canonical(octets, output);
        if answer.verdict.number != 0 {
            output.fill(0);
        }
        answer
    });
    found("a refused command copied out", |octets, output| {
        let answer = canonical(octets, output);
        if answer.verdict.number == number::MISSING_AVP && octets.len() <= output.len() {
            output[..octets.len()].copy_from_slice(octets);
        }
        answer
    });
}

/// The command's own octets, where it is accepted.
fn copied(octets: &[u8], output: &mut [u8]) -> Written {
    let answer = canonical(octets, output);
    if answer.length > 0 {
        output[..octets.len()].copy_from_slice(octets);
    }
    answer
}

#[test]
fn other_answers() {
    found("7004 before the reader's refusal", |octets, output| {
        if output.len() < octets.len() {
            return no_room();
        }
        canonical(octets, output)
    });
    found("room for one octet more wanted", |octets, output| {
        if verdict(octets).number == 0 && output.len() <= octets.len() {
            return no_room();
        }
        canonical(octets, output)
    });
    found("room for the longest command wanted", |octets, output| {
        if verdict(octets).number == 0 && output.len() < 16_384 {
            return no_room();
        }
        canonical(octets, output)
    });
    found("a length one less", |octets, output| {
        let mut answer = canonical(octets, output);
        answer.length = answer.length.saturating_sub(1);
        answer
    });
    found("a refusal with the command's length", |octets, output| {
        let mut answer = canonical(octets, output);
        if answer.verdict.number != 0 {
            answer.length = octets.len() as u32;
        }
        answer
    });
    found("a refusal without its place", |octets, output| {
        let mut answer = canonical(octets, output);
        answer.verdict.place = 0;
        answer
    });
    found("refuses all", |_, _| no_room());
}

#[test]
fn names_of_two_states() {
    found_by_pairs("the command's own octets", copied);
    // The lab's second version: the AVP texts run together.
    found_by_pairs("texts run together", |octets, output| {
        let avps = Meaning::of_command(octets).map_or(Vec::new(), |meaning| meaning.avps);
        let texts: Vec<u8> = avps.into_iter().filter_map(|avp| avp.data).flatten().collect();
        output[..texts.len()].copy_from_slice(&texts);
        Written { verdict: verdict(octets), length: texts.len() as u32 }
    });
    found_by_pairs("T is lost", |octets, output| {
        let answer = canonical(octets, output);
        output[4] &= !0x10;
        answer
    });
    for at in [12, 16] {
        found_by_pairs("an identifier is lost", |octets, output| {
            let answer = canonical(octets, output);
            output[at..at + 4].fill(0);
            answer
        });
    }
}
