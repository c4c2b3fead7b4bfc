//! The trial accepts the second writer, and finds writers that are wrong in one thing.

use second_reader::generate::drafts::settle;
use second_reader::trial::trial;
use second_reader::{length, number, write, Draft, Place, Verdict, Written};

const SEED: u64 = 20_261_115;

#[test]
fn the_second_writer_passes() {
    let report = trial(SEED, 60_000, 6_000, &mut write).unwrap_or_else(|words| panic!("{words}"));
    assert_eq!(report.gaps(), Vec::<String>::new());
}

fn refusal(number: u32) -> Written {
    Written { verdict: Verdict::unnamed(number, 0), length: 0 }
}

/// Expects the trial to find this writer wrong, and to show a small draft.
fn found(name: &str, mut writer: impl FnMut(&Draft, &[u8], &mut [u8]) -> Written) {
    let words = trial(SEED, 60_000, 0, &mut writer).err();
    let words = words.unwrap_or_else(|| panic!("{name}: not found"));
    assert!(words.lines().count() < 30, "{name}: {words}");
}

/// Expects the same of a writer that writes another draft.
fn repairing(name: &str, repair: impl Fn(&mut Draft, &[u8])) {
    found(name, |draft, octets, output| {
        let mut draft = draft.clone();
        repair(&mut draft, octets);
        write(&draft, octets, output)
    });
}

#[test]
fn malformed_drafts_that_pass() {
    repairing("count cut to an octet", |draft, _| {
        if draft.count != 256 {
            draft.count &= 0xFF;
        }
    });
    repairing("count above 256 read as 256", |draft, _| draft.count = draft.count.min(256));
    repairing("flags by their lowest bit", |draft, _| draft.t &= 1);
    repairing("AVP flags by their lowest bit", |draft, _| {
        draft.used_mut().iter_mut().for_each(|place| place.m &= 1);
    });
    repairing("AVP flags set where not 0", |draft, _| {
        draft.used_mut().iter_mut().for_each(|place| place.p = place.p.min(1));
    });
    repairing("last place not looked at", |draft, _| {
        if draft.count < 256 {
            draft.places[255] = Place::default();
        }
    });
    repairing("first unused place not looked at", |draft, _| {
        if let Some(place) = draft.places.get_mut(draft.count as usize) {
            *place = Place::default();
        }
    });
    repairing("starts of unused places not looked at", |draft, _| {
        let used = draft.used().len();
        draft.places[used..].iter_mut().for_each(|place| place.start = 0);
    });
    repairing("empty parts anywhere", |draft, _| {
        let places = draft.used_mut().iter_mut();
        places.filter(|place| place.length == 0).for_each(|place| place.start = 0);
    });
    repairing("ends cut to 32 bits", |draft, octets| {
        for place in draft.used_mut() {
            let (end, wraps) = place.start.overflowing_add(place.length);
            if wraps && end as usize <= octets.len() && place.length as usize <= octets.len() {
                place.start = 0;
            }
        }
    });
    repairing("group lengths made right", |draft, _| settle(draft.used_mut()));
    repairing("first depth made 1", |draft, _| {
        if draft.count > 0 {
            draft.places[0].depth = draft.places[0].depth.min(1);
        }
    });
    repairing("a jump by two taken for one", |draft, _| {
        for at in 1..draft.used().len() {
            let before = draft.places[at - 1];
            if before.is_group() && draft.places[at].depth == before.depth.wrapping_add(2) {
                draft.places[at].depth -= 1;
            }
        }
    });
    repairing("groups' starts looked at", |draft, octets| {
        let places = draft.used_mut().iter_mut();
        let outside = |place: &&mut Place| place.is_group() && place.start as usize > octets.len();
        places.filter(outside).for_each(|place| place.depth = 0);
    });
}

#[test]
fn another_order_of_refusals() {
    found("7004 before 7001", |draft, octets, output| {
        let answer = write(draft, octets, output);
        let short = length(draft) > output.len() as u64;
        if answer.verdict.number == number::COMMAND_TOO_LONG && short {
            return refusal(number::OUTPUT_TOO_SHORT);
        }
        answer
    });
    found("7001 before 7006", |draft, octets, output| {
        let answer = write(draft, octets, output);
        if answer.verdict.number == number::MALFORMED_DRAFT && length(draft) > 16_384 {
            return refusal(number::COMMAND_TOO_LONG);
        }
        answer
    });
    found("the reader's refusal before 7004", |draft, octets, output| {
        let answer = write(draft, octets, output);
        let with_room = write(draft, octets, &mut [0; 16_384]);
        if answer.verdict.number == number::OUTPUT_TOO_SHORT && with_room.verdict.number != 0 {
            return with_room;
        }
        answer
    });
    found("7001 at place 1", |draft, octets, output| {
        let mut answer = write(draft, octets, output);
        answer.verdict.place += u32::from(answer.verdict.number == number::COMMAND_TOO_LONG);
        answer
    });
    found("length cut to 32 bits", |draft, octets, output| {
        let answer = write(draft, octets, output);
        if answer.verdict.number == number::COMMAND_TOO_LONG && length(draft) >= 1 << 32 {
            return refusal(number::OUTPUT_TOO_SHORT);
        }
        answer
    });
    found("16,384 is too long", |draft, octets, output| {
        let answer = write(draft, octets, output);
        if length(draft) == 16_384 && answer.verdict.number != number::MALFORMED_DRAFT {
            return refusal(number::COMMAND_TOO_LONG);
        }
        answer
    });
}

#[test]
fn another_output() {
    found("one octet past the length", |draft, octets, output| {
        let answer = write(draft, octets, output);
        if let Some(octet) = output.get_mut(answer.length as usize).filter(|_| answer.length > 0) {
            *octet = 0;
        }
        answer
    });
    found("a refusal leaves what was written", |draft, octets, output| {
        let answer = write(draft, octets, output);
        if answer.verdict.number == number::MISSING_AVP {
            output[0] = 1;
        }
        answer
    });
    found("padding as the output had it", |draft, octets, output| {
        let before = output.to_vec();
        let answer = write(draft, octets, output);
        let written = &mut output[..answer.length as usize];
        if answer.length > 0 {
            let padding = second_reader::meaning::padding(written);
            (0..written.len()).filter(|&at| padding[at]).for_each(|at| written[at] = before[at]);
        }
        answer
    });
    found("the length without the header", |draft, octets, output| {
        let mut answer = write(draft, octets, output);
        answer.length = answer.length.saturating_sub(20);
        answer
    });
    repairing("T is lost", |draft, _| draft.t -= u32::from(draft.t == 1));
    repairing("an AVP's P is lost", |draft, _| {
        draft.used_mut().iter_mut().for_each(|place| place.p -= u32::from(place.p == 1));
    });
}
