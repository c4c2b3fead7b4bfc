//! Commands from a link through the safe functions, by document 02 [7]: whatever the cutting, where a run stops, and
//! the answers to states and buffers that no run has.

use commands::{L, S};
use std::panic::{catch_unwind, AssertUnwindSafe};
use talazumir::lent::{take, State, Step, BUFFER, LOG_NUMBERS, NO_VERDICT};
use talazumir::link::{Link, Progress};
use talazumir::Verdict;

const H: [u8; 20] = [1, 0, 0, 20, 0xC0, 0x80, 0, 0x73, 1, 0, 0, 0x84, 0, 0, 0, 1, 0, 0, 0, 2];
const H_VERDICT: Verdict = Verdict { number: 5005, place: 20, vendor: 0, code: 263 };
const ACCEPTED: Verdict = refusal(0, 0);

const fn refusal(number: u32, place: u32) -> Verdict {
    Verdict { number, place, vendor: 0, code: 0 }
}

/// H with this length field.
fn header(length: u32) -> [u8; 20] {
    let mut octets = H;
    octets[1..4].copy_from_slice(&length.to_be_bytes()[1..]);
    octets
}

#[test]
fn each_cutting_finds_the_same() {
    // S, H, a command of 21 octets, which stops no run, S, and 19 octets of H
    let run = [&S[..], &H, &header(21), &[0], &S, &H[..19]].concat();
    let expected = [Ok(ACCEPTED), Ok(H_VERDICT), Ok(refusal(5015, 1)), Ok(ACCEPTED)];
    let found = |fragments: &[&[u8]]| {
        let mut link = Link::new();
        let verdicts: Vec<_> = link.commands(fragments).collect();
        assert_eq!(link.unfinished(), &H[..19]);
        verdicts
    };
    for first in 0..=run.len() {
        for second in first..=run.len() {
            assert_eq!(found(&[&run[..first], &run[first..second], &run[second..]]), expected, "{first}, {second}");
        }
    }
    for size in 1..=run.len() {
        assert_eq!(found(&run.chunks(size).collect::<Vec<_>>()), expected, "pieces of {size}");
    }
}

#[test]
fn a_call_takes_one_command_and_keeps_its_octets() {
    let mut link = Link::new();
    let run = [&L[..], &S].concat();
    for (fragment, octets, progress) in [
        (&run[..0], 0, Progress::Unfinished),
        (&run[..3], 3, Progress::Unfinished),
        (&run[3..16_383], 16_380, Progress::Unfinished),
        (&run[16_383..], 1, Progress::Command(ACCEPTED)),
    ] {
        assert_eq!(link.command(), None);
        let taken = link.take(fragment);
        assert_eq!((taken.octets, taken.progress), (octets, progress));
    }
    assert_eq!(link.command(), Some(&L[..]));
    assert_eq!(link.take(&run[16_384..]).progress, Progress::Command(ACCEPTED));
    assert_eq!(link.command(), Some(&S[..]));
    assert!(link.unfinished().is_empty());
    assert_eq!(link.take(&[]).progress, Progress::Unfinished);
    assert_eq!(link.command(), None);
}

#[test]
fn commands_end_with_none_in_each_cutting() {
    let cuttings: [&[&[u8]]; 4] = [&[&S], &[&S, &[]], &[&[], &S[..7], &S[7..]], &[&S[..159], &[], &S[159..], &[], &[]]];
    for fragments in cuttings {
        let mut link = Link::new();
        let mut commands = link.commands(fragments);
        assert_eq!(commands.next(), Some(Ok(ACCEPTED)));
        assert_eq!(commands.command(), Some(&S[..]));
        for _ in 0..2 {
            assert_eq!(commands.next(), None);
            assert_eq!((commands.command(), commands.rest()), (None, &[][..]), "{fragments:?}");
        }
        assert_eq!(link.command(), None);
    }
}

#[test]
fn a_source_that_panics_costs_no_octet_and_doubles_none() {
    let run = [&S[..], &H, &S].concat();
    let expected = [Ok(ACCEPTED), Ok(H_VERDICT), Ok(ACCEPTED)];
    for size in 1..=run.len() {
        let mut pieces = run.chunks(size);
        let mut calls = 0;
        let source = std::iter::from_fn(|| {
            calls += 1;
            // by no panic!, which would print
            if calls % 2 == 0 {
                std::panic::resume_unwind(Box::new("the source panics at each second call"));
            }
            pieces.next()
        });
        let mut link = Link::new();
        let mut commands = link.commands(source);
        let mut verdicts = Vec::new();
        loop {
            match catch_unwind(AssertUnwindSafe(|| commands.next())) {
                Ok(Some(verdict)) => verdicts.push(verdict),
                Ok(None) => break,
                Err(_) => assert_eq!((commands.command(), commands.rest()), (None, &[][..])),
            }
        }
        assert_eq!(verdicts, expected, "pieces of {size}");
        assert!(link.unfinished().is_empty());
    }
}

#[test]
fn the_fourth_octet_stops_a_run() {
    for (length, number) in [(0, 5015), (19, 5015), (16_385, 7001), (16_388, 7001), (16_777_215, 7001)] {
        let run = [&S[..], &header(length)].concat();
        let mut link = Link::new();
        let mut commands = link.commands(run.chunks(9));
        assert_eq!(commands.next(), Some(Ok(ACCEPTED)));
        assert_eq!(commands.next(), Some(Err(refusal(number, 1))), "{length}");
        // 162 to 171 is the fragment of the fourth octet, 163
        assert_eq!(commands.rest(), &run[164..171]);
        assert_eq!(commands.next(), None);
        assert_eq!((link.is_stopped(), link.unfinished()), (true, &header(length)[..4]));
        for fragment in [&[][..], &S] {
            let taken = link.take(fragment);
            assert_eq!((taken.octets, taken.progress), (0, Progress::Refusal(refusal(7009, 0))));
            assert_eq!(link.commands([fragment]).collect::<Vec<_>>(), [Err(refusal(7009, 0))]);
        }
        link.start_afresh();
        assert_eq!(link.take(&S).progress, Progress::Command(ACCEPTED));
    }
    for length in [20, 21, 16_384] {
        assert_eq!(Link::new().take(&header(length)[..19]).progress, Progress::Unfinished);
    }
}

#[test]
fn to_start_afresh_forgets_what_is_held() {
    for held in 0..160 {
        let mut link = Link::new();
        let _ = link.take(&S[..held]);
        assert_eq!(link.unfinished(), &S[..held]);
        link.start_afresh();
        assert!(link.unfinished().is_empty());
        assert_eq!(link.take(&H).progress, Progress::Command(H_VERDICT), "{held}");
    }
}

#[test]
fn debug_shows_the_state_and_no_memory() {
    let mut link = Link::new();
    let _ = link.take(&S[..3]);
    assert_eq!(format!("{link:?}"), "Link { state: State { held: 3, stopped: 0 }, found: None, .. }");
    let mut commands = link.commands([[&S[3..], &H].concat()]);
    assert_eq!(commands.next(), Some(Ok(ACCEPTED)));
    assert_eq!(
        format!("{commands:?}"),
        "Commands { link: Link { state: State { held: 0, stopped: 0 }, found: Some(160), .. }, taken: 157, .. }"
    );
}

#[test]
fn any_state_and_any_buffer_have_an_answer() {
    let none = refusal(NO_VERDICT, 0);
    // held, stopped, the length field in the buffer, its size; progress, number and held afterwards for the fragment S
    for (held, stopped, field, size, progress, number, after) in [
        (0, 0, 0, BUFFER - 1, 2, 7004, 0),
        (u32::MAX, 1, 0, 0, 2, 7004, u32::MAX),
        (0, 1, 20, BUFFER, 2, 7009, 0),
        (0, u32::MAX, 20, BUFFER, 2, 7009, 0),
        (4, 0, 19, BUFFER, 2, 7009, 4),
        (4, 0, 16_385, BUFFER, 2, 7009, 4),
        (20, 0, 20, BUFFER, 2, 7009, 20),
        (21, 0, 20, BUFFER, 2, 7009, 21),
        (16_384, 0, 16_384, BUFFER, 2, 7009, 16_384),
        (u32::MAX, 0, 16_384, BUFFER, 2, 7009, u32::MAX),
        (4, 0, 16_384, BUFFER, 0, NO_VERDICT, 164),
        (0, 0, 0, BUFFER + 1, 1, 0, 0),
    ] {
        let mut buffer = vec![0xA5; size];
        if size > 0 {
            buffer[..4].copy_from_slice(&header(field)[..4]);
        }
        let before = buffer.clone();
        let state = State { held, stopped };
        let mut log = [7; LOG_NUMBERS];
        let step = take(state, &S, &mut buffer, &mut log);
        let taken = if progress == 2 { 0 } else { 160 };
        let verdict = if number == NO_VERDICT { none } else { refusal(number, 0) };
        let state = State { held: after, stopped };
        assert_eq!(step, Step { taken, progress, verdict, state }, "{held}, {stopped}, {field}, {size}");
        let start = if progress == 2 { 0 } else { held as usize };
        let expected = [&before[..start], &S[..taken], &before[start + taken..]].concat();
        assert_eq!(buffer, expected);
        assert_eq!(log == [7; LOG_NUMBERS], progress != 1);
    }
    assert_eq!(State::fresh(), State { held: 0, stopped: 0 });
}
