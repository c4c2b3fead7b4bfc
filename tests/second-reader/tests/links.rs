//! 02 [7] and its readings, case by case; and the trial accepts the second reader of a link, and finds
//! ones that are wrong in one thing.

use commands::{L, S};
use second_reader::link::{take, uncut, Outcome, Progress, State, Step};
use second_reader::links::trial;
use second_reader::{verdict, Verdict};

const SEED: u64 = 20_261_115;

const fn refusal(number: u32, place: usize) -> Progress {
    Progress::Refusal(Verdict::unnamed(number, place))
}

const FRESH: State = State { held: 0, stopped: 0 };
const STOPPED: State = State { held: 4, stopped: 1 };

fn held(held: u32) -> State {
    State { held, stopped: 0 }
}

/// H with this length field.
fn h(field: u32) -> Vec<u8> {
    [&[1], &field.to_be_bytes()[1..], &S[4..20]].concat()
}

/// A call in a buffer that starts with these octets; it alters no octet but those taken.
fn call(state: State, fragment: &[u8], start: &[u8], room: usize) -> (usize, Progress, State) {
    let mut buffer = vec![0xA5; room];
    let start = &start[..start.len().min(room)];
    buffer[..start.len()].copy_from_slice(start);
    let mut due = buffer.clone();
    let Step { taken, progress, state: after } = take(state, fragment, &mut buffer);
    if taken > 0 {
        due[state.held as usize..][..taken].copy_from_slice(&fragment[..taken]);
    }
    assert!(buffer == due);
    (taken, progress, after)
}

#[test]
fn no_room_comes_first() {
    for room in [0, 4, 16_383] {
        for state in [FRESH, held(3), held(u32::MAX), STOPPED, State { held: 0, stopped: u32::MAX }] {
            for fragment in [&[][..], &S] {
                assert_eq!(call(state, fragment, &h(20), room), (0, refusal(7004, 0), state));
            }
        }
    }
}

#[test]
fn a_state_of_no_run_has_stopped() {
    let cases = [
        (State { held: 0, stopped: 1 }, 160),
        (State { held: 0, stopped: 2 }, 160),
        (State { held: 5, stopped: u32::MAX }, 160),
        (STOPPED, 160),
        (held(4), 0),
        (held(4), 19),
        (held(4), 16_385),
        (held(4), 16_777_215),
        (held(20), 20),
        (held(21), 20),
        (held(16_384), 16_384),
        (held(16_385), 16_384),
        (held(65_540), 160),
        (held(1 << 31), 160),
        (held(u32::MAX), 16_384),
    ];
    for (state, field) in cases {
        for fragment in [&[][..], &S] {
            assert_eq!(call(state, fragment, &h(field), 16_384), (0, refusal(7009, 0), state), "{field}");
        }
    }
    for (state, field) in [(held(4), 20), (held(19), 20), (held(4), 21), (held(16_383), 16_384), (held(3), 16_385)] {
        assert_eq!(call(state, &[], &h(field), 16_384), (0, Progress::Unfinished, state), "{field}");
    }
}

#[test]
fn the_fourth_octet_is_the_last_one_taken() {
    for (field, number) in [(0, 5015), (16, 5015), (19, 5015), (16_385, 7001), (16_388, 7001), (16_777_215, 7001)] {
        let run = h(field);
        for before in 0..4 {
            let fragment = &run[before..];
            let due = (4 - before, refusal(number, 1), STOPPED);
            assert_eq!(call(held(before as u32), fragment, &run[..before], 16_384), due);
            assert_eq!(call(held(before as u32), &fragment[..4 - before], &run[..before], 16_385), due);
        }
    }
    // The version is not looked at.
    assert_eq!(call(FRESH, &[9, 0, 0, 19], &[], 16_384), (4, refusal(5015, 1), STOPPED));
}

#[test]
fn a_command_ends_a_call() {
    let accepted = Progress::Command(Verdict::ACCEPTED);
    assert_eq!(call(FRESH, &S, &[], 16_384), (160, accepted, FRESH));
    assert_eq!(call(FRESH, &[&S[..], &S].concat(), &[], 20_000), (160, accepted, FRESH));
    assert_eq!(call(held(159), &[S[159], 1], &S[..159], 16_384), (1, accepted, FRESH));
    assert_eq!(call(FRESH, &S[..159], &[], 16_384), (159, Progress::Unfinished, held(159)));
    assert_eq!(call(FRESH, &[&L[..], &[1]].concat(), &[], 16_384), (16_384, accepted, FRESH));
    // A refused command stops no run: an odd length, another version.
    let odd = [&h(21)[..], &[0]].concat();
    assert_eq!(call(FRESH, &odd, &[], 16_384), (21, Progress::Command(Verdict::unnamed(5015, 1)), FRESH));
    let mut other = S;
    other[0] = 2;
    assert_eq!(call(FRESH, &other[..4], &[], 16_384), (4, Progress::Unfinished, held(4)));
    assert_eq!(call(FRESH, &other, &[], 16_384), (160, Progress::Command(Verdict::unnamed(5011, 0)), FRESH));
}

#[test]
fn a_run_uncut() {
    let command = |octets: &[u8]| Progress::Command(verdict(octets));
    let outcome = |found: &[Progress], taken, rest: &[u8]| Outcome { found: found.into(), taken, rest: rest.into() };
    assert_eq!(uncut(&[]), outcome(&[], 0, &[]));
    assert_eq!(uncut(&[1, 0, 0]), outcome(&[], 3, &[1, 0, 0]));
    let run = [&S[..], &h(20), &S[..159]].concat();
    assert_eq!(uncut(&run), outcome(&[command(&S), command(&h(20))], 339, &S[..159]));
    let run = [&S[..], &h(19), &S].concat();
    assert_eq!(uncut(&run), outcome(&[command(&S), refusal(5015, 1)], 164, &h(19)[..4]));
    assert_eq!(uncut(&h(16_385)), outcome(&[refusal(7001, 1)], 4, &h(16_385)[..4]));
}

#[test]
fn the_second_reader_passes() {
    let mut second = |state, fragment: &[u8], buffer: &mut [u8]| Ok(take(state, fragment, buffer));
    let coverage = trial(SEED, 1_500, 30_000, &mut second).unwrap_or_else(|words| panic!("{words}"));
    assert_eq!(coverage.gaps(), Vec::<String>::new());
}

/// Expects the trial to find this reader wrong.
fn found(name: &str, mut wrong: impl FnMut(State, &[u8], &mut [u8]) -> Step) {
    let mut wrong = |state, fragment: &[u8], buffer: &mut [u8]| Ok(wrong(state, fragment, buffer));
    assert!(trial(SEED, 1_500, 30_000, &mut wrong).is_err(), "{name}: not found");
}

/// Expects the trial to find a reader wrong whose answers are altered so.
fn found_altered(name: &str, alter: impl Fn(&mut Step, State, &[u8])) {
    found(name, |state, fragment, buffer| {
        let mut step = take(state, fragment, buffer);
        alter(&mut step, state, fragment);
        step
    });
}

fn refused(state: State, number: u32) -> Step {
    Step { taken: 0, progress: refusal(number, 0), state }
}

fn field(buffer: &[u8]) -> u32 {
    u32::from_be_bytes([0, buffer[1], buffer[2], buffer[3]])
}

#[test]
fn other_refusals_of_a_call() {
    found("7009 before 7004", |state, fragment, buffer| {
        if state.stopped != 0 {
            return refused(state, 7009);
        }
        take(state, fragment, buffer)
    });
    found("an empty fragment is unfinished in any buffer", |state, fragment, buffer| {
        if fragment.is_empty() && buffer.len() < 16_384 {
            return Step { taken: 0, progress: Progress::Unfinished, state };
        }
        take(state, fragment, buffer)
    });
    found("one octet more of room wanted", |state, fragment, buffer| {
        if buffer.len() < 16_385 {
            return refused(state, 7004);
        }
        take(state, fragment, buffer)
    });
    for (name, mask) in [("by its lowest bit", 1), ("by its low octets", 0xFFFF)] {
        found(&format!("stopped {name}"), |state, fragment, buffer| {
            take(State { stopped: state.stopped & mask, ..state }, fragment, buffer)
        });
    }
    for (name, mask) in [("two octets", 0xFFFF), ("31 bits", 0x7FFF_FFFF)] {
        found(&format!("held in {name}"), |state, fragment, buffer| {
            let step = take(State { held: state.held & mask, ..state }, fragment, buffer);
            if step.taken == 0 {
                return Step { state, ..step };
            }
            step
        });
    }
    found("a whole command held is given its verdict", |state, fragment, buffer| {
        let length = state.held as usize;
        if state.stopped == 0
            && (20..=16_384).contains(&length)
            && buffer.len() >= 16_384
            && field(buffer) == state.held
        {
            return Step { taken: 0, progress: Progress::Command(verdict(&buffer[..length])), state: FRESH };
        }
        take(state, fragment, buffer)
    });
    found("the length field is looked at before it is there", |state, fragment, buffer| {
        if (1..4).contains(&state.held) && buffer.len() >= 16_384 && !(20..=16_384).contains(&field(buffer)) {
            return refused(state, 7009);
        }
        take(state, fragment, buffer)
    });
    found_altered("a refusal clears the state", |step, _, _| {
        if step.taken == 0 && step.progress != Progress::Unfinished {
            step.state = FRESH;
        }
    });
    found_altered("a refusal has a place", |step, _, _| {
        if step.progress == refusal(7009, 0) {
            step.progress = refusal(7009, 1);
        }
    });
}

#[test]
fn other_steps() {
    found_altered("a stop forgets what is held", |step, _, _| {
        if step.state == STOPPED {
            step.state.held = 0;
        }
    });
    found_altered("a stop is none", |step, _, _| step.state.stopped = 0);
    found_altered("a stop takes the whole fragment", |step, _, fragment| {
        if step.taken > 0 && matches!(step.progress, Progress::Refusal(_)) {
            step.taken = fragment.len();
        }
    });
    found_altered("a stop does not take the fourth octet", |step, _, _| {
        if step.taken > 0 && matches!(step.progress, Progress::Refusal(_)) {
            step.taken -= 1;
        }
    });
    found_altered("an odd command stops the run", |step, _, _| {
        if step.progress == Progress::Command(Verdict::unnamed(5015, 1)) {
            step.state = STOPPED;
        }
    });
    found_altered("a refused command is the link's refusal", |step, _, _| {
        if let Progress::Command(verdict) = step.progress {
            if verdict.number != 0 {
                step.progress = Progress::Refusal(verdict);
            }
        }
    });
    found_altered("the state keeps a command's octets", |step, state, _| {
        if let Progress::Command(_) = step.progress {
            step.state.held = state.held + step.taken as u32;
        }
    });
    found_altered("a command that ends the fragment is unfinished", |step, state, fragment| {
        if matches!(step.progress, Progress::Command(_)) && step.taken == fragment.len() {
            step.progress = Progress::Unfinished;
            step.state.held = state.held + step.taken as u32;
        }
    });
    found_altered("an odd length above 16,384 is 5015", |step, _, fragment| {
        if step.progress == refusal(7001, 1) && fragment[step.taken - 1] % 2 == 1 {
            step.progress = refusal(5015, 1);
        }
    });
    found_altered("octets held count as taken", |step, state, _| {
        if step.taken > 0 {
            step.taken += state.held as usize;
        }
    });
}

#[test]
fn other_octets() {
    found("the whole fragment is put", |state, fragment, buffer| {
        let step = take(state, fragment, buffer);
        if step.taken > 0 {
            let rest = &mut buffer[state.held as usize..];
            let length = fragment.len().min(rest.len());
            rest[..length].copy_from_slice(&fragment[..length]);
        }
        step
    });
    found("octets are put at the start", |state, fragment, buffer| {
        let before = buffer.to_vec();
        let step = take(state, fragment, buffer);
        if state.held > 0 && step.taken > 0 {
            buffer.copy_from_slice(&before);
            buffer[..step.taken].copy_from_slice(&fragment[..step.taken]);
        }
        step
    });
    found("the buffer is cleared behind a command", |state, fragment, buffer| {
        let step = take(state, fragment, buffer);
        if let Progress::Command(_) = step.progress {
            buffer[..state.held as usize + step.taken].fill(0);
        }
        step
    });
    found("the octet that stops a run is not put", |state, fragment, buffer| {
        let before = buffer.to_vec();
        let step = take(state, fragment, buffer);
        if step.taken > 0 && step.state == STOPPED {
            buffer[3] = before[3];
        }
        step
    });
    found("a buffer of more room is used up", |state, fragment, buffer| {
        let step = take(state, fragment, buffer);
        if step.taken > 0 && buffer.len() > 16_384 {
            buffer[16_384] = fragment[0];
        }
        step
    });
    found("the verdict of the fragment alone", |state, fragment, buffer| {
        let mut step = take(state, fragment, buffer);
        if let Progress::Command(_) = step.progress {
            step.progress = Progress::Command(verdict(&fragment[..step.taken]));
        }
        step
    });
}
