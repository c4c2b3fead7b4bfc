//! What is measured: that the commands are what their mixes say, that both sides of a row do the same work, and which
//! rows there are. No test depends on a time.

use bench::commands::{book, by_size, mixes, of_avps, of_length, Mix, Sort, AVPS, LENGTHS};
use bench::rows::{Accepted, ABSENT, FRAGMENT};
use bench::summary::Line;
use bench::turns::Effort;
use bench::{growth, listing, rows, SEED};
use second_reader::{link, Draft};
use std::path::Path;
use std::time::Duration;

/// One turn of each work, done once.
const LEAST: Effort = Effort { rounds: 1, turn: Duration::ZERO };

fn numbers(verdict: talazumir::Verdict) -> [u32; 4] {
    [verdict.number, verdict.place, verdict.vendor, verdict.code]
}

fn second_numbers(verdict: second_reader::Verdict) -> [u32; 4] {
    [verdict.number, verdict.place, verdict.vendor, verdict.code]
}

#[test]
fn a_mix_has_commands_of_its_size_and_sort() {
    let mixes = mixes(SEED);
    assert_eq!(mixes.len(), 9);
    for (i, mix) in mixes.iter().enumerate() {
        let lengths = [120..=240, 800..=1200, 12000..=16384][i / 3].clone();
        assert_eq!(mix.commands.len(), 64, "{}", mix.name());
        for octets in &mix.commands {
            let number = talazumir::Reader::new().verdict(octets).number;
            let is_request = octets[4] & 0x80 != 0;
            let fits = match mix.sort {
                Sort::AcceptedRequest => number == 0 && is_request,
                Sort::AcceptedAnswer => number == 0 && !is_request,
                Sort::Refused => number != 0,
            };
            assert!(fits && lengths.contains(&octets.len()), "{}: {octets:02x?}", mix.name());
        }
    }
    assert_eq!(mixes[0].name(), "about 160 octets, accepted requests");
    assert_eq!(mixes[8].name(), "near 16,384 octets, refused");
}

#[test]
fn both_read_the_same() {
    let mut reader = talazumir::Reader::new();
    for mix in mixes(SEED) {
        for octets in &mix.commands {
            let second = second_reader::read(octets);
            assert_eq!(numbers(reader.verdict(octets)), second_numbers(second.verdict));
            match talazumir::read(octets) {
                Ok(record) => assert_eq!(*record.numbers(), Draft::of(&second.record).numbers()),
                Err(refusal) => assert_eq!(numbers(refusal), second_numbers(second.verdict)),
            }
        }
    }
}

#[test]
fn both_do_the_same_with_a_record() {
    let grown = LENGTHS.map(of_length).into_iter().chain(AVPS.map(of_avps));
    let accepted = mixes(SEED).into_iter().filter(Mix::is_accepted).flat_map(|mix| mix.commands);
    for octets in accepted.chain(grown) {
        let command = Accepted::of(&octets);
        let names: Vec<_> = command.theirs.avps.iter().map(|avp| (avp.vendor, avp.code)).chain([ABSENT]).collect();
        let last = command.ours.search(command.last.0, command.last.1, 0).position;
        for &(vendor, code) in &names {
            let talazumir::Sought { position, number } = command.ours.search(vendor, code, 0);
            let theirs = second_reader::search(&command.theirs, vendor, code, 0);
            assert_eq!((position, number), (theirs.position, theirs.number));
            assert!(position <= last);
        }
        assert_eq!(command.ours.search(ABSENT.0, ABSENT.1, 0), talazumir::Sought { position: None, number: 0 });
        let [mut ours, mut theirs, mut our_form, mut their_form] = [[0xEE; 16_384]; 4];
        assert!(talazumir::write(&command.ours, &octets, &mut ours).is_accepted());
        assert_eq!(second_reader::write(&command.draft, &octets, &mut theirs).length, octets.len() as u32);
        assert!(talazumir::canonical(&octets, &mut our_form).is_accepted());
        assert_eq!(second_reader::canonical(&octets, &mut their_form).length, octets.len() as u32);
        assert!(ours == theirs && our_form == their_form && ours == our_form);
    }
}

#[test]
fn commands_grow_in_one_thing() {
    for length in LENGTHS {
        let command = of_length(length);
        let record = talazumir::read(&command).expect("accepted");
        assert_eq!((command.len(), record.count()), (length, AVPS[0]));
    }
    for avps in AVPS {
        assert_eq!(talazumir::read(&of_avps(avps)).expect("accepted").count(), avps);
    }
    assert_eq!((of_length(160).len(), of_avps(11)), (160, commands::S.to_vec()));
}

#[test]
fn both_find_the_same_in_a_run() {
    for (size, commands) in by_size(&mixes(SEED)) {
        let run = commands.concat();
        let mut ours = talazumir::Link::new();
        let ours: Vec<_> = ours.commands(run.chunks(FRAGMENT)).map(|found| found.map(numbers)).collect();
        let theirs: Vec<_> = link::uncut(&run).found;
        assert_eq!((ours.len(), theirs.len()), (192, 192), "{size}");
        for (ours, theirs) in ours.into_iter().zip(theirs) {
            assert!(
                matches!(theirs, link::Progress::Command(verdict) if ours == Ok(second_numbers(verdict))),
                "{size}"
            );
        }
    }
}

#[test]
fn books_are_close_to_the_longest() {
    for (size, commands) in by_size(&mixes(SEED)) {
        let book = book(&commands);
        assert!((61_000..=65_536).contains(&book.len()), "{size}: {}", book.len());
        let listing = String::from_utf8(second_reader::listing(&book)).expect("text");
        let end = listing.lines().last().expect("a line");
        assert!(end.starts_with("end ") && !end.ends_with(" 0"), "{size}: {end}");
    }
    assert_eq!(book(&[]), b"NTB\x00\x01");
}

/// The lines of a group.
fn rows_of<'a>(lines: &'a [Line], group: &str) -> Vec<&'a str> {
    lines.iter().filter(|line| line.group == group).map(|line| &line.row[..]).collect()
}

#[test]
fn every_mix_has_its_rows() {
    let lines = rows::lines(&mixes(SEED), LEAST);
    assert!(lines.iter().all(|line| line.ratios.len() == 1));
    let readings = ["verdict against verdict alone", rows::VERDICT_TO_RECORD, rows::RECORD_TO_RECORD];
    let records =
        ["search for the last name", "search for a name that is absent", "write of the record", "canonical form"];
    for mix in mixes(SEED) {
        let expected = if mix.is_accepted() { [&readings[..], &records].concat() } else { readings.to_vec() };
        assert_eq!(rows_of(&lines, &mix.name()), expected);
    }
    assert_eq!(rows_of(&lines, "link, in fragments of 1,448 octets").len(), 3);
}

#[test]
fn every_growth_has_its_steps() {
    let lines = growth::lines(LEAST);
    let octets = rows_of(&lines, "octets, of S with a longer Session-Id");
    assert_eq!((octets.len(), octets[15]), (3 * 8, "record against a record, new vector, 16,384 octets"));
    let avps = rows_of(&lines, "AVPs, of S with more Route-Records");
    assert_eq!((avps.len(), avps[12]), (3 * 6, "write of the record, 11 AVPs"));
    let growths = rows_of(&lines, "growth of the proved reader's time over that of the command");
    assert_eq!(
        (growths.len(), growths[1], growths[3]),
        (6, "record, from 160 to 16,384 octets", "verdict, from 11 to 256 AVPs")
    );
}

#[test]
fn every_size_has_its_listing() {
    let bench = Path::new(env!("CARGO_BIN_EXE_bench"));
    let lines = |verdicts: &str| listing::lines(&mixes(SEED), LEAST, Path::new(verdicts), bench);
    let otherwise = lines("/bin/cat").expect_err("cat prints the book");
    assert_eq!(otherwise, "/bin/cat: another listing than the second reader's, no command");
    assert!(lines("/no/program").expect_err("there is none").contains("/no/program"));
    match listing::program() {
        Ok(verdicts) => {
            let lines = lines(&verdicts.to_string_lossy()).expect("both list the same");
            let rows = rows_of(&lines, "listing of a book, whole processes");
            let last = "65,536 octets, commands of near 16,384 octets";
            assert_eq!((rows.len(), rows[0], rows[3]), (4, "no command", last));
        }
        Err(words) => assert!(words.contains("is not there") && words.contains(listing::PROGRAM), "{words}"),
    }
}
