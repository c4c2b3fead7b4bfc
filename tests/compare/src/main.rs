//! Compares the proved reader, over its boundary, with the second reader on two commands for each name and on generated
//! commands: the verdict, the whole record, the data of every position and the search; the seconds between two
//! generated times with each command; and the search on made-up records.
//!
//! `compare SEED COMMANDS` ends with a table of what was reached. It exits 1 at the first difference, with the command
//! in hexadecimal or the record made small, or where a cell of the table is empty.

mod names;
mod proved;

use proved::Proved;
use second_reader::coverage::Coverage;
use second_reader::generate::{command, repeated, Prng};
use second_reader::searches::{self, coverage::SearchCoverage};
use std::fmt::{Debug, Display};
use std::process::ExitCode;

/// Made-up records.
const RECORDS: u64 = 20_000;

fn main() -> ExitCode {
    let arguments: Vec<String> = std::env::args().skip(1).collect();
    let [seed, commands] = arguments.as_slice() else {
        return usage();
    };
    let (Ok(seed), Ok(commands)) = (seed.parse(), commands.parse::<u64>()) else {
        return usage();
    };
    let mut prng = Prng::new(seed);
    let mut reader = talazumir::Reader::new();
    let (mut coverage, mut searched) = (Coverage::default(), SearchCoverage::default());
    for octets in names::commands() {
        if let Err(difference) = compare(&octets, &mut reader, &mut searched) {
            return differs("a name", &difference, &octets);
        }
    }
    for ordinal in 1..=commands {
        let octets = any_command(&mut prng);
        let compared = compare(&octets, &mut reader, &mut searched).and_then(|()| compare_seconds(&mut prng));
        if let Err(difference) = compared {
            return differs(format_args!("seed {seed}, command {ordinal}"), &difference, &octets);
        }
        coverage.note(&octets, &second_reader::verdict(&octets));
    }
    if let Err(difference) = searches::made_up(seed, RECORDS, &mut searched, &mut proved::opened) {
        println!("{difference}");
        return ExitCode::FAILURE;
    }
    print!("{coverage}{searched}");
    let gaps = [coverage.gaps(), searched.gaps()].concat();
    for gap in &gaps {
        println!("not reached: {gap}");
    }
    if gaps.is_empty() {
        ExitCode::SUCCESS
    } else {
        ExitCode::FAILURE
    }
}

fn usage() -> ExitCode {
    eprintln!("compare SEED COMMANDS");
    ExitCode::from(2)
}

fn differs(of: impl Display, difference: &str, octets: &[u8]) -> ExitCode {
    println!("{of}: {difference}");
    println!("{}", octets.iter().map(|octet| format!("{octet:02x}")).collect::<String>());
    ExitCode::FAILURE
}

/// A generated command. One in forty is sound and has several AVPs of a kind; one in fifty loses some octets at its
/// end, so that its length field is not the slice's length.
fn any_command(prng: &mut Prng) -> Vec<u8> {
    let mut octets = if prng.one_in(40) { repeated(prng).encode() } else { command(prng) };
    if prng.one_in(50) {
        octets.truncate(prng.below(octets.len()));
    }
    octets
}

/// What differs, in words.
fn compare(octets: &[u8], reader: &mut talazumir::Reader, searched: &mut SearchCoverage) -> Result<(), String> {
    let expected = second_reader::read(octets);
    let verdict = numbers(&expected.verdict);
    let ours = reader.verdict(octets);
    same("verdict", (ours.number, ours.place, ours.vendor, ours.code), verdict)?;
    match talazumir::read(octets) {
        Ok(record) => {
            same("number", 0, expected.verdict.number)?;
            compare_records(&record, &expected.record, octets)?;
            searches::compare(&expected.record, &Proved(record), searched)
        }
        Err(refusal) => same("refusal", (refusal.number, refusal.place, refusal.vendor, refusal.code), verdict),
    }
}

/// Of two times, each at the ends of the range or of a half, or any.
fn compare_seconds(prng: &mut Prng) -> Result<(), String> {
    let [start, end] = [(); 2].map(|()| {
        let any = prng.word();
        prng.pick(&[0, 0x7FFF_FFFF, 0x8000_0000, u32::MAX, any, any, any, any])
    });
    let (ours, expected) = (talazumir::seconds(start, end), second_reader::time::seconds(start, end));
    same(format_args!("seconds from {start} to {end}"), ours, expected)
}

fn numbers(verdict: &second_reader::Verdict) -> (u32, u32, u32, u32) {
    (verdict.number, verdict.place, verdict.vendor, verdict.code)
}

fn compare_records(ours: &talazumir::Record, expected: &second_reader::Record, octets: &[u8]) -> Result<(), String> {
    same("R", ours.is_request(), expected.r)?;
    same("P", ours.is_proxiable(), expected.p)?;
    same("E", ours.is_error(), expected.e)?;
    same("T", ours.is_retransmitted(), expected.t)?;
    same("hop-by-hop", ours.hop_by_hop(), expected.hop_by_hop)?;
    same("end-to-end", ours.end_to_end(), expected.end_to_end)?;
    same("count", ours.count(), expected.avps.len())?;
    for (position, (a, b)) in ours.avps().zip(&expected.avps).enumerate() {
        let a = (a.depth, a.vendor, a.code, a.m, a.p, a.start, a.length);
        let b = (u32::from(b.depth), b.vendor, b.code, b.m, b.p, b.start, b.length);
        same(format_args!("position {position}"), a, b)?;
    }
    let unused = &ours.numbers()[7 + 7 * ours.count()..];
    same("unused places", unused.iter().all(|&number| number == 0), true)?;
    let half = &octets[..octets.len() / 2];
    for position in (0..=ours.count()).chain([256, usize::MAX]) {
        for slice in [octets, half] {
            let a = ours.data(position, slice);
            let b = second_reader::data(expected, position, slice);
            same(format_args!("data of position {position}"), a, b)?;
            same(format_args!("place of the data of position {position}"), a.as_ptr(), b.as_ptr())?;
        }
    }
    Ok(())
}

/// The name is put into words only for a difference: it is asked for at every position of every command.
fn same<T: PartialEq + Debug>(what: impl Display, ours: T, expected: T) -> Result<(), String> {
    if ours == expected {
        return Ok(());
    }
    Err(format!("{what}: the proved reader has {ours:?}, the second reader {expected:?}"))
}
