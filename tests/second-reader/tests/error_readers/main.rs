//! Request 1 of 02: readers that are wrong in one thing about error answers, each of which shows in generated commands.

mod judged;
mod rules;

use judged::Judged;
use second_reader::coverage::Coverage;
use second_reader::error_coverage::Cell;
use second_reader::generate::{command, Prng};
use second_reader::write_coverage::{self, WriteCoverage};
use second_reader::{number, verdict};

const SEED: u64 = 20_261_115;

#[test]
fn wrong_readers() {
    let mut prng = Prng::new(SEED);
    let commands: Vec<Judged> = (0..30_000)
        .map(|_| {
            let octets = command(&mut prng);
            let verdict = verdict(&octets);
            Judged { octets, verdict }
        })
        .collect();
    for (name, rule) in rules::all() {
        let seen = commands.iter().filter(|it| rule(it).is_some_and(|other| other != it.verdict)).count();
        assert!(seen >= 10, "{name}: seen in {seen} commands");
    }
}

#[test]
fn every_cell_is_asked_for() {
    let (commands, drafts) = (Coverage::default().gaps(), WriteCoverage::default().gaps());
    let cells = Cell::all();
    for (at, &cell) in cells.iter().enumerate() {
        assert!(!cells[..at].contains(&cell), "{cell:?} twice");
        assert!(commands.contains(&format!("error answers: {cell:?}")), "{cell:?}");
        // A draft has no 257th AVP.
        let in_drafts = drafts.contains(&write_coverage::Cell::Errors(cell));
        assert_eq!(in_drafts, cell != Cell::Walk(number::TOO_MANY_AVPS), "{cell:?}");
    }
}
