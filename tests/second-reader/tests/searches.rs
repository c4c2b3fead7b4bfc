//! Request 9 of 02: the laws of the search on generated records; the trial accepts the second search, and finds
//! searches that are wrong in one thing.

use second_reader::generate::{records, repeated, Prng};
use second_reader::searches::{trial, Searched};
use second_reader::{all, read, search, Draft, Place, Record, Sought};

const SEED: u64 = 20_261_115;

/// None exactly if the ordinal is not below the number; the one found has as many of its name before it at depth 1 as
/// the ordinal says; the number is that of all of them.
fn has_laws(record: &Record, vendor: u32, code: u32) {
    let used = &record.avps[..record.avps.len().min(256)];
    let before = |position: usize| {
        used[..position].iter().filter(|avp| (avp.depth, avp.vendor, avp.code) == (1, vendor, code)).count()
    };
    let number = before(used.len());
    for ordinal in (0..number + 3).chain([256, 1 << 32, usize::MAX - 1, usize::MAX]) {
        let sought = search(record, vendor, code, ordinal);
        assert_eq!((sought.number, sought.position.is_none()), (number, ordinal >= number));
        if let Some(at) = sought.position {
            assert_eq!((used[at].depth, used[at].vendor, used[at].code), (1, vendor, code));
            assert_eq!(before(at), ordinal);
        }
    }
    let list: Vec<usize> = (0..number).filter_map(|ordinal| search(record, vendor, code, ordinal).position).collect();
    assert_eq!(all(record, vendor, code).collect::<Vec<_>>(), list);
}

#[test]
fn laws() {
    let mut prng = Prng::new(SEED);
    for _ in 0..1_000 {
        let records = [read(&repeated(&mut prng).encode()).record, records::made_up(&mut prng).record()];
        for record in records {
            let names = record.avps.iter().map(|avp| (avp.vendor, avp.code));
            names.chain([(0, 0), (9, 9)]).for_each(|(vendor, code)| has_laws(&record, vendor, code));
        }
    }
}

/// A search of a record by vendor and code, and ordinal; and a list of positions.
type Search = fn(&Draft, (u32, u32), usize) -> Sought;
type List = fn(&Draft, (u32, u32)) -> Vec<usize>;

struct Tried(Draft, Search, List);

impl Searched for Tried {
    fn search(&self, vendor: u32, code: u32, ordinal: usize) -> Sought {
        self.1(&self.0, (vendor, code), ordinal)
    }

    fn all(&self, vendor: u32, code: u32) -> Vec<usize> {
        self.2(&self.0, (vendor, code))
    }
}

fn right(draft: &Draft, (vendor, code): (u32, u32), ordinal: usize) -> Sought {
    search(&draft.record(), vendor, code, ordinal)
}

fn right_list(draft: &Draft, name: (u32, u32)) -> Vec<usize> {
    at_depth_1(draft.used(), name)
}

fn at_depth_1(places: &[Place], name: (u32, u32)) -> Vec<usize> {
    positions(places, |place| place.depth == 1 && named(place, name))
}

fn named(place: &Place, name: (u32, u32)) -> bool {
    (place.vendor, place.code) == name
}

fn positions(places: &[Place], is_one: impl Fn(&Place) -> bool) -> Vec<usize> {
    (0..places.len()).filter(|&at| is_one(&places[at])).collect()
}

fn nth(positions: &[usize], ordinal: usize) -> Sought {
    Sought { position: positions.get(ordinal).copied(), number: positions.len() }
}

/// Searches that are wrong in one thing, and whether it shows in the records of accepted commands.
const WRONG: [(&str, bool, Search); 32] = [
    ("deeper ones counted", true, |draft, name, ordinal| {
        nth(&positions(draft.used(), |place| place.depth > 0 && named(place, name)), ordinal)
    }),
    ("deeper ones in the number alone", true, |draft, name, ordinal| {
        let number = positions(draft.used(), |place| place.depth > 0 && named(place, name)).len();
        Sought { number, ..right(draft, name, ordinal) }
    }),
    ("deeper ones before it counted", true, |draft, name, ordinal| {
        let found = positions(draft.used(), |place| place.depth > 0 && named(place, name)).get(ordinal).copied();
        let position = found.filter(|&at| draft.places[at].depth == 1);
        Sought { position, ..right(draft, name, ordinal) }
    }),
    ("depth 0 counted", false, |draft, name, ordinal| {
        nth(&positions(draft.used(), |place| place.depth < 2 && named(place, name)), ordinal)
    }),
    ("depths cut to an octet", false, |draft, name, ordinal| {
        nth(&positions(draft.used(), |place| place.depth as u8 == 1 && named(place, name)), ordinal)
    }),
    ("depths cut to 16 bits", false, |draft, name, ordinal| {
        nth(&positions(draft.used(), |place| place.depth as u16 == 1 && named(place, name)), ordinal)
    }),
    ("ordinals from 1", true, |draft, name, ordinal| match ordinal {
        0 => Sought { position: None, ..right(draft, name, 0) },
        _ => right(draft, name, ordinal - 1),
    }),
    ("the number of those from the ordinal on", true, |draft, name, ordinal| {
        let Sought { position, number } = right(draft, name, ordinal);
        Sought { position, number: number.saturating_sub(ordinal) }
    }),
    ("the number of those behind the one found", true, |draft, name, ordinal| {
        let Sought { position, number } = right(draft, name, ordinal);
        Sought { position, number: if position.is_some() { number - ordinal - 1 } else { number } }
    }),
    ("counts up to the one found", true, |draft, name, ordinal| {
        let Sought { position, number } = right(draft, name, ordinal);
        Sought { position, number: if position.is_some() { ordinal + 1 } else { number } }
    }),
    ("no number with none", true, |draft, name, ordinal| {
        let Sought { position, number } = right(draft, name, ordinal);
        Sought { position, number: if position.is_some() { number } else { 0 } }
    }),
    ("none one too early", true, |draft, name, ordinal| {
        let Sought { position, number } = right(draft, name, ordinal);
        Sought { position: position.filter(|_| ordinal + 1 < number), number }
    }),
    ("none one too late", true, |draft, name, ordinal| {
        let Sought { position, number } = right(draft, name, ordinal);
        let last = right_list(draft, name).last().copied().filter(|_| ordinal == number);
        Sought { position: position.or(last), number }
    }),
    ("the last beyond the number", true, |draft, name, ordinal| {
        let list = right_list(draft, name);
        nth(&list, ordinal.min(list.len().saturating_sub(1)))
    }),
    ("the largest ordinal and 1 is 0", true, |draft, name, ordinal| match ordinal {
        usize::MAX => right(draft, name, 0),
        _ => right(draft, name, ordinal),
    }),
    ("the first for every ordinal", true, |draft, name, _| right(draft, name, 0)),
    ("the first alone", true, |draft, name, ordinal| {
        let first = right(draft, name, 0);
        Sought { position: first.position.filter(|_| ordinal == 0), ..first }
    }),
    ("from the last", true, |draft, name, ordinal| {
        nth(&right_list(draft, name).into_iter().rev().collect::<Vec<_>>(), ordinal)
    }),
    ("the position among those at depth 1", true, |draft, name, ordinal| {
        let Sought { position, number } = right(draft, name, ordinal);
        let before = |at: usize| draft.places[..at].iter().filter(|place| place.depth == 1).count();
        Sought { position: position.map(before), number }
    }),
    ("any vendor", true, |draft, name, ordinal| {
        nth(&positions(draft.used(), |place| place.depth == 1 && place.code == name.1), ordinal)
    }),
    ("any code", true, |draft, name, ordinal| {
        nth(&positions(draft.used(), |place| place.depth == 1 && place.vendor == name.0), ordinal)
    }),
    ("past the count", false, |draft, name, ordinal| nth(&at_depth_1(&draft.places[..], name), ordinal)),
    ("one past the count", false, |draft, name, ordinal| {
        nth(&at_depth_1(&draft.places[..256.min(draft.used().len() + 1)], name), ordinal)
    }),
    ("one short of the count", true, |draft, name, ordinal| {
        nth(&at_depth_1(&draft.places[..draft.used().len().saturating_sub(1)], name), ordinal)
    }),
    ("a count above 256 read as 0", false, |draft, name, ordinal| {
        nth(&at_depth_1(if draft.count > 256 { &[] } else { draft.used() }, name), ordinal)
    }),
    ("the count cut to an octet", true, |draft, name, ordinal| {
        nth(&at_depth_1(&draft.places[..draft.count as usize % 256], name), ordinal)
    }),
    ("stops at depth 0", false, |draft, name, ordinal| {
        let used = draft.used();
        let end = used.iter().position(|place| place.depth == 0).unwrap_or(used.len());
        nth(&at_depth_1(&used[..end], name), ordinal)
    }),
    ("stops at an unknown depth", false, |draft, name, ordinal| {
        let used = draft.used();
        let end = used.iter().position(|place| place.depth > 4).unwrap_or(used.len());
        nth(&at_depth_1(&used[..end], name), ordinal)
    }),
    ("ordinals cut to an octet", false, |draft, name, ordinal| right(draft, name, ordinal % 256)),
    ("ordinals cut to 16 bits", false, |draft, name, ordinal| right(draft, name, ordinal % (1 << 16))),
    ("ordinals cut to 32 bits", false, |draft, name, ordinal| right(draft, name, ordinal % (1 << 32))),
    ("the number cut to an octet", false, |draft, name, ordinal| {
        let Sought { position, number } = right(draft, name, ordinal);
        Sought { position, number: number % 256 }
    }),
];

/// Lists that are wrong in one thing. All of it shows in made-up records, the first four also in accepted commands.
const WRONG_LISTS: [(&str, List); 6] = [
    ("without the last", |draft, name| {
        let mut list = right_list(draft, name);
        list.pop();
        list
    }),
    ("without the first", |draft, name| right_list(draft, name).split_off(right_list(draft, name).len().min(1))),
    ("from the last", |draft, name| right_list(draft, name).into_iter().rev().collect()),
    ("with deeper ones", |draft, name| positions(draft.used(), |place| place.depth > 0 && named(place, name))),
    ("past the count", |draft, name| at_depth_1(&draft.places[..], name)),
    ("at most 255", |draft, name| right_list(draft, name).into_iter().take(255).collect()),
];

/// What the trial finds wrong, in words.
fn found(commands: u64, records: u64, search: Search, list: List) -> Option<String> {
    trial(SEED, commands, records, &mut |draft| Box::new(Tried(draft.clone(), search, list))).err()
}

/// Expects the trial to find this wrong, and to show a small record.
fn is_found(name: &str, (commands, records): (u64, u64), search: Search, list: List) {
    let words = found(commands, records, search, list).unwrap_or_else(|| panic!("{name}: not found"));
    let lines = words.lines().count();
    assert!(lines < 12, "{name}: {lines} lines\n{words}");
}

#[test]
fn the_second_search_passes() {
    let coverage = trial(SEED, 20_000, 10_000, &mut |draft| Box::new(Tried(draft.clone(), right, right_list)));
    assert_eq!(coverage.unwrap_or_else(|words| panic!("{words}")).gaps(), Vec::<String>::new());
}

#[test]
fn wrong_searches() {
    for (name, in_commands, search) in WRONG {
        is_found(name, (0, 3_000), search, right_list);
        let words = found(3_000, 0, search, right_list);
        assert_eq!(words.is_some(), in_commands, "{name}: {words:?}");
    }
}

#[test]
fn wrong_lists() {
    for (at, (name, list)) in WRONG_LISTS.into_iter().enumerate() {
        is_found(name, (0, 3_000), right, list);
        assert_eq!(found(3_000, 0, right, list).is_some(), at < 4, "{name}");
    }
}
