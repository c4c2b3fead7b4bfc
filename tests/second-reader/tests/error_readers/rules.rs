//! The wrong readers. Where one of them lets pass what is refused it judges the rest as the second reader does: an AVP
//! let through stands there under a name that has no row and no M rule, and a row that is not asked for is added. The
//! rules that answer `ACCEPTED` do not: they show that a generated command has that refusal.

use crate::judged::{avps, Judged, E, P, R, T, TGPP};
use second_reader::{number, Verdict};

/// Codes without vendor, row and M rule, for data of any length and of four octets.
const ANY_OCTETS: u32 = 621;
const ANY_FOUR: u32 = 301;

/// The names without a row in the general form.
const WITHOUT_VENDOR: [u32; 22] =
    [33, 258, 259, 260, 261, 262, 266, 277, 280, 282, 283, 292, 293, 298, 301, 412, 414, 421, 432, 621, 623, 650];
const OF_3GPP: [u32; 16] = [515, 516, 532, 628, 629, 630, 2207, 4201, 4202, 4203, 4204, 4205, 4206, 4207, 4208, 4209];

/// What a wrong reader says where it says something else.
pub type Rule = Box<dyn Fn(&Judged) -> Option<Verdict>>;

fn rule(name: impl Into<String>, rule: impl Fn(&Judged) -> Option<Verdict> + 'static) -> (String, Rule) {
    (name.into(), Box::new(rule))
}

fn refused(number: u32, place: usize, code: u32) -> Option<Verdict> {
    Some(Verdict::named(number, place, 0, code))
}

/// 5004 of a 268 of this number.
fn refused_result(it: &Judged, result: u32) -> Option<Verdict> {
    let found = it.accepted(268).filter(|code| it.octets[code.data.clone()] == result.to_be_bytes())?;
    refused(number::INVALID_AVP_VALUE, found.at, 268)
}

/// All of them.
pub fn all() -> impl Iterator<Item = (String, Rule)> {
    [of_flags(), of_session(), of_rows(), of_others()].into_iter().flatten()
}

/// About the header's flags.
fn of_flags() -> Vec<(String, Rule)> {
    let bits = || Some(Verdict::unnamed(number::INVALID_HEADER_BITS, 4));
    vec![
        rule("7005 as in 01", |it| it.is_error_answer().then_some(Verdict::unnamed(7005, 4))),
        rule("a clear P refused with E", move |it| bits().filter(|_| it.is_error_answer() && it.flags() & P == 0)),
        rule("a set P refused with E", move |it| bits().filter(|_| it.is_error_answer() && it.flags() & P != 0)),
        rule("T refused with E", move |it| bits().filter(|_| it.is_error_answer() && it.flags() & T != 0)),
        rule("E ignored with R", |it| (it.flags() & (R | E) == R | E).then(|| it.with_flags(0, E))),
        rule("R ignored with E", |it| (it.flags() & (R | E) == R | E).then(|| it.with_flags(0, R))),
        rule("R and E pass with a clear P", |it| (it.flags() & (R | P | E) == R | E).then(|| it.with_flags(0, R))),
        rule("a clear P passes in a request", |it| (it.flags() & (R | P | E) == R).then(|| it.with_flags(P, 0))),
        rule("a clear P passes in an answer", |it| (it.flags() & (R | P | E) == 0).then(|| it.with_flags(P, 0))),
        rule("an answer as an error answer", |it| (it.flags() & (R | P | E) == P).then(|| it.with_flags(E, 0))),
        rule("BTA's rows and rules", |it| it.is_error_answer().then(|| it.with_flags(P, E))),
        rule("BTR's rows and rules", |it| it.is_error_answer().then(|| it.with_flags(R | P, E))),
    ]
}

/// About 263.
fn of_session() -> Vec<(String, Rule)> {
    let second = |it: &Judged| it.all(0, 263).get(1).map(|avp| avp.at);
    vec![
        rule("263 required", |it| (it.is_accepted() && !it.has(0, 263)).then(|| it.missing(0, 263))),
        rule("263 refused", |it| refused(number::AVP_NOT_ALLOWED, it.accepted(263)?.at, 263)),
        rule("a late 263 let through", |it| {
            it.is(number::AVP_NOT_ALLOWED, 263).then(|| it.with(it.verdict.place as usize, &ANY_OCTETS.to_be_bytes()))
        }),
        rule("a late 263 is too many", |it| {
            let place = it.verdict.place as usize;
            refused(number::AVP_OCCURS_TOO_MANY_TIMES, place, 263).filter(|_| it.is(number::AVP_NOT_ALLOWED, 263))
        }),
        rule("a second 263 is not allowed", |it| {
            let place = it.verdict.place as usize;
            refused(number::AVP_NOT_ALLOWED, place, 263).filter(|_| it.is(number::AVP_OCCURS_TOO_MANY_TIMES, 263))
        }),
        rule("a second 263 behind a late one", move |it| {
            let late = it.is(number::AVP_NOT_ALLOWED, 263).then(|| second(it)).flatten();
            late.and_then(|place| refused(number::AVP_OCCURS_TOO_MANY_TIMES, place, 263))
        }),
        rule("a late 263 passes behind 263s of vendors", |it| {
            let at = it.verdict.place as usize;
            let (own, sessions) = (it.own(), it.all(0, 263));
            let mut before = own.iter().take_while(|avp| avp.at < at);
            let alone = before.all(|avp| avp.name.1 == 263) && sessions.len() == 1;
            (it.is(number::AVP_NOT_ALLOWED, 263) && alone).then(|| it.renamed(&sessions, ANY_OCTETS))
        }),
        // A reader that takes the members of groups for the command's own: none of them is first.
        rule("a 263 in a group is a second one", |it| {
            let inner = it.inner_session().filter(|_| it.is_accepted() && it.has(0, 263))?;
            refused(number::AVP_OCCURS_TOO_MANY_TIMES, inner.at, 263)
        }),
        rule("a 263 in a group is a late one", |it| {
            let inner = it.inner_session().filter(|_| it.is_accepted() && !it.has(0, 263))?;
            refused(number::AVP_NOT_ALLOWED, inner.at, 263)
        }),
    ]
}

/// About the other rows.
fn of_rows() -> Vec<(String, Rule)> {
    let too_many = number::AVP_OCCURS_TOO_MANY_TIMES;
    let mut rules = Vec::new();
    for code in [264, 296, 268] {
        let is = move |it: &Judged| it.is(number::MISSING_AVP, code);
        rules.push(rule(format!("{code} not required"), move |it| is(it).then(|| it.completed(code)).flatten()));
    }
    for code in [263, 264, 296, 268, 278, 281, 294, 279, 297] {
        // The members of a further 297 are not judged.
        let other = if [268, 278].contains(&code) { ANY_FOUR } else { ANY_OCTETS };
        rules.push(rule(format!("any number of {code}"), move |it| {
            it.is(too_many, code).then(|| it.renamed(&it.all(0, code)[1..], other))
        }));
    }
    for code in [260, 277] {
        rules.push(rule(format!("{code} required"), move |it| {
            (it.is_accepted() && !it.has(0, code)).then(|| it.missing(0, code))
        }));
    }
    // A row too many, for each name that stands in any number.
    let names = WITHOUT_VENDOR.map(|code| (0, code)).into_iter().chain(OF_3GPP.map(|code| (TGPP, code)));
    for (vendor, code) in names.chain([(0, 284)]) {
        rules.push(rule(format!("one {code} at most"), move |it| {
            let second = it.all(vendor, code).get(1)?.at;
            it.is_accepted().then(|| Verdict::named(too_many, second, vendor, code))
        }));
    }
    rules.push(rule("the last missing row", |it| {
        let is =
            it.is_error_answer() && it.verdict.number == number::MISSING_AVP && it.lacks().contains(&it.verdict.code);
        is.then(|| it.missing(0, *it.lacks().last().unwrap_or(&0)))
    }));
    rules.push(rule("missing rows before members", move |it| {
        let own = it.own().iter().any(|avp| avp.at == it.verdict.place as usize);
        let is = own && (it.is(number::AVP_NOT_ALLOWED, 263) || it.is_error_answer() && it.verdict.number == too_many);
        is.then(|| it.lacks().first().map(|&code| it.missing(0, code))).flatten()
    }));
    rules.push(rule("groups not judged", |it| {
        let own = it.lacks().contains(&it.verdict.code);
        (it.is_error_answer() && it.verdict.number == number::MISSING_AVP && !own).then_some(Verdict::ACCEPTED)
    }));
    rules
}

/// About the exchange rules, and what the walk asks for.
fn of_others() -> Vec<(String, Rule)> {
    let policies = |it: &Judged| if it.is_accepted() { it.all(TGPP, 4207).len() } else { 0 };
    let value = |it: &Judged| it.is_error_answer() && it.names(number::INVALID_AVP_VALUE, TGPP, 4205);
    vec![
        rule("297 counted as a result", |it| {
            (it.is(number::MISSING_AVP, 268) && it.has(0, 297)).then(|| it.completed(268)).flatten()
        }),
        rule("297 refused beside 268", |it| refused(number::AVP_NOT_ALLOWED, it.accepted(297)?.at, 297)),
        rule("4202 asked for", move |it| (policies(it) > 0 && !it.has(TGPP, 4202)).then(|| it.missing(TGPP, 4202))),
        rule("2207 asked for", move |it| (policies(it) > 1 && !it.has(TGPP, 2207)).then(|| it.missing(TGPP, 2207))),
        rule("4204 asked for in a 4207", move |it| {
            (policies(it) > 0 && it.lacks_in_policy((TGPP, 4204))).then(|| it.missing(TGPP, 4204))
        }),
        rule("432 asked for in a 4207", move |it| {
            (policies(it) > 0 && it.lacks_in_policy((0, 432))).then(|| it.missing(0, 432))
        }),
        rule("no windows", move |it| value(it).then_some(Verdict::ACCEPTED)),
        rule("own windows alone", move |it| (value(it) && !it.is_own_window()).then_some(Verdict::ACCEPTED)),
        rule("windows in groups alone", move |it| (value(it) && it.is_own_window()).then_some(Verdict::ACCEPTED)),
        rule("a success refused", |it| refused_result(it, 2001)),
        rule("a 268 of 0 refused", |it| refused_result(it, 0)),
        rule("Failed-AVP looked into", |it| {
            let malformed = it.accepted(279).filter(|failed| {
                let end = avps(&it.octets, failed.data.clone()).last().map_or(failed.data.start, |last| last.data.end);
                end.next_multiple_of(4) < failed.data.end
            })?;
            refused(number::INVALID_AVP_LENGTH, malformed.at, 279)
        }),
        rule("an unknown AVP with M passes", |it| {
            let m = it.verdict.place as usize + 4;
            let is = it.is_error_answer() && it.verdict.number == number::AVP_UNSUPPORTED;
            is.then(|| it.with(m, &[it.octets[m] & !0x40]))
        }),
        rule("277 of any value", |it| {
            let data = it.verdict.place as usize + 8;
            it.is(number::INVALID_AVP_VALUE, 277).then(|| it.with(data, &1u32.to_be_bytes()))
        }),
    ]
}
