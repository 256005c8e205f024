//! Which of the conditions of two steps hold of three sheets, and what was met
//! with and without them.

use crate::blocks::FEWEST;
use crate::run::{Run, Seen};
use crate::step_sheets::{C, Sheets};
use crate::steps::are_same;
use crate::tally::Tally;
use crate::words;
use independent::datatype::{Datatype, Member};
use independent::paths::{self, Leaf, Step};

/// What a whole run must have met.
pub const NEEDED: [&str; 41] = [
    "case: two steps",
    "two steps: A to B is not done",
    "two steps: as one, done without an exception",
    "two steps: as one, done with an exception",
    "two steps: as one, STOP kind 1",
    "two steps: as one, STOP kind 2",
    "two steps: as one, STOP past record 0",
    "two steps: as one, STOP by bits",
    "two steps: as one, of no record",
    "two steps: as one, of 8 records or more",
    "two steps: as one, an int",
    "two steps: as one, bits",
    "two steps: as one, an enum",
    "two steps: as one, an inner level",
    "two steps: as one, an array",
    "two steps: as one, a name of A and B alone",
    "two steps: as one, a name of A alone",
    "two steps: as one, a name of B alone",
    "two steps: as one, a name of C alone",
    "two steps: as one, a real that is not on the way",
    "two steps: as one, words of A and B alone",
    "two steps: as one, STOP with handling 0 by words of C",
    "two steps: as one, clamped with handling 1 by words of C",
    "two steps: as one, in place and copying",
    "two steps: as one, a plain form and handling 1",
    "two steps, names: B lacks one",
    "two steps, names: B has one more",
    "two steps, names: at an inner level alone",
    "two steps, names: another answer",
    "two steps, names: the same answer, other bytes",
    "two steps, names: as one all the same",
    "two steps, a real: in A alone",
    "two steps, a real: in B alone",
    "two steps, a real: in C alone",
    "two steps, a real: in all three",
    "two steps, a real: another number of STOP",
    "two steps, a real: as one all the same",
    "two steps, an exception: another answer",
    "two steps, an exception: the same answer, other bytes",
    "two steps, an exception: as one all the same",
    "two steps: several conditions fail",
];

/// The leaves on one way down to a leaf of C, of those sheets that have it.
struct Way<'a> {
    a: Option<Leaf<'a>>,
    b: Option<Leaf<'a>>,
    c: Leaf<'a>,
}

/// Which conditions fail.
pub struct Judged {
    /// "At every matched level the member names that C shares with B are those it
    /// shares with A."
    names: bool,
    /// "No field on the way is a real."
    reals: bool,
    /// "A to B raises no exception."
    exceptions: bool,
}

impl Judged {
    /// Of sheets each of which has a path to the later ones, by the exceptions
    /// that A to B has counted.
    pub fn of(sheets: &Sheets, raised: u64) -> Judged {
        let [a, b, c] = &sheets.types;
        let mut levels = Vec::new();
        unlike_levels(a, b, c, 0, &mut levels);
        let mut ways = ways(sheets).into_iter();
        Judged {
            names: !levels.is_empty(),
            reals: ways.any(|way| reals(&way).contains(&true)),
            exceptions: raised > 0,
        }
    }

    pub fn all_hold(&self) -> bool {
        !self.names && !self.reals && !self.exceptions
    }
}

fn find<'a>(members: &'a [Member], name: &[u8]) -> Option<&'a Member> {
    members.iter().find(|member| member.name == name)
}

/// The names that C shares with one of A and B alone, at each compound that all
/// three have on the same way: how deep it is, and whether B has the name.
fn unlike_levels(
    a: &Datatype,
    b: &Datatype,
    c: &Datatype,
    depth: u64,
    found: &mut Vec<(u64, bool)>,
) {
    match (a, b, c) {
        (
            Datatype::Array { base: a, .. },
            Datatype::Array { base: b, .. },
            Datatype::Array { base: c, .. },
        ) => unlike_levels(a, b, c, depth, found),
        (
            Datatype::Comp { members: a, .. },
            Datatype::Comp { members: b, .. },
            Datatype::Comp { members: c, .. },
        ) => {
            for member in c {
                match (find(a, &member.name), find(b, &member.name)) {
                    (Some(a), Some(b)) => {
                        let (a, b, c) = (&a.datatype, &b.datatype, &member.datatype);
                        unlike_levels(a, b, c, depth + 1, found);
                    }
                    (None, None) => {}
                    (_, own) => found.push((depth, own.is_some())),
                }
            }
        }
        _ => {}
    }
}

/// Each way down to a leaf of C that A or B has too.
fn ways(sheets: &Sheets) -> Vec<Way<'_>> {
    let [a, b, c] = &sheets.types;
    let mut found = Vec::new();
    for leaf in paths::leaves(c) {
        let (a, b) = (paths::follow(a, &leaf.way), paths::follow(b, &leaf.way));
        if a.is_some() || b.is_some() {
            found.push(Way { a, b, c: leaf });
        }
    }
    found
}

/// In which of the three a way's leaf is a real.
fn reals(way: &Way) -> [bool; 3] {
    let is_real = |leaf: &Leaf| matches!(leaf.datatype, Datatype::Real(_));
    [
        way.a.as_ref().is_some_and(is_real),
        way.b.as_ref().is_some_and(is_real),
        is_real(&way.c),
    ]
}

/// Notes a run of B to C, and one of A to C, with what they left.
pub fn note(
    tally: &mut Tally,
    sheets: &Sheets,
    judged: &Judged,
    second: &(Run, Seen),
    one: &(Run, Seen),
) {
    let mut saw = |holds: bool, event: &str| {
        if holds {
            tally.saw(&format!("two steps{event}"));
        }
    };
    let converted = (one.0.count * sheets.types[C].size()) as usize;
    let same = are_same(&second.1, &one.1, converted);
    let answers = (second.1.answer, one.1.answer);
    match (judged.names, judged.reals, judged.exceptions) {
        (false, false, false) => note_as_one(&mut saw, sheets, &second.0, one),
        (true, false, false) => {
            note_names(&mut saw, sheets);
            note_failed(&mut saw, "names", same, answers);
        }
        (false, true, false) => {
            note_reals(&mut saw, sheets);
            let event = ", a real: another number of STOP";
            let stopped = answers.0[0] == 8 && answers.1[0] == 8;
            saw(stopped && !same && answers.0[..6] == answers.1[..6], event);
            saw(same, ", a real: as one all the same");
        }
        (false, false, true) => note_failed(&mut saw, "an exception", same, answers),
        _ => saw(true, ": several conditions fail"),
    }
}

/// What became of the claim where one condition fails.
fn note_failed(
    saw: &mut impl FnMut(bool, &str),
    condition: &str,
    same: bool,
    answers: ([u64; 8], [u64; 8]),
) {
    let what = match (same, answers.0 == answers.1) {
        (true, _) => "as one all the same",
        (false, true) => "the same answer, other bytes",
        (false, false) => "another answer",
    };
    saw(true, &format!(", {condition}: {what}"));
}

fn note_names(saw: &mut impl FnMut(bool, &str), sheets: &Sheets) {
    let [a, b, c] = &sheets.types;
    let mut levels = Vec::new();
    unlike_levels(a, b, c, 0, &mut levels);
    let is = |own: bool| levels.iter().any(|(_, in_b)| *in_b == own);
    saw(is(false), ", names: B lacks one");
    saw(is(true), ", names: B has one more");
    let inner = levels.iter().all(|(depth, _)| *depth > 0);
    saw(inner, ", names: at an inner level alone");
}

fn note_reals(saw: &mut impl FnMut(bool, &str), sheets: &Sheets) {
    for way in ways(sheets) {
        let event = match reals(&way) {
            [true, false, false] => "in A alone",
            [false, true, false] => "in B alone",
            [false, false, true] => "in C alone",
            [true, true, true] => "in all three",
            _ => continue,
        };
        saw(true, &format!(", a real: {event}"));
    }
}

/// Notes what two steps, which were as one, were about.
fn note_as_one(
    saw: &mut impl FnMut(bool, &str),
    sheets: &Sheets,
    second: &Run,
    (one, seen): &(Run, Seen),
) {
    let [number, count, _, record, at, kind, ..] = seen.answer;
    let mut as_one = |holds: bool, event: &str| saw(holds, &format!(": as one, {event}"));
    let stopped = number == 8;
    as_one(!stopped && count == 0, "done without an exception");
    as_one(!stopped && count > 0, "done with an exception");
    as_one(stopped, &format!("STOP kind {kind}"));
    as_one(stopped && record > 0, "STOP past record 0");
    as_one(one.count == 0, "of no record");
    as_one(one.count >= FEWEST, "of 8 records or more");
    let ways = ways(sheets);
    let found = |test: &dyn Fn(&Way) -> bool| ways.iter().any(test);
    let by_bits = |way: &Way| way.c.at == at && matches!(way.c.datatype, Datatype::Bits(_));
    as_one(stopped && found(&by_bits), "STOP by bits");
    let is = |test: fn(&Datatype) -> bool| found(&|way| test(way.c.datatype));
    as_one(is(|leaf| matches!(leaf, Datatype::Int(_))), "an int");
    as_one(is(|leaf| matches!(leaf, Datatype::Bits(_))), "bits");
    as_one(is(|leaf| matches!(leaf, Datatype::Enum { .. })), "an enum");
    let names = |way: &Way| {
        let is_name = |step: &&Step| matches!(step, Step::Name(_));
        way.c.way.iter().filter(is_name).count()
    };
    as_one(found(&|way| names(way) > 1), "an inner level");
    as_one(found(&|way| names(way) < way.c.way.len()), "an array");
    note_free_names(
        &mut as_one,
        &sheets.types.each_ref().map(|datatype| &**datatype),
    );
    note_words(&mut as_one, sheets, one, &seen.answer);
    let forms = (second.form, one.form);
    let copying = (forms.0.is_copying(), forms.1.is_copying());
    as_one(copying.0 != copying.1, "in place and copying");
    let plain = (forms.0.is_plain(), forms.1.is_plain());
    as_one(plain.0 != plain.1, "a plain form and handling 1");
}

/// Names that are in some of the sheets alone, at a level that all three have,
/// and reals under them.
fn note_free_names(saw: &mut impl FnMut(bool, &str), types: &[&Datatype; 3]) {
    let members = types.map(|datatype| match datatype {
        Datatype::Comp { members, .. } => &members[..],
        _ => &[],
    });
    if let [
        Datatype::Array { base: a, .. },
        Datatype::Array { base: b, .. },
        Datatype::Array { base: c, .. },
    ] = types
    {
        return note_free_names(saw, &[a, b, c]);
    }
    let of_sheets = members.iter().enumerate();
    let all = of_sheets.flat_map(|(sheet, members)| members.iter().map(move |own| (sheet, own)));
    for (sheet, member) in all {
        let own = members.map(|members| find(members, &member.name));
        if own[..sheet].iter().any(Option::is_some) {
            continue;
        }
        if let [Some(a), Some(b), Some(c)] = own {
            note_free_names(saw, &[&a.datatype, &b.datatype, &c.datatype]);
            continue;
        }
        let event = match own.map(|own| own.is_some()) {
            [true, true, false] => "a name of A and B alone",
            [true, false, false] => "a name of A alone",
            [false, true, false] => "a name of B alone",
            _ => "a name of C alone",
        };
        saw(true, event);
        let below = paths::leaves(&member.datatype);
        let real = |leaf: &Leaf| matches!(leaf.datatype, Datatype::Real(_));
        saw(below.iter().any(real), "a real that is not on the way");
    }
}

fn note_words(
    saw: &mut impl FnMut(bool, &str),
    sheets: &Sheets,
    run: &Run,
    [number, count, ..]: &[u64; 8],
) {
    let [a, b, c] = sheets.texts.each_ref().map(|text| words::has(text));
    saw(a && b && !c, "words of A and B alone");
    let stopped = *number == 8 && !run.stops();
    saw(stopped, "STOP with handling 0 by words of C");
    let clamped = *number == 0 && *count > 0 && run.stops();
    saw(clamped, "clamped with handling 1 by words of C");
}
