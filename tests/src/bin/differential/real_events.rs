//! Notes what a call has met of reals.

use crate::convert::with_types;
use crate::report_run::ReportRun;
use crate::run::Run;
use crate::tally::Tally;
use independent::datatype::{Atomic, Datatype};
use independent::number;
use independent::paths::{self, Match};
use independent::real::{self, FRACTION_BITS, SIGN};
use independent::report::int_leaves;

/// As many records of a call are looked at.
const MOST_RECORDS: u64 = 50;

/// What a whole run must have met.
pub const NEEDED: [&str; 37] = [
    "real: no path to or from bits or an enum",
    "real: to a real of the other order",
    "real to real: a quiet not-a-number",
    "real to real: a signalling not-a-number",
    "real to real: -0",
    "real to real: an infinity",
    "real to real: a subnormal",
    "int to real: the number itself",
    "int to real: the number itself, above 2^53",
    "int to real: 0",
    "int to real: a negative number",
    "int to real: a tie that goes down",
    "int to real: a tie that goes up",
    "int to real: rounded down",
    "int to real: rounded up",
    "int to real: rounded to a power of two",
    "int to real: rounded to 2^64",
    "int to real: a negative number rounded",
    "real to int: the number itself",
    "real to int: kind 1",
    "real to int: kind 2",
    "real to int: kind 4",
    "real to int: kind 5",
    "real to int: +infinity",
    "real to int: -infinity",
    "real to int: a quiet not-a-number",
    "real to int: a signalling not-a-number",
    "real to int: -0",
    "real to int: a subnormal",
    "real to int: between the largest and the next number",
    "real to int: between the smallest and the next number",
    "real to int: one past the largest",
    "real to int: one past the smallest",
    "faulty real line: its fields",
    "faulty real line: its size",
    "faulty real line: its order",
    "faulty line: an enum of a real",
];

pub const REPORT_NEEDED: [&str; 5] = [
    "report: a real of the reader's sheet, which has no line",
    "report: reals alone",
    "report: a real read into an int leaf",
    "report: a not-a-number that gives a sample",
    "report: an exception of a real leaf",
];

pub fn note(tally: &mut Tally, run: &Run, answer: u64) {
    if answer == 5 {
        note_no_path(tally, run);
    }
    if answer != 0 || run.count == 0 {
        return;
    }
    // What the call was given is gone in place, and `run` still has it.
    with_types(
        &run.source_sheet,
        &run.destination_sheet,
        |from, _, matches| {
            let records = run.count.min(MOST_RECORDS);
            each(matches, &run.first, from.size(), records, |pair, number| {
                note_leaf(tally, pair, number);
            });
        },
    );
}

/// Hands on each matched leaf that is a real or becomes one, with its number.
fn each(
    matches: &[Match],
    bytes: &[u8],
    size: u64,
    records: u64,
    mut then: impl FnMut(&Match, i128),
) {
    let is_real = |leaf: &Datatype| matches!(leaf, Datatype::Real(_));
    for pair in matches {
        if is_real(pair.from.datatype) || is_real(pair.to.datatype) {
            for record in 0..records {
                let at = (record * size + pair.from.at) as usize;
                then(
                    pair,
                    number::read(number::layout(pair.from.datatype), &bytes[at..]),
                );
            }
        }
    }
}

fn note_leaf(tally: &mut Tally, pair: &Match, number: i128) {
    match (pair.from.datatype, pair.to.datatype) {
        (Datatype::Int(_), _) => note_int(tally, number),
        (_, Datatype::Int(layout)) => note_to_int(tally, layout, number as u64),
        (Datatype::Real(from), Datatype::Real(to)) => {
            if from.order != to.order {
                tally.saw("real: to a real of the other order");
            }
            note_pattern(tally, "real to real", number as u64);
        }
        _ => {}
    }
}

fn note_int(tally: &mut Tally, number: i128) {
    let mut saw = |holds: bool, what: &str| {
        if holds {
            tally.saw(&format!("int to real: {what}"));
        }
    };
    let (pattern, kind) = real::from_int(number);
    let wanted = number.unsigned_abs();
    let became = real::whole_part(pattern).0;
    saw(number == 0, "0");
    saw(number < 0, "a negative number");
    saw(kind.is_none(), "the number itself");
    saw(
        kind.is_none() && wanted > 1 << 53,
        "the number itself, above 2^53",
    );
    if kind.is_none() {
        return;
    }
    // The double on the other side of the number.
    let other = if became < wanted {
        pattern + 1
    } else {
        pattern - 1
    };
    let is_tie = became.abs_diff(wanted) == real::whole_part(other).0.abs_diff(wanted);
    saw(is_tie && became < wanted, "a tie that goes down");
    saw(is_tie && became > wanted, "a tie that goes up");
    saw(!is_tie && became < wanted, "rounded down");
    saw(!is_tie && became > wanted, "rounded up");
    saw(
        became > wanted && became.is_power_of_two(),
        "rounded to a power of two",
    );
    saw(became == 1 << 64, "rounded to 2^64");
    saw(number < 0, "a negative number rounded");
}

fn note_to_int(tally: &mut Tally, layout: &Atomic, pattern: u64) {
    note_pattern(tally, "real to int", pattern);
    match real::to_int(layout, pattern).1 {
        Some(kind) => tally.saw(&format!("real to int: kind {kind}")),
        None => tally.saw("real to int: the number itself"),
    }
    if real::is_not_a_number(pattern) || real::is_infinite(pattern) {
        return;
    }
    let (whole, is_left) = real::whole_part(pattern);
    let is_negative = real::is_negative(pattern);
    let number = if is_negative {
        -(whole as i128)
    } else {
        whole as i128
    };
    let (smallest, largest) = number::range(layout);
    let mut saw = |holds: bool, what: &str| {
        if holds {
            tally.saw(&format!("real to int: {what}"));
        }
    };
    let above = is_left && !is_negative && number == largest;
    let below = is_left && is_negative && number == smallest;
    saw(above, "between the largest and the next number");
    saw(below, "between the smallest and the next number");
    saw(number == largest + 1, "one past the largest");
    saw(number == smallest - 1, "one past the smallest");
}

fn note_pattern(tally: &mut Tally, path: &str, pattern: u64) {
    let magnitude = pattern & !SIGN;
    let is_quiet = pattern >> (FRACTION_BITS - 1) & 1 == 1;
    let what = match magnitude {
        0 if pattern == SIGN => "-0",
        0 => return,
        _ if real::is_not_a_number(pattern) && is_quiet => "a quiet not-a-number",
        _ if real::is_not_a_number(pattern) => "a signalling not-a-number",
        _ if real::is_infinite(pattern) && path == "real to real" => "an infinity",
        _ if real::is_infinite(pattern) && real::is_negative(pattern) => "-infinity",
        _ if real::is_infinite(pattern) => "+infinity",
        _ if magnitude >> FRACTION_BITS == 0 => "a subnormal",
        _ => return,
    };
    tally.saw(&format!("{path}: {what}"));
}

/// Notes a pair of leaves of which one is a real and the other has no path.
fn note_no_path(tally: &mut Tally, run: &Run) {
    use independent::sheet::read;
    let (from, to) = (read(&run.source_sheet), read(&run.destination_sheet));
    let (Ok(from), Ok(to)) = (from, to) else {
        return;
    };
    if leaves_apart(&from, &to) {
        tally.saw("real: no path to or from bits or an enum");
    }
}

fn leaves_apart(from: &Datatype, to: &Datatype) -> bool {
    let is_other = |leaf: &Datatype| matches!(leaf, Datatype::Bits(_) | Datatype::Enum { .. });
    match (from, to) {
        (Datatype::Real(_), other) | (other, Datatype::Real(_)) => is_other(other),
        (Datatype::Array { base: from, .. }, Datatype::Array { base, .. }) => {
            leaves_apart(from, base)
        }
        (Datatype::Comp { members: from, .. }, Datatype::Comp { members, .. }) => {
            members.iter().any(|member| {
                let other = from.iter().find(|other| other.name == member.name);
                other.is_some_and(|other| leaves_apart(&other.datatype, &member.datatype))
            })
        }
        _ => false,
    }
}

/// Notes a faulty line that has to do with reals.
pub fn note_fault(tally: &mut Tally, text: &[u8], line: u64) {
    let lines: Vec<Vec<&[u8]>> = text
        .split(|&byte| byte == 10)
        .map(|line| line.split(|&byte| byte == 9).collect())
        .collect();
    let Some(fields) = lines.get(line as usize - 1) else {
        return;
    };
    match fields[..] {
        [b"real", size, order] => {
            if size != b"8" {
                tally.saw("faulty real line: its size");
            } else if order != b"LE" && order != b"BE" {
                tally.saw("faulty real line: its order");
            }
        }
        [b"real", ..] => tally.saw("faulty real line: its fields"),
        [b"enum", base] => {
            let is_row = |fields: &Vec<&[u8]>| matches!(fields[0], b"value" | b"member");
            let before = &lines[..line as usize - 1];
            let types: Vec<_> = before.iter().filter(|fields| !is_row(fields)).collect();
            let number = str::from_utf8(base).ok().and_then(|base| base.parse().ok());
            let base = number.and_then(|number: usize| types.get(number));
            if base.is_some_and(|fields| fields[0] == b"real") {
                tally.saw("faulty line: an enum of a real");
            }
        }
        _ => {}
    }
}

/// Notes what a report that was done has met.
pub fn note_report(tally: &mut Tally, run: &ReportRun, from: &Datatype, to: &Datatype) {
    let is_real = |leaf: &paths::Leaf| matches!(leaf.datatype, Datatype::Real(_));
    let leaves = paths::leaves(to);
    if leaves.iter().any(is_real) {
        tally.saw("report: a real of the reader's sheet, which has no line");
        if int_leaves(to).is_empty() {
            tally.saw("report: reals alone");
        }
    }
    let matches = paths::matches(from, to);
    let records = run.count.min(MOST_RECORDS);
    each(&matches, &run.log, from.size(), records, |pair, number| {
        let is_int = matches!(pair.to.datatype, Datatype::Int(_));
        if is_int {
            tally.saw("report: a real read into an int leaf");
            if real::is_not_a_number(number as u64) {
                tally.saw("report: a not-a-number that gives a sample");
            }
        } else if number::convert(pair.from.datatype, pair.to.datatype, number)
            .1
            .is_some()
        {
            tally.saw("report: an exception of a real leaf");
        }
    });
}
