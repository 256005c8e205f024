//! Notes which numbers have stopped a run.

use crate::blocks::FEWEST;
use crate::convert::with_types;
use crate::run::{FORMS, Form, Run};
use crate::tally::Tally;
use independent::call::part;
use independent::datatype::{Atomic, Datatype, Value};
use independent::number;
use independent::paths::Match;
use independent::real::{self, FRACTION_BITS, SIGN};

const LOWEST: i128 = -(1 << 63);
const HIGHEST: i128 = (1 << 64) - 1;

/// What a whole run must have met.
pub const NEEDED: [&str; 32] = [
    "STOP by an int above",
    "STOP by an int below",
    "STOP by an int: -2^63",
    "STOP by an int: -1",
    "STOP by an int: 2^63",
    "STOP by an int: 2^64 - 1",
    "STOP by bits above",
    "STOP by bits: 2^64 - 1",
    "STOP by an enum without a symbol",
    "STOP by an enum: 0",
    "STOP by an enum: a negative number",
    "STOP by an enum: -2^63",
    "STOP by an enum: 2^64 - 1",
    "STOP by an enum: a number that the destination's base lacks",
    "STOP by an enum: a number of another symbol of the destination",
    "STOP by an int to a real",
    "STOP by an int to a real: a negative number",
    "STOP by an int to a real: 2^64 - 1",
    "STOP by an int to a real: -2^63 + 1",
    "STOP by a real above",
    "STOP by a real below",
    "STOP by a real: a fraction",
    "STOP by a real: a negative fraction",
    "STOP by a real: a subnormal",
    "STOP by a real: -0",
    "STOP by a real: +infinity",
    "STOP by a real: -infinity",
    "STOP by a real: a quiet not-a-number",
    "STOP by a real: a signalling not-a-number",
    "STOP by a real: a negative not-a-number",
    "STOP by the first of several leaves of a record",
    "STOP by the first of several records",
];

/// Where each form must have stopped, beside what blocks ask for.
const PLACES: [&str; 3] = [
    "of one record",
    "at the first of a few records",
    "at the last of a few records",
];

/// What each form must have met.
pub fn needed() -> Vec<String> {
    let of_form = |form: Form| PLACES.iter().map(move |place| stopped(form, place));
    FORMS.into_iter().flat_map(of_form).collect()
}

fn stopped(form: Form, place: &str) -> String {
    format!("STOP, {}: {place}", form.name())
}

fn note_place(tally: &mut Tally, run: &Run, record: u64) {
    let place = match run.count {
        1 => PLACES[0],
        2..FEWEST if record == 0 => PLACES[1],
        2..FEWEST if record + 1 == run.count => PLACES[2],
        _ => return,
    };
    tally.saw(&stopped(run.form, place));
}

/// Notes a STOP in a record, by the leaf at a byte of the destination.
pub fn note(tally: &mut Tally, run: &Run, record: u64, at: u64) {
    note_place(tally, run, record);
    let sheets = (&run.source_sheet, &run.destination_sheet);
    with_types(sheets.0, sheets.1, |from, _, matches| {
        // What the call was given stands in `run`, in place too.
        let read = |record: u64, pair: &Match| {
            let bytes = &part(&run.first, record, from.size())[pair.from.at as usize..];
            number::read(number::layout(pair.from.datatype), bytes)
        };
        let kind = |record: u64, pair: &Match| {
            number::convert(pair.from.datatype, pair.to.datatype, read(record, pair)).1
        };
        let raises = |record: u64, pair: &&Match| kind(record, pair).is_some();
        if let Some(pair) = matches.iter().find(|pair| pair.to.at == at) {
            note_pair(tally, pair, read(record, pair), kind(record, pair));
        }
        if matches.iter().filter(|pair| raises(record, pair)).count() > 1 {
            tally.saw("STOP by the first of several leaves of a record");
        }
        let later = (record + 1..run.count.min(record + 10)).find(|&later| {
            matches
                .iter()
                .any(|pair| kind(later, pair).is_some() && read(later, pair) != read(record, pair))
        });
        if later.is_some() {
            tally.saw("STOP by the first of several records");
        }
    });
}

fn note_pair(tally: &mut Tally, pair: &Match, number: i128, kind: Option<u64>) {
    match (pair.from.datatype, pair.to.datatype) {
        (Datatype::Real(_), _) => note_real(tally, number as u64, kind),
        (
            Datatype::Enum { values, .. },
            Datatype::Enum {
                base,
                values: others,
            },
        ) => {
            note_enum(tally, number, values, (base, others));
        }
        (Datatype::Int(_), Datatype::Real(_)) => {
            tally.saw("STOP by an int to a real");
            saw(tally, number < 0, "an int to a real: a negative number");
            saw(tally, number == HIGHEST, "an int to a real: 2^64 - 1");
            saw(tally, number == LOWEST + 1, "an int to a real: -2^63 + 1");
        }
        (Datatype::Bits(_), _) => {
            tally.saw("STOP by bits above");
            saw(tally, number == HIGHEST, "bits: 2^64 - 1");
        }
        _ => {
            saw(tally, kind == Some(1), "an int above");
            saw(tally, kind == Some(2), "an int below");
            saw(tally, number == LOWEST, "an int: -2^63");
            saw(tally, number == -1, "an int: -1");
            saw(tally, number == 1 << 63, "an int: 2^63");
            saw(tally, number == HIGHEST, "an int: 2^64 - 1");
        }
    }
}

fn saw(tally: &mut Tally, holds: bool, what: &str) {
    if holds {
        tally.saw(&format!("STOP by {what}"));
    }
}

fn note_enum(tally: &mut Tally, number: i128, values: &[Value], to: (&Atomic, &[Value])) {
    let has = |values: &[Value]| values.iter().any(|value| value.number == number);
    let (least, most) = number::range(to.0);
    assert!(!has(values), "SYMBOLS comes before STOP");
    tally.saw("STOP by an enum without a symbol");
    saw(tally, number == 0, "an enum: 0");
    saw(tally, number < 0, "an enum: a negative number");
    saw(tally, number == LOWEST, "an enum: -2^63");
    saw(tally, number == HIGHEST, "an enum: 2^64 - 1");
    let lacks = number < least || number > most;
    saw(
        tally,
        lacks,
        "an enum: a number that the destination's base lacks",
    );
    saw(
        tally,
        has(to.1),
        "an enum: a number of another symbol of the destination",
    );
}

fn note_real(tally: &mut Tally, pattern: u64, kind: Option<u64>) {
    let is_negative = real::is_negative(pattern);
    if real::is_not_a_number(pattern) {
        let is_quiet = pattern >> (FRACTION_BITS - 1) & 1 == 1;
        saw(tally, is_quiet, "a real: a quiet not-a-number");
        saw(tally, !is_quiet, "a real: a signalling not-a-number");
        saw(tally, is_negative, "a real: a negative not-a-number");
    } else if real::is_infinite(pattern) {
        saw(tally, !is_negative, "a real: +infinity");
        saw(tally, is_negative, "a real: -infinity");
    } else if pattern == SIGN {
        tally.saw("STOP by a real: -0");
    } else {
        let is_subnormal = pattern & !SIGN < 1 << FRACTION_BITS;
        saw(tally, kind == Some(1), "a real above");
        saw(tally, kind == Some(2), "a real below");
        saw(tally, kind == Some(5), "a real: a fraction");
        saw(
            tally,
            kind == Some(5) && is_negative,
            "a real: a negative fraction",
        );
        saw(tally, is_subnormal, "a real: a subnormal");
    }
}
