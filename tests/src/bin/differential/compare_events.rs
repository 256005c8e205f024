//! Notes what a call that compares two logs has met.

use crate::compare_run::{CompareRun, expected};
use crate::compares::read;
use crate::convert::with_types;
use crate::refusals::{Refusals, is_short};
use crate::run::Seen;
use crate::tally::Tally;
use crate::word_events;
use independent::call::part;
use independent::compare::is_same;
use independent::datatype::{Datatype, Value};
use independent::number;
use independent::paths::{self, Match};
use independent::real::{self, FRACTION_BITS, SIGN};
use independent::sheet;

/// As many records of a call are looked at.
const MOST_RECORDS: u64 = 50;

/// The length of a list without a difference.
const HEADER: u64 = 23;

/// What a whole run must have met.
pub const NEEDED: [&str; 86] = [
    "case: comparison",
    "case: comparison with many refusals",
    "case: comparison at the limits",
    "case: comparison of 65,536 records",
    "case: comparison's laws",
    "compare: nothing differs",
    "compare: one difference",
    "compare: several differences of a record",
    "compare: every matched leaf differs",
    "compare: more than 1,000 differences",
    "compare: done of no record",
    "compare: done of 65,536 records",
    "compare: a difference in record 65,535",
    "compare: a difference past byte 4,000",
    "compare: no matched leaf",
    "compare: a leaf that only the second sheet has",
    "compare: leaves in another order",
    "compare: bytes behind the records",
    "compare: both logs in one buffer",
    "compare: both logs in one buffer, and a difference",
    "compare: just the room for the list",
    "compare: just the room for the header",
    "compare: bytes behind the list",
    "compare: a list short by one byte",
    "compare: no room for the header",
    "compare: a first log short by one byte",
    "compare: a second log short by one byte",
    "compare: a count of 65,537",
    "compare, 2 and 3 at once",
    "compare, 3 and 4 at once",
    "compare, 4 and 6 at once",
    "compare, 5 and 6 at once",
    "compare, 5 and 7 at once",
    "compare, 6 and 7 at once",
    "compare: ints the same, of other widths",
    "compare: ints that differ",
    "compare: ints of the same bits that differ",
    "compare: -2^63 listed",
    "compare: 2^64 - 1 listed",
    "compare: bits the same, of other widths",
    "compare: bits that differ",
    "compare: pads that differ, numbers that do not",
    "compare: enums of one symbol, two numbers",
    "compare: enums of one number, two symbols",
    "compare: enums of two symbols",
    "compare: enums of one number without a symbol",
    "compare: enums of two numbers without a symbol",
    "compare: enums of one number, a symbol in the first alone",
    "compare: enums of one number, a symbol in the second alone",
    "compare: enums of two numbers, a symbol in one alone",
    "compare: reals of the same bits",
    "compare: reals of the same bits, in the other order",
    "compare: reals that differ",
    "compare: reals, 0.0 and -0.0",
    "compare: reals, a not-a-number and itself",
    "compare: reals, two not-a-numbers",
    "compare: reals, an infinity and itself",
    "compare: real and int, worth the same",
    "compare: real and int, worth the same above 2^53",
    "compare: real and int, -2^63 and itself",
    "compare: real and int, 2^63 and itself",
    "compare: real and int, negative and worth the same",
    "compare: real and int, 0",
    "compare: real and int, -0.0 and 0",
    "compare: real and int, the nearest double, which is another number",
    "compare: real and int, 2^64 and 2^64 - 1",
    "compare: real and int, one apart",
    "compare: real and int, the other sign",
    "compare: real and int, a fraction of that whole part",
    "compare: real and int, a subnormal",
    "compare: real and int, +infinity",
    "compare: real and int, -infinity",
    "compare: real and int, a quiet not-a-number",
    "compare: real and int, a signalling not-a-number",
    "compare: real and int, a not-a-number and the int of its bits",
    "compare: real and int, an infinity and the int of its bits",
    "compare: real and int, the real first",
    "compare: real and int, the int first",
    "law: a conversion without an exception leaves no difference",
    "law: one flipped bit shows",
    "law: one flipped bit does not show",
    "law: a cut shows in the records' numbers alone",
    "law: free bits do not show in a comparison",
    "law: exchanged logs, exchanged numbers",
    "law: a log and itself",
    "law: data bytes do not show in a refusal of a comparison",
];

pub fn note(tally: &mut Tally, run: &CompareRun, seen: &Seen) {
    tally.answer("compare", seen.answer[0]);
    let sheets = [&run.first_sheet[..], &run.second_sheet];
    word_events::note_call(tally, "compare", &sheets, seen.answer[0]);
    note_checks(tally, run);
    let noted = with_types(
        &run.first_sheet,
        &run.second_sheet,
        |from, to, matches| match seen.answer[0] {
            0 => {
                note_done(tally, run, seen, (from, to), matches);
                note_leaves(tally, run, (from, to), matches);
            }
            7 => note_short(tally, run, from.size(), to.size()),
            6 if run.count == 65_537 => tally.saw("compare: a count of 65,537"),
            _ => {}
        },
    );
    debug_assert!(noted.is_some() || seen.answer[0] != 0);
}

/// The rows of a list: record, byte and both numbers.
pub fn rows(seen: &Seen) -> Vec<[i128; 4]> {
    let text = &seen.written[..seen.answer[1] as usize];
    let text = str::from_utf8(text).expect("the independent list is text");
    let row = |line: &str| {
        let mut fields = line
            .split('\t')
            .map(|field| field.parse().expect("a number"));
        std::array::from_fn(|_| fields.next().expect("four fields"))
    };
    text.lines().skip(1).map(row).collect()
}

fn note_done(
    tally: &mut Tally,
    run: &CompareRun,
    seen: &Seen,
    (from, to): (&Datatype, &Datatype),
    matches: &[Match],
) {
    let rows = rows(seen);
    let mut saw = |holds: bool, what: &str| {
        if holds {
            tally.saw(&format!("compare: {what}"));
        }
    };
    let (length, room) = (seen.answer[1], run.list.len() as u64);
    let compared = run.count * matches.len() as u64;
    saw(rows.is_empty() && compared > 0, "nothing differs");
    saw(rows.len() == 1, "one difference");
    let several = |pair: &[[i128; 4]]| pair[0][0] == pair[1][0];
    saw(
        rows.windows(2).any(several),
        "several differences of a record",
    );
    let all = compared > 0 && rows.len() as u64 == compared;
    saw(all, "every matched leaf differs");
    saw(rows.len() > 1000, "more than 1,000 differences");
    saw(run.count == 0, "done of no record");
    saw(run.count == 65_536, "done of 65,536 records");
    let last = rows.last();
    saw(
        last.is_some_and(|row| row[0] == 65_535),
        "a difference in record 65,535",
    );
    saw(
        rows.iter().any(|row| row[1] > 4000),
        "a difference past byte 4,000",
    );
    saw(matches.is_empty() && run.count > 0, "no matched leaf");
    saw(
        matches.len() < paths::leaves(to).len(),
        "a leaf that only the second sheet has",
    );
    let mut ordered: Vec<&Match> = matches.iter().collect();
    ordered.sort_by_key(|pair| pair.to.at);
    let turned = |two: &[&Match]| two[0].from.at > two[1].from.at;
    saw(ordered.windows(2).any(turned), "leaves in another order");
    let behind = run.first.len() as u64 > run.count * from.size();
    saw(behind, "bytes behind the records");
    saw(run.is_one && compared > 0, "both logs in one buffer");
    saw(
        run.is_one && !rows.is_empty(),
        "both logs in one buffer, and a difference",
    );
    saw(
        length == room && length > HEADER,
        "just the room for the list",
    );
    saw(
        length == room && length == HEADER,
        "just the room for the header",
    );
    saw(length < room, "bytes behind the list");
    let listed = |number: i128| rows.iter().any(|row| row[2] == number || row[3] == number);
    saw(listed(-(1 << 63)), "-2^63 listed");
    saw(listed((1 << 64) - 1), "2^64 - 1 listed");
}

fn note_short(tally: &mut Tally, run: &CompareRun, from: u64, to: u64) {
    let mut saw = |holds: bool, what: &str| {
        if holds {
            tally.saw(&format!("compare: {what}"));
        }
    };
    let (first, second) = (run.count * from, run.count * to);
    let lent = if run.is_one { &run.first } else { &run.second };
    let lengths = (run.first.len() as u64, lent.len() as u64);
    saw(
        lengths.0 + 1 == first && lengths.1 >= second,
        "a first log short by one byte",
    );
    saw(
        lengths.1 + 1 == second && lengths.0 >= first,
        "a second log short by one byte",
    );
    if lengths.0 >= first && lengths.1 >= second {
        saw((run.list.len() as u64) < HEADER, "no room for the header");
        let mut longer = run.clone();
        longer.list.push(0);
        let is_done = expected(&longer).answer[0] == 0;
        saw(is_done, "a list short by one byte");
    }
}

/// Notes pairs of checks that would both refuse.
fn note_checks(tally: &mut Tally, run: &CompareRun) {
    let (from, to) = (
        sheet::read(&run.first_sheet).ok(),
        sheet::read(&run.second_sheet).ok(),
    );
    let table = run.table.len();
    let mut refusals = Refusals::of(table, from.as_deref(), to.as_deref(), run.count);
    if let (Some(from), Some(to)) = (from, to) {
        let second = if run.is_one { &run.first } else { &run.second };
        let first_short = is_short(run.first.len(), run.count, from.size());
        let second_short = is_short(second.len(), run.count, to.size());
        refusals.add(7, first_short || second_short);
    }
    refusals.note(tally, "compare, ");
}

fn note_leaves(
    tally: &mut Tally,
    run: &CompareRun,
    (from, to): (&Datatype, &Datatype),
    matches: &[Match],
) {
    let lent = if run.is_one { &run.first } else { &run.second };
    for record in 0..run.count.min(MOST_RECORDS) {
        let (bytes, others) = (
            part(&run.first, record, from.size()),
            part(lent, record, to.size()),
        );
        for pair in matches {
            let numbers = (read(&pair.from, bytes), read(&pair.to, others));
            note_pair(tally, pair, numbers);
            let (layout, other) = (
                number::layout(pair.from.datatype),
                number::layout(pair.to.datatype),
            );
            let leaf = &bytes[pair.from.at as usize..][..layout.size as usize];
            let second = &others[pair.to.at as usize..][..other.size as usize];
            let padded = layout == other && layout.precision < 8 * layout.size;
            if padded && numbers.0 == numbers.1 && leaf != second {
                tally.saw("compare: pads that differ, numbers that do not");
            }
        }
    }
}

fn note_pair(tally: &mut Tally, pair: &Match, (first, second): (i128, i128)) {
    let same = is_same(pair.from.datatype, pair.to.datatype, first, second);
    let (layout, other) = (
        number::layout(pair.from.datatype),
        number::layout(pair.to.datatype),
    );
    let widths = layout.precision != other.precision;
    let what = match (pair.from.datatype, pair.to.datatype) {
        (Datatype::Int(_), Datatype::Int(_)) => {
            if !same && !widths && (first - second).abs() == 1 << layout.precision {
                tally.saw("compare: ints of the same bits that differ");
            }
            match same {
                true if widths => "ints the same, of other widths",
                true => return,
                false => "ints that differ",
            }
        }
        (Datatype::Bits(_), _) => match same {
            true if widths => "bits the same, of other widths",
            true => return,
            false => "bits that differ",
        },
        (Datatype::Enum { values, .. }, Datatype::Enum { values: others, .. }) => {
            enums(values, others, first, second)
        }
        (Datatype::Real(_), Datatype::Real(_)) => {
            note_reals(tally, first as u64, second as u64);
            match same {
                true if layout.order != other.order => "reals of the same bits, in the other order",
                true => "reals of the same bits",
                false => "reals that differ",
            }
        }
        (Datatype::Real(_), _) => {
            note_worth(tally, first as u64, second, same);
            "real and int, the real first"
        }
        _ => {
            note_worth(tally, second as u64, first, same);
            "real and int, the int first"
        }
    };
    tally.saw(&format!("compare: {what}"));
}

fn enums(values: &[Value], others: &[Value], first: i128, second: i128) -> &'static str {
    let name = |values: &[Value], number: i128| {
        let value = values.iter().find(|value| value.number == number);
        value.map(|value| value.name.clone())
    };
    let one = first == second;
    match (name(values, first), name(others, second)) {
        (Some(own), Some(other)) if own == other && !one => "enums of one symbol, two numbers",
        (Some(own), Some(other)) if own == other => "enums of one symbol and number",
        (Some(_), Some(_)) if one => "enums of one number, two symbols",
        (Some(_), Some(_)) => "enums of two symbols",
        (None, None) if one => "enums of one number without a symbol",
        (None, None) => "enums of two numbers without a symbol",
        (Some(_), None) if one => "enums of one number, a symbol in the first alone",
        (None, Some(_)) if one => "enums of one number, a symbol in the second alone",
        _ => "enums of two numbers, a symbol in one alone",
    }
}

fn note_reals(tally: &mut Tally, first: u64, second: u64) {
    let mut saw = |holds: bool, what: &str| {
        if holds {
            tally.saw(&format!("compare: reals, {what}"));
        }
    };
    let none = real::is_not_a_number(first) && real::is_not_a_number(second);
    saw(first ^ second == SIGN && first & !SIGN == 0, "0.0 and -0.0");
    saw(none && first == second, "a not-a-number and itself");
    saw(none && first != second, "two not-a-numbers");
    let infinite = real::is_infinite(first);
    saw(infinite && first == second, "an infinity and itself");
}

fn note_worth(tally: &mut Tally, pattern: u64, number: i128, same: bool) {
    let mut saw = |holds: bool, what: &str| {
        if holds {
            tally.saw(&format!("compare: real and int, {what}"));
        }
    };
    let is_negative = real::is_negative(pattern);
    let is_own = pattern == number as u64;
    if real::is_not_a_number(pattern) {
        let is_quiet = pattern >> (FRACTION_BITS - 1) & 1 == 1;
        saw(is_quiet, "a quiet not-a-number");
        saw(!is_quiet, "a signalling not-a-number");
        saw(is_own, "a not-a-number and the int of its bits");
        return;
    }
    if real::is_infinite(pattern) {
        saw(!is_negative, "+infinity");
        saw(is_negative, "-infinity");
        saw(is_own, "an infinity and the int of its bits");
        return;
    }
    let (whole, is_left) = real::whole_part(pattern);
    let wanted = number.unsigned_abs();
    let is_zero = same && number == 0;
    saw(same, "worth the same");
    saw(same && wanted > 1 << 53, "worth the same above 2^53");
    saw(same && number == -(1 << 63), "-2^63 and itself");
    saw(same && number == 1 << 63, "2^63 and itself");
    saw(same && number < 0, "negative and worth the same");
    saw(is_zero && !is_negative, "0");
    saw(is_zero && is_negative, "-0.0 and 0");
    let (nearest, kind) = real::from_int(number);
    saw(
        kind.is_some() && nearest == pattern,
        "the nearest double, which is another number",
    );
    saw(
        whole == 1 << 64 && !is_negative && number == (1 << 64) - 1,
        "2^64 and 2^64 - 1",
    );
    saw(
        !is_left && whole.abs_diff(wanted) == 1 && is_negative == (number < 0),
        "one apart",
    );
    let is_other = !is_left && whole == wanted && number != 0 && !same;
    saw(is_other, "the other sign");
    saw(
        is_left && whole == wanted && (is_negative == (number < 0) || number == 0),
        "a fraction of that whole part",
    );
    let is_subnormal = pattern & !SIGN < 1 << FRACTION_BITS && pattern & !SIGN > 0;
    saw(is_subnormal, "a subnormal");
}
