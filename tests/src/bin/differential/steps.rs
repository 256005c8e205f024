//! Cases of two steps or one: three sheets A, B and C, where B to C on the records
//! that A to B left is held against A to C.

use crate::convert::resize;
use crate::events;
use crate::random::Random;
use crate::records::{fitting_records, put};
use crate::run::{self, FORMS, NAMING, Run, Seen, check, tell};
use crate::step_events::{self, Judged};
use crate::step_sheets::{A, B, C, Sheets, sheets};
use crate::stops::raising;
use crate::tally::Tally;
use independent::call::{CLAMP, STOP};
use independent::number;
use independent::paths::{self, Match};

const COUNTS: [u64; 9] = [0, 1, 1, 2, 2, 3, 5, 9, 300];

pub fn case(random: &mut Random, tally: &mut Tally) -> Result<(), String> {
    let sheets = sheets(random);
    let (count, log) = log(random, &sheets);
    let of_log = Records {
        count,
        bytes: &log,
        background: &random.bytes((count * sheets.types[B].size()) as usize),
        // Mostly done.
        handling: if random.percent(70) { CLAMP } else { STOP },
    };
    let (_, left) = step(random, tally, &sheets, (A, B), &of_log)?;
    if left.answer[0] != 0 {
        tally.saw("two steps: A to B is not done");
        return Ok(());
    }
    let from_log = Records {
        background: &random.bytes((count * sheets.types[C].size()) as usize),
        handling: *random.pick(&[CLAMP, STOP]),
        ..of_log
    };
    let from_left = Records {
        bytes: &left.written[..of_log.background.len()],
        ..from_log
    };
    let second = step(random, tally, &sheets, (B, C), &from_left)?;
    let one = step(random, tally, &sheets, (A, C), &from_log)?;
    let judged = Judged::of(&sheets, left.answer[1]);
    let holds = are_same(&second.1, &one.1, from_log.background.len()) || !judged.all_hold();
    let what = "two steps are not as one: the second of them";
    let told = |told| format!("{told}\nand the one\n{}", tell(&one.0));
    check(holds, what, &second.0).map_err(told)?;
    step_events::note(tally, &sheets, &judged, &second, &one);
    Ok(())
}

/// "The same answer, count included, and, if done, the same converted bytes."
pub fn are_same(one: &Seen, other: &Seen, converted: usize) -> bool {
    let is_done = one.answer[0] == 0;
    let bytes = || one.written[..converted] == other.written[..converted];
    one.answer == other.answer && (!is_done || bytes())
}

/// What a step is given, beside its sheets.
#[derive(Clone, Copy)]
struct Records<'a> {
    count: u64,
    bytes: &'a [u8],
    background: &'a [u8],
    handling: u32,
}

/// A run from one sheet to another, of any form with that handling, and what it
/// left.
fn step(
    random: &mut Random,
    tally: &mut Tally,
    sheets: &Sheets,
    (from, to): (usize, usize),
    records: &Records,
) -> Result<(Run, Seen), String> {
    let form = match records.handling {
        CLAMP => *random.pick(&NAMING),
        _ => *random.pick(&FORMS),
    };
    let mut first = records.bytes.to_vec();
    if !form.is_copying() {
        let longer = first.len().max(records.background.len());
        resize(random, &mut first, longer);
    }
    let run = Run {
        form,
        source_sheet: sheets.texts[from].clone(),
        destination_sheet: sheets.texts[to].clone(),
        count: records.count,
        handling: records.handling,
        first,
        second: records.background.to_vec(),
        table: random.words(8192),
    };
    let seen = run::both(random, &run)?;
    events::note(tally, &run, &seen);
    Ok((run, seen))
}

/// Records of A, with their number: mostly without an exception to B, some with
/// one to C.
fn log(random: &mut Random, sheets: &Sheets) -> (u64, Vec<u8>) {
    let [a, b, c] = &sheets.types;
    let (there, direct) = (paths::matches(a, b), paths::matches(a, c));
    let most = 3000 / ((there.len() + direct.len()) as u64 + 1) + 1;
    let count = (*random.pick(&COUNTS)).min(most);
    let size = a.size();
    let mut records = fitting_records(random, size, count, &there);
    let times = *random.pick(&[0, 1, 1, 3, 20]);
    raise(random, size, (times, &direct), &there, &mut records);
    if random.percent(12) {
        // And one with an exception to B alone.
        raise(random, size, (1, &there), &direct, &mut records);
    }
    (count, records)
}

/// Puts numbers that raise an exception by some matches, and none by others, into
/// so many leaves of any records, where such numbers are easily found.
fn raise(
    random: &mut Random,
    size: u64,
    (times, matches): (u64, &[Match]),
    others: &[Match],
    records: &mut [u8],
) {
    if matches.is_empty() || records.is_empty() {
        return;
    }
    let count = records.len() as u64 / size;
    for _ in 0..times {
        let pair = random.pick(matches);
        let fits = |number: &i128| fits(others, pair, *number);
        let number = (0..4).filter_map(|_| raising(random, pair)).find(fits);
        let record = (random.below(count) * size) as usize;
        put(pair, number, &mut records[record..]);
    }
}

/// Whether a number of a pair's source leaf raises no exception by some matches.
fn fits(matches: &[Match], pair: &Match, number: i128) -> bool {
    let mut own = matches.iter().filter(|other| other.from.at == pair.from.at);
    own.all(|other| {
        let (from, to) = (other.from.datatype, other.to.datatype);
        number::convert(from, to, number).1.is_none()
    })
}
