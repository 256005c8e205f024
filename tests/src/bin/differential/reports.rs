//! Cases of the report.

use crate::convert::{self, large_count, length, resize, small_count, with_types};
use crate::derive::{derive, mend};
use crate::generate;
use crate::held::{self, held, spoil_words};
use crate::limits;
use crate::model::{Line, Model};
use crate::random::Random;
use crate::records::records;
use crate::report_events;
use crate::report_run::{self, ReportRun, expected};
use crate::tally::Tally;
use crate::words;
use independent::report::{int_leaves, words};
use independent::sheet;

/// A call like most, each check failing in so many of a hundred.
pub fn case(random: &mut Random, tally: &mut Tally, spoil: u64) -> Result<(), String> {
    let (from, reader) = models(random, spoil);
    let from = convert::text(random, spoil, &from);
    let reader = convert::text(random, spoil, &reader);
    let run = make(random, spoil, from, reader);
    finish(random, tally, &run)
}

/// A call with sheets at the limits.
pub fn limit_case(random: &mut Random, tally: &mut Tally) -> Result<(), String> {
    let model = limits::valid(random);
    let reader = derive(random, &model);
    let reader = reader_of(random, 3, &reader);
    let (from, reader) = words::texts(random, &model, &reader);
    let run = make(random, 3, from, reader);
    finish(random, tally, &run)
}

/// 65,536 records of a few bytes.
pub fn long_case(random: &mut Random, tally: &mut Tally) -> Result<(), String> {
    let model = convert::few_bytes(random);
    let reader = derive(random, &model);
    let reader = reader_of(random, 0, &reader);
    let (from, reader) = words::texts(random, &model, &reader);
    let count = 65_536;
    let log = with_types(&from, &reader, |from, _, matches| {
        records(random, from.size(), count, matches)
    });
    match log {
        Some(log) => case_of_log(random, tally, (from, reader), count, log),
        None => {
            let run = make(random, 0, from, reader);
            finish(random, tally, &run)
        }
    }
}

/// A call with two sheets that have a path, and with so many source records.
pub fn case_of_log(
    random: &mut Random,
    tally: &mut Tally,
    sheets: (Vec<u8>, Vec<u8>),
    count: u64,
    log: Vec<u8>,
) -> Result<(), String> {
    let run = run_of_log(random, sheets, count, log);
    finish(random, tally, &run)
}

/// What such a call is given.
pub fn run_of_log(
    random: &mut Random,
    (from, reader): (Vec<u8>, Vec<u8>),
    count: u64,
    log: Vec<u8>,
) -> ReportRun {
    let mut run = make(random, 0, from.clone(), reader.clone());
    with_types(&from, &reader, |from, to, _| {
        run.count = count;
        run.log = log;
        let longer = from.size().max(to.size()) * count;
        resize(random, &mut run.log, longer as usize);
        run.background = random.bytes((to.size() * count) as usize);
        run.memory = held(random, int_leaves(to).len(), count);
        run.output = room(random, 0, &run);
    });
    run
}

pub fn finish(random: &mut Random, tally: &mut Tally, run: &ReportRun) -> Result<(), String> {
    let seen = report_run::both(random, run)?;
    report_events::note(tally, run, &seen);
    Ok(())
}

/// Models for a source and a reader's sheet, mostly with a path, and some of
/// them of ints and reals alone. Most readers have an int leaf.
pub fn models(random: &mut Random, spoil: u64) -> (Model, Model) {
    let mut tries = 3;
    loop {
        let (from, reader) = match random.percent(8) {
            true => generate::reals(random),
            false => convert::models(random, spoil),
        };
        let reader = reader_of(random, spoil, &reader);
        let has_ints = sheet::read(&reader.text()).is_ok_and(|to| !int_leaves(&to).is_empty());
        tries -= 1;
        if has_ints || tries == 0 {
            return (from, reader);
        }
    }
}

/// A reader's model: its ints have at most 32 bits, but for so many sheets of a
/// hundred, and for some ints that are an enum's base.
pub fn reader_of(random: &mut Random, spoil: u64, model: &Model) -> Model {
    let mut reader = model.clone();
    let precisions: &[u64] = match random.below(100) {
        share if share < spoil / 2 => return reader,
        share if share < spoil => &[33, 32],
        _ => &[32, 32, 31, 17, 1],
    };
    for i in 0..reader.types.len() {
        let is_base = |line: &Line| matches!(line, Line::Enum { base, .. } if *base == i);
        let may_stay = reader.types.iter().any(is_base) && random.percent(50);
        if let Line::Int(layout) = &mut reader.types[i]
            && layout.precision > 32
            && !may_stay
        {
            layout.precision = *random.pick(precisions);
        }
        mend(random, &mut reader, i);
    }
    reader
}

/// Fills in the rest of a call with two sheets.
pub fn make(random: &mut Random, spoil: u64, from: Vec<u8>, reader: Vec<u8>) -> ReportRun {
    let filled = with_types(&from, &reader, |from, to, matches| {
        let work = matches.len() as u64 + (from.size() + to.size()) / 8 + 1;
        let count = small_count(random, 4000 / work + 1);
        let log = records(random, from.size(), count, matches);
        (count, log, from.size(), to.size(), int_leaves(to).len())
    });
    let (count, mut log, from_size, to_size, leaves) = filled.unwrap_or_else(|| {
        let sizes = (random.between(1, 20), random.between(1, 20));
        (random.below(5), random.bytes(64), sizes.0, sizes.1, 3)
    });
    let longer = length(random, spoil, count * from_size.max(to_size));
    resize(random, &mut log, longer);
    let behind = length(random, spoil, count * to_size);
    let background = random.bytes(behind);
    let mut memory = held(random, leaves, count);
    if random.percent(2 * spoil) {
        spoil_words(random, &mut memory, count);
    }
    held::resize(random, spoil, &mut memory, words(leaves));
    let mut run = ReportRun {
        source_sheet: from,
        reader_sheet: reader,
        count,
        log,
        background,
        memory,
        output: Vec::new(),
        table: convert::table(random, spoil),
    };
    run.output = room(random, spoil, &run);
    if random.percent(spoil) {
        run.count = large_count(random, from_size);
    }
    run
}

/// Just the room for the output, or more; in so many of a hundred less, mostly
/// by one byte.
fn room(random: &mut Random, spoil: u64, run: &ReportRun) -> Vec<u8> {
    let whole = ReportRun {
        output: vec![0; held::most_bytes(run.memory.len())],
        ..run.clone()
    };
    let seen = expected(&whole);
    let needed = if seen.is_done() { seen.answer[1] } else { 60 };
    let length = length(random, spoil, needed);
    random.bytes(length)
}
