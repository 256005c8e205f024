//! Cases of the four converting calls.

use crate::damage::damage;
use crate::derive::derive;
use crate::generate;
use crate::limits;
use crate::lines;
use crate::model::Model;
use crate::random::Random;
use crate::reaches;
use crate::records::records;
use crate::run::{self, FORMS, Run, Seen};
use crate::sizes;
use crate::tally::Tally;
use crate::words;
use independent::datatype::Datatype;
use independent::paths::{self, Match};
use independent::sheet;

/// A run like most, each check failing in so many of a hundred.
pub fn case(random: &mut Random, tally: &mut Tally, spoil: u64) -> Result<(), String> {
    let (from, to) = sheets(random, spoil);
    let run = make(random, spoil, from, to);
    finish(random, tally, &run)
}

/// A run between ints and reals.
pub fn real_case(random: &mut Random, tally: &mut Tally) -> Result<(), String> {
    let (from, to) = generate::reals(random);
    let (from, to) = words::texts(random, &from, &to);
    let run = make(random, 1, from, to);
    finish(random, tally, &run)
}

/// A run between sheets at the limits.
pub fn limit_case(random: &mut Random, tally: &mut Tally) -> Result<(), String> {
    let (from, to) = if random.percent(60) {
        let model = limits::valid(random);
        let other = derive(random, &model);
        words::texts(random, &model, &other)
    } else {
        (limits::sheet(random), limits::sheet(random))
    };
    let run = make(random, 3, from, to);
    finish(random, tally, &run)
}

/// 65,536 records of a few bytes.
pub fn long_case(random: &mut Random, tally: &mut Tally) -> Result<(), String> {
    let model = few_bytes(random);
    let other = derive(random, &model);
    let (from, to) = words::texts(random, &model, &other);
    let mut run = make(random, 0, from, to);
    run.count = 65_536;
    with_types(
        &run.source_sheet.clone(),
        &run.destination_sheet.clone(),
        |from, to, matches| {
            run.first = records(random, from.size(), run.count, matches);
            if !run.form.is_copying() {
                let longer = from.size().max(to.size()) * run.count;
                run.first.resize(longer as usize, 0xA5);
            }
            run.second = random.bytes((to.size() * run.count) as usize);
        },
    );
    finish(random, tally, &run)
}

pub fn finish(random: &mut Random, tally: &mut Tally, run: &Run) -> Result<(), String> {
    hold(random, tally, run).map(|_| ())
}

/// The same; gives what the library left.
pub fn hold(random: &mut Random, tally: &mut Tally, run: &Run) -> Result<Seen, String> {
    let seen = run::both(random, run)?;
    crate::events::note(tally, run, &seen);
    sizes::of_run(random, tally, run)?;
    reaches::of_run(random, tally, run)?;
    Ok(seen)
}

/// Calls with both datatypes and the matches, if there is a path.
pub fn with_types<T>(
    from: &[u8],
    to: &[u8],
    then: impl FnOnce(&Datatype, &Datatype, &[Match]) -> T,
) -> Option<T> {
    let (from, to) = (sheet::read(from).ok()?, sheet::read(to).ok()?);
    paths::has_path(&from, &to).then(|| then(&from, &to, &paths::matches(&from, &to)))
}

/// A model of a record of a few bytes, or of a real.
pub fn few_bytes(random: &mut Random) -> Model {
    let bytes = *random.pick(&[3, 3, 3, 8]);
    generate::sheet(random, bytes)
}

/// A model for a source sheet of any of several scales.
pub fn model(random: &mut Random) -> Model {
    let bytes = *random.pick(&[1, 4, 16, 40, 40, 100, 100, 400, 400, 1500, 4096]);
    generate::sheet(random, bytes)
}

fn sheets(random: &mut Random, spoil: u64) -> (Vec<u8>, Vec<u8>) {
    let (from, to) = models(random, spoil);
    (text(random, spoil, &from), text(random, spoil, &to))
}

/// Models for a source and a destination sheet, mostly with a path.
pub fn models(random: &mut Random, spoil: u64) -> (Model, Model) {
    let model = model(random);
    let other = if random.percent(spoil) {
        generate::sheet(random, 60)
    } else {
        derive(random, &model)
    };
    // Either may be the older one.
    if random.percent(50) {
        (model, other)
    } else {
        (other, model)
    }
}

/// A model's text, faulty in so many of a hundred.
pub fn text(random: &mut Random, spoil: u64, model: &Model) -> Vec<u8> {
    let text = words::text(random, model);
    match random.below(100) {
        share if share >= spoil => text,
        share if share % 4 == 0 => lines::sheet(random),
        _ => damage(random, &text),
    }
}

/// Fills in the rest of a run between two sheets.
pub fn make(random: &mut Random, spoil: u64, from: Vec<u8>, to: Vec<u8>) -> Run {
    let handling = if random.percent(spoil) {
        *random.pick(&[2, 3, 256, 65_536, 1 << 31, u32::MAX])
    } else {
        random.below(2) as u32
    };
    let mut run = Run {
        form: *random.pick(&FORMS),
        source_sheet: from,
        destination_sheet: to,
        count: 0,
        handling,
        first: Vec::new(),
        second: Vec::new(),
        table: table(random, spoil),
    };
    fill(random, spoil, &mut run);
    run
}

/// A table, too short in so many of a hundred.
pub fn table(random: &mut Random, spoil: u64) -> Vec<u32> {
    let words = if random.percent(spoil) {
        *random.pick(&[0, 1, 4096, 8191])
    } else {
        8192 + *random.pick(&[0, 0, 0, 1, 7, 300])
    };
    random.words(words)
}

/// Chooses the count and the buffers.
fn fill(random: &mut Random, spoil: u64, run: &mut Run) {
    let (from, to) = (run.source_sheet.clone(), run.destination_sheet.clone());
    let filled = with_types(&from, &to, |from, to, matches| {
        let work = matches.len() as u64 + (from.size() + to.size()) / 8 + 1;
        let count = small_count(random, 4000 / work + 1);
        let source = records(random, from.size(), count, matches);
        (count, source, from.size(), to.size())
    });
    let (count, source, from, to) = filled.unwrap_or_else(|| {
        let count = random.below(5);
        (
            count,
            random.bytes(64),
            random.between(1, 20),
            random.between(1, 20),
        )
    });
    run.count = count;
    run.first = source;
    let longer = if run.form.is_copying() {
        from
    } else {
        from.max(to)
    };
    let room = (
        length(random, spoil, count * longer),
        length(random, spoil, count * to),
    );
    resize(random, &mut run.first, room.0);
    run.second = random.bytes(room.1);
    if random.percent(spoil) {
        run.count = large_count(random, from);
    }
}

/// Cuts bytes off, or puts random ones behind.
pub fn resize(random: &mut Random, bytes: &mut Vec<u8>, length: usize) {
    let behind = random.bytes(length);
    bytes.truncate(length);
    let kept = bytes.len();
    bytes.extend_from_slice(&behind[kept..]);
}

pub fn small_count(random: &mut Random, most: u64) -> u64 {
    let count = match random.below(12) {
        0 => 0,
        1..=3 => 1,
        4..=9 => random.between(2, 9),
        _ => random.between(1, most),
    };
    count.min(most)
}

/// Above 65,536, or at it without the room for it.
pub fn large_count(random: &mut Random, size: u64) -> u64 {
    let wraps = (u64::MAX / size).wrapping_add(2);
    let counts = [
        65_536,
        65_537,
        65_538,
        131_072,
        1 << 32,
        (1 << 32) + 1,
        1 << 52,
        1 << 63,
        (1 << 63) + 1,
        u64::MAX - 1,
        u64::MAX,
        wraps,
    ];
    *random.pick(&counts)
}

/// The length of a buffer for which `needed` bytes are asked.
pub fn length(random: &mut Random, spoil: u64, needed: u64) -> usize {
    let length = if random.percent(spoil) {
        match random.below(4) {
            0 => 0,
            1 => random.between(0, needed),
            _ => needed.saturating_sub(1),
        }
    } else {
        needed + *random.pick(&[0, 0, 0, 1, 2, 33])
    };
    length as usize
}
