//! Cases of so many records that the library converts them in blocks.

use crate::block_enums;
use crate::block_events;
use crate::block_pieces;
use crate::block_sheets;
use crate::convert::{resize, with_types};
use crate::generate::paired;
use crate::model::Model;
use crate::random::Random;
use crate::records::{fitting, fitting_records, put, records};
use crate::report_events;
use crate::report_run;
use crate::reports;
use crate::run::{self, FORMS, Form, Run};
use crate::stops::raising;
use crate::tally::Tally;
use crate::words::{self, Share};
use independent::datatype::Datatype;
use independent::paths::Match;

/// Numbers of records at and beside the ends of blocks.
const COUNTS: [u64; 25] = [
    7, 8, 9, 15, 16, 63, 64, 65, 71, 72, 127, 128, 129, 135, 255, 256, 257, 263, 264, 300, 511,
    512, 513, 519, 700,
];

/// Fewer records than these go one by one.
pub const FEWEST: u64 = 8;

/// What the library may take for a record: the record, or each element of an
/// array that fills it in both sheets.
pub struct Unit<'a> {
    pub from: &'a Datatype,
    pub to: &'a Datatype,
    /// So many make a record.
    pub each: u64,
}

impl<'a> Unit<'a> {
    pub fn record(from: &'a Datatype, to: &'a Datatype) -> Unit<'a> {
        Unit { from, to, each: 1 }
    }

    pub fn smallest(from: &'a Datatype, to: &'a Datatype) -> Unit<'a> {
        let mut unit = Unit::record(from, to);
        while let Some((from, to, times)) = inner(unit.from, unit.to) {
            unit = Unit {
                from,
                to,
                each: unit.each * times,
            };
        }
        unit
    }

    /// As many are converted at once.
    pub fn block(&self, form: Form) -> u64 {
        match form.is_copying() {
            true => copied_at_once(self.from.size().max(self.to.size())),
            false => (4096 / self.from.size()).min(256),
        }
    }

    /// As many are searched at once for an exception that stops.
    pub fn searched(&self) -> u64 {
        copied_at_once(self.from.size())
    }
}

fn copied_at_once(size: u64) -> u64 {
    match size {
        0..=32 => 256,
        33..=64 => 128,
        _ => 64,
    }
}

/// The elements of arrays, or the only members that fill compounds.
fn inner<'a>(from: &'a Datatype, to: &'a Datatype) -> Option<(&'a Datatype, &'a Datatype, u64)> {
    match (from, to) {
        (Datatype::Array { base: first, .. }, Datatype::Array { base, dimensions }) => {
            Some((first, base, dimensions.iter().product()))
        }
        (Datatype::Comp { members: first, .. }, Datatype::Comp { members, .. }) => {
            let ([first], [member]) = (&first[..], &members[..]) else {
                return None;
            };
            let fill = first.datatype.size() == from.size() && member.datatype.size() == to.size();
            (fill && first.name == member.name).then_some((&*first.datatype, &*member.datatype, 1))
        }
        _ => None,
    }
}

pub fn case(random: &mut Random, tally: &mut Tally) -> Result<(), String> {
    let (from, to) = block_sheets::sheets(random);
    if random.percent(12) {
        let to = reports::reader_of(random, 0, &to);
        let (from, to) = words::texts(random, &from, &to);
        return report(random, tally, from, to);
    }
    conversion(random, tally, (from, to))
}

/// Enums that lie close or far apart.
pub fn enum_case(random: &mut Random, tally: &mut Tally) -> Result<(), String> {
    let sheets = block_enums::sheets(random);
    conversion(random, tally, sheets)
}

/// Leaves that stay as they are.
pub fn staying_case(random: &mut Random, tally: &mut Tally) -> Result<(), String> {
    let sheets = block_pieces::staying(random);
    conversion(random, tally, sheets)
}

/// Records that fall into equal parts, or nearly.
pub fn part_case(random: &mut Random, tally: &mut Tally) -> Result<(), String> {
    let sheets = block_pieces::parts(random);
    conversion(random, tally, sheets)
}

fn conversion(
    random: &mut Random,
    tally: &mut Tally,
    (from, to): (Model, Model),
) -> Result<(), String> {
    let form = *random.pick(&FORMS);
    let handling = u32::from(random.percent(55));
    let made = |random: &mut Random, from: &Datatype, to: &Datatype, matches: &[Match]| {
        let count = count(random, form, from, to, matches.len());
        // A plain form is done where nothing raises.
        let bytes = match form.is_plain() && random.percent(30) {
            true => fitting_records(random, from.size(), count, matches),
            false => log(random, from, to, count, matches),
        };
        (count, bytes)
    };
    // And where words clamp what raises.
    let destination = match form.is_plain() && random.percent(60) {
        true => {
            let share = Share {
                silent: *random.pick(&[0, 30]),
                stop: *random.pick(&[0, 0, 30]),
            };
            words::with(random, &to, share)
        }
        false => words::text(random, &to),
    };
    let sheets = (words::text(random, &from), destination);
    run_log(random, tally, (form, handling), sheets, made)
}

/// Runs a form over the source records that `made` gives, with their number.
pub fn run_log(
    random: &mut Random,
    tally: &mut Tally,
    (form, handling): (Form, u32),
    (from, to): (Vec<u8>, Vec<u8>),
    made: impl FnOnce(&mut Random, &Datatype, &Datatype, &[Match]) -> (u64, Vec<u8>),
) -> Result<(), String> {
    let made = with_types(&from, &to, |source, destination, matches| {
        let (count, mut first) = made(random, source, destination, matches);
        let longer = match form.is_copying() {
            true => source.size(),
            false => source.size().max(destination.size()),
        };
        let behind = *random.pick(&[0, 0, 1, 33]);
        resize(random, &mut first, (longer * count + behind) as usize);
        let behind = *random.pick(&[0, 0, 1, 33]);
        let second = random.bytes((destination.size() * count + behind) as usize);
        (count, first, second)
    });
    let (count, first, second) = made.expect("every pair has a path");
    let run = Run {
        form,
        source_sheet: from,
        destination_sheet: to,
        count,
        handling,
        first,
        second,
        table: random.words(8192),
    };
    let seen = run::both(random, &run)?;
    crate::events::note(tally, &run, &seen);
    block_events::note(tally, &run, &seen);
    Ok(())
}

/// Records of a block of 256 at which a run stops: the search for it goes by
/// smaller blocks there.
pub const STOPS: [u64; 5] = [1, 7, 8, 9, 255];

/// A run that stops within a block of 256.
pub fn stop_case(random: &mut Random, tally: &mut Tally) -> Result<(), String> {
    let (from, to) = paired(random, 3, block_sheets::numbers);
    let form = *random.pick(&FORMS);
    let made = |random: &mut Random, from: &Datatype, to: &Datatype, matches: &[Match]| {
        let count = random.between(256, 600);
        let mut bytes = fitting_records(random, from.size(), count, matches);
        let at = 256 * random.below(count / 256) + *random.pick(&STOPS);
        let unit = Unit::record(from, to);
        raise(random, &unit, at, from.size(), matches, &mut bytes);
        (count, bytes)
    };
    let sheets = words::texts(random, &from, &to);
    run_log(random, tally, (form, 1), sheets, made)
}

/// Numbers of records of a report at and beside the ends of its blocks.
pub const REPORTED: [u64; 6] = [8, 9, 255, 256, 257, 600];

/// A report of ints of every size and sign, many of which are clamped.
pub fn report_case(random: &mut Random, tally: &mut Tally) -> Result<(), String> {
    let (from, reader) = paired(random, 12, block_sheets::narrowed);
    let sheets = words::texts(random, &from, &reader);
    let count = *random.pick(&REPORTED);
    let log = with_types(&sheets.0, &sheets.1, |source, _, matches| {
        let mut bytes = random.bytes((source.size() * count) as usize);
        for record in bytes.chunks_mut(source.size() as usize) {
            for pair in matches {
                if random.percent(70) {
                    let number = fitting(random, pair);
                    put(pair, number, record);
                }
            }
        }
        bytes
    });
    let log = log.expect("every pair has a path");
    let run = reports::run_of_log(random, sheets, count, log);
    let seen = report_run::both(random, &run)?;
    report_events::note(tally, &run, &seen);
    block_events::note_report(tally, &run, &seen);
    Ok(())
}

/// A report, which converts in place.
fn report(
    random: &mut Random,
    tally: &mut Tally,
    from: Vec<u8>,
    reader: Vec<u8>,
) -> Result<(), String> {
    let made = with_types(&from, &reader, |source, destination, matches| {
        let count = count(random, Form::InPlace, source, destination, matches.len());
        let unit = Unit::record(source, destination);
        let several = count > 2 * unit.block(Form::InPlace);
        (
            count,
            log(random, source, destination, count, matches),
            several,
        )
    });
    let Some((count, log, several)) = made else {
        // The reader's elements are too long for as many of them.
        let run = reports::make(random, 0, from, reader);
        return reports::finish(random, tally, &run);
    };
    if several {
        tally.saw("blocks, report: several");
    }
    reports::case_of_log(random, tally, (from, reader), count, log)
}

/// At or beside the end of a block of records or of elements, mostly.
fn count(random: &mut Random, form: Form, from: &Datatype, to: &Datatype, leaves: usize) -> u64 {
    let unit = match random.percent(50) {
        true => Unit::record(from, to),
        false => Unit::smallest(from, to),
    };
    let block = unit.block(form);
    let count = match random.below(10) {
        0..=3 => *random.pick(&COUNTS),
        4 => block + random.below(3) - 1,
        5..=8 => block * random.between(1, 3) + *random.pick(&[0, 1, 2, 7, 8, 9]),
        _ => block * random.between(1, 3) + random.below(block),
    };
    let most = 700.max(unit.each * FEWEST);
    let count = count.clamp(1, most);
    let mut records = match random.percent(40) {
        true => (count / unit.each).max(1),
        false => count.div_ceil(unit.each),
    };
    if Unit::smallest(from, to).each > 100 && random.percent(35) {
        records = 1;
    }
    let work = leaves as u64 + (from.size() + to.size()) / 16 + 1;
    records.min(5000 / work + 2 * FEWEST)
}

/// Source records whose numbers mostly fit, often but for one of them at or
/// beside the end of a block.
fn log(
    random: &mut Random,
    from: &Datatype,
    to: &Datatype,
    count: u64,
    matches: &[Match],
) -> Vec<u8> {
    let style = random.below(10);
    if style == 0 || matches.is_empty() {
        return records(random, from.size(), count, matches);
    }
    let mut bytes = fitting_records(random, from.size(), count, matches);
    if style < 7 {
        let unit = match random.percent(15) {
            true => Unit::record(from, to),
            false => Unit::smallest(from, to),
        };
        let units = unit.each * count;
        let at = stop_at(random, unit.searched(), units);
        raise(random, &unit, at, from.size(), matches, &mut bytes);
        if random.percent(40) {
            // One behind it does not show.
            let behind = random.between(at, units - 1);
            raise(random, &unit, behind, from.size(), matches, &mut bytes);
        }
    }
    bytes
}

/// The first or the last of a block, one within a later one, or of the rest.
pub fn stop_at(random: &mut Random, block: u64, units: u64) -> u64 {
    let whole = units / block;
    let chosen = random.below(whole + 1) * block;
    let rest = units % block;
    let at = match random.below(8) {
        // Too few for a block.
        _ if (1..FEWEST).contains(&rest) && random.percent(30) => units - 1 - random.below(rest),
        0 | 1 => random.between(whole.min(1), whole) * block,
        2 | 3 => chosen + block - 1,
        4 => chosen + random.below(block),
        5 | 6 => whole * block + random.below(rest + 1),
        _ => units - 1,
    };
    at.min(units - 1)
}

/// Puts a number that raises an exception into a leaf of one unit, if a pair
/// has one.
fn raise(
    random: &mut Random,
    unit: &Unit,
    at: u64,
    size: u64,
    matches: &[Match],
    bytes: &mut [u8],
) {
    let leaves = matches.len() / unit.each as usize;
    let first = (at % unit.each) as usize * leaves;
    let record = (at / unit.each * size) as usize;
    for _ in 0..4 {
        let pair = random.pick(&matches[first..first + leaves]);
        let number = raising(random, pair);
        put(pair, number, &mut bytes[record..]);
        if number.is_some() {
            return;
        }
    }
}
