//! Notes what conversions in blocks have met.

use crate::block_piece_events;
use crate::block_symbol_events;
use crate::block_words;
use crate::blocks::{FEWEST, REPORTED, STOPS, Unit};
use crate::convert::with_types;
use crate::report_run::{ReportRun, ReportSeen};
use crate::run::{FORMS, Run, Seen};
use crate::tally::Tally;
use independent::call::part;
use independent::datatype::{Datatype, Pad};
use independent::number;
use independent::paths::Match;

/// From so many records on the library asks whether each byte is written.
const WRITTEN: u64 = 64;

/// What every form must have met.
const EACH: [&str; 15] = [
    "one block",
    "one block and one more",
    "one block less one",
    "several and a rest",
    "several and a short one",
    "one block of elements",
    "one block of elements and one more",
    "one block of elements less one",
    "several of elements and a rest",
    "a kept pad",
    "an array that fills the record",
    "an array of compounds",
    "members that repeat evenly",
    "an enum among ints",
    "a real among ints",
];

/// What every form must have met of exceptions: a plain one by words.
const CLAMPING: [&str; 2] = [
    "an exception past the first",
    "a number of 64 bits that is clamped",
];

/// What every form must have met of STOP.
const STOPPING: [&str; 11] = [
    "STOP at the first record of all",
    "STOP at the last record of all",
    "STOP in the first",
    "STOP in a later one",
    "STOP at the first record of one",
    "STOP at the last record of one",
    "STOP in the rest",
    "STOP at the first element of one",
    "STOP at the last element of one",
    "STOP in the rest of the elements",
    "none of several stops",
];

/// What the forms in place must have met.
const IN_PLACE: [&str; 8] = [
    "several of which each byte is written",
    "several with a byte that is not written",
    "several with all bytes written, one with a kept bit",
    "several that grow, all from the last on",
    "several that grow, some from the first of them on",
    "several that shrink",
    "several of one size",
    "8 records of more than 512 bytes",
];

/// The sorts of cases.
const CASES: [&str; 6] = [
    "conversion in blocks",
    "enums in blocks",
    "leaves that stay, in blocks",
    "equal parts in blocks",
    "STOP in blocks",
    "report in blocks",
];

/// What a whole run must have met.
pub fn needed() -> Vec<String> {
    let mut needed: Vec<String> = CASES.iter().map(|case| format!("case: {case}")).collect();
    needed.push(named("report", "several"));
    for count in REPORTED {
        for size in 1..=8 {
            for signed in [false, true] {
                needed.push(named("report", &clamped_int(count, size, signed)));
            }
        }
    }
    let enums = block_symbol_events::each();
    let enums: Vec<&str> = enums.iter().map(String::as_str).collect();
    let worded = block_words::each();
    let worded: Vec<&str> = worded.iter().map(String::as_str).collect();
    let stops: Vec<String> = STOPS.iter().map(|at| stop_at(*at)).collect();
    let stops: Vec<&str> = stops.iter().map(String::as_str).collect();
    for form in FORMS {
        let mut add = |events: &[&str]| {
            for event in events {
                needed.push(named(form.name(), event));
            }
        };
        add(&EACH);
        add(&enums);
        add(&block_piece_events::EACH);
        add(&STOPPING);
        add(&stops);
        add(&worded);
        add(&CLAMPING);
        add(&block_symbol_events::CLAMPING);
        add(&block_symbol_events::STOPPING);
        add(&block_piece_events::STOPPING);
        if !form.is_copying() {
            add(&IN_PLACE);
        }
    }
    needed
}

fn named(form: &str, event: &str) -> String {
    format!("blocks, {form}: {event}")
}

/// A STOP at such a record of a block of 256.
fn stop_at(record: u64) -> String {
    format!("STOP at record {record} of a block of 256")
}

/// A report of so many records, with such an int that is clamped.
fn clamped_int(count: u64, size: u64, signed: bool) -> String {
    let sign = if signed { "signed" } else { "unsigned" };
    format!("{count} records, an int of {size} bytes, {sign}, clamped")
}

/// Notes which ints a report has clamped.
pub fn note_report(tally: &mut Tally, run: &ReportRun, seen: &ReportSeen) {
    if !seen.is_done() || !REPORTED.contains(&run.count) {
        return;
    }
    with_types(&run.source_sheet, &run.reader_sheet, |from, _, matches| {
        for pair in matches {
            let Datatype::Int(layout) = pair.from.datatype else {
                continue;
            };
            let raises = |record| is_clamped(&run.log, record, from.size(), pair);
            if (0..run.count).any(raises) {
                let event = clamped_int(run.count, layout.size, layout.signed);
                tally.saw(&named("report", &event));
            }
        }
    });
}

/// Whether a leaf raises an exception in a source record.
fn is_clamped(log: &[u8], record: u64, size: u64, pair: &Match) -> bool {
    let layout = number::layout(pair.from.datatype);
    let bytes = &part(log, record, size)[pair.from.at as usize..];
    let found = number::read(layout, bytes);
    number::convert(pair.from.datatype, pair.to.datatype, found)
        .1
        .is_some()
}

pub fn note(tally: &mut Tally, run: &Run, seen: &Seen) {
    let [number, count, _, record, at, ..] = seen.answer;
    let sheets = (&run.source_sheet, &run.destination_sheet);
    let mut saw = |holds: bool, event: &str| {
        if holds {
            tally.saw(&named(run.form.name(), event));
        }
    };
    with_types(sheets.0, sheets.1, |from, to, matches| {
        match number {
            0 => {
                note_done(&mut saw, run, count, (from, to), matches);
                block_symbol_events::note_done(&mut saw, run, (from, to), matches);
                block_piece_events::note_done(&mut saw, run, seen, (from, to), matches);
            }
            8 => {
                note_stop(&mut saw, run.count, (record, at), (from, to), matches);
                block_symbol_events::note_stop(&mut saw, (record, at), (from, to), matches);
                block_piece_events::note_stop(&mut saw, record, (from, to), matches);
            }
            _ => return,
        }
        block_words::note(&mut saw, run, &seen.answer, (from, to), matches);
    });
}

fn note_done(
    saw: &mut impl FnMut(bool, &str),
    run: &Run,
    raised: u64,
    (from, to): (&Datatype, &Datatype),
    matches: &[Match],
) {
    let (record, element) = (Unit::record(from, to), Unit::smallest(from, to));
    let block = record.block(run.form);
    let rest = run.count % block;
    saw(run.count == block, "one block");
    saw(run.count == block + 1, "one block and one more");
    saw(run.count == block - 1, "one block less one");
    let several = block >= FEWEST && run.count >= 2 * block;
    saw(several && (1..FEWEST).contains(&rest), "several and a rest");
    saw(several && rest >= FEWEST, "several and a short one");
    if element.each > 1 {
        let (block, units) = (element.block(run.form), element.each * run.count);
        saw(units == block, "one block of elements");
        saw(units == block + 1, "one block of elements and one more");
        saw(units == block - 1, "one block of elements less one");
        let rest = (1..FEWEST).contains(&(units % block));
        saw(units > 2 * block && rest, "several of elements and a rest");
    }
    if run.stops() {
        let several = run.count >= 2 * record.searched();
        saw(several && !matches.is_empty(), "none of several stops");
    }
    if !run.form.is_copying() {
        let grow = several && from.size() < to.size();
        // Their results lie behind all sources.
        let before = (run.count * from.size()).div_ceil(to.size());
        let forward = grow && before + block < run.count;
        saw(forward, "several that grow, some from the first of them on");
        saw(grow && !forward, "several that grow, all from the last on");
        saw(several && from.size() > to.size(), "several that shrink");
        saw(several && from.size() == to.size(), "several of one size");
        let long = from.size() > 512 && run.count >= FEWEST;
        saw(long, "8 records of more than 512 bytes");
        if several && run.count >= WRITTEN {
            note_written(saw, to, matches);
        }
    }
    if several {
        note_leaves(saw, run, raised, block, (from, to), matches);
    }
    if element.each > 1 && element.each * run.count >= 2 * element.block(run.form) {
        saw(true, "an array that fills the record");
        let compounds = matches!(element.to, Datatype::Comp { .. });
        saw(compounds, "an array of compounds");
    }
}

/// Whether result records take anything from their background.
fn note_written(saw: &mut impl FnMut(bool, &str), to: &Datatype, matches: &[Match]) {
    let written: u64 = matches.iter().map(|pair| pair.to.datatype.size()).sum();
    let (all, kept) = (written == to.size(), matches.iter().any(keeps));
    saw(all && !kept, "several of which each byte is written");
    saw(!all, "several with a byte that is not written");
    let event = "several with all bytes written, one with a kept bit";
    saw(all && kept, event);
}

/// Whether a destination leaf has a bit that is the background's.
fn keeps(pair: &Match) -> bool {
    let layout = number::layout(pair.to.datatype);
    let above = 8 * layout.size - layout.precision - layout.offset;
    (layout.lsb == Pad::Keep && layout.offset > 0) || (layout.msb == Pad::Keep && above > 0)
}

/// What the leaves of several blocks of records are, and what they raise.
fn note_leaves(
    saw: &mut impl FnMut(bool, &str),
    run: &Run,
    raised: u64,
    block: u64,
    (from, to): (&Datatype, &Datatype),
    matches: &[Match],
) {
    let clamped = |pair: &Match, record: u64| is_clamped(&run.first, record, from.size(), pair);
    let is = |test: fn(&Datatype) -> bool| {
        let either = |pair: &Match| test(pair.from.datatype) || test(pair.to.datatype);
        matches.iter().any(either)
    };
    let ints = is(|leaf| matches!(leaf, Datatype::Int(_)));
    let an_enum = is(|leaf| matches!(leaf, Datatype::Enum { .. }));
    saw(ints && an_enum, "an enum among ints");
    let a_real = is(|leaf| matches!(leaf, Datatype::Real(_)));
    saw(ints && a_real, "a real among ints");
    saw(matches.iter().any(keeps), "a kept pad");
    saw(repeats(from) && repeats(to), "members that repeat evenly");
    if raised > 0 {
        let later = |record| matches.iter().any(|pair| clamped(pair, record));
        saw((block..run.count).any(later), "an exception past the first");
        let wide = |pair: &&Match| {
            let is_int = matches!(pair.from.datatype, Datatype::Int(_) | Datatype::Bits(_));
            let to_int = !matches!(pair.to.datatype, Datatype::Real(_));
            is_int && to_int && number::layout(pair.from.datatype).precision == 64
        };
        let clamps = |pair: &Match| (0..run.count).any(|record| clamped(pair, record));
        let seen = matches.iter().filter(wide).any(clamps);
        saw(seen, "a number of 64 bits that is clamped");
    }
}

/// Whether a compound has several members of one type at one distance each.
fn repeats(datatype: &Datatype) -> bool {
    let Datatype::Comp { members, .. } = datatype else {
        return false;
    };
    let [first, second, ..] = &members[..] else {
        return false;
    };
    let even = |pair: &[independent::datatype::Member]| {
        pair[1].at.checked_sub(pair[0].at) == second.at.checked_sub(first.at)
            && pair[1].datatype.size() == pair[0].datatype.size()
            && !matches!(*pair[0].datatype, Datatype::Comp { .. })
    };
    members.len() > 2 && second.at > first.at && members.windows(2).all(even)
}

/// Where a run stopped: in which of the blocks that are searched.
fn note_stop(
    saw: &mut impl FnMut(bool, &str),
    count: u64,
    (record, at): (u64, u64),
    (from, to): (&Datatype, &Datatype),
    matches: &[Match],
) {
    let (whole, element) = (Unit::record(from, to), Unit::smallest(from, to));
    let block = whole.searched();
    let rest = |units: u64, block: u64| match units % block {
        left if left < FEWEST => units - left,
        _ => units,
    };
    if count >= FEWEST {
        saw(record == 0, "STOP at the first record of all");
        saw(record + 1 == count, "STOP at the last record of all");
        saw(record < block, "STOP in the first");
        saw(record >= block, "STOP in a later one");
        let first = record >= block && record % block == 0 && record < rest(count, block);
        saw(first, "STOP at the first record of one");
        saw(
            record % block == block - 1,
            "STOP at the last record of one",
        );
        saw(record >= rest(count, block), "STOP in the rest");
        let within = record % block;
        let full = block == 256 && record - within + block <= count;
        saw(full && STOPS.contains(&within), &stop_at(within));
    }
    if element.each > 1 {
        let leaf = matches.iter().position(|pair| pair.to.at == at);
        let leaves = matches.len() as u64 / element.each;
        let found = record * element.each + leaf.expect("a matched leaf") as u64 / leaves;
        let (units, block) = (count * element.each, element.searched());
        let first = found >= block && found % block == 0 && found < rest(units, block);
        saw(first, "STOP at the first element of one");
        saw(
            found % block == block - 1,
            "STOP at the last element of one",
        );
        let left = units >= FEWEST && found >= rest(units, block);
        saw(left, "STOP in the rest of the elements");
    }
}
