//! Notes what a call of the report has met.

use crate::held::MOST;
use crate::real_events;
use crate::refusals::{Refusals, is_short};
use crate::report_run::{ReportRun, ReportSeen, expected};
use crate::symbol_events;
use crate::tally::Tally;
use crate::word_events;
use independent::datatype::Datatype;
use independent::number;
use independent::paths;
use independent::report::{
    EXCEPTIONS, LEAF_WORDS, LEAVES, MOST_RECORDS, RECORDS, SAMPLES, int_leaves, is_full, words,
};
use independent::sheet;
use independent::symbols::keeps_symbols;

pub fn note(tally: &mut Tally, run: &ReportRun, seen: &ReportSeen) {
    tally.answer("report", seen.answer[0]);
    let sheets = [&run.source_sheet[..], &run.reader_sheet];
    word_events::note_call(tally, "report", &sheets, seen.answer[0]);
    let (from, to) = (
        sheet::read(&run.source_sheet),
        sheet::read(&run.reader_sheet),
    );
    let (Ok(from), Ok(to)) = (&from, &to) else {
        note_pairs(tally, run, from.as_deref().ok(), to.as_deref().ok());
        return;
    };
    note_pairs(tally, run, Some(from), Some(to));
    let sheets = (&run.source_sheet[..], &run.reader_sheet[..]);
    symbol_events::note(tally, "report ", sheets, seen.answer[0], run.count);
    match seen.answer[0] {
        0 => {
            note_done(tally, run, seen);
            note_leaves(tally, from, to);
            real_events::note_report(tally, run, from, to);
        }
        7 => note_short(tally, run, to),
        10 => note_wide(tally, to),
        11 => note_full(tally, run, to),
        _ => {}
    }
}

fn note_done(tally: &mut Tally, run: &ReportRun, seen: &ReportSeen) {
    let (before, after) = (&run.memory, &seen.memory);
    let mut saw = |holds: bool, what: &str| {
        if holds {
            tally.saw(&format!("report: {what}"));
        }
    };
    let leaves = seen.text().split(|&byte| byte == b'\n').count() - 2;
    let needed = words(leaves);
    let mut each = before[LEAVES..needed].chunks(LEAF_WORDS);
    let mut words = before[..needed].iter();
    saw(run.count == 0, "done of no record");
    saw(run.count == 65_536, "done of 65,536 records");
    saw(after[EXCEPTIONS] > before[EXCEPTIONS], "an exception");
    saw(after[RECORDS] == MOST_RECORDS, "up to 1,048,576 records");
    saw(leaves == 0, "no int leaf");
    saw(leaves > 1000, "more than 1,000 int leaves");
    saw(before.len() > needed, "words behind the report's");
    saw(before.len() == needed, "just the words");
    saw(
        seen.text().len() == seen.output.len(),
        "just the room for the output",
    );
    saw(words.any(|word| word.abs() == MOST), "2^52 held");
    saw(
        each.any(|leaf| leaf[SAMPLES] == 0 && leaf[0] != 0),
        "a held lowest without a sample",
    );
    saw(
        seen.text().windows(4).any(|four| four == b"\t-\t-"),
        "no sample",
    );
}

fn note_leaves(tally: &mut Tally, from: &Datatype, to: &Datatype) {
    let leaves = int_leaves(to);
    let matched = leaves.iter().filter(|leaf| paths::is_matched(from, leaf));
    if matched.count() < leaves.len() {
        tally.saw("report: an unmatched int leaf");
    }
    let is_wide = |leaf: &paths::Leaf| number::layout(leaf.datatype).precision > 32;
    if paths::leaves(to).iter().any(is_wide) {
        tally.saw("report: a wide leaf that is no int");
    }
}

fn note_wide(tally: &mut Tally, to: &Datatype) {
    let leaves = int_leaves(to);
    let widest = leaves
        .iter()
        .map(|leaf| number::layout(leaf.datatype).precision)
        .max();
    if widest == Some(33) {
        tally.saw("report CHANNEL: one bit too wide");
    }
}

fn note_short(tally: &mut Tally, run: &ReportRun, to: &Datatype) {
    let needed = words(int_leaves(to).len());
    if run.memory.len() + 1 == needed {
        tally.saw("report: a memory short by one word");
    }
    let mut longer = run.clone();
    longer.output.push(0);
    if expected(&longer).is_done() {
        tally.saw("report: an output short by one byte");
    }
}

fn note_full(tally: &mut Tally, run: &ReportRun, to: &Datatype) {
    let memory = &run.memory[..words(int_leaves(to).len())];
    let mut saw = |holds: bool, what: &str| {
        if holds {
            tally.saw(&format!("report FULL: {what}"));
        }
    };
    let samples = || {
        memory[LEAVES..]
            .chunks(LEAF_WORDS)
            .map(|leaf| leaf[SAMPLES])
    };
    saw(memory[RECORDS] == -1, "negative records");
    saw(memory[EXCEPTIONS] == -1, "negative exceptions");
    saw(samples().any(|count| count == -1), "negative samples");
    saw(memory.contains(&(MOST + 1)), "2^52 + 1");
    saw(memory.contains(&(-MOST - 1)), "-2^52 - 1");
    saw(memory.contains(&i64::MIN), "-2^63");
    saw(memory.contains(&i64::MAX), "2^63 - 1");
    let past = MOST_RECORDS + 1 - run.count as i64;
    saw(memory[RECORDS] == past, "one record too many");
}

/// Notes pairs of checks that would both refuse.
fn note_pairs(tally: &mut Tally, run: &ReportRun, from: Option<&Datatype>, to: Option<&Datatype>) {
    let mut refusals = Refusals::of(run.table.len(), from, to, run.count);
    if let Some(to) = to {
        let mut leaves = int_leaves(to);
        let needed = words(leaves.len());
        leaves.retain(|leaf| number::layout(leaf.datatype).precision > 32);
        refusals.add(10, !leaves.is_empty());
        if let Some(from) = from {
            refusals.add(12, !keeps_symbols(from, to));
            let longer = from.size().max(to.size());
            let is_short = is_short(run.log.len(), run.count, longer)
                || is_short(run.background.len(), run.count, to.size())
                || run.memory.len() < needed;
            refusals.add(7, is_short);
        }
        if run.memory.len() >= needed && run.count < 1 << 62 {
            refusals.add(11, is_full(&run.memory[..needed], run.count));
        }
    }
    refusals.note(tally, "report, ");
    if refusals.are(&[11]) && run.output.len() < 30 {
        tally.saw("report, 11 and a short output at once");
    }
}
