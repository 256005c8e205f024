//! What whole calls of the report promise, held against the library by itself:
//! calls that belong together are compared with each other.

use crate::convert::{self, with_types};
use crate::derive::derive;
use crate::generate;
use crate::held::{held, most_bytes};
use crate::model::Model;
use crate::random::Random;
use crate::records::{records, with_other_free_bits};
use crate::report_run::{ReportRun, ReportSeen, both, tell};
use crate::reports::{make, models, reader_of};
use crate::tally::Tally;
use crate::words;
use independent::report::{MOST_RECORDS, RECORDS, int_leaves, words};
use independent::symbols::keeps_symbols;
use std::ops::Range;

pub fn case(random: &mut Random, tally: &mut Tally) -> Result<(), String> {
    refused_case(random, tally)?;
    let (from, reader) = models(random, 0);
    if let Some(log) = Log::new(random, &from, &reader) {
        let memory = held(random, log.leaves, log.count);
        cutting(random, tally, &log, &memory)?;
        free_bytes_do_not_show(random, tally, &log, &memory)?;
    }
    season(random, tally, &reader)
}

/// A log with its sheet and a background, for a reader.
struct Log {
    source_sheet: Vec<u8>,
    reader_sheet: Vec<u8>,
    from: usize,
    to: usize,
    leaves: usize,
    count: u64,
    records: Vec<u8>,
    background: Vec<u8>,
}

impl Log {
    /// None where there is no path, or a symbol would be lost.
    fn new(random: &mut Random, source: &Model, reader: &Model) -> Option<Log> {
        let (source_sheet, reader_sheet) = words::texts(random, source, reader);
        let made = with_types(&source_sheet, &reader_sheet, |from, to, matches| {
            let most = 1500 / (matches.len() as u64 + 1) + 1;
            let count = random.between(0, most.min(12));
            keeps_symbols(from, to).then(|| Log {
                from: from.size() as usize,
                to: to.size() as usize,
                leaves: int_leaves(to).len(),
                count,
                records: records(random, from.size(), count, matches),
                background: random.bytes((to.size() * count) as usize),
                source_sheet: Vec::new(),
                reader_sheet: Vec::new(),
            })
        });
        made.flatten().map(|log| Log {
            source_sheet,
            reader_sheet,
            ..log
        })
    }

    /// A call on some of its records, with free bytes behind everything.
    fn call(&self, random: &mut Random, part: Range<u64>, memory: &[i64]) -> ReportRun {
        let (first, last) = (part.start as usize, part.end as usize);
        let mut log = self.records[first * self.from..last * self.from].to_vec();
        let room = (last - first) * self.from.max(self.to) + random.below(5) as usize;
        convert::resize(random, &mut log, room);
        let mut background = self.background[first * self.to..last * self.to].to_vec();
        background.extend(random.bytes(3));
        let output = most_bytes(memory.len()) + random.below(5) as usize;
        ReportRun {
            source_sheet: self.source_sheet.clone(),
            reader_sheet: self.reader_sheet.clone(),
            count: part.end - part.start,
            log,
            background,
            memory: memory.to_vec(),
            output: random.bytes(output),
            table: convert::table(random, 0),
        }
    }

    /// Runs its parts one behind the other. Gives the last call with what it
    /// left, and all converted records; none where a call is refused.
    fn run_parts(
        &self,
        random: &mut Random,
        cuts: &[u64],
        memory: &[i64],
    ) -> Result<Option<(ReportRun, ReportSeen, Vec<u8>)>, String> {
        let (mut memory, mut converted, mut start) = (memory.to_vec(), Vec::new(), 0);
        let mut last = None;
        for &end in cuts.iter().chain([&self.count]) {
            let run = self.call(random, start..end, &memory);
            let seen = both(random, &run)?;
            if !seen.is_done() {
                return Ok(None);
            }
            converted.extend_from_slice(&seen.log[..(end - start) as usize * self.to]);
            memory.clone_from(&seen.memory);
            start = end;
            last = Some((run, seen));
        }
        Ok(last.map(|(run, seen)| (run, seen, converted)))
    }
}

fn check(holds: bool, what: &str, run: &ReportRun) -> Result<(), String> {
    if holds {
        Ok(())
    } else {
        Err(format!("{what}\n{}", tell(run)))
    }
}

/// Places between records, in order; some of them the same, or an end.
fn cuts(random: &mut Random, count: u64) -> Vec<u64> {
    let mut cuts: Vec<u64> = (0..random.between(1, 3))
        .map(|_| random.between(0, count))
        .collect();
    cuts.sort();
    cuts
}

/// "Cutting a log between records, anywhere, gives the same report, if neither
/// the whole nor a part is refused."
fn cutting(
    random: &mut Random,
    tally: &mut Tally,
    log: &Log,
    memory: &[i64],
) -> Result<(), String> {
    let cuts = cuts(random, log.count);
    let Some((_, whole, converted)) = log.run_parts(random, &[], memory)? else {
        return Ok(());
    };
    let Some((run, last, pieces)) = log.run_parts(random, &cuts, memory)? else {
        return Ok(());
    };
    check(
        last.memory == whole.memory,
        "a cut shows in the memory",
        &run,
    )?;
    check(
        last.answer == whole.answer,
        "a cut shows in the answer",
        &run,
    )?;
    check(last.text() == whole.text(), "a cut shows in the text", &run)?;
    check(
        pieces == converted,
        "a cut shows in the converted records",
        &run,
    )?;
    tally.saw("law: a cut does not show");
    if cuts.iter().any(|&cut| cut > 0 && cut < log.count) {
        tally.saw("law: a cut within the log does not show");
    }
    Ok(())
}

/// Pads, gaps, unmatched members, background and table do not show.
fn free_bytes_do_not_show(
    random: &mut Random,
    tally: &mut Tally,
    log: &Log,
    memory: &[i64],
) -> Result<(), String> {
    let one = log.call(random, 0..log.count, memory);
    let mut other = one.clone();
    with_types(&log.source_sheet, &log.reader_sheet, |from, _, matches| {
        let records = with_other_free_bits(random, &log.records, from.size(), matches);
        other.log = random.bytes(one.log.len());
        other.log[..records.len()].copy_from_slice(&records);
    });
    let keeps_background = random.percent(50);
    if !keeps_background {
        other.background = random.bytes(one.background.len());
    }
    other.table = random.words(one.table.len());
    other.output = random.bytes(one.output.len());
    let (seen, again) = (both(random, &one)?, both(random, &other)?);
    check(
        seen.answer == again.answer,
        "free bytes show in the answer",
        &other,
    )?;
    check(
        seen.memory == again.memory,
        "free bytes show in the memory",
        &other,
    )?;
    if !seen.is_done() {
        return Ok(());
    }
    check(
        seen.text() == again.text(),
        "free bytes show in the text",
        &other,
    )?;
    tally.saw("law: free bytes do not show");
    if keeps_background {
        let end = log.count as usize * log.from.max(log.to);
        let same = seen.log[..end] == again.log[..end];
        let what = "free bytes show in the converted records or the cleared tail";
        check(same, what, &other)?;
        tally.saw("law: over one background free bytes do not show in the log");
    }
    Ok(())
}

/// Logs of several sheets, whole and cut: the same memory and last output.
fn season(random: &mut Random, tally: &mut Tally, reader: &Model) -> Result<(), String> {
    let mut logs = Vec::new();
    for _ in 0..random.between(2, 4) {
        let source = derive(random, reader);
        logs.extend(Log::new(random, &source, reader));
    }
    let Some(first) = logs.first() else {
        return Ok(());
    };
    let zeros = vec![0; words(first.leaves)];
    let (mut whole, mut cut) = (zeros.clone(), zeros);
    let mut texts = None;
    for log in &logs {
        let cuts = cuts(random, log.count);
        let one = log.run_parts(random, &[], &whole)?;
        let other = log.run_parts(random, &cuts, &cut)?;
        let (Some((_, one, _)), Some((run, other, _))) = (one, other) else {
            // From zeros no check but CHANNEL is left.
            return Ok(());
        };
        (whole, cut) = (one.memory.clone(), other.memory.clone());
        texts = Some((one, other, run));
    }
    if let Some((one, other, run)) = texts {
        check(whole == cut, "cuts show in the season's memory", &run)?;
        check(
            one.text() == other.text(),
            "cuts show in the season's output",
            &run,
        )?;
        tally.saw("law: a season does not turn on its cuts");
        if logs.len() > 2 {
            tally.saw("law: a season of three logs or more");
        }
    }
    Ok(())
}

/// From zeros the report takes just 1,048,576 records.
pub fn full_season(random: &mut Random, tally: &mut Tally) -> Result<(), String> {
    let reader = generate::sheet(random, 2);
    let reader = reader_of(random, 0, &reader);
    let text = words::text(random, &reader);
    let mut run = make(random, 0, text.clone(), text);
    let filled = with_types(
        &run.source_sheet.clone(),
        &run.reader_sheet.clone(),
        |from, to, matches| {
            run.count = 65_536;
            run.log = records(random, from.size(), run.count, matches);
            run.background = random.bytes((to.size() * run.count) as usize);
            run.memory = vec![0; words(int_leaves(to).len())];
            run.output = random.bytes(most_bytes(run.memory.len()));
        },
    );
    if filled.is_none() {
        return Ok(());
    }
    let log = run.log.clone();
    while run.memory[RECORDS] < MOST_RECORDS {
        run.log.clone_from(&log);
        let seen = both(random, &run)?;
        if seen.answer[0] == 10 {
            return Ok(());
        }
        check(seen.is_done(), "refused before 1,048,576 records", &run)?;
        run.memory = seen.memory;
    }
    run.count = 1;
    let seen = both(random, &run)?;
    check(seen.answer[0] == 11, "more than 1,048,576 records", &run)?;
    run.count = 0;
    let seen = both(random, &run)?;
    check(seen.is_done(), "no record is too many", &run)?;
    tally.saw("law: 1,048,576 records from zeros");
    Ok(())
}

/// Where a check before the last one refuses, log and background do not show.
fn refused_case(random: &mut Random, tally: &mut Tally) -> Result<(), String> {
    let (from, reader) = models(random, 20);
    let (from, reader) = words::texts(random, &from, &reader);
    let run = make(random, 20, from, reader);
    let seen = both(random, &run)?;
    let unhurt = seen.log == run.log && seen.memory == run.memory && seen.output == run.output;
    check(
        seen.is_done() || unhurt,
        "a refusal changes something",
        &run,
    )?;
    let mut whole = run.clone();
    whole.output = vec![0; most_bytes(run.memory.len())];
    if both(random, &whole)?.is_done() {
        return Ok(());
    }
    let mut other = run.clone();
    other.log = random.bytes(run.log.len());
    other.background = random.bytes(run.background.len());
    other.table = random.words(run.table.len());
    let again = both(random, &other)?;
    check(
        seen.answer == again.answer,
        "data bytes show in a refusal",
        &other,
    )?;
    tally.saw("law: data bytes do not show in a refusal of the report");
    Ok(())
}
