//! Cases of the plain forms beside the calls that name a handling, over the same
//! sheets, records and background: a plain form is as handling 1, and the report
//! as handling 0 where no member of the reader has a word.

use crate::block_sheets::narrowed;
use crate::blocks::FEWEST;
use crate::convert::with_types;
use crate::events;
use crate::generate::paired;
use crate::random::Random;
use crate::records::records;
use crate::report_run::{self, ReportRun};
use crate::reports;
use crate::run::{self, Form, Run, Seen, check};
use crate::tally::Tally;
use crate::words;
use independent::call::{CLAMP, STOP};
use independent::report::EXCEPTIONS;

/// What a whole run must have met.
pub const NEEDED: [&str; 6] = [
    "case: plain forms and the report",
    "law: a plain form is as handling 1",
    "law: the report is as handling 0",
    "plain: the form stops in place, the report on the same records is done",
    "plain: the form stops in place, the report on the same record is done",
    "plain: the form stops in place, the report on the same block is done",
];

const COUNTS: [u64; 8] = [0, 1, 1, 2, 3, 7, 9, 257];

pub fn case(random: &mut Random, tally: &mut Tally) -> Result<(), String> {
    let (from, reader) = match random.percent(60) {
        true => paired(random, 5, narrowed),
        false => reports::models(random, 0),
    };
    let sheets = words::texts(random, &from, &reader);
    let made = with_types(&sheets.0, &sheets.1, |source, _, matches| {
        let most = 4000 / (matches.len() as u64 + source.size() / 8 + 1) + 1;
        let count = (*random.pick(&COUNTS)).min(most);
        (count, records(random, source.size(), count, matches))
    });
    let Some((count, log)) = made else {
        return Ok(());
    };
    let report = reports::run_of_log(random, sheets, count, log);
    let stopped = plain_is_stop(random, tally, &report)?;
    report_is_clamp(random, tally, &report, stopped)
}

/// The same sheets, records and background in a converting call.
fn converting(report: &ReportRun, form: Form, handling: u32) -> Run {
    Run {
        form,
        source_sheet: report.source_sheet.clone(),
        destination_sheet: report.reader_sheet.clone(),
        count: report.count,
        handling,
        first: report.log.clone(),
        second: report.background.clone(),
        table: report.table.clone(),
    }
}

/// Both plain forms beside those that name handling 1; gives whether the one in
/// place stopped.
fn plain_is_stop(
    random: &mut Random,
    tally: &mut Tally,
    report: &ReportRun,
) -> Result<bool, String> {
    let mut last = None;
    for (plain, naming) in [
        (Form::CopyingPlain, Form::Copying),
        (Form::InPlacePlain, Form::InPlace),
    ] {
        let run = converting(report, plain, CLAMP);
        let seen = run::both(random, &run)?;
        events::note(tally, &run, &seen);
        let named = run::both(random, &converting(report, naming, STOP))?;
        check(seen == named, "a plain form is not as handling 1", &run)?;
        last = Some(seen);
    }
    tally.saw("law: a plain form is as handling 1");
    Ok(last.is_some_and(|seen: Seen| seen.answer[0] == 8))
}

/// The report leaves the log as handling 0 in place does, and counts as many
/// exceptions.
fn report_is_clamp(
    random: &mut Random,
    tally: &mut Tally,
    report: &ReportRun,
    stopped: bool,
) -> Result<(), String> {
    let seen = report_run::both(random, report)?;
    if !seen.is_done() {
        return Ok(());
    }
    let mut run = converting(report, Form::InPlace, CLAMP);
    run.destination_sheet = words::off(&report.reader_sheet);
    let named = run::both(random, &run)?;
    check(named.answer[0] == 0, "handling 0 refuses", &run)?;
    check(
        seen.log == named.written,
        "the report leaves another log",
        &run,
    )?;
    let counted = seen.memory[EXCEPTIONS] - report.memory[EXCEPTIONS];
    let same = counted as u64 == named.answer[1];
    check(same, "the report counts other exceptions", &run)?;
    tally.saw("law: the report is as handling 0");
    if stopped {
        check(counted > 0, "a plain form stops without an exception", &run)?;
        tally.saw(match report.count {
            1 => NEEDED[4],
            FEWEST.. => NEEDED[5],
            _ => NEEDED[3],
        });
    }
    Ok(())
}
