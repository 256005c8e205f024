//! One call of the report, through the library and through the independent
//! converter, and how two results differ.

use crate::capi;
use crate::random::Random;
use crate::run::{self, answers_differ, first_difference};
use independent::call::Call;
use independent::report::{self, After};

/// What a call is given.
#[derive(Clone)]
pub struct ReportRun {
    pub source_sheet: Vec<u8>,
    pub reader_sheet: Vec<u8>,
    pub count: u64,
    pub log: Vec<u8>,
    pub background: Vec<u8>,
    pub memory: Vec<i64>,
    pub output: Vec<u8>,
    pub table: Vec<u32>,
}

/// What a call leaves.
#[derive(Clone, PartialEq, Eq)]
pub struct ReportSeen {
    pub answer: [u64; 8],
    pub log: Vec<u8>,
    pub memory: Vec<i64>,
    pub output: Vec<u8>,
    pub table: Vec<u32>,
}

impl ReportSeen {
    pub fn is_done(&self) -> bool {
        self.answer[0] == 0
    }

    /// What a call that is done wrote: as many bytes as it says.
    pub fn text(&self) -> &[u8] {
        &self.output[..self.answer[1] as usize]
    }
}

impl From<After> for ReportSeen {
    fn from(after: After) -> ReportSeen {
        ReportSeen {
            answer: run::words(after.answer),
            log: after.log,
            memory: after.memory,
            output: after.output,
            table: after.table,
        }
    }
}

/// What the independent converter makes of a call.
pub fn expected(run: &ReportRun) -> ReportSeen {
    let call = Call {
        source_sheet: &run.source_sheet,
        destination_sheet: &run.reader_sheet,
        count: run.count,
        handling: None,
        table: &run.table,
    };
    report::report(call, &run.log, &run.background, &run.memory, &run.output).into()
}

/// Runs both and compares everything; gives what the library left.
pub fn both(random: &mut Random, run: &ReportRun) -> Result<ReportSeen, String> {
    let seen = capi::report(random, run).map_err(|fault| format!("{fault}\n{}", tell(run)))?;
    match difference(&seen, &expected(run)) {
        None => Ok(seen),
        Some(fault) => Err(format!("{fault}\n{}", tell(run))),
    }
}

fn difference(seen: &ReportSeen, expected: &ReportSeen) -> Option<String> {
    let mut told = answers_differ(&seen.answer, &expected.answer);
    told.extend(first_difference("log byte", &seen.log, &expected.log));
    told.extend(first_difference(
        "memory word",
        &seen.memory,
        &expected.memory,
    ));
    told.extend(first_difference(
        "output byte",
        &seen.output,
        &expected.output,
    ));
    told.extend(first_difference("table word", &seen.table, &expected.table));
    (!told.is_empty()).then(|| told.join("\n"))
}

/// A call in words, long buffers cut.
pub fn tell(run: &ReportRun) -> String {
    let held: Vec<String> = run.memory.iter().take(30).map(i64::to_string).collect();
    format!(
        "report\ncount: {}\ntable words: {}\noutput bytes: {}\n\
         source sheet:\n{}\nreader's sheet:\n{}\nlog: {}\nbackground: {}\nmemory: {} words: {}",
        run.count,
        run.table.len(),
        run.output.len(),
        run::show(&run.source_sheet),
        run::show(&run.reader_sheet),
        run::hex(&run.log),
        run::hex(&run.background),
        run.memory.len(),
        held.join(" "),
    )
}
