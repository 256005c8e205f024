//! The record size of every sheet that a case is about.

use crate::capi;
use crate::random::Random;
use crate::real_events;
use crate::run::{self, Run, Seen};
use crate::tally::Tally;
use crate::word_events;
use independent::sheet;
use independent::size;

/// Compares the record size of both sheets of a run.
pub fn of_run(random: &mut Random, tally: &mut Tally, run: &Run) -> Result<(), String> {
    of_sheet(random, tally, &run.source_sheet, &run.table)?;
    of_sheet(random, tally, &run.destination_sheet, &run.table)
}

pub fn of_sheet(
    random: &mut Random,
    tally: &mut Tally,
    text: &[u8],
    table: &[u32],
) -> Result<(), String> {
    let expected: Seen = size::record_size(text, table).into();
    let told = |fault| {
        format!(
            "{fault}\nrecord size, table {}\n{}",
            table.len(),
            run::show(text)
        )
    };
    let seen = capi::record_size(random, text, table).map_err(told)?;
    if let Some(fault) = run::difference(&seen, &expected) {
        return Err(told(fault));
    }
    note(tally, text, &seen);
    Ok(())
}

fn note(tally: &mut Tally, text: &[u8], seen: &Seen) {
    let [number, size, line, ..] = seen.answer;
    tally.answer("record size", number);
    word_events::note_call(tally, "record size", &[text], number);
    match number {
        0 if size == 4096 => tally.saw("record size 4,096"),
        2 if sheet::read(text).is_err() => tally.saw("record size, 2 and 3 at once"),
        3 if line == 0 => tally.saw("record size, SOURCE at line 0"),
        3 => {
            real_events::note_fault(tally, text, line);
            word_events::note_fault(tally, text, line);
        }
        _ => {}
    }
}
