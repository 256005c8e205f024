//! Notes what a run has met.

use crate::real_events;
use crate::refusals::{Refusals, is_short};
use crate::run::{Run, Seen};
use crate::stop_events;
use crate::symbol_events;
use crate::tally::Tally;
use crate::word_events;
use independent::datatype::Datatype;
use independent::sheet;
use independent::symbols::keeps_symbols;

pub fn note(tally: &mut Tally, run: &Run, seen: &Seen) {
    let [number, count, line, record, at, kind, ..] = seen.answer;
    tally.answer(run.form.name(), number);
    match number {
        0 if count > 0 => tally.saw("done with an exception"),
        0 if run.count == 0 => tally.saw("done of no record"),
        3 if line == 0 => tally.saw("SOURCE at line 0"),
        3 if line > 250 => tally.saw("SOURCE past line 250"),
        4 if line == 0 => tally.saw("DESTINATION at line 0"),
        8 => {
            tally.saw(&format!("STOP kind {kind}"));
            if record > 0 {
                tally.saw("STOP past record 0");
            }
            if at > 0 {
                tally.saw("STOP past byte 0");
            }
            stop_events::note(tally, run, record, at);
        }
        _ => {}
    }
    if number == 0 && run.count == 65_536 {
        tally.saw("done of 65,536 records");
    }
    note_sizes(tally, run, number);
    let sheets = (&run.source_sheet[..], &run.destination_sheet[..]);
    symbol_events::note(tally, "", sheets, number, run.count);
    real_events::note(tally, run, number);
    word_events::note(tally, run, seen);
    note_pairs(tally, run);
}

fn note_sizes(tally: &mut Tally, run: &Run, number: u64) {
    if number != 0 || run.form.is_copying() || run.count < 2 {
        return;
    }
    let size = |text| sheet::read(text).map(|datatype| datatype.size());
    let sizes = (size(&run.source_sheet), size(&run.destination_sheet));
    if let (Ok(from), Ok(to)) = sizes {
        if from < to {
            tally.saw("in place, growing, several records");
        }
        if from > to {
            tally.saw("in place, shrinking, several records");
        }
    }
}

/// Notes pairs of checks that would both refuse.
fn note_pairs(tally: &mut Tally, run: &Run) {
    let (from, to) = (
        sheet::read(&run.source_sheet).ok(),
        sheet::read(&run.destination_sheet).ok(),
    );
    let table = run.table.len();
    let mut refusals = Refusals::of(table, from.as_deref(), to.as_deref(), run.count);
    refusals.add(1, !run.form.is_plain() && run.handling > 1);
    if let (Some(from), Some(to)) = (from, to) {
        refusals.add(12, !keeps_symbols(&from, &to));
        if refusals.has(5) && reshaped(&from, &to) {
            tally.saw("arrays of one total and other dimensions");
        }
        let longer = if run.form.is_copying() {
            from.size()
        } else {
            from.size().max(to.size())
        };
        let first_short = is_short(run.first.len(), run.count, longer);
        let second_short = is_short(run.second.len(), run.count, to.size());
        refusals.add(7, first_short || second_short);
    }
    refusals.note(tally, "");
}

/// Whether arrays on the same way have as many elements in other dimensions.
fn reshaped(source: &Datatype, destination: &Datatype) -> bool {
    match (source, destination) {
        (
            Datatype::Array {
                base: from,
                dimensions: lengths,
            },
            Datatype::Array { base, dimensions },
        ) => {
            let total = |lengths: &[u64]| lengths.iter().product::<u64>();
            (lengths != dimensions && total(lengths) == total(dimensions)) || reshaped(from, base)
        }
        (Datatype::Comp { members: from, .. }, Datatype::Comp { members, .. }) => {
            members.iter().any(|member| {
                let other = from.iter().find(|other| other.name == member.name);
                other.is_some_and(|other| reshaped(&other.datatype, &member.datatype))
            })
        }
        _ => false,
    }
}
