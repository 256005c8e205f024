//! The calls of the library under test, each with guarded buffers.

use crate::compare_run::CompareRun;
use crate::lent::Lent;
use crate::random::Random;
use crate::report_run::{ReportRun, ReportSeen};
use crate::run::{Form, Run, Seen};
use independent::setters::{Setter, Words};

type Answer = [u64; 8];

#[rustfmt::skip]
unsafe extern "C" {
    fn yirvagul_convert_copying(
        source_sheet: *const u8, source_sheet_len: usize,
        destination_sheet: *const u8, destination_sheet_len: usize, count: u64, handling: u32,
        source: *const u8, source_len: usize, destination: *mut u8, destination_len: usize,
        table: *mut u32, table_len: usize, answer: *mut Answer) -> u32;
    fn yirvagul_convert_copying_plain(
        source_sheet: *const u8, source_sheet_len: usize,
        destination_sheet: *const u8, destination_sheet_len: usize, count: u64,
        source: *const u8, source_len: usize, destination: *mut u8, destination_len: usize,
        table: *mut u32, table_len: usize, answer: *mut Answer) -> u32;
    fn yirvagul_convert_in_place(
        source_sheet: *const u8, source_sheet_len: usize,
        destination_sheet: *const u8, destination_sheet_len: usize, count: u64, handling: u32,
        buffer: *mut u8, buffer_len: usize, background: *const u8, background_len: usize,
        table: *mut u32, table_len: usize, answer: *mut Answer) -> u32;
    fn yirvagul_convert_in_place_plain(
        source_sheet: *const u8, source_sheet_len: usize,
        destination_sheet: *const u8, destination_sheet_len: usize, count: u64,
        buffer: *mut u8, buffer_len: usize, background: *const u8, background_len: usize,
        table: *mut u32, table_len: usize, answer: *mut Answer) -> u32;
    fn yirvagul_report(
        source_sheet: *const u8, source_sheet_len: usize,
        reader_sheet: *const u8, reader_sheet_len: usize, count: u64,
        log: *mut u8, log_len: usize, background: *const u8, background_len: usize,
        memory: *mut i64, memory_len: usize, output: *mut u8, output_len: usize,
        table: *mut u32, table_len: usize, answer: *mut Answer) -> u32;
    fn yirvagul_compare(
        first_sheet: *const u8, first_sheet_len: usize,
        second_sheet: *const u8, second_sheet_len: usize, count: u64,
        first: *const u8, first_len: usize, second: *const u8, second_len: usize,
        list: *mut u8, list_len: usize,
        table: *mut u32, table_len: usize, answer: *mut Answer) -> u32;
    fn yirvagul_reach(
        source_sheet: *const u8, source_sheet_len: usize,
        destination_sheet: *const u8, destination_sheet_len: usize,
        mask: *mut u8, mask_len: usize,
        table: *mut u32, table_len: usize, answer: *mut Answer) -> u32;
    fn yirvagul_leaf_list(sheet: *const u8, sheet_len: usize, list: *mut u8, list_len: usize,
        table: *mut u32, table_len: usize, answer: *mut Answer) -> u32;
    fn yirvagul_record_size(sheet: *const u8, sheet_len: usize,
        table: *mut u32, table_len: usize, answer: *mut Answer) -> u32;
    fn yirvagul_set_size(layout: *mut Words, size: u32) -> u32;
    fn yirvagul_set_order(layout: *mut Words, order: u32) -> u32;
    fn yirvagul_set_field(layout: *mut Words, offset: u32, precision: u32) -> u32;
    fn yirvagul_set_pads(layout: *mut Words, lsb: u32, msb: u32) -> u32;
    fn yirvagul_set_sign(layout: *mut Words, sign: u32) -> u32;
}

fn bytes(random: &mut Random, content: &[u8]) -> Lent<u8> {
    Lent::new(random, content, |word| word as u8)
}

fn words(random: &mut Random, content: &[u32]) -> Lent<u32> {
    Lent::new(random, content, |word| word as u32)
}

/// What the answer held must not show: every word is written.
fn answer(random: &mut Random) -> Lent<u64> {
    let held: Vec<u64> = (0..8).map(|_| random.next()).collect();
    Lent::new(random, &held, |word| word)
}

/// Runs a converting call. Reports what it changed that is not its own.
pub fn convert(random: &mut Random, run: &Run) -> Result<Seen, String> {
    let mut from = bytes(random, &run.source_sheet);
    let mut to = bytes(random, &run.destination_sheet);
    let mut first = bytes(random, &run.first);
    let mut second = bytes(random, &run.second);
    let mut table = words(random, &run.table);
    let mut answer = answer(random);
    #[rustfmt::skip]
    macro_rules! call {
        ($name:ident $(, $handling:expr)?) => {
            unsafe { $name(
                from.pointer(), from.len(), to.pointer(), to.len(), run.count, $($handling,)?
                first.pointer(), first.len(), second.pointer(), second.len(),
                table.pointer(), table.len(), answer.pointer().cast()) }
        };
    }
    let returned = match run.form {
        Form::Copying => call!(yirvagul_convert_copying, run.handling),
        Form::CopyingPlain => call!(yirvagul_convert_copying_plain),
        Form::InPlace => call!(yirvagul_convert_in_place, run.handling),
        Form::InPlacePlain => call!(yirvagul_convert_in_place_plain),
    };
    let (written, lent) = if run.form.is_copying() {
        (second, first)
    } else {
        (first, second)
    };
    whole("the source sheet", from.unchanged())?;
    whole("the destination sheet", to.unchanged())?;
    whole("the source or background", lent.unchanged())?;
    seen(returned, written, table, answer)
}

/// Runs the report.
pub fn report(random: &mut Random, run: &ReportRun) -> Result<ReportSeen, String> {
    let mut from = bytes(random, &run.source_sheet);
    let mut to = bytes(random, &run.reader_sheet);
    let mut log = bytes(random, &run.log);
    let mut background = bytes(random, &run.background);
    let mut memory = Lent::new(random, &run.memory, |word| word as i64);
    let mut output = bytes(random, &run.output);
    let mut table = words(random, &run.table);
    let mut answer = answer(random);
    #[rustfmt::skip]
    let returned = unsafe {
        yirvagul_report(
            from.pointer(), from.len(), to.pointer(), to.len(), run.count,
            log.pointer(), log.len(), background.pointer(), background.len(),
            memory.pointer(), memory.len(), output.pointer(), output.len(),
            table.pointer(), table.len(), answer.pointer().cast())
    };
    whole("the source sheet", from.unchanged())?;
    whole("the reader's sheet", to.unchanged())?;
    whole("the background", background.unchanged())?;
    whole("words around the memory", memory.guards_hold())?;
    whole("bytes around the log", log.guards_hold())?;
    let seen = seen(returned, output, table, answer)?;
    Ok(ReportSeen {
        answer: seen.answer,
        log: log.content().to_vec(),
        memory: memory.content().to_vec(),
        output: seen.written,
        table: seen.table,
    })
}

/// Compares two logs, which may be lent as one buffer.
pub fn compare(random: &mut Random, run: &CompareRun) -> Result<Seen, String> {
    let mut from = bytes(random, &run.first_sheet);
    let mut to = bytes(random, &run.second_sheet);
    let mut first = bytes(random, &run.first);
    let mut second = bytes(random, &run.second);
    let mut list = bytes(random, &run.list);
    let mut table = words(random, &run.table);
    let mut answer = answer(random);
    let lent = if run.is_one { &mut first } else { &mut second };
    let (other, other_len) = (lent.pointer(), lent.len());
    #[rustfmt::skip]
    let returned = unsafe {
        yirvagul_compare(
            from.pointer(), from.len(), to.pointer(), to.len(), run.count,
            first.pointer(), first.len(), other, other_len,
            list.pointer(), list.len(),
            table.pointer(), table.len(), answer.pointer().cast())
    };
    whole("the first sheet", from.unchanged())?;
    whole("the second sheet", to.unchanged())?;
    whole("the first log", first.unchanged())?;
    whole("the second log", second.unchanged())?;
    seen(returned, list, table, answer)
}

/// Runs the call that says which bits of a source record show.
pub fn reach(
    random: &mut Random,
    (from, to): (&[u8], &[u8]),
    mask: &[u8],
    table: &[u32],
) -> Result<Seen, String> {
    let mut from = bytes(random, from);
    let mut to = bytes(random, to);
    let mut mask = bytes(random, mask);
    let mut table = words(random, table);
    let mut answer = answer(random);
    #[rustfmt::skip]
    let returned = unsafe {
        yirvagul_reach(
            from.pointer(), from.len(), to.pointer(), to.len(), mask.pointer(), mask.len(),
            table.pointer(), table.len(), answer.pointer().cast())
    };
    whole("the source sheet", from.unchanged())?;
    whole("the destination sheet", to.unchanged())?;
    seen(returned, mask, table, answer)
}

/// Runs the leaf list.
pub fn list(random: &mut Random, sheet: &[u8], list: &[u8], table: &[u32]) -> Result<Seen, String> {
    let mut sheet = bytes(random, sheet);
    let mut list = bytes(random, list);
    let mut table = words(random, table);
    let mut answer = answer(random);
    let returned = unsafe {
        yirvagul_leaf_list(
            sheet.pointer(),
            sheet.len(),
            list.pointer(),
            list.len(),
            table.pointer(),
            table.len(),
            answer.pointer().cast(),
        )
    };
    whole("the sheet", sheet.unchanged())?;
    seen(returned, list, table, answer)
}

/// Runs the record size, which has no buffer to write.
pub fn record_size(random: &mut Random, sheet: &[u8], table: &[u32]) -> Result<Seen, String> {
    let mut sheet = bytes(random, sheet);
    let mut table = words(random, table);
    let mut answer = answer(random);
    let returned = unsafe {
        yirvagul_record_size(
            sheet.pointer(),
            sheet.len(),
            table.pointer(),
            table.len(),
            answer.pointer().cast(),
        )
    };
    whole("the sheet", sheet.unchanged())?;
    seen(returned, bytes(random, &[]), table, answer)
}

/// Runs a setter; gives its number and the layout after it.
pub fn set(random: &mut Random, layout: Words, setter: Setter) -> Result<(u32, Words), String> {
    let mut lent = words(random, &layout);
    let words = lent.pointer().cast();
    let returned = unsafe {
        match setter {
            Setter::Size(size) => yirvagul_set_size(words, size),
            Setter::Order(order) => yirvagul_set_order(words, order),
            Setter::Field(offset, precision) => yirvagul_set_field(words, offset, precision),
            Setter::Pads(lsb, msb) => yirvagul_set_pads(words, lsb, msb),
            Setter::Sign(sign) => yirvagul_set_sign(words, sign),
        }
    };
    whole("words around the layout", lent.guards_hold())?;
    let after = lent.content().try_into().expect("eight words");
    Ok((returned, after))
}

fn whole(what: &str, holds: bool) -> Result<(), String> {
    if holds {
        Ok(())
    } else {
        Err(format!("the library changed {what}, which it may not"))
    }
}

fn seen(
    returned: u32,
    written: Lent<u8>,
    table: Lent<u32>,
    answer: Lent<u64>,
) -> Result<Seen, String> {
    whole("bytes around the written buffer", written.guards_hold())?;
    whole("words around the table", table.guards_hold())?;
    whole("words around the answer", answer.guards_hold())?;
    let answer: Answer = answer.content().try_into().expect("eight words");
    if u64::from(returned) != answer[0] {
        return Err(format!(
            "the library returned {returned}, but its answer says {}",
            answer[0]
        ));
    }
    Ok(Seen {
        answer,
        written: written.content().to_vec(),
        table: table.content().to_vec(),
    })
}
