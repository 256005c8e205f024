//! The report of 2026-01 on seasons that are worked out by hand.

use crate::call::{Answer, Call, in_place};
use crate::exercises::{BYTE, LISTED, SIGNED_BYTE, TWO_BE, given};
use crate::reals::REAL_BE;
use crate::report::{After, MOST_HELD, report};

const TABLE: [u32; 8192] = [7; 8192];
const HEAD: &str = "at\tlowest\thighest\tsum\tsamples\n";

/// A report of one reader, over zeros.
struct Season {
    reader: String,
    memory: Vec<i64>,
}

impl Season {
    fn new(reader: &str, leaves: usize) -> Season {
        Season {
            reader: reader.to_string(),
            memory: vec![0; 2 + 4 * leaves],
        }
    }

    /// A call with as much room as any reader here needs.
    fn call(&self, source: &str, count: u64, log: &[u8]) -> After {
        let call = Call {
            source_sheet: source.as_bytes(),
            destination_sheet: self.reader.as_bytes(),
            count,
            handling: None,
            table: &TABLE,
        };
        report(call, log, &[0xA5; 64], &self.memory, &[0x2E; 600])
    }

    /// Adds a log; gives the text.
    #[track_caller]
    fn add(&mut self, source: &str, count: u64, log: &[u8]) -> String {
        let after = self.call(source, count, log);
        assert_eq!(after.answer, Answer::done(after.answer.count));
        let end = after.answer.count as usize;
        assert!(after.output[end..].iter().all(|&byte| byte == 0x2E));
        self.memory = after.memory;
        String::from_utf8(after.output[..end].to_vec()).expect("text")
    }

    /// A call is refused, and leaves everything.
    #[track_caller]
    fn refused(&self, number: u64, source: &str, count: u64, log: &[u8]) {
        let after = self.call(source, count, log);
        assert_eq!(after.answer, Answer::refused(number));
        assert_eq!(after.log, log);
        assert_eq!(after.memory, self.memory);
        assert_eq!(after.output, [0x2E; 600]);
        assert_eq!(after.table, [0; 8192]);
    }
}

#[test]
fn three_logs_of_two_sheets() {
    // Document 01's listed sheet: three pressures, and a valve that is no line.
    let mut season = Season::new(LISTED, 3);
    let none = format!("{HEAD}0\t-\t-\t0\t0\n2\t-\t-\t0\t0\n4\t-\t-\t0\t0\n");
    assert_eq!(season.add(LISTED, 0, &[]), none);
    let log = [0x06, 0x40, 0x7D, 0x00, 0xFF, 0xF0, 0, 0];
    let first =
        format!("{HEAD}0\t100\t100\t100\t1\n2\t2000\t2000\t2000\t1\n4\t4095\t4095\t4095\t1\n");
    assert_eq!(season.add(LISTED, 1, &log), first);
    // A log without the pressures: a record, an exception, and no sample.
    let valve = format!("{BYTE}enum\t0\nvalue\topen\t3\ncomp\t1\nmember\tvalve\t0\t1\n");
    assert_eq!(
        season.add(&valve, 2, &[[3, 4], [0; 2]].concat().repeat(4)),
        first
    );
    assert_eq!(season.memory[..2], [3, 1]);
    // Signed pressures: -1 and 5000 are clamped, and are samples.
    let wide = "int\t2\tBE\t0\t16\tzero\tzero\tsigned\narray\t0\t3\ncomp\t6\nmember\tboost\t0\t1\n";
    let log = [0xFF, 0xFF, 0x00, 0x07, 0x13, 0x88, 0, 0];
    let last = format!("{HEAD}0\t0\t100\t100\t2\n2\t7\t2000\t2007\t2\n4\t4095\t4095\t8190\t2\n");
    assert_eq!(season.add(wide, 1, &log), last);
    assert_eq!(season.memory[..2], [4, 3]);
}

#[test]
fn the_log_is_converted_in_place() {
    let season = Season::new(BYTE, 1);
    let after = season.call(TWO_BE, 2, &[0, 5, 1, 0, 0x77]);
    assert_eq!(after.log, [5, 255, 0, 0, 0x77]);
    assert_eq!(after.memory, [2, 1, 5, 255, 260, 2]);
}

#[test]
fn the_report_clamps_where_a_plain_form_stops() {
    let log = [0, 5, 1, 0];
    let after = Season::new(BYTE, 1).call(TWO_BE, 2, &log);
    assert_eq!((&after.log[..], after.memory[1]), (&[5, 255, 0, 0][..], 1));
    let plain = in_place(given(TWO_BE, BYTE, 2, None), &log, &[0xA5; 2]);
    assert_eq!((plain.answer.number, plain.answer.record), (8, 1));
    assert_eq!(plain.written, log);
}

#[test]
fn the_first_sample_counts_whatever_stood_there() {
    let mut season = Season::new(SIGNED_BYTE, 1);
    season.memory = vec![9, 8, -7, 7, -100, 0, 55];
    let text = season.add(SIGNED_BYTE, 2, &[3, 5]);
    assert_eq!(text, format!("{HEAD}0\t3\t5\t-92\t2\n"));
    assert_eq!(season.memory, [11, 8, 3, 5, -92, 2, 55]);
    season.add(SIGNED_BYTE, 1, &[0x80]);
    assert_eq!(season.memory, [12, 8, -128, 5, -220, 3, 55]);
}

#[test]
fn a_wide_int_is_no_channel() {
    let wide = "int\t8\tLE\t0\t33\tzero\tzero\tunsigned\n";
    Season::new(wide, 1).refused(10, wide, 1, &[0; 8]);
    // An unmatched one too, before the path and the count are looked at.
    let two = format!("{wide}{BYTE}comp\t9\nmember\ta\t0\t1\nmember\tb\t1\t0\n");
    let other = "bits\t1\tLE\t0\t8\tzero\tzero\ncomp\t1\nmember\ta\t0\t0\n";
    Season::new(&two, 2).refused(10, other, 65_537, &[]);
    // The base of an enum and a type that nothing uses are no int leaves.
    let fine = format!("{wide}enum\t0\n{wide}{BYTE}comp\t9\nmember\ta\t0\t3\nmember\tv\t1\t1\n");
    let text = Season::new(&fine, 1).add(&fine, 0, &[]);
    assert_eq!(text, format!("{HEAD}0\t-\t-\t0\t0\n"));
}

#[test]
fn reals_are_no_lines_and_give_samples() {
    // A reader's real has no line; its exceptions are counted.
    let reader = format!("{REAL_BE}{BYTE}comp\t9\nmember\tb\t0\t0\nmember\ta\t8\t1\n");
    let wide = "int\t8\tBE\t0\t64\tzero\tzero\tunsigned\n";
    let log = format!("{wide}{REAL_BE}comp\t16\nmember\ta\t0\t1\nmember\tb\t8\t0\n");
    let mut season = Season::new(&reader, 1);
    let two_and_a_half = 0x4004_0000_0000_0000_u64;
    let not_a_number = 0x7FF8_0000_0000_0000_u64;
    let records: Vec<u8> = [two_and_a_half, u64::MAX, not_a_number, 5]
        .iter()
        .flat_map(|word| word.to_be_bytes())
        .collect();
    // The fraction, 2^64 - 1 as a double, and the 0 of the not-a-number.
    let text = season.add(&log, 2, &records);
    assert_eq!(text, format!("{HEAD}8\t0\t2\t2\t2\n"));
    assert_eq!(season.memory, [2, 3, 0, 2, 2, 2]);
    // CHANNEL looks at ints alone.
    let text = Season::new(REAL_BE, 0).add(wide, 1, &[0xFF; 8]);
    assert_eq!(text, HEAD);
}

#[test]
fn a_full_report() {
    let most = MOST_HELD as i64;
    let mut season = Season::new(BYTE, 1);
    for (memory, is_full) in [
        ([1_048_576 - 1, 0, 0, 0, 0, 0], false),
        ([1_048_576, 0, 0, 0, 0, 0], true),
        ([0, most, most, -most, -most, most], false),
        ([-1, 0, 0, 0, 0, 0], true),
        ([0, -1, 0, 0, 0, 0], true),
        ([0, 0, 0, 0, 0, -1], true),
        ([0, 0, -1, -1, -1, 0], false),
        ([0, most + 1, 0, 0, 0, 0], true),
        ([0, 0, -most - 1, 0, 0, 0], true),
        ([0, 0, 0, i64::MIN, 0, 0], true),
        ([0, 0, 0, 0, i64::MAX, 0], true),
    ] {
        season.memory = memory.to_vec();
        if is_full {
            season.refused(11, BYTE, 1, &[5]);
        } else {
            season.add(BYTE, 1, &[5]);
        }
    }
    // No record passes no limit.
    season.memory = vec![1_048_576, 0, 0, 0, 0, 0];
    season.add(BYTE, 0, &[]);
}

#[test]
fn the_other_refusals() {
    let mut season = Season::new(BYTE, 1);
    season.refused(5, "bits\t1\tLE\t0\t8\tzero\tzero\n", 1, &[5]);
    season.refused(6, BYTE, 65_537, &[5]);
    season.refused(7, BYTE, 2, &[5]);
    season.memory.pop();
    season.refused(7, BYTE, 1, &[5]);
    season.reader.push('x');
    let after = season.call(BYTE, 1, &[5]);
    assert_eq!(after.answer, Answer::faulty(4, 2));
}

#[test]
fn the_output_has_just_the_room() {
    let call = Call {
        source_sheet: BYTE.as_bytes(),
        destination_sheet: BYTE.as_bytes(),
        count: 1,
        handling: None,
        table: &TABLE,
    };
    let text = format!("{HEAD}0\t5\t5\t5\t1\n");
    let room = vec![0x2E; text.len()];
    let after = report(call, &[5], &[0], &[0; 6], &room);
    assert_eq!(after.output, text.as_bytes());
    let short = report(call, &[5], &[0], &[0; 6], &room[1..]);
    assert_eq!(short.answer, Answer::refused(7));
    assert_eq!((short.log, short.memory), (vec![5], vec![0; 6]));
    // FULL is looked at first.
    let full = report(call, &[5], &[0], &[-1, 0, 0, 0, 0, 0], &[]);
    assert_eq!(full.answer, Answer::refused(11));
}
