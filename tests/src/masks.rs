//! Which bits of a source record show, worked out by hand.

use crate::call::Answer;
use crate::exercises::{BYTE, given, hex};
use crate::reach::reach;
use crate::reals::REAL_BE;

const PAIR: &str = "int\t2\tLE\t0\t16\tzero\tzero\tunsigned\n";

/// The mask of two sheets, in a buffer with one byte more.
#[track_caller]
fn mask(from: &str, to: &str) -> Vec<u8> {
    let after = reach(given(from, to, 0, None), &[0x77; 4097]);
    let size = after.answer.count as usize;
    assert_eq!(after.answer, Answer::done(size as u64));
    assert!(after.written[size..].iter().all(|byte| *byte == 0x77));
    assert_eq!(after.table, [0; 8192]);
    after.written[..size].to_vec()
}

/// A refusal, which leaves the buffer.
#[track_caller]
fn refused(from: &str, to: &str, room: usize) -> Answer {
    let after = reach(given(from, to, 0, None), &vec![0x77; room]);
    assert_eq!(after.written, vec![0x77; room]);
    after.answer
}

#[test]
fn a_number_in_either_order() {
    for (layout, wanted) in [
        ("int\t2\tLE\t2\t10", "FC 0F"),
        ("int\t2\tBE\t2\t10", "0F FC"),
        ("int\t3\tLE\t5\t12", "E0 FF 01"),
        ("int\t3\tBE\t5\t12", "01 FF E0"),
        ("int\t2\tBE\t4\t12", "FF F0"),
        ("int\t8\tLE\t0\t64", "FF FF FF FF FF FF FF FF"),
        ("int\t8\tLE\t63\t1", "00 00 00 00 00 00 00 80"),
        ("int\t8\tBE\t63\t1", "80 00 00 00 00 00 00 00"),
    ] {
        for pads in ["zero\tone", "keep\tkeep"] {
            let from = format!("{layout}\t{pads}\tsigned\n");
            assert_eq!(mask(&from, BYTE), hex(wanted), "{layout}");
        }
    }
    assert_eq!(mask(REAL_BE, BYTE), [0xFF; 8]);
    assert_eq!(mask(BYTE, REAL_BE), [0xFF]);
    let flags = "bits\t2\tLE\t7\t2\tzero\tzero\n";
    assert_eq!(mask(flags, flags), hex("80 01"));
}

#[test]
fn matched_leaves_alone() {
    let ten = "int\t2\tLE\t2\t10\tzero\tzero\tunsigned\n";
    let members = "comp\t8\nmember\toil\t0\t0\nmember\tboost\t3\t1\nmember\tfuel\t6\t0\n";
    let from = format!("{ten}{ten}array\t1\t1\ncomp\t3\nmember\tx\t1\t2\n{members}")
        .replace("member\tboost\t3\t1", "member\tboost\t3\t3")
        .replace("member\tfuel\t6\t0", "member\tfuel\t6\t1");
    // The destination has another layout, another order and another size.
    let to = format!(
        "{PAIR}array\t0\t1\ncomp\t9\nmember\tx\t7\t1\ncomp\t20\nmember\tfuel\t0\t0\nmember\tboost\t11\t2\n"
    );
    assert_eq!(mask(&from, &to), hex("00 00 00 00 FC 0F FC 0F"));
    let none = "comp\t1\n";
    assert_eq!(mask(&from, none), [0; 8]);
    assert_eq!(mask(&to, &from).len(), 20);
}

#[test]
fn enums() {
    let base = "int\t1\tLE\t1\t3\tzero\tzero\tunsigned\n";
    let few = format!("{base}enum\t0\nvalue\topen\t0\n");
    let more = format!("{few}value\tshut\t1\n");
    let none = format!("{base}enum\t0\n");
    assert_eq!(mask(&few, &more), [0x0E]);
    assert_eq!(mask(&none, &few), [0x0E]);
    assert_eq!(refused(&more, &few, 1), Answer::refused(12));
    // Symbols go by their names, whatever the numbers.
    let other = few.replace("open\t0", "open\t7");
    assert_eq!(mask(&few, &other), [0x0E]);
    // An enum that is not matched does not count.
    let member = |name| format!("comp\t1\nmember\t{name}\t0\t1\n");
    assert_eq!(mask(&(more + &member("a")), &(few + &member("b"))), [0]);
}

#[test]
fn refusals_in_their_order() {
    let bits = "bits\t1\tLE\t0\t8\tzero\tzero\n";
    let few = format!("{BYTE}enum\t0\nvalue\topen\t0\n");
    let more = format!("{few}value\tshut\t1\n");
    let mut call = given("x\n", "", 0, None);
    call.table = &[7; 8191];
    let after = reach(call, &[]);
    assert_eq!(after.answer, Answer::refused(2));
    assert_eq!(after.table, [7; 8191]);
    assert_eq!(refused("x\n", "", 0), Answer::faulty(3, 1));
    assert_eq!(refused(BYTE, "", 0), Answer::faulty(4, 1));
    assert_eq!(refused(BYTE, bits, 0), Answer::refused(5));
    assert_eq!(refused(&more, &few, 0), Answer::refused(12));
    assert_eq!(refused(PAIR, BYTE, 1), Answer::refused(7));
    assert_eq!(mask(PAIR, BYTE), [0xFF, 0xFF]);
}
