//! The rules of 2026-06 on logs that are worked out by hand.

use crate::call::Answer;
use crate::compare::compare;
use crate::exercises::{BYTE, LISTED, SIGNED_BYTE, TWO_BE, given, hex};
use crate::reals::{REAL_BE, REAL_LE, SIGNED_64, UNSIGNED_64};

const HEAD: &str = "record\tat\tfirst\tsecond\n";

/// The lines of the list of two logs of so many records.
#[track_caller]
fn lines(from: &str, to: &str, count: u64, first: &str, second: &str) -> String {
    let (first, second) = (hex(first), hex(second));
    let call = given(from, to, count, None);
    let after = compare(call, &first, &second, &[0x2E; 300]);
    let end = after.answer.count as usize;
    assert_eq!(after.answer, Answer::done(end as u64));
    assert!(after.written[end..].iter().all(|&byte| byte == 0x2E));
    assert_eq!(after.table, [0; 8192]);
    // Just the room, and one byte less.
    let room = &after.written[..end];
    assert_eq!(
        compare(call, &first, &second, &vec![0; end]).written[..],
        *room
    );
    let short = compare(call, &first, &second, &vec![7; end - 1]);
    assert_eq!(short.answer, Answer::refused(7));
    assert_eq!(short.written, vec![7; end - 1]);
    let text = String::from_utf8(room.to_vec()).expect("text");
    text.strip_prefix(HEAD).expect("its header").to_string()
}

/// Of one record of one leaf.
#[track_caller]
fn are_same(from: &str, to: &str, first: &str, second: &str) -> bool {
    lines(from, to, 1, first, second).is_empty()
}

#[test]
fn numbers_compare_whatever_the_widths() {
    assert!(are_same(BYTE, TWO_BE, "C8", "00 C8"));
    assert_eq!(lines(BYTE, TWO_BE, 1, "C8", "01 C8"), "0\t0\t200\t456\n");
    // The same bits are another number where they are signed.
    assert_eq!(lines(BYTE, SIGNED_BYTE, 1, "FF", "FF"), "0\t0\t255\t-1\n");
    assert!(are_same(
        SIGNED_BYTE,
        SIGNED_64,
        "80",
        "FF FF FF FF FF FF FF 80"
    ));
    assert_eq!(
        lines(
            UNSIGNED_64,
            SIGNED_64,
            1,
            "FF FF FF FF FF FF FF FF",
            "80 00 00 00 00 00 00 00"
        ),
        "0\t0\t18446744073709551615\t-9223372036854775808\n"
    );
    // Pads may hold anything.
    let twelve = "int\t2\tBE\t4\t12\tzero\tzero\tsigned\n";
    assert!(are_same(
        twelve,
        SIGNED_64,
        "F3 8F",
        "FF FF FF FF FF FF FF 38"
    ));
    let (flags, wide) = (
        "bits\t1\tLE\t0\t8\tzero\tzero\n",
        "bits\t2\tLE\t4\t8\tone\tone\n",
    );
    assert!(are_same(flags, wide, "90", "0F F9"));
    assert_eq!(lines(flags, wide, 1, "90", "1F F9"), "0\t0\t144\t145\n");
}

#[test]
fn enums_compare_by_symbol() {
    let from = format!("{SIGNED_BYTE}enum\t0\nvalue\topen\t0\nvalue\tshut\t-1\nvalue\tajar\t9\n");
    let to = format!("{BYTE}enum\t0\nvalue\tshut\t0\nvalue\topen\t200\nvalue\tlost\t9\n");
    assert!(are_same(&from, &to, "00", "C8"));
    assert!(are_same(&from, &to, "FF", "00"));
    // The same number of two symbols, and another symbol.
    assert_eq!(lines(&from, &to, 1, "00", "00"), "0\t0\t0\t0\n");
    assert_eq!(lines(&from, &to, 1, "09", "09"), "0\t0\t9\t9\n");
    assert_eq!(lines(&from, &to, 1, "FF", "C8"), "0\t0\t-1\t200\n");
    // A number without a symbol equals only the same number without one.
    assert!(are_same(&from, &to, "07", "07"));
    assert_eq!(lines(&from, &to, 1, "07", "08"), "0\t0\t7\t8\n");
    let none = format!("{BYTE}enum\t0\n");
    assert_eq!(lines(&from, &none, 1, "00", "00"), "0\t0\t0\t0\n");
    assert_eq!(lines(&none, &to, 1, "09", "09"), "0\t0\t9\t9\n");
    assert!(are_same(&none, &none, "09", "09"));
    assert!(are_same(&from, &none, "05", "05"));
}

#[test]
fn a_real_against_a_real_compares_its_bits() {
    for bits in [
        "7F F8 00 00 00 00 00 00",
        "FF F0 00 00 00 00 12 34",
        "80 00 00 00 00 00 00 00",
        "7F F0 00 00 00 00 00 00",
        "00 00 00 00 00 00 00 01",
    ] {
        assert!(are_same(REAL_BE, REAL_BE, bits, bits), "{bits}");
    }
    assert!(are_same(
        REAL_BE,
        REAL_LE,
        "FF F0 00 00 00 00 12 34",
        "34 12 00 00 00 00 F0 FF"
    ));
    assert_eq!(
        lines(
            REAL_BE,
            REAL_BE,
            1,
            "80 00 00 00 00 00 00 00",
            "00 00 00 00 00 00 00 00"
        ),
        "0\t0\t9223372036854775808\t0\n"
    );
    assert_eq!(
        lines(
            REAL_BE,
            REAL_BE,
            1,
            "7F F8 00 00 00 00 00 01",
            "7F F8 00 00 00 00 00 00"
        ),
        "0\t0\t9221120237041090561\t9221120237041090560\n"
    );
}

#[test]
fn a_real_against_an_int_compares_their_worth() {
    let same = |real: &str, int: &str, layout: &str| {
        let there = are_same(REAL_BE, layout, real, int);
        assert_eq!(are_same(layout, REAL_BE, int, real), there, "{real} {int}");
        there
    };
    let zero = "00 00 00 00 00 00 00 00";
    assert!(same(zero, zero, SIGNED_64));
    assert!(same("80 00 00 00 00 00 00 00", zero, UNSIGNED_64));
    // 2^53 is a double, 2^53 + 1 is none, 2^53 + 2 is the next one.
    let edge = "43 40 00 00 00 00 00 00";
    assert!(same(edge, "00 20 00 00 00 00 00 00", UNSIGNED_64));
    assert!(!same(edge, "00 20 00 00 00 00 00 01", UNSIGNED_64));
    assert!(!same(edge, "00 1F FF FF FF FF FF FF", UNSIGNED_64));
    let next = "43 40 00 00 00 00 00 01";
    assert!(same(next, "00 20 00 00 00 00 00 02", UNSIGNED_64));
    assert!(!same(next, "00 20 00 00 00 00 00 01", UNSIGNED_64));
    // -2^63 and 2^63 and 2^64, which no int is, nor what is nearest to it.
    let low = "80 00 00 00 00 00 00 00";
    assert!(same("C3 E0 00 00 00 00 00 00", low, SIGNED_64));
    assert!(!same("43 E0 00 00 00 00 00 00", low, SIGNED_64));
    assert!(same("43 E0 00 00 00 00 00 00", low, UNSIGNED_64));
    let most = "FF FF FF FF FF FF FF FF";
    assert!(!same("43 F0 00 00 00 00 00 00", most, UNSIGNED_64));
    assert!(same("BF F0 00 00 00 00 00 00", most, SIGNED_64));
    assert!(same(
        "43 EF FF FF FF FF FF FF",
        "FF FF FF FF FF FF F8 00",
        UNSIGNED_64
    ));
    // 1.5, the smallest subnormal, the largest double
    assert!(!same(
        "3F F8 00 00 00 00 00 00",
        "00 00 00 00 00 00 00 01",
        SIGNED_64
    ));
    assert!(!same("00 00 00 00 00 00 00 01", zero, SIGNED_64));
    assert!(!same("7F EF FF FF FF FF FF FF", zero, UNSIGNED_64));
    // What is no number differs from every int, also from that of the same bits.
    for real in [
        "7F F0 00 00 00 00 00 00",
        "FF F0 00 00 00 00 00 00",
        "7F F8 00 00 00 00 00 00",
        "FF F0 00 00 00 00 00 01",
    ] {
        for int in [zero, real, most, low] {
            assert!(!same(real, int, UNSIGNED_64), "{real} {int}");
            assert!(!same(real, int, SIGNED_64), "{real} {int}");
        }
    }
    assert_eq!(
        lines(REAL_BE, SIGNED_64, 1, "7F F8 00 00 00 00 00 00", most),
        "0\t0\t9221120237041090560\t-1\n"
    );
}

#[test]
fn by_record_and_then_by_byte_of_the_second_log() {
    // The members in another order, and one that only one side has.
    let from = format!("{BYTE}comp\t4\nmember\ta\t0\t0\nmember\tb\t1\t0\nmember\tc\t3\t0\n");
    let to = format!("{BYTE}comp\t3\nmember\tb\t2\t0\nmember\ta\t0\t0\nmember\td\t1\t0\n");
    assert_eq!(
        lines(
            &from,
            &to,
            2,
            "01 02 EE 03  04 05 EE 06",
            "07 EE 08  09 EE 0A"
        ),
        "0\t0\t1\t7\n0\t2\t2\t8\n1\t0\t4\t9\n1\t2\t5\t10\n"
    );
    assert_eq!(
        lines(
            &from,
            &to,
            2,
            "01 02 EE 03  04 05 EE 06",
            "01 77 02  04 77 0A"
        ),
        "1\t2\t5\t10\n"
    );
    // Document 01's listed sheet, twelve bits over pads.
    assert_eq!(
        lines(
            LISTED,
            LISTED,
            1,
            "06 40 7D 00 FF F0 00 00",
            "06 4F 7D 0F FF EF AA 01"
        ),
        "0\t4\t4095\t4094\n0\t7\t0\t1\n"
    );
    // No record, and no leaf.
    assert_eq!(lines(BYTE, BYTE, 0, "01", "02"), "");
    assert_eq!(
        lines("comp\t2\n", "comp\t1\n", 2, "01 02 03 04", "05 06"),
        ""
    );
}

#[test]
fn the_checks_in_their_order() {
    let refused = |from: &str, to: &str, count, lengths: (usize, usize, usize)| {
        let list = vec![7; lengths.2];
        let after = compare(
            given(from, to, count, None),
            &vec![1; lengths.0],
            &vec![2; lengths.1],
            &list,
        );
        assert_eq!(after.written, list);
        after.answer
    };
    let bits = "bits\t1\tLE\t0\t8\tzero\tzero\n";
    assert_eq!(
        refused("x\n", "y\n", 65_537, (0, 0, 0)),
        Answer::faulty(3, 1)
    );
    assert_eq!(
        refused(BYTE, "comp\t1\ny\n", 65_537, (0, 0, 0)),
        Answer::faulty(4, 2)
    );
    assert_eq!(refused(BYTE, bits, 65_537, (0, 0, 0)), Answer::refused(5));
    assert_eq!(refused(BYTE, BYTE, 65_537, (0, 0, 0)), Answer::refused(6));
    assert_eq!(refused(BYTE, TWO_BE, 3, (2, 6, 99)), Answer::refused(7));
    assert_eq!(refused(BYTE, TWO_BE, 3, (3, 5, 99)), Answer::refused(7));
    assert_eq!(refused(BYTE, BYTE, 0, (0, 0, 22)), Answer::refused(7));
    assert_eq!(HEAD.len(), 23);
}
