//! The numbers that STOP carries, worked out by hand.

use crate::call::{Answer, copying, in_place};
use crate::exercises::{BYTE, SIGNED_BYTE, TWO_BE, given, hex};
use crate::reals::{REAL_BE, REAL_LE, SIGNED_64, UNSIGNED_64};

/// The words 6 and 7 of STOP for one record. Every other answer has zeros there.
#[track_caller]
fn stopped(from: &str, to: &str, source: &str) -> (u64, u64) {
    let source = hex(source);
    let background = [0x55; 16];
    let stopped = copying(given(from, to, 1, Some(1)), &source, &background).answer;
    assert_eq!(stopped.number, 8);
    let mut buffer = source.clone();
    buffer.resize(16, 0x77);
    let moved = in_place(given(from, to, 1, Some(1)), &buffer, &background);
    assert_eq!(moved.answer, stopped);
    let clamped = copying(given(from, to, 1, Some(0)), &source, &background);
    assert_eq!(clamped.answer, Answer::done(1));
    (stopped.given, stopped.magnitude)
}

#[test]
fn the_number_that_was_given_and_not_the_clamped_one() {
    assert_eq!(stopped(BYTE, SIGNED_BYTE, "FF"), (0, 255));
    assert_eq!(stopped(SIGNED_BYTE, BYTE, "80"), (1, 128));
    assert_eq!(stopped(TWO_BE, BYTE, "0F FF"), (0, 4095));
    let twelve = "int\t2\tBE\t4\t12\tzero\tzero\tsigned\n";
    assert_eq!(stopped(twelve, SIGNED_BYTE, "F3 85"), (1, 200));
    let (flags, few) = (
        "bits\t1\tLE\t0\t8\tzero\tzero\n",
        "bits\t1\tLE\t0\t4\tzero\tzero\n",
    );
    assert_eq!(stopped(flags, few, "90"), (0, 0x90));
}

#[test]
fn both_ends_of_the_numbers() {
    let lowest = "80 00 00 00 00 00 00 00";
    let highest = "FF FF FF FF FF FF FF FF";
    assert_eq!(stopped(SIGNED_64, BYTE, lowest), (1, 1 << 63));
    assert_eq!(stopped(SIGNED_64, UNSIGNED_64, highest), (1, 1));
    assert_eq!(stopped(UNSIGNED_64, SIGNED_64, lowest), (0, 1 << 63));
    assert_eq!(stopped(UNSIGNED_64, SIGNED_64, highest), (0, u64::MAX));
}

#[test]
fn an_enums_number_is_the_sources() {
    let from = format!("{SIGNED_BYTE}enum\t0\nvalue\topen\t0\nvalue\tshut\t-1\nvalue\tajar\t9\n");
    let to =
        format!("{BYTE}enum\t0\nvalue\tajar\t2\nvalue\topen\t1\nvalue\tshut\t0\nvalue\tlost\t5\n");
    // Numbers without a symbol in the source; two of them have one in the
    // destination.
    assert_eq!(stopped(&from, &to, "07"), (0, 7));
    assert_eq!(stopped(&from, &to, "80"), (1, 128));
    assert_eq!(stopped(&from, &to, "01"), (0, 1));
    assert_eq!(stopped(&from, &to, "05"), (0, 5));
    let none = format!("{SIGNED_64}enum\t0\n");
    assert_eq!(stopped(&none, &none, "00 00 00 00 00 00 00 00"), (0, 0));
    assert_eq!(stopped(&none, &to, "80 00 00 00 00 00 00 00"), (1, 1 << 63));
}

#[test]
fn a_real_is_given_as_its_bits() {
    for (real, bits) in [
        ("40 6F F0 00 00 00 00 00", 0x406F_F000_0000_0000), // 255.5
        ("40 70 00 00 00 00 00 00", 0x4070_0000_0000_0000), // 256
        ("BF F0 00 00 00 00 00 00", 0xBFF0_0000_0000_0000), // -1
        ("80 00 00 00 00 00 00 00", 0x8000_0000_0000_0000), // -0
        ("7F F0 00 00 00 00 00 00", 0x7FF0_0000_0000_0000), // infinity
        ("FF F0 00 00 00 00 00 00", 0xFFF0_0000_0000_0000),
        ("7F F8 00 00 00 00 00 00", 0x7FF8_0000_0000_0000), // quiet
        ("FF F0 00 00 00 00 12 34", 0xFFF0_0000_0000_1234), // signalling
        ("FF FF FF FF FF FF FF FF", u64::MAX),
        ("00 00 00 00 00 00 00 01", 1), // the smallest subnormal
    ] {
        assert_eq!(stopped(REAL_BE, BYTE, real), (2, bits), "{real}");
    }
    let turned = "00 00 00 00 00 F0 6F 40";
    assert_eq!(stopped(REAL_LE, BYTE, turned), (2, 0x406F_F000_0000_0000));
}

#[test]
fn an_int_to_a_real_is_given_as_an_int() {
    let odd = "00 20 00 00 00 00 00 01";
    assert_eq!(stopped(UNSIGNED_64, REAL_BE, odd), (0, (1 << 53) + 1));
    let minus = "FF DF FF FF FF FF FF FF";
    assert_eq!(stopped(SIGNED_64, REAL_LE, minus), (1, (1 << 53) + 1));
    let highest = "FF FF FF FF FF FF FF FF";
    assert_eq!(stopped(UNSIGNED_64, REAL_BE, highest), (0, u64::MAX));
    let lowest = "80 00 00 00 00 00 00 01";
    assert_eq!(stopped(SIGNED_64, REAL_BE, lowest), (1, (1 << 63) - 1));
}

#[test]
fn the_first_leaf_in_byte_order_gives_its_number() {
    let from = format!("{BYTE}comp\t2\nmember\tb\t0\t0\nmember\ta\t1\t0\n");
    let to = format!("{SIGNED_BYTE}comp\t4\nmember\tb\t2\t0\nmember\ta\t1\t0\n");
    let call = given(&from, &to, 2, Some(1));
    let answer = copying(call, &hex("05 06 C8 D2"), &[0x55; 8]).answer;
    let stop = Answer {
        record: 1,
        at: 1,
        kind: 1,
        magnitude: 0xD2,
        ..Answer::refused(8)
    };
    assert_eq!(answer, stop);
}
