//! The rules of 2026-03 on patterns that are worked out by hand.

use crate::exercises::{BYTE, SIGNED_BYTE, expect, hex};
use crate::list;
use crate::paths;
use crate::sheet;

pub const REAL_BE: &str = "real\t8\tBE\n";
pub const REAL_LE: &str = "real\t8\tLE\n";
pub const UNSIGNED_64: &str = "int\t8\tBE\t0\t64\tzero\tzero\tunsigned\n";
pub const SIGNED_64: &str = "int\t8\tBE\t0\t64\tzero\tzero\tsigned\n";
const BACK: &str = "55 55 55 55 55 55 55 55";

#[test]
fn int_to_real_is_the_nearest() {
    for (int, real, kind) in [
        ("00 00 00 00 00 00 00 00", "00 00 00 00 00 00 00 00", None),
        ("00 00 00 00 00 00 00 01", "3F F0 00 00 00 00 00 00", None),
        // 2^53 - 1, 2^53, 2^53 + 1 (a tie, down), 2^53 + 2, 2^53 + 3 (a tie, up)
        ("00 1F FF FF FF FF FF FF", "43 3F FF FF FF FF FF FF", None),
        ("00 20 00 00 00 00 00 00", "43 40 00 00 00 00 00 00", None),
        (
            "00 20 00 00 00 00 00 01",
            "43 40 00 00 00 00 00 00",
            Some(6),
        ),
        ("00 20 00 00 00 00 00 02", "43 40 00 00 00 00 00 01", None),
        (
            "00 20 00 00 00 00 00 03",
            "43 40 00 00 00 00 00 02",
            Some(6),
        ),
        // 2^63 + 1024 is a tie, one more is not
        ("80 00 00 00 00 00 00 00", "43 E0 00 00 00 00 00 00", None),
        (
            "80 00 00 00 00 00 04 00",
            "43 E0 00 00 00 00 00 00",
            Some(6),
        ),
        (
            "80 00 00 00 00 00 04 01",
            "43 E0 00 00 00 00 00 01",
            Some(6),
        ),
        (
            "80 00 00 00 00 00 0C 00",
            "43 E0 00 00 00 00 00 02",
            Some(6),
        ),
        (
            "80 00 00 00 00 00 0B FF",
            "43 E0 00 00 00 00 00 01",
            Some(6),
        ),
        // 2^64 - 1 and the tie below 2^64
        (
            "FF FF FF FF FF FF FF FF",
            "43 F0 00 00 00 00 00 00",
            Some(6),
        ),
        (
            "FF FF FF FF FF FF FC 00",
            "43 F0 00 00 00 00 00 00",
            Some(6),
        ),
        (
            "FF FF FF FF FF FF FB FF",
            "43 EF FF FF FF FF FF FF",
            Some(6),
        ),
        ("FF FF FF FF FF FF F8 00", "43 EF FF FF FF FF FF FF", None),
    ] {
        expect(UNSIGNED_64, REAL_BE, int, BACK, real, kind);
    }
    for (int, real, kind) in [
        ("FF FF FF FF FF FF FF FF", "BF F0 00 00 00 00 00 00", None),
        ("80 00 00 00 00 00 00 00", "C3 E0 00 00 00 00 00 00", None),
        (
            "80 00 00 00 00 00 00 01",
            "C3 E0 00 00 00 00 00 00",
            Some(6),
        ),
        (
            "FF DF FF FF FF FF FF FF",
            "C3 40 00 00 00 00 00 00",
            Some(6),
        ),
        (
            "FF DF FF FF FF FF FF FD",
            "C3 40 00 00 00 00 00 02",
            Some(6),
        ),
        (
            "7F FF FF FF FF FF FF FF",
            "43 E0 00 00 00 00 00 00",
            Some(6),
        ),
    ] {
        expect(SIGNED_64, REAL_BE, int, BACK, real, kind);
    }
    expect(BYTE, REAL_LE, "FF", BACK, "00 00 00 00 00 E0 6F 40", None);
}

#[test]
fn real_to_int_drops_the_fraction_first() {
    for (real, byte, kind) in [
        ("40 6F E0 00 00 00 00 00", "FF", None),    // 255
        ("40 6F F0 00 00 00 00 00", "FF", Some(5)), // 255.5
        ("40 6F FF FF FF FF FF FF", "FF", Some(5)), // just below 256
        ("40 70 00 00 00 00 00 00", "FF", Some(1)), // 256
        ("40 70 08 00 00 00 00 00", "FF", Some(1)), // 256.5
        ("BF E0 00 00 00 00 00 00", "00", Some(5)), // -0.5
        ("BF EF FF FF FF FF FF FF", "00", Some(5)), // just above -1
        ("BF F0 00 00 00 00 00 00", "00", Some(2)), // -1
        ("80 00 00 00 00 00 00 00", "00", Some(5)), // -0
        ("00 00 00 00 00 00 00 00", "00", None),
        ("00 00 00 00 00 00 00 01", "00", Some(5)), // the smallest subnormal
        ("80 00 00 00 00 00 00 01", "00", Some(5)),
        ("00 10 00 00 00 00 00 00", "00", Some(5)), // the smallest normal
        ("7F EF FF FF FF FF FF FF", "FF", Some(1)), // the largest
        ("7F F0 00 00 00 00 00 00", "FF", Some(1)), // infinity
        ("FF F0 00 00 00 00 00 00", "00", Some(2)),
        ("7F F8 00 00 00 00 00 00", "00", Some(4)), // quiet
        ("FF F0 00 00 00 00 00 01", "00", Some(4)), // signalling
    ] {
        expect(REAL_BE, BYTE, real, "55", byte, kind);
    }
    for (real, byte, kind) in [
        ("C0 60 00 00 00 00 00 00", "80", None),    // -128
        ("C0 60 1F FF FF FF FF FF", "80", Some(5)), // just above -129
        ("C0 60 20 00 00 00 00 00", "80", Some(2)), // -129
        ("3F F8 00 00 00 00 00 00", "01", Some(5)), // 1.5
        ("BF F8 00 00 00 00 00 00", "FF", Some(5)), // -1.5
    ] {
        expect(REAL_BE, SIGNED_BYTE, real, "55", byte, kind);
    }
    for (from, to, real, int, kind) in [
        (
            REAL_BE,
            UNSIGNED_64,
            "43 EF FF FF FF FF FF FF",
            "FF FF FF FF FF FF F8 00",
            None,
        ),
        (
            REAL_BE,
            UNSIGNED_64,
            "43 F0 00 00 00 00 00 00",
            "FF FF FF FF FF FF FF FF",
            Some(1),
        ),
        (
            REAL_BE,
            SIGNED_64,
            "C3 E0 00 00 00 00 00 00",
            "80 00 00 00 00 00 00 00",
            None,
        ),
        (
            REAL_BE,
            SIGNED_64,
            "C3 E0 00 00 00 00 00 01",
            "80 00 00 00 00 00 00 00",
            Some(2),
        ),
        (
            REAL_LE,
            SIGNED_64,
            "FF FF FF FF FF FF DF 43",
            "7F FF FF FF FF FF FC 00",
            None,
        ),
    ] {
        expect(from, to, real, BACK, int, kind);
    }
}

#[test]
fn real_to_real_copies_all_bits() {
    for real in [
        "7F F0 00 00 00 00 00 01", // signalling
        "FF F8 00 00 00 00 12 34",
        "80 00 00 00 00 00 00 00",
        "01 23 45 67 89 AB CD EF",
    ] {
        let mut turned = hex(real);
        turned.reverse();
        let turned: Vec<String> = turned.iter().map(|byte| format!("{byte:02X}")).collect();
        expect(REAL_BE, REAL_BE, real, BACK, real, None);
        expect(REAL_BE, REAL_LE, real, BACK, &turned.join(" "), None);
        expect(REAL_LE, REAL_BE, real, BACK, &turned.join(" "), None);
    }
}

#[test]
fn lines_of_reals() {
    let second = |line: &str| sheet::read(format!("{REAL_LE}{line}\n").as_bytes()).err();
    for good in [
        "real\t8\tLE",
        "real\t8\tBE",
        "array\t0\t512",
        "comp\t8\nmember\ta\t0\t0",
    ] {
        assert_eq!(second(good), None, "{good}");
    }
    for bad in [
        "real",
        "real\t8",
        "real\t8\tLE\t",
        "real\t8\tLE\t0",
        "real\t4\tLE",
        "real\t9\tLE",
        "real\t08\tLE",
        "real\t4294967304\tLE",
        "real\t8\tle",
        "real\t8\tLE ",
        "Real\t8\tLE",
        "reals\t8\tLE",
        "real\t8\tBE\t0\t64\tzero\tzero",
        "real\t8\tBE\t0\t64\tzero\tzero\tsigned",
        "enum\t0",
        "value\ta\t0",
        "member\ta\t0\t0",
        "array\t0\t513",
        "comp\t7\nmember\ta\t0\t0",
    ] {
        let line = 2 + bad.matches('\n').count() as u64;
        assert_eq!(second(bad), Some(line), "{bad}");
    }
}

#[test]
fn paths_of_reals() {
    let bits = "bits\t1\tLE\t0\t8\tzero\tzero\n";
    let symbols = &format!("{BYTE}enum\t0\nvalue\ta\t0\n");
    let row = &format!("{REAL_BE}array\t0\t1\n");
    let path = |from: &str, to: &str| {
        let read = |text: &str| sheet::read(text.as_bytes()).expect("valid");
        paths::has_path(&read(from), &read(to))
    };
    for (from, to) in [(BYTE, REAL_BE), (REAL_BE, BYTE), (REAL_LE, REAL_BE)] {
        assert!(path(from, to), "{from} to {to}");
    }
    for other in [bits, symbols, row] {
        assert!(!path(REAL_LE, other), "{other}");
        assert!(!path(other, REAL_LE), "{other}");
    }
    assert!(path(row, &format!("{BYTE}array\t0\t1\n")));
}

#[test]
fn the_list_shows_reals() {
    let text = format!("{BYTE}{REAL_BE}array\t1\t2\ncomp\t20\nmember\tb\t3\t2\nmember\ta\t19\t0\n");
    let datatype = sheet::read(text.as_bytes()).expect("valid");
    let wanted = b"at\tsize\tclass\n3\t8\treal\n11\t8\treal\n19\t1\tint\n";
    assert_eq!(list::text(&datatype), wanted);
}
