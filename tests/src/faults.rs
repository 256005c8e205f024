//! Faulty sheets and what is just not one.

use crate::exercises::{BYTE, LISTED, SIGNED_BYTE, TWO_BE};
use crate::sheet;

/// The line at which a sheet is faulty; none if it is not.
fn fault(sheet: &str) -> Option<u64> {
    sheet::read(sheet.as_bytes()).err()
}

#[test]
fn names_the_first_faulty_line() {
    assert_eq!(fault(LISTED), None);
    assert_eq!(fault(""), Some(1));
    assert_eq!(fault("\n"), Some(1));
    assert_eq!(fault(&LISTED[..LISTED.len() - 1]), Some(9));
    assert_eq!(fault(&BYTE.repeat(64)), None);
    assert_eq!(fault(&BYTE.repeat(65)), Some(65));
    assert_eq!(fault(&"x".repeat(16_384)), Some(1));
    assert_eq!(fault(&"x".repeat(16_385)), Some(0));
}

#[test]
fn judges_single_lines() {
    let second = |line: &str| fault(&format!("{BYTE}{line}\n"));
    for good in [
        "array\t0\t1\t2\t3\t4",
        "array\t0\t4096",
        "enum\t0",
        "comp\t4096",
    ] {
        assert_eq!(second(good), None, "{good}");
    }
    for bad in [
        "array\t0",
        "array\t0\t0",
        "array\t0\t4097",
        "array\t1\t1",
        "enum\t1",
        "comp\t0",
    ] {
        assert_eq!(second(bad), Some(2), "{bad}");
    }
    let whole = "array\t0\t4294967295\t4294967295\t4294967295\t4294967295";
    for bad in [
        whole,
        "array\t0\t65536\t65536\t65536\t65536",
        "array\t4294967296\t1",
    ] {
        assert_eq!(second(bad), Some(2), "{bad}");
    }
    for bad in [
        "comp\t4097",
        "comp\t01",
        "comp\t4\t",
        "comp\t4\r",
        "Comp\t4",
        "member\ta\t0\t0",
    ] {
        assert_eq!(second(bad), Some(2), "{bad}");
    }
}

#[test]
fn judges_rows() {
    let value = |field: &str| fault(&format!("{SIGNED_BYTE}enum\t0\nvalue\ta\t{field}\n"));
    for good in ["0", "-1", "127", "-128"] {
        assert_eq!(value(good), None, "{good}");
    }
    for bad in ["-0", "-00", "-", "+1", "01", "", "128", "-129", "1 ", "-01"] {
        assert_eq!(value(bad), Some(3), "{bad}");
    }
    let member = |row: &str| fault(&format!("{TWO_BE}comp\t8\nmember\ta\t2\t0\n{row}\n"));
    for good in ["member\tb\t0\t0", "member\tb\t4\t0", "member\tA\t6\t0"] {
        assert_eq!(member(good), None, "{good}");
    }
    for bad in [
        "member\tb\t1\t0",
        "member\tb\t7\t0",
        "member\ta\t4\t0",
        "member\tb\t4\t1",
    ] {
        assert_eq!(member(bad), Some(4), "{bad}");
    }
    assert_eq!(member("member\tb\t4294967295\t0"), Some(4));
    assert_eq!(member("value\tb\t1"), Some(4));
}
