//! What is said of refusals by their buffers, paths and leaves, and that nothing is said which the library did not.
use super::{BITS, BYTE, PAIR, REAL, SIGNED, SIGNED_WIDE, WIDE};
use crate::*;

fn copying(from: &[u8], to: &[u8], count: u64, source: &[u8], room: usize) -> Error {
    let mut out = vec![0; room];
    convert_copying(from, to, count, Handling::Stop, source, &mut out).unwrap_err()
}

fn path(from: &[u8], to: &[u8]) -> String {
    let said = copying(from, to, 0, &[], 0).to_string();
    let start = "PATH (5): no path from the source type to the destination type: ";
    said.strip_prefix(start).expect(&said).to_string()
}

/// A compound of one member, which is the newest type of some lines.
fn record(lines: &[u8], size: u32, number: u32, name: &str) -> Vec<u8> {
    let member = format!("comp\t{size}\nmember\t{name}\t0\t{number}\n");
    [lines, member.as_bytes()].concat()
}

#[test]
fn path_names_the_member() {
    assert_eq!(
        path(BYTE, BITS),
        "the record is an int in the source and bits in the destination: give both the same class"
    );
    let states = [BYTE, b"enum\t0\n"].concat();
    assert_eq!(
        path(
            &record(&states, 1, 1, "valve"),
            &record(BYTE, 1, 0, "valve")
        ),
        "`valve` is an enum in the source and an int in the destination: give both the same class"
    );
    let three = [BYTE, b"array\t0\t3\n"].concat();
    let four = [BYTE, b"array\t0\t2\t2\n"].concat();
    assert_eq!(
        path(
            &record(&three, 3, 1, "boost"),
            &record(&four, 4, 1, "boost")
        ),
        "`boost` is an array of 3 in the source and of 2 by 2 in the destination: give both the same dimensions"
    );
    let map = |dimensions: &[u8]| {
        record(
            &[BYTE, b"array\t0\t", dimensions, b"\n"].concat(),
            12,
            1,
            "map",
        )
    };
    assert_eq!(
        path(&map(b"2\t6"), &map(b"3\t4")),
        "`map` is an array of 2 by 6 in the source and of 3 by 4 in the destination: give both the same dimensions"
    );
    assert_eq!(
        path(&record(REAL, 8, 0, "boost"), &record(BITS, 1, 0, "boost")),
        "`boost` is a real in the source and bits in the destination: give both the same class"
    );
    assert_eq!(
        path(
            &record(&states, 1, 1, "valve"),
            &record(REAL, 8, 0, "valve")
        ),
        "`valve` is an enum in the source and a real in the destination: give both the same class"
    );
    let inner = [BITS, b"array\t0\t3\ncomp\t3\nmember\tboost\t0\t1\n"].concat();
    let other = [BYTE, b"array\t0\t3\ncomp\t3\nmember\tboost\t0\t1\n"].concat();
    assert_eq!(
        path(
            &record(&inner, 3, 2, "engine"),
            &record(&other, 3, 2, "engine")
        ),
        "`engine.boost[0]` is bits in the source and an int in the destination: give both the same class"
    );
}

#[test]
fn path_passes_ints_and_reals() {
    let from = [
        BYTE,
        REAL,
        BITS,
        b"comp\t10\nmember\ta\t0\t0\nmember\tb\t1\t1\nmember\tc\t9\t2\n",
    ]
    .concat();
    let to = [
        BYTE,
        REAL,
        b"comp\t10\nmember\ta\t0\t1\nmember\tb\t8\t0\nmember\tc\t9\t0\n",
    ]
    .concat();
    assert!(path(&from, &to).starts_with("`c` is bits in the source and an int in"));
}

#[test]
fn path_passes_members_that_the_source_lacks() {
    let from = [BYTE, BITS, b"comp\t2\nmember\ta\t0\t0\nmember\tc\t1\t0\n"].concat();
    let to = [
        BYTE,
        BITS,
        b"comp\t3\nmember\tb\t0\t1\nmember\ta\t1\t0\nmember\tc\t2\t1\n",
    ]
    .concat();
    assert!(path(&from, &to).starts_with("`c` is an int in the source and bits in"));
}

#[test]
fn room_names_the_buffer() {
    let said = |e: Error| e.to_string();
    assert_eq!(
        said(copying(BYTE, PAIR, 3, &[0; 2], 6)),
        "ROOM (7): the source is too short: it holds 2 bytes and needs 3: lend a longer one"
    );
    assert_eq!(
        said(copying(BYTE, PAIR, 3, &[0; 3], 5)),
        "ROOM (7): the destination is too short: it holds 5 bytes and needs 6: lend a longer one"
    );
    let in_place = |buffer: usize, background: usize| {
        let mut buffer = vec![0; buffer];
        let background = vec![0; background];
        convert_in_place(PAIR, BYTE, 3, Handling::Stop, &mut buffer, &background).unwrap_err()
    };
    assert_eq!(
        said(in_place(5, 3)),
        "ROOM (7): the buffer is too short: it holds 5 bytes and needs 6: lend a longer one"
    );
    assert_eq!(
        said(in_place(6, 2)),
        "ROOM (7): the background is too short: it holds 2 bytes and needs 3: lend a longer one"
    );
    let list = Converter::new().leaf_list_into(BITS, &mut [0; 22]);
    assert_eq!(
        said(list.unwrap_err()),
        "ROOM (7): the list buffer is too short: it holds 22 bytes and needs 23: lend a longer one"
    );
}

#[test]
fn stop_names_the_leaf() {
    let said = |from: &[u8], to: &[u8], count, source: &[u8]| {
        copying(from, to, count, source, 4096).to_string()
    };
    assert_eq!(
        said(BYTE, SIGNED, 2, &[5, 255]),
        "STOP (8): the number 255 for byte 0 of record 1 is above the destination's range: widen the destination, or clamp"
    );
    let (from, to) = (
        record(&[SIGNED, b"array\t0\t3\n"].concat(), 3, 1, "boost"),
        record(&[PAIR, b"array\t0\t3\n"].concat(), 6, 1, "boost"),
    );
    assert_eq!(
        said(&from, &to, 1, &[5, 255, 7]),
        "STOP (8): the number -1 for byte 2 of record 0, member `boost[1]`, is below the destination's range: widen the destination, or clamp"
    );
    let symbols = [BYTE, b"enum\t0\nvalue\topen\t0\n"].concat();
    let valve = record(&symbols, 1, 1, "valve");
    assert_eq!(
        said(&valve, &valve, 1, &[7]),
        "STOP (8): the number 7 for byte 0 of record 0, member `valve`, has no symbol in the source: give it one in both enums, or clamp"
    );
}

#[test]
fn stop_says_what_is_wrong_with_a_real() {
    let boost = record(REAL, 8, 0, "boost");
    let (byte, wide) = (record(BYTE, 1, 0, "boost"), record(WIDE, 8, 0, "boost"));
    let said = |from: &[u8], to: &[u8], bits: u64, given: &str, why: &str| {
        let e = copying(from, to, 1, &bits.to_be_bytes(), 8).to_string();
        let place = "for byte 0 of record 0, member `boost`,";
        assert_eq!(e, format!("STOP (8): {given} {place} {why}"));
    };
    let to_byte = |bits, given: &str, why: &str| said(&boost, &byte, bits, given, why);
    let none = "is not-a-number, which no int holds: make the destination a real, or clamp";
    to_byte(
        0x7ff8_0000_0000_0000,
        "the real NaN (0x7ff8000000000000)",
        none,
    );
    to_byte(
        0xfff0_0000_0000_0001,
        "the real NaN (0xfff0000000000001)",
        none,
    );
    let fraction = "has a fraction, which no int holds: make the destination a real, or clamp";
    to_byte(255.5_f64.to_bits(), "the real 255.5", fraction);
    to_byte((-0.5_f64).to_bits(), "the real -0.5", fraction);
    to_byte(1, "the real 5e-324", fraction);
    to_byte(
        (-0.0_f64).to_bits(),
        "the real -0.0",
        "is a negative zero, which no int holds: make the destination a real, or clamp",
    );
    let above = "is above the destination's range: widen the destination, or clamp";
    to_byte(256.5_f64.to_bits(), "the real 256.5", above);
    to_byte(256.0_f64.to_bits(), "the real 256.0", above);
    to_byte(1e300_f64.to_bits(), "the real 1e300", above);
    to_byte(f64::INFINITY.to_bits(), "the real +infinity", above);
    let below = "is below the destination's range: widen the destination, or clamp";
    to_byte(f64::NEG_INFINITY.to_bits(), "the real -infinity", below);
    let near = "is no double, only near one: make the destination an int, or clamp";
    let to_real = |bits, given: &str| said(&wide, &boost, bits, given, near);
    to_real((1 << 53) + 1, "the number 9007199254740993");
    to_real(u64::MAX, "the number 18446744073709551615");
    let signed = record(SIGNED_WIDE, 8, 0, "boost");
    said(
        &signed,
        &boost,
        (1 << 63) + 1,
        "the number -9223372036854775807",
        near,
    );
}

#[test]
fn a_leaf_is_named_by_its_whole_way() {
    let lines = |base: &[u8]| {
        let rest = b"array\t0\t2\t3\ncomp\t7\nmember\tcells\t1\t1\narray\t2\t2\ncomp\t16\nmember\tmap\t2\t3\n";
        [base, rest].concat()
    };
    let (from, to) = (lines(BYTE), lines(SIGNED));
    let mut source = [0; 16];
    source[2 + 7 + 1 + 5] = 200;
    let e = copying(&from, &to, 1, &source, 16);
    let Error::Stop { at, member, .. } = e else {
        panic!("{e}")
    };
    assert_eq!((at, member.as_deref()), (15, Some("map[1].cells[1][2]")));
}

#[test]
fn what_is_not_found_is_not_said() {
    let explained = |answer: [u64; 8], call: &Call| {
        let mut table = vec![0; TABLE_WORDS];
        explain::outcome(answer, call, &mut table)
            .unwrap_err()
            .to_string()
    };
    let two = [BYTE, BITS].concat();
    let sheets = sheets(&two, &two, 1);
    let call = Call::Copying(&sheets, 1, 1);
    // a line that this crate finds nothing wrong with
    assert_eq!(
        explained([3, 0, 2, 0, 0, 0, 0, 0], &call),
        "SOURCE (3): line 2 of the source sheet is faulty, `bits\\t1\\tLE\\t0\\t8\\tzero\\tzero`: correct it by the rules of sheets and the lines before it"
    );
    // one that the sheet does not have
    assert_eq!(
        explained([4, 0, 3, 0, 0, 0, 0, 0], &call),
        "DESTINATION (4): line 3 of the destination sheet is faulty: correct it by the rules of sheets and the lines before it"
    );
    assert_eq!(
        explained([3, 0, 0, 0, 0, 0, 0, 0], &call),
        "SOURCE (3): the source sheet is faulty: keep it within 16,384 bytes"
    );
    assert_eq!(
        explained([5, 0, 0, 0, 0, 0, 0, 0], &call),
        "PATH (5): no path from the source type to the destination type: give members of one name the same class, or an int and a real, and arrays the same dimensions"
    );
    assert_eq!(
        explained([7, 0, 0, 0, 0, 0, 0, 0], &call),
        "ROOM (7): a buffer is too short for that many records, or for the list: lend a longer one"
    );
    // a byte at which no leaf starts
    assert_eq!(
        explained([8, 0, 0, 4, 9, 1, 1, 300], &call),
        "STOP (8): the number -300 for byte 9 of record 4 is above the destination's range: widen the destination, or clamp"
    );
}

#[test]
fn a_fault_that_the_library_places_elsewhere_is_not_explained() {
    let sheet = [b"int\t9\n", BYTE].concat();
    let answer = [3, 0, 2, 0, 0, 0, 0, 0];
    let mut table = vec![0; TABLE_WORDS];
    let e = explain::outcome(answer, &Call::Size(&sheet), &mut table).unwrap_err();
    assert!(matches!(
        e,
        Error::Source {
            line: 2,
            text: Some(_),
            rule: None,
            only: true,
            compared: false,
        }
    ));
}

#[test]
fn unknown_numbers_and_kinds_are_said() {
    let e = Error::from_answer([16, 0, 0, 0, 0, 0, 0, 0]);
    assert_eq!((e.number(), e.name()), (16, "UNKNOWN"));
    assert_eq!(
        e.to_string(),
        "UNKNOWN (16): a refusal that this version does not know, with the words [16, 0, 0, 0, 0, 0, 0, 0]: use a newer wrapper"
    );
    let e = Error::from_answer([8, 0, 0, 2, 4, 7, 3, 99]);
    let Error::Stop { kind, given, .. } = e else {
        panic!("no STOP")
    };
    assert_eq!((kind, kind.number()), (Kind::Unknown(7), 7));
    assert_eq!(given, Given::Unknown(3, 99));
    assert_eq!(
        e.to_string(),
        "STOP (8): the number of the words 3 and 99 for byte 4 of record 2 does not fit, for a reason that this version does not know (kind 7): clamp, or use a newer wrapper"
    );
    assert_eq!(
        kind.to_string(),
        "the number does not fit, for a reason that this version does not know (kind 7): clamp, or use a newer wrapper"
    );
}

#[test]
fn kinds_by_themselves() {
    for (kind, text) in [
        (Kind::Above, "the number is above the destination's range"),
        (Kind::Below, "the number is below the destination's range"),
        (Kind::NoSymbol, "the number has no symbol in the source"),
        (Kind::NotANumber, "the real is not-a-number, which no int"),
        (Kind::Truncated, "the real has a fraction, or is a negative"),
        (Kind::Rounded, "the int is no double, only near one"),
    ] {
        assert!(kind.to_string().starts_with(text), "{kind}");
    }
}

#[test]
fn all_other_texts() {
    let said = |number| Error::from_answer([number, 0, 0, 0, 0, 0, 0, 0]).to_string();
    assert_eq!(
        said(1),
        "HANDLING (1): handling is neither 0 (clamp) nor 1 (stop): pass one of them"
    );
    assert_eq!(
        said(2),
        "TABLE (2): the working table is too short: lend at least 8,192 words"
    );
    assert_eq!(
        said(6),
        "COUNT (6): more than 65,536 records in one call: go in parts, as convert_log and compare do"
    );
    assert_eq!(
        said(10),
        "CHANNEL (10): an int of the reader's sheet has more than 32 bits: narrow it, or leave it out"
    );
    assert_eq!(
        said(11),
        "FULL (11): the report is full, or its memory holds what no report's does: begin a new report"
    );
    assert_eq!(
        said(12),
        "SYMBOLS (12): an enum has a symbol in the source and not in the destination: give the destination's enum that symbol, with a number of its own"
    );
    assert_eq!(
        said(9),
        "RANGE (9): the argument or the layout breaks the rules of a layout: size 1 to 8 bytes, precision 1 to 64 bits, offset + precision within the size, no sign on bits"
    );
}
