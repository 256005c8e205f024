//! The exercises of document 01, its list, and what they do not catch.

use crate::call::{After, Answer, Call, copying, in_place};
use crate::datatype::Datatype;
use crate::list;
use crate::number;
use crate::setters::{Setter, Words, set};
use crate::sheet;
use crate::size;

const TABLE: [u32; 8192] = [7; 8192];

pub fn hex(text: &str) -> Vec<u8> {
    let byte = |word| u8::from_str_radix(word, 16).expect("a byte in hex");
    text.split_whitespace().map(byte).collect()
}

pub fn given<'a>(from: &'a str, to: &'a str, count: u64, handling: Option<u32>) -> Call<'a> {
    Call {
        source_sheet: from.as_bytes(),
        destination_sheet: to.as_bytes(),
        count,
        handling,
        table: &TABLE,
    }
}

/// Converts one record by copying and in place, clamping and stopping.
#[track_caller]
pub fn expect(
    from: &str,
    to: &str,
    source: &str,
    background: &str,
    result: &str,
    kind: Option<u64>,
) {
    let (source, background, result) = (hex(source), hex(background), hex(result));
    let count = kind.is_some() as u64;
    let clamped = copying(given(from, to, 1, Some(0)), &source, &background);
    assert_eq!(clamped.answer, Answer::done(count));
    assert_eq!(clamped.written, result);
    assert_eq!(clamped.table, [0; 8192]);
    let mut buffer = source.clone();
    buffer.resize(source.len().max(result.len()), 0x77);
    let moved = in_place(given(from, to, 1, Some(0)), &buffer, &background);
    assert_eq!(moved.answer, clamped.answer);
    assert_eq!(moved.written[..result.len()], result);
    let stopped = copying(given(from, to, 1, Some(1)), &source, &background);
    let plain = copying(given(from, to, 1, None), &source, &background);
    assert_eq!(plain, stopped);
    let left = in_place(given(from, to, 1, None), &buffer, &background);
    assert_eq!(left.answer, stopped.answer);
    match kind {
        None => {
            assert_eq!(stopped, clamped);
            assert_eq!(left, moved);
        }
        Some(kind) => {
            // The number given has tests of its own.
            let stop = Answer {
                kind,
                given: stopped.answer.given,
                magnitude: stopped.answer.magnitude,
                ..Answer::refused(8)
            };
            assert_eq!((stopped.answer, stopped.written), (stop, background));
            assert_eq!(left.written, buffer);
        }
    }
}

pub const SIGNED_BYTE: &str = "int\t1\tLE\t0\t8\tzero\tzero\tsigned\n";
pub const BYTE: &str = "int\t1\tLE\t0\t8\tzero\tzero\tunsigned\n";
pub const TWO_BE: &str = "int\t2\tBE\t0\t16\tzero\tzero\tunsigned\n";

#[test]
fn places_4386_as_the_manual_does() {
    let to = |order, offset| format!("int\t4\t{order}\t{offset}\t16\tzero\tzero\tunsigned\n");
    let back = "AA BB CC DD";
    expect(TWO_BE, &to("BE", 16), "11 22", back, "11 22 00 00", None);
    expect(TWO_BE, &to("LE", 16), "11 22", back, "00 00 22 11", None);
    expect(TWO_BE, &to("BE", 0), "11 22", back, "00 00 11 22", None);
    let Datatype::Int(layout) = *sheet::read(to("BE", 16).as_bytes()).expect("valid") else {
        panic!("an int");
    };
    assert_eq!(number::read(&layout, &hex("11 22 00 00")), 4386);
}

#[test]
fn minus_200_comes_from_the_field() {
    for (bytes, offset) in [("F3 80", 4), ("0F 38", 0)] {
        let from = format!("int\t2\tBE\t{offset}\t12\tzero\tzero\tsigned\n");
        let Datatype::Int(layout) = *sheet::read(from.as_bytes()).expect("valid") else {
            panic!("an int");
        };
        assert_eq!(number::read(&layout, &hex(bytes)), -200);
        expect(&from, SIGNED_BYTE, bytes, "55", "80", Some(2));
    }
}

#[test]
fn clamps_at_both_ends() {
    let two = "int\t2\tLE\t0\t16\tzero\tzero\tunsigned\n";
    expect(SIGNED_BYTE, two, "FF", "55 55", "00 00", Some(2));
    expect(BYTE, SIGNED_BYTE, "FF", "55", "7F", Some(1));
    expect(BYTE, SIGNED_BYTE, "7F", "55", "7F", None);
}

#[test]
fn pads_are_the_destinations() {
    let high = "int\t2\tLE\t0\t4\tzero\tone\tunsigned\n";
    expect(BYTE, high, "05", "00 00", "F5 FF", None);
    let keep = "int\t1\tLE\t2\t4\tkeep\tkeep\tunsigned\n";
    expect(BYTE, keep, "05", "C3", "D7", None);
}

#[test]
fn enums_go_by_symbol() {
    let from = format!("{BYTE}enum\t0\nvalue\topen\t0\nvalue\tshut\t1\n");
    let to = format!("{BYTE}enum\t0\nvalue\topen\t1\nvalue\tshut\t0\n");
    expect(&from, &to, "00", "55", "01", None);
    expect(&from, &to, "01", "55", "00", None);
    expect(&from, &to, "07", "55", "FF", Some(3));
}

#[test]
fn setters_follow_the_guide() {
    let layout = |size, offset, precision| -> Words { [0, size, 0, offset, precision, 0, 0, 0] };
    let start = layout(4, 16, 16);
    assert_eq!(set(start, Setter::Size(3)), (0, layout(3, 8, 16)));
    assert_eq!(set(start, Setter::Size(1)), (0, layout(1, 0, 8)));
    let bits: Words = [1, 4, 0, 16, 16, 0, 0, 0];
    assert_eq!(set(bits, Setter::Sign(0)), (9, bits));
}

#[test]
fn a_field_is_left_as_asked() {
    let layout = |size, offset, precision| -> Words { [0, size, 0, offset, precision, 0, 0, 0] };
    let start = layout(4, 16, 16);
    let field = |offset, precision| set(start, Setter::Field(offset, precision));
    assert_eq!(field(12, 20), (0, layout(4, 12, 20)));
    assert_eq!(field(0, 40), (0, layout(5, 0, 40)));
    assert_eq!(field(0, 1), (0, layout(4, 0, 1)));
    assert_eq!(field(17, 16), (0, layout(5, 17, 16)));
    assert_eq!(field(0, 64), (0, layout(8, 0, 64)));
    assert_eq!(field(63, 1), (0, layout(8, 63, 1)));
    for (offset, precision) in [
        (0, 0),
        (0, 65),
        (49, 16),
        (1, 64),
        (u32::MAX, 1),
        (u32::MAX, u32::MAX),
        (16, 0),
    ] {
        assert_eq!(field(offset, precision), (9, start));
    }
    let broken = layout(1, 1, 8);
    assert_eq!(set(broken, Setter::Field(0, 8)), (9, broken));
    let bits: Words = [1, 4, 0, 16, 16, 0, 0, 0];
    let wider: Words = [1, 5, 0, 0, 40, 0, 0, 0];
    assert_eq!(set(bits, Setter::Field(0, 40)), (0, wider));
}

#[test]
fn the_last_field_decides() {
    let byte: Words = [0, 1, 0, 0, 8, 0, 0, 0];
    let (_, wide) = set(byte, Setter::Field(0, 40));
    assert_eq!(
        set(wide, Setter::Field(0, 8)),
        (0, [0, 5, 0, 0, 8, 0, 0, 0])
    );
    assert_eq!(set(byte, Setter::Field(0, 8)), (0, byte));
    assert_eq!(set(wide, Setter::Field(0, 40)), (0, wide));
}

#[test]
fn shrinks_in_place_and_clears_the_tail() {
    let from = format!("{BYTE}comp\t4\nmember\ta\t0\t0\nmember\tb\t2\t0\n");
    let to = format!("{BYTE}comp\t1\nmember\tb\t0\t0\n");
    let buffer = hex("01 02 03 04 05 06 07 08");
    let After {
        answer, written, ..
    } = in_place(given(&from, &to, 2, Some(1)), &buffer, &[9, 9]);
    assert_eq!(answer, Answer::done(0));
    assert_eq!(written, hex("03 07 00 00 00 00 00 00"));
}

#[test]
fn grows_in_place() {
    let buffer = hex("0A 0B 77 77");
    let after = in_place(given(BYTE, TWO_BE, 2, None), &buffer, &[0; 4]);
    assert_eq!(after.answer, Answer::done(0));
    assert_eq!(after.written, hex("00 0A 00 0B"));
}

#[test]
fn a_late_stop_leaves_every_record() {
    let (source, destination) = (hex("01 FF"), hex("33 44"));
    let stop = Answer {
        record: 1,
        kind: 1,
        magnitude: 255,
        ..Answer::refused(8)
    };
    let call = given(BYTE, SIGNED_BYTE, 2, Some(1));
    let after = copying(call, &source, &destination);
    assert_eq!((after.answer, after.written), (stop, destination));
    let after = in_place(call, &source, &[0, 0]);
    assert_eq!((after.answer, after.written), (stop, source));
    assert_eq!(after.table, [0; 8192]);
}

#[test]
fn a_plain_form_stops_and_leaves_both_records() {
    for (source, record) in [("80 01", 0), ("01 80", 1)] {
        let (source, destination) = (hex(source), hex("33 44"));
        let stop = Answer {
            record,
            kind: 1,
            magnitude: 128,
            ..Answer::refused(8)
        };
        let plain = given(BYTE, SIGNED_BYTE, 2, None);
        let after = copying(plain, &source, &destination);
        assert_eq!((after.answer, &after.written), (stop, &destination));
        assert_eq!(after.table, [0; 8192]);
        let after = in_place(plain, &source, &[0, 0]);
        assert_eq!((after.answer, &after.written), (stop, &source));
        // Who wants the clamp names it.
        let named = given(BYTE, SIGNED_BYTE, 2, Some(0));
        let after = in_place(named, &source, &[0, 0]);
        let clamped = source.iter().map(|byte| byte.min(&0x7F)).copied().collect();
        assert_eq!((after.answer, after.written), (Answer::done(1), clamped));
    }
}

pub const LISTED: &str = "int\t2\tBE\t4\t12\tzero\tzero\tunsigned\n\
int\t1\tLE\t0\t8\tzero\tzero\tsigned\nenum\t1\nvalue\topen\t0\nvalue\tshut\t1\n\
array\t0\t3\ncomp\t8\nmember\tboost\t0\t3\nmember\tvalve\t7\t2\n";

#[test]
fn lists_the_example() {
    let wanted = b"at\tsize\tclass\n0\t2\tint\n2\t2\tint\n4\t2\tint\n7\t1\tenum\n";
    let mut room = vec![0x2E; wanted.len() + 3];
    let after = list::leaf_list(LISTED.as_bytes(), &room, &TABLE);
    room[..wanted.len()].copy_from_slice(wanted);
    assert_eq!(after.answer, Answer::done(wanted.len() as u64));
    assert_eq!(after.written, room);
    let short = list::leaf_list(LISTED.as_bytes(), &room[..wanted.len() - 1], &TABLE);
    assert_eq!(short.answer, Answer::refused(7));
}

#[test]
fn sizes_the_example() {
    let sized = |sheet: &str, table: &[u32]| size::record_size(sheet.as_bytes(), table);
    let after = sized(LISTED, &[7; 8193]);
    assert_eq!(after.answer, Answer::done(8));
    assert_eq!(after.table[..8192], [0; 8192]);
    assert_eq!(after.table[8192], 7);
    let short = sized("x", &TABLE[1..]);
    assert_eq!(short.answer, Answer::refused(2));
    assert_eq!(short.table, TABLE[1..]);
    let faulty = sized(&LISTED[..LISTED.len() - 1], &TABLE);
    assert_eq!(faulty.answer, Answer::faulty(3, 9));
    assert_eq!(faulty.table, [0; 8192]);
}
