//! Two logs compared: what differs, what is refused, and parts.
use super::{BITS, BYTE, PAIR, REAL, SIGNED, SIGNED_WIDE, WIDE};
use crate::*;

/// All differences as lines.
fn lines(pair: (&[u8], &[u8]), first: &[u8], second: &[u8]) -> Vec<String> {
    let found = compare(pair.0, pair.1, first, second).unwrap();
    found.map(|found| found.unwrap().to_string()).collect()
}

/// Whether records of one leaf are the same.
fn are_same(pair: (&[u8], &[u8]), first: &[u8], second: &[u8]) -> bool {
    lines(pair, first, second).is_empty()
}

/// A compound of members `a` and `b`, of types 0 and 1, at so many bytes.
fn pair(first: &[u8], second: &[u8], at: (u32, u32), size: u32) -> Vec<u8> {
    let (a, b) = at;
    let members = format!("comp\t{size}\nmember\ta\t{a}\t0\nmember\tb\t{b}\t1\n");
    [first, second, members.as_bytes()].concat()
}

#[test]
fn numbers_whatever_their_layouts() {
    assert!(are_same((BYTE, PAIR), &[200, 7], &[0, 200, 0, 7]));
    assert_eq!(
        lines((BYTE, SIGNED), &[5, 255], &[5, 255]),
        ["1\t0\t255\t-1"]
    );
    assert_eq!(
        lines((WIDE, SIGNED_WIDE), &[255; 8], &i64::MIN.to_be_bytes()),
        ["0\t0\t18446744073709551615\t-9223372036854775808"]
    );
    // no record, and one buffer twice
    assert!(are_same((BYTE, PAIR), &[], &[]));
    let log = [3; 10];
    assert!(are_same((BYTE, BYTE), &log, &log));
}

#[test]
fn enums_by_symbol() {
    let from = [BYTE, b"enum\t0\nvalue\topen\t0\nvalue\tshut\t1\n"].concat();
    let to = [BYTE, b"enum\t0\nvalue\topen\t1\nvalue\tshut\t0\n"].concat();
    assert!(are_same((&from, &to), &[0, 1, 9], &[1, 0, 9]));
    assert_eq!(
        lines((&from, &to), &[0, 1, 9, 1], &[0, 1, 8, 9]),
        ["0\t0\t0\t0", "1\t0\t1\t1", "2\t0\t9\t8", "3\t0\t1\t9"]
    );
}

#[test]
fn reals_by_bits_and_by_worth() {
    let real = f64::to_be_bytes;
    let one = |real: [u8; 8], int: i64| are_same((REAL, SIGNED_WIDE), &real, &int.to_be_bytes());
    assert!(one(real(-0.0), 0));
    assert!(one(real(2_f64.powi(53)), 1 << 53));
    assert!(!one(real(2_f64.powi(53)), (1 << 53) + 1));
    assert!(!one(real(0.5), 0));
    for bits in [f64::INFINITY, f64::NEG_INFINITY, f64::NAN] {
        assert!(!one(real(bits), 0));
        assert!(!one(real(bits), bits.to_bits() as i64));
        assert!(are_same((REAL, REAL), &real(bits), &real(bits)));
    }
    assert_eq!(
        lines((REAL, REAL), &real(-0.0), &real(0.0)),
        ["0\t0\t9223372036854775808\t0"]
    );
}

#[test]
fn a_row_has_numbers_and_names() {
    // a is a real in the first log, b in the second
    let from = pair(REAL, WIDE, (0, 8), 16);
    let to = pair(BYTE, REAL, (10, 1), 11);
    let mut first = Vec::from(255.5_f64.to_be_bytes());
    first.extend(u64::MAX.to_be_bytes());
    let mut second = vec![0x77; 11];
    second[1..9].copy_from_slice(&2_f64.powi(64).to_be_bytes());
    second[10] = 255;
    let rows: Result<Vec<_>, _> = compare(&from, &to, &first, &second).unwrap().collect();
    let [b, a] = &rows.unwrap()[..] else {
        panic!("not two")
    };
    assert_eq!((b.record, b.at, b.member.as_deref()), (0, 1, Some("b")));
    assert_eq!(b.first, Given::Whole(u64::MAX.into()));
    assert_eq!(b.second, Given::Real(2_f64.powi(64).to_bits()));
    assert_eq!((a.record, a.at, a.member.as_deref()), (0, 10, Some("a")));
    assert_eq!(a.first, Given::Real(255.5_f64.to_bits()));
    assert_eq!(a.second, Given::Whole(255));
    assert_eq!(a.to_string(), "0\t10\t4643193623632936960\t255");
    // an element of an array in an array of compounds, and a record that is the leaf
    let map = |base: &[u8]| {
        let rest = b"array\t0\t2\t3\ncomp\t7\nmember\tcells\t1\t1\narray\t2\t2\ncomp\t16\nmember\tmap\t2\t3\n";
        [base, rest].concat()
    };
    let mut other = [0; 16];
    other[2 + 7 + 1 + 5] = 200;
    let from = map(BYTE);
    let to = map(SIGNED);
    let mut found = compare(&from, &to, &[0; 16], &other).unwrap();
    let found = found.next().unwrap().unwrap();
    assert_eq!(found.member.as_deref(), Some("map[1].cells[1][2]"));
    assert_eq!(found.second, Given::Whole(-56));
    let found = compare(BYTE, BYTE, &[1], &[2]).unwrap().next();
    assert_eq!(found.unwrap().unwrap().member.as_deref(), Some(""));
}

#[test]
fn only_matched_leaves() {
    let from = pair(BYTE, BYTE, (0, 1), 3);
    let to = [PAIR, b"comp\t4\nmember\tc\t0\t0\nmember\tb\t2\t0\n"].concat();
    assert!(are_same(
        (&from, &to),
        &[1, 7, 2, 3, 8, 4],
        &[9, 9, 0, 7, 9, 9, 0, 8]
    ));
}

#[test]
fn many_parts_and_many_differences() {
    // more records than one call takes, and a list that one buffer does not hold
    let first: Vec<u8> = (0..200_000_u32).map(|i| i as u8).collect();
    let mut second: Vec<u8> = first.iter().flat_map(|&byte| [0, byte]).collect();
    for record in [0, 65_535, 65_536, 131_072, 199_999] {
        second[2 * record] = 1;
    }
    let found = lines((BYTE, PAIR), &first, &second);
    let wanted = [0, 65_535, 65_536, 131_072, 199_999].map(|record| {
        let byte = u32::from(record as u8);
        format!("{record}\t0\t{byte}\t{}", byte + 256)
    });
    assert_eq!(found, wanted);
    let different: Vec<u8> = first.iter().flat_map(|&byte| [255, byte]).collect();
    let mut rows = compare(BYTE, PAIR, &first, &different).unwrap();
    assert_eq!((rows.records(), rows.compared()), (Some(200_000), 0));
    let mut records = 0;
    for found in &mut rows {
        let found = found.unwrap();
        let byte = i128::from(records as u8);
        assert_eq!((found.record, found.at), (records, 0));
        assert_eq!(found.first, Given::Whole(byte));
        assert_eq!(found.second, Given::Whole(byte + 255 * 256));
        records += 1;
    }
    assert_eq!((records, rows.compared()), (200_000, 200_000));
    assert!(rows.next().is_none());
    assert_eq!(
        format!("{rows:?}"),
        "Differences { compared: 200000, records: Some(200000), .. }"
    );
}

#[test]
fn the_largest_record() {
    let sheet = [BYTE, b"array\t0\t4096\n"].concat();
    let found = lines((&sheet, &sheet), &[255; 3 * 4096], &[0; 3 * 4096]);
    assert_eq!(found.len(), 3 * 4096);
    assert_eq!(found[4096 + 4095], "1\t4095\t255\t0");
}

#[test]
fn one_call_into_a_buffer() {
    let list = b"record\tat\tfirst\tsecond\n1\t0\t2\t3\n";
    let mut out = [0x77; 40];
    let mut c = Converter::new();
    let done = c.compare_into(BYTE, BYTE, 2, &[1, 2, 9], &[1, 3], &mut out);
    assert_eq!(done, Ok(list.len()));
    assert_eq!(out[..list.len()], list[..]);
    assert_eq!(out[list.len()..], [0x77; 40][list.len()..]);
    let done = c.compare_into(BYTE, BYTE, 0, &[], &[], &mut out[..COMPARE_HEADER_BYTES]);
    assert_eq!(done, Ok(COMPARE_HEADER_BYTES));
    assert_eq!(Differences::HEADER.len(), COMPARE_HEADER_BYTES);
}

#[test]
fn the_longest_line() {
    let mut out = vec![0; 23 + 53];
    // the lowest number beside the highest, at the last byte but seven
    let from = [SIGNED_WIDE, b"comp\t4096\nmember\ta\t4088\t0\n"].concat();
    let to = [WIDE, b"comp\t4096\nmember\ta\t4088\t0\n"].concat();
    let mut first = vec![0; 4096];
    first[4088] = 0x80;
    let second = [255; 4096];
    let len = Converter::new().compare_into(&from, &to, 1, &first, &second, &mut out);
    // record 0 has four digits fewer than 65,535
    assert_eq!(len, Ok(COMPARE_HEADER_BYTES + COMPARE_LINE_BYTES - 4));
}

#[test]
fn refusals_are_explained() {
    let said = |from: &[u8], to: &[u8], count, logs: (&[u8], &[u8]), room| {
        let mut list = vec![0x77; room];
        let refused = Converter::new().compare_into(from, to, count, logs.0, logs.1, &mut list);
        assert_eq!(list, vec![0x77; room]);
        refused.unwrap_err().to_string()
    };
    assert_eq!(
        said(b"comp\t0\n", BYTE, 0, (&[], &[]), 99),
        "SOURCE (3): line 1 of the first sheet is faulty, `comp\\t0`: the size is 0: a compound has 1 to 4,096 bytes"
    );
    assert_eq!(
        said(BYTE, b"comp\t0\n", 0, (&[], &[]), 99),
        "DESTINATION (4): line 1 of the second sheet is faulty, `comp\\t0`: the size is 0: a compound has 1 to 4,096 bytes"
    );
    let (from, to) = (pair(BYTE, BYTE, (0, 1), 2), pair(BYTE, BITS, (0, 1), 2));
    assert_eq!(
        said(&from, &to, 0, (&[], &[]), 99),
        "PATH (5): no path from the first log's type to the second log's type: `b` is an int in the first sheet and bits in the second: give both the same class"
    );
    let (six, twelve) = (
        [BYTE, b"array\t0\t2\t3\n"].concat(),
        [BYTE, b"array\t0\t6\n"].concat(),
    );
    assert_eq!(
        said(&six, &twelve, 0, (&[], &[]), 99),
        "PATH (5): no path from the first log's type to the second log's type: the record is an array of 2 by 3 in the first sheet and of 6 in the second: give both the same dimensions"
    );
    assert_eq!(
        said(BYTE, BYTE, 65_537, (&[], &[]), 99),
        "COUNT (6): more than 65,536 records in one call: go in parts, as convert_log and compare do"
    );
    assert_eq!(
        said(BYTE, PAIR, 3, (&[1, 2], &[0; 5]), 99),
        "ROOM (7): the first log is too short: it holds 2 bytes and needs 3: lend a longer one"
    );
    assert_eq!(
        said(BYTE, PAIR, 3, (&[1, 2, 3], &[0; 5]), 99),
        "ROOM (7): the second log is too short: it holds 5 bytes and needs 6: lend a longer one"
    );
    assert_eq!(
        said(BYTE, BYTE, 1, (&[1], &[2]), 30),
        "ROOM (7): the list buffer is too short: it holds 30 bytes and needs 31: lend a longer one"
    );
    let (ones, twos) = (vec![1; 65_536], vec![2; 65_536]);
    assert_eq!(
        said(BYTE, BYTE, 65_536, (&ones, &twos), 0),
        "ROOM (7): the list buffer is too short: it holds 0 bytes and needs 775345: lend a longer one"
    );
    let mut short = Converter::with_table(vec![7; TABLE_WORDS - 1]);
    let refused = short.compare_into(BYTE, BYTE, 0, &[], &[], &mut [0; 23]);
    assert_eq!(refused, Err(Error::Table));
    // the same of logs of any length
    let Err(LogError::Refused(error)) = compare(&from, &to, &[], &[]) else {
        panic!("not refused")
    };
    assert!(matches!(
        error,
        Error::Path {
            compared: true,
            member: Some(_),
            ..
        }
    ));
}

#[test]
fn lengths_that_do_not_belong_together() {
    let said =
        |first: &[u8], second: &[u8]| compare(BYTE, PAIR, first, second).unwrap_err().to_string();
    assert_eq!(
        said(&[0; 3], &[0; 5]),
        "the second log has 5 bytes, which is no multiple of its record's 2: complete the last record or cut its 1 bytes off, or correct the sheet"
    );
    assert_eq!(
        said(&[0; 3], &[0; 4]),
        "the first log has 3 records and the second 2: compare logs of as many records"
    );
    let error = compare(PAIR, BYTE, &[0; 3], &[0; 2]).unwrap_err();
    assert!(matches!(
        error,
        LogError::Ragged {
            bytes: 3,
            size: 2,
            which: WhichLog::First,
            ..
        }
    ));
}
