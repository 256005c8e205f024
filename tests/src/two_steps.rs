//! Two steps or one (document 02, 2026-14), worked out by hand: A to B and then
//! B to C, beside A to C.

use crate::call::{After, Answer, copying};
use crate::exercises::{BYTE, SIGNED_BYTE, TWO_BE, given};
use crate::reals::REAL_BE;
use crate::sheet;

/// What B to C leaves behind A to B, and what A to C leaves, over the same
/// background; A to B is done with so many exceptions.
#[track_caller]
fn both_ways(
    [a, b, c]: [&str; 3],
    handling: Option<u32>,
    source: &[u8],
    raised: u64,
) -> (After, After) {
    let size = |sheet: &str| sheet::read(sheet.as_bytes()).expect("valid").size() as usize;
    let count = source.len() / size(a);
    let records = |sheet| vec![0x33; count * size(sheet)];
    let count = count as u64;
    let first = copying(given(a, b, count, Some(0)), source, &records(b));
    assert_eq!(first.answer, Answer::done(raised));
    let second = copying(given(b, c, count, handling), &first.written, &records(c));
    let direct = copying(given(a, c, count, handling), source, &records(c));
    (second, direct)
}

fn members(leaf: &str, names: &[&str], word: &str) -> String {
    let size = sheet::read(leaf.as_bytes()).expect("valid").size();
    let row = |(i, name): (usize, &&str)| {
        let at = i as u64 * size;
        format!("member\t{name}\t{at}\t0{word}\n")
    };
    let rows: Vec<String> = names.iter().enumerate().map(row).collect();
    let all = size * names.len() as u64;
    format!("{leaf}comp\t{all}\n{}", rows.concat())
}

#[test]
fn the_same_where_b_has_the_names() {
    let a = members(BYTE, &["oil", "fuel", "old"], "\tstop");
    let b = members(TWO_BE, &["new", "fuel", "oil"], "\tclamp");
    let c = members(SIGNED_BYTE, &["oil", "other", "fuel"], "");
    let sheets = [&a[..], &b, &c];
    let log = [1, 2, 3, 200, 5, 6];
    let (second, direct) = both_ways(sheets, Some(0), &log, 0);
    assert_eq!(second, direct);
    assert_eq!(direct.answer, Answer::done(1));
    assert_eq!(direct.written, [1, 0x33, 2, 127, 0x33, 5]);
    let stop = Answer {
        record: 1,
        kind: 1,
        magnitude: 200,
        ..Answer::refused(8)
    };
    for handling in [Some(1), None] {
        let (second, direct) = both_ways(sheets, handling, &log, 0);
        assert_eq!(second, direct);
        assert_eq!(direct.answer, stop);
    }
    // The words of C are obeyed in both.
    let c = members(SIGNED_BYTE, &["oil", "other", "fuel"], "\tclamp");
    let (second, direct) = both_ways([&a, &b, &c], None, &log, 0);
    assert_eq!(second, direct);
    assert_eq!(direct.answer, Answer::done(1));
}

#[test]
fn not_where_b_lacks_a_name() {
    let (a, b) = (members(BYTE, &["oil"], ""), members(BYTE, &["fuel"], ""));
    let (second, direct) = both_ways([&a, &b, &a], Some(1), &[7], 0);
    assert_eq!(second.answer, direct.answer);
    assert_eq!(
        (&second.written[..], &direct.written[..]),
        (&[0x33][..], &[7][..])
    );
}

#[test]
fn not_where_b_has_a_name_more() {
    let (a, b) = (members(BYTE, &["oil"], ""), members(BYTE, &["fuel"], ""));
    let (second, direct) = both_ways([&a, &b, &b], Some(1), &[7], 0);
    assert_eq!(
        (&second.written[..], &direct.written[..]),
        (&[0x33][..], &[0x33][..])
    );
    // What B's background holds shows in the count.
    let c = members("int\t1\tLE\t0\t4\tzero\tzero\tunsigned\n", &["fuel"], "");
    let (second, direct) = both_ways([&a, &b, &c], Some(0), &[7], 0);
    assert_eq!(second.answer, Answer::done(1));
    assert_eq!(direct.answer, Answer::done(0));
}

#[test]
fn not_by_way_of_a_real() {
    let (second, direct) = both_ways([TWO_BE, REAL_BE, BYTE], Some(1), &[1, 0], 0);
    let stop = |given, magnitude| Answer {
        kind: 1,
        given,
        magnitude,
        ..Answer::refused(8)
    };
    // 256 as the 64 bits of a real, and as a number.
    assert_eq!(second.answer, stop(2, 0x4070_0000_0000_0000));
    assert_eq!(direct.answer, stop(0, 256));
}

#[test]
fn not_behind_an_exception() {
    let (second, direct) = both_ways([TWO_BE, BYTE, TWO_BE], Some(1), &[1, 7], 1);
    assert_eq!(second.answer, direct.answer);
    assert_eq!(
        (&second.written[..], &direct.written[..]),
        (&[0, 255][..], &[1, 7][..])
    );
}
