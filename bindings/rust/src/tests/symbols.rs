//! Symbols that a destination lacks: which one is named, and which calls are refused.
use super::{BITS, BYTE};
use crate::*;

/// An enum of bytes, which is type 1 of its lines.
fn states(symbols: &[&str]) -> Vec<u8> {
    let mut sheet = [BYTE, b"enum\t0\n"].concat();
    for (number, symbol) in symbols.iter().enumerate() {
        sheet.extend(format!("value\t{symbol}\t{number}\n").bytes());
    }
    sheet
}

/// What both forms, plain or not, say of a call of no records; nothing where it is done.
#[track_caller]
fn refused(from: &[u8], to: &[u8]) -> Option<Error> {
    let said = convert_copying(from, to, 0, Handling::Stop, &[], &mut []).err();
    let others = [
        convert_copying_plain(from, to, 0, &[], &mut []),
        convert_in_place(from, to, 0, Handling::Clamp, &mut [], &[]),
        convert_in_place_plain(from, to, 0, &mut [], &[]),
    ];
    for other in others {
        assert_eq!(other.err(), said);
    }
    said
}

#[track_caller]
fn lost(from: &[u8], to: &[u8]) -> (String, String) {
    match refused(from, to) {
        Some(Error::Symbols {
            symbol: Some(symbol),
            member: Some(member),
        }) => (symbol, member),
        other => panic!("{other:?}"),
    }
}

fn pair(symbol: &str, member: &str) -> (String, String) {
    (symbol.into(), member.into())
}

#[test]
fn the_symbol_and_the_member_are_named() {
    let valve = |symbols: &[&str]| {
        let member: &[u8] = b"comp\t1\nmember\tvalve\t0\t1\n";
        [&states(symbols), member].concat()
    };
    let (all, few) = (valve(&["open", "ajar", "shut"]), valve(&["shut", "open"]));
    let error = refused(&all, &few).unwrap();
    assert_eq!((error.number(), error.name()), (12, "SYMBOLS"));
    assert_eq!(
        error.to_string(),
        "SYMBOLS (12): `valve` has the symbol `ajar` in the source and not in the destination: \
         give the destination's enum that symbol, with a number of its own"
    );
    assert_eq!(refused(&few, &all), None);
    // the record itself, and the first of two in the order of the source's values
    let error = refused(&states(&["open", "ajar", "shut"]), &states(&["open"])).unwrap();
    assert!(error
        .to_string()
        .starts_with("SYMBOLS (12): the record has the symbol `ajar` in the source and not in"));
}

#[test]
fn symbols_go_by_name_alone() {
    assert_eq!(
        refused(&states(&["open", "shut"]), &states(&["shut", "open"])),
        None
    );
    let large = states(&["open", "Shut"]);
    assert_eq!(lost(&states(&["open", "shut"]), &large), pair("shut", ""));
}

#[test]
fn an_enum_without_values() {
    assert_eq!(refused(&states(&[]), &states(&[])), None);
    assert_eq!(refused(&states(&[]), &states(&["open"])), None);
    assert_eq!(lost(&states(&["open"]), &states(&[])), pair("open", ""));
}

#[test]
fn the_first_of_two_members_by_the_destinations_bytes() {
    let from = [
        &states(&["open", "shut"])[..],
        b"comp\t2\nmember\tvalve\t0\t1\nmember\tpump\t1\t1\n",
    ]
    .concat();
    // `valve` stands first in the sheet, and behind `pump` in the record
    let to = [
        &states(&["open"])[..],
        b"enum\t0\nvalue\tshut\t0\ncomp\t3\nmember\tvalve\t2\t1\nmember\tpump\t1\t2\n",
    ]
    .concat();
    assert_eq!(lost(&from, &to), pair("open", "pump"));
    let turned = [
        &states(&["open"])[..],
        b"enum\t0\nvalue\tshut\t0\ncomp\t3\nmember\tvalve\t0\t1\nmember\tpump\t1\t2\n",
    ]
    .concat();
    assert_eq!(lost(&from, &turned), pair("shut", "valve"));
}

#[test]
fn nested_members_and_arrays() {
    let engine = |symbols: &[&str]| {
        let rest: &[u8] = b"array\t1\t2\t3\ncomp\t7\nmember\tstate\t6\t0\nmember\tvalves\t0\t2\narray\t3\t4\ncomp\t28\nmember\tengine\t0\t4\n";
        [&states(symbols), rest].concat()
    };
    assert_eq!(
        lost(&engine(&["open", "shut"]), &engine(&["open"])),
        pair("shut", "engine[0].valves[0][0]")
    );
    assert_eq!(
        refused(&engine(&["open"]), &engine(&["shut", "open"])),
        None
    );
}

#[test]
fn unmatched_enums_do_not_count() {
    let from = [
        &states(&["open", "shut"])[..],
        b"comp\t2\nmember\told\t0\t1\nmember\tboost\t1\t0\n",
    ]
    .concat();
    let to = [
        &states(&["open"])[..],
        b"comp\t2\nmember\tboost\t0\t0\nmember\tnew\t1\t1\n",
    ]
    .concat();
    assert_eq!(refused(&from, &to), None);
}

#[test]
fn between_path_and_count() {
    let record = |first: &[u8], states: &[u8]| {
        let members: &[u8] = b"comp\t2\nmember\tvalve\t0\t1\nmember\tboost\t1\t2\n";
        [states, first, members].concat()
    };
    let (all, few) = (states(&["open", "shut"]), states(&["open"]));
    let number = |from: &[u8], to: &[u8], count| {
        convert_copying_plain(from, to, count, &[], &mut [])
            .unwrap_err()
            .number()
    };
    assert_eq!(number(&record(BITS, &all), &record(BYTE, &few), 65_537), 5);
    assert_eq!(number(&record(BYTE, &all), &record(BYTE, &few), 65_537), 12);
    assert_eq!(number(&record(BYTE, &few), &record(BYTE, &all), 65_537), 6);
}

#[test]
fn a_report_names_it_and_stays() {
    let reader = [
        &states(&["open"])[..],
        b"comp\t2\nmember\tboost\t0\t0\nmember\tvalve\t1\t1\n",
    ]
    .concat();
    let log = [
        &states(&["open", "shut"])[..],
        b"comp\t1\nmember\tvalve\t0\t1\n",
    ]
    .concat();
    let mut report = Report::new(&reader).unwrap();
    report.add(&reader, &[5, 0]).unwrap();
    let before = report.clone();
    let error = report.add(&log, &[0]).unwrap_err();
    assert!(
        error
            .to_string()
            .starts_with("SYMBOLS (12): `valve` has the symbol `shut` in the source"),
        "{error}"
    );
    assert_eq!(report, before);
}

#[test]
fn a_comparison_is_not_refused() {
    let (all, few) = (states(&["open", "shut"]), states(&["open"]));
    let found = compare(&all, &few, &[0, 1, 1], &[0, 1, 0]).unwrap();
    let records: Vec<u64> = found.map(|found| found.unwrap().record).collect();
    assert_eq!(records, [1, 2]);
}

#[test]
fn what_is_not_found_is_not_said() {
    let sheet = states(&["open"]);
    let sheets = sheets(&sheet, &sheet, 1);
    let mut table = vec![0; TABLE_WORDS];
    let call = Call::Copying(&sheets, 1, 1);
    let error = explain::outcome([12, 0, 0, 0, 0, 0, 0, 0], &call, &mut table).unwrap_err();
    assert_eq!(
        error,
        Error::Symbols {
            symbol: None,
            member: None
        }
    );
}
