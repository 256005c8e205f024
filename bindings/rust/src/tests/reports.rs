//! Reports: what they say, what they refuse, and how they are kept.
use super::{BITS, BYTE, PAIR, REAL, SIGNED, WIDE};
use crate::*;

const HEAD: &str = "at\tlowest\thighest\tsum\tsamples\n";

/// An int of so many bits, in 8 bytes.
fn int(precision: u32) -> String {
    format!("int\t8\tLE\t0\t{precision}\tzero\tzero\tsigned\n")
}

/// A compound of two members, of types 0 and 1.
fn pair(first: &[u8], second: &[u8], sizes: (u32, u32)) -> Vec<u8> {
    let (at, size) = (sizes.0, sizes.0 + sizes.1);
    let members = format!("comp\t{size}\nmember\ta\t0\t0\nmember\tb\t{at}\t1\n");
    [first, second, members.as_bytes()].concat()
}

fn refused(sheet: &[u8]) -> Error {
    Report::new(sheet).unwrap_err()
}

#[test]
fn a_new_one_says_that_there_is_nothing() {
    let report = Report::new(&pair(BYTE, PAIR, (1, 2))).unwrap();
    let text = format!("{HEAD}0\t-\t-\t0\t0\n1\t-\t-\t0\t0\n");
    assert_eq!(report.text(), text);
    let summary = report.summary();
    assert_eq!((summary.records, summary.exceptions), (0, 0));
    assert_eq!(summary.text, text);
    let [first, second] = &summary.rows[..] else {
        panic!("{summary:?}")
    };
    assert_eq!((first.at, first.member.as_deref()), (0, Some("a")));
    assert_eq!((second.at, second.member.as_deref()), (1, Some("b")));
    assert_eq!((second.lowest, second.highest), (None, None));
    assert_eq!((second.sum, second.samples), (0, 0));
    // one without ints, and one with as many as there can be
    assert_eq!(Report::new(BITS).unwrap().text(), HEAD);
    let most = [BYTE, b"array\t0\t4096\n"].concat();
    assert_eq!(Report::new(&most).unwrap().summary().rows.len(), 4096);
}

#[test]
fn reals_have_no_row_and_give_samples() {
    // b is a real of the reader, a an int that the log has as a real
    let mut report = Report::new(&pair(BYTE, REAL, (1, 8))).unwrap();
    assert_eq!(report.text(), format!("{HEAD}0\t-\t-\t0\t0\n"));
    let mut log = Vec::new();
    for (a, b) in [(2.5, 5), (f64::NAN, u64::MAX)] {
        log.extend(f64::to_be_bytes(a));
        log.extend(u64::to_be_bytes(b));
    }
    let summary = report.add(&pair(REAL, WIDE, (8, 8)), &log).unwrap();
    // the fraction, the not-a-number, whose 0 is a sample, and 2^64 - 1, which is no double
    assert_eq!((summary.records, summary.exceptions), (2, 3));
    assert_eq!(summary.text, format!("{HEAD}0\t0\t2\t2\t2\n"));
}

#[test]
fn logs_of_several_sheets_add_up() {
    let reader = pair(SIGNED, PAIR, (1, 2));
    let mut report = Report::new(&reader).unwrap();
    let other = [PAIR, b"comp\t2\nmember\ta\t0\t0\n"].concat();
    let log = [0, 5, 0, 200];
    let summary = report.add(&other, &log).unwrap();
    assert_eq!(log, [0, 5, 0, 200]);
    // 200 is clamped to 127, and is a sample
    assert_eq!(
        summary.text,
        format!("{HEAD}0\t5\t127\t132\t2\n1\t-\t-\t0\t0\n")
    );
    assert_eq!((summary.records, summary.exceptions), (2, 1));
    let summary = report.add(&reader, b"\xff\xff\xff").unwrap();
    assert_eq!(
        summary.text,
        format!("{HEAD}0\t-1\t127\t131\t3\n1\t65535\t65535\t65535\t1\n")
    );
    let row = &summary.rows[0];
    assert_eq!((row.lowest, row.highest), (Some(-1), Some(127)));
    assert_eq!((row.sum, row.samples), (131, 3));
    assert_eq!(report.summary(), summary);
    // a log of no records
    assert_eq!(report.add(&reader, &[]).unwrap(), summary);
}

#[test]
fn a_leaf_without_a_name() {
    let mut report = Report::new(PAIR).unwrap();
    let summary = report.add(BYTE, &[7]).unwrap();
    assert_eq!(summary.rows[0].member.as_deref(), Some(""));
    assert_eq!(summary.rows[0].sum, 7);
}

#[test]
fn a_log_of_many_parts() {
    let mut report = Report::new(PAIR).unwrap();
    let log: Vec<u8> = (0..200_000_u32).map(|i| i as u8).collect();
    let summary = report.add(BYTE, &log).unwrap();
    let sum: i64 = log.iter().map(|&byte| i64::from(byte)).sum();
    assert_eq!(summary.text, format!("{HEAD}0\t0\t255\t{sum}\t200000\n"));
    // the same in pieces of one's own
    let mut pieces = Report::new(PAIR).unwrap();
    for piece in log.chunks(70_001) {
        pieces.add(BYTE, piece).unwrap();
    }
    assert_eq!(pieces, report);
    assert_eq!(
        format!("{report:?}"),
        "Report { records: 200000, exceptions: 0, .. }"
    );
}

#[test]
fn channel_names_the_member() {
    let wide = int(40);
    let said = |sheet: &[u8]| refused(sheet).to_string();
    let end = "bits, and a report takes ints of at most 32: narrow it in the reader's sheet, or leave it out";
    assert_eq!(
        said(wide.as_bytes()),
        format!("CHANNEL (10): the record has 40 {end}")
    );
    let sheet = format!(
        "{wide}{}array\t1\t2\t3\ncomp\t64\nmember\tlate\t56\t0\nmember\tearly\t8\t2\n",
        int(33)
    );
    assert_eq!(
        said(sheet.as_bytes()),
        format!("CHANNEL (10): `early[0][0]` has 33 {end}")
    );
    assert!(matches!(
        refused(sheet.as_bytes()),
        Error::Channel {
            precision: Some(33),
            ..
        }
    ));
    // neither an enum's base nor bits nor a type that nothing uses is an int leaf
    let fine = format!("{wide}enum\t0\nbits\t8\tLE\t0\t64\tzero\tzero\n{}comp\t24\nmember\ta\t0\t1\nmember\tb\t8\t2\nmember\tc\t16\t3\n", int(32));
    assert_eq!(
        Report::new(fine.as_bytes()).unwrap().summary().rows.len(),
        1
    );
}

#[test]
fn a_faulty_sheet_is_the_only_one() {
    let said = refused(b"comp\t0\n").to_string();
    assert_eq!(
        said,
        "SOURCE (3): line 1 of the sheet is faulty, `comp\\t0`: the size is 0: a compound has 1 to 4,096 bytes"
    );
    let mut report = Report::new(BYTE).unwrap();
    let said = report.add(b"comp\t0\n", &[]).unwrap_err().to_string();
    assert!(said.starts_with("SOURCE (3): line 1 of the source sheet is faulty"));
}

#[test]
fn refused_logs_leave_the_report() {
    let mut report = Report::new(BYTE).unwrap();
    report.add(BYTE, &[5]).unwrap();
    let before = report.clone();
    let error = report.add(BITS, &[5]).unwrap_err();
    assert!(matches!(error, LogError::Refused(Error::Path { .. })));
    let error = report.add(PAIR, &[5]).unwrap_err();
    assert!(matches!(
        error,
        LogError::Ragged {
            bytes: 1,
            size: 2,
            ..
        }
    ));
    assert_eq!(report, before);
    // in its seventeenth part
    let error = report.add(BYTE, &vec![9; 1_048_576]).unwrap_err();
    assert_eq!(
        error.to_string(),
        "FULL (11): the report would have 1048577 records or more, and it takes 1,048,576: begin a new report"
    );
    assert!(matches!(
        error,
        LogError::Refused(Error::Full {
            records: Some(1_048_577),
            ..
        })
    ));
    assert_eq!(report, before);
    // and just up to it
    let summary = report.add(BYTE, &vec![9; 1_048_575]).unwrap();
    assert_eq!(summary.records, Report::MOST_RECORDS);
    report.add(BYTE, &[]).unwrap();
    assert!(report.add(BYTE, &[1]).is_err());
}

/// A report of the example log, which Python keeps alike.
const KEPT: &[u8] = include_bytes!("../../../season.report");

fn example() -> Report {
    let mut report = Report::new(include_bytes!("../../../../examples/customer.sheet")).unwrap();
    let log = include_bytes!("../../../../examples/rig.log");
    let sheet = include_bytes!("../../../../examples/rig.sheet");
    report.add(sheet, log).unwrap();
    report
}

#[test]
fn kept_as_bytes() {
    let report = example();
    assert_eq!(report.to_bytes(), KEPT);
    let mut kept = Report::from_bytes(KEPT).unwrap();
    assert_eq!(kept, report);
    assert_eq!(kept.summary(), report.summary());
    assert_eq!(kept.reader_sheet(), report.reader_sheet());
    // and it goes on
    let sheet = kept.reader_sheet().to_vec();
    assert_eq!(kept.add(&sheet, &[0; 7]).unwrap().records, 49);
}

#[test]
fn damaged_bytes_are_refused() {
    for at in 0..KEPT.len() {
        let mut changed = KEPT.to_vec();
        changed[at] ^= 0x10;
        let error = Report::from_bytes(&changed).unwrap_err();
        match at {
            0..=15 => assert!(matches!(error, SavedError::NoReport), "{at}"),
            16..=19 => assert!(matches!(error, SavedError::Version(_)), "{at}"),
            _ => assert!(matches!(error, SavedError::Damaged), "{at}"),
        }
        let error = Report::from_bytes(&KEPT[..at]).unwrap_err();
        let is_cut = matches!(error, SavedError::NoReport | SavedError::Damaged);
        assert!(is_cut, "{at}");
    }
    let longer = [KEPT, b"\0"].concat();
    assert!(matches!(
        Report::from_bytes(&longer),
        Err(SavedError::Damaged)
    ));
    let said = |error: SavedError| error.to_string();
    assert_eq!(
        said(Report::from_bytes(b"").unwrap_err()),
        "this is no saved report: name another file, or begin a new report"
    );
    assert_eq!(
        said(SavedError::Damaged),
        "this saved report is damaged: take a copy of it, or begin a new report"
    );
    assert_eq!(
        said(SavedError::Version(2)),
        "this report was saved in version 2 of the format, and version 1 is known here: use a newer yirvagul"
    );
}

#[test]
fn words_that_no_report_has_are_refused() {
    let saved = |change: &dyn Fn(&mut Report)| {
        let mut report = example();
        change(&mut report);
        Report::from_bytes(&report.to_bytes()).unwrap_err()
    };
    for (at, word) in [
        (0, -1),
        (1, -1),
        (5, -1),
        (2, 1 << 53),
        (4, i64::MIN),
        (0, 1_048_577),
    ] {
        let error = saved(&|report| report.set_word(at, word));
        assert!(
            matches!(&error, SavedError::Refused(Error::Full { .. })),
            "{error}"
        );
    }
    for words in [0, 1, 9, 13, 15] {
        let error = saved(&|report| report.set_words(words));
        assert!(matches!(error, SavedError::Damaged), "{error}");
    }
}
