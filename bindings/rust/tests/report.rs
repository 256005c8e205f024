//! Reports of logs from everything that a log comes from, and reports in files.
use std::fs::{self, File};
use std::io::{Cursor, ErrorKind};
use std::path::{Path, PathBuf};
use yirvagul::{Error, Input, LogError, Report, SavedError};

const RIG: &[u8] = include_bytes!("../../../examples/rig.sheet");
const CUSTOMER: &[u8] = include_bytes!("../../../examples/customer.sheet");
const LOG: &[u8] = include_bytes!("../../../examples/rig.log");

/// A folder of one test's own.
fn folder(name: &str) -> PathBuf {
    let path = Path::new(env!("CARGO_TARGET_TMPDIR")).join(name);
    let _ = fs::remove_dir_all(&path);
    fs::create_dir_all(&path).unwrap();
    path
}

fn report_of(log: Input) -> Report {
    let mut report = Report::new(CUSTOMER).unwrap();
    report.add(RIG, log).unwrap();
    report
}

#[test]
fn from_everything() {
    let folder = folder("report-from");
    let log = LOG.repeat(2000); // two parts
    let path = folder.join("rig.log");
    fs::write(&path, &log).unwrap();
    let wanted = report_of(log[..].into());
    assert_eq!(wanted.summary().records, 96_000);
    assert_eq!(report_of((&path).into()), wanted);
    let mut file = File::open(&path).unwrap();
    assert_eq!(report_of((&mut file).into()), wanted);
    assert_eq!(report_of(Input::File(&mut Cursor::new(&log))), wanted);
    assert_eq!(report_of(Input::Stream(&mut &log[..])), wanted);
    assert!(fs::read(&path).unwrap() == log);
}

#[test]
fn a_stream_that_ends_in_a_record_leaves_the_report() {
    let mut report = report_of(LOG.into());
    let before = report.clone();
    let log = LOG.repeat(2000);
    let error = report.add(RIG, Input::Stream(&mut &log[1..]));
    assert!(matches!(error, Err(LogError::Ragged { .. })));
    assert_eq!(report, before);
    let error = report.add(RIG, Path::new("none"));
    assert!(matches!(error, Err(LogError::Io { .. })));
    assert_eq!(report, before);
}

#[test]
fn kept_in_a_file() {
    let folder = folder("report-file");
    let path = folder.join("season.report");
    let mut report = report_of(LOG.into());
    report.save(&path).unwrap();
    assert_eq!(fs::read(&path).unwrap(), report.to_bytes());
    assert_eq!(Report::load(&path).unwrap(), report);
    report.add(CUSTOMER, &[0; 7]).unwrap();
    report.save(&path).unwrap();
    assert_eq!(Report::load(&path).unwrap(), report);
    // nothing is left beside it
    assert_eq!(fs::read_dir(&folder).unwrap().count(), 1);
}

#[test]
fn files_that_cannot_be() {
    let folder = folder("report-not");
    let path = folder.join("none").join("season.report");
    let report = Report::new(CUSTOMER).unwrap();
    let Err(LogError::Io { doing, error, .. }) = report.save(&path) else {
        panic!("it has no folder")
    };
    assert_eq!(doing, format!("write {}", path.display()));
    assert_eq!(error.kind(), ErrorKind::NotFound);
    let Err(SavedError::Io { doing, error, .. }) = Report::load(&path) else {
        panic!("it is not there")
    };
    assert_eq!(doing, format!("read {}", path.display()));
    assert_eq!(error.kind(), ErrorKind::NotFound);
    // a log in the place of a report, and a device without an end
    let log = folder.join("rig.log");
    fs::write(&log, LOG).unwrap();
    assert!(matches!(Report::load(&log), Err(SavedError::NoReport)));
    assert!(matches!(
        Report::load("/dev/zero"),
        Err(SavedError::NoReport)
    ));
}

#[test]
fn errors_have_their_sources() {
    let error = SavedError::Refused(Error::Count);
    assert!(std::error::Error::source(&error).is_some());
    assert!(std::error::Error::source(&SavedError::Damaged).is_none());
}
