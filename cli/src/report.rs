//! Reports on the numbers of logs.
use crate::arguments::Arguments;
use crate::failure::Failure;
use crate::{convert, files, Command};
use std::ffi::{OsStr, OsString};
use std::io::ErrorKind;
use std::process::ExitCode;
use yirvagul::{Report, SavedError};

pub const COMMAND: Command = Command {
    name: "report",
    about: "reports the lowest, highest, sum and samples of each int, over many logs",
    help: "\
usage: yirvagul report READER.sheet FROM.sheet LOG.. [--season FILE]

  READER.sheet     the layout sheet of the report, which has a line for each int in it
  FROM.sheet       the layout sheet of the logs
  LOG..            the logs, one or more: records of FROM.sheet, of any number
  --season FILE    the report of earlier runs with READER.sheet: the logs are added to it, and
                   it is kept in FILE; it begins where there is no FILE yet

The report has a header, then a line for each int of READER.sheet, in byte order: its byte, its
lowest and its highest sample, their sum and how many they are, parted by tabs. An int that no
log has shows - for lowest and highest. A number that READER.sheet has no room for is clamped,
whatever its members say: the nearest that fits is the sample, and it counts as an exception.
Ints have at most 32 bits, and a report 1,048,576 records.

- is standard input. All logs are added or none. FILE is written last, beside its place, and then
renamed: a refusal, a full disk or a closed pipe leaves it as it was. It takes one run at a time.

At the end a line on standard error says how many records and exceptions there were.

example:
  yirvagul report examples/customer.sheet examples/rig.sheet examples/rig.log
",
    run,
};

fn run(words: Vec<OsString>) -> Result<ExitCode, Failure> {
    let arguments = Arguments::new(words, &[], &["--season"])?;
    let ([reader, from], logs) =
        arguments.files_and_more(["READER.sheet", "FROM.sheet"], "LOG..")?;
    let season = arguments.option("--season");
    if season.is_some_and(files::is_standard) {
        return Err(Failure::usage("--season names a file that is kept, not -"));
    }
    files::read_once(&[&[reader, from], &logs[..]].concat())?;

    let sheets = (files::read_sheet(reader)?, files::read_sheet(from)?);
    let new = Report::new(&sheets.0).map_err(|e| Failure::refused(files::said(reader), e))?;
    let begun = match season {
        Some(file) => kept(file, reader, &new)?,
        None => new.clone(),
    };
    let mut report = begun.clone();
    let mut standard = None;
    for log in logs {
        report
            .add(&sheets.1, files::input(log, &mut standard)?)
            .map_err(|error| Failure::of_log(error, from, reader, log))?;
    }
    if let Some(file) = season {
        if kept(file, reader, &new)? != begun {
            let said = files::said(file);
            return Err(Failure::Io(format!(
                "{said}: another run has changed this report meanwhile: run again"
            )));
        }
    }
    files::put(report.text().as_bytes())?;
    let (before, after) = (begun.summary(), report.summary());
    let mut said = convert::said(
        after.records - before.records,
        after.exceptions - before.exceptions,
    );
    if let Some(file) = season {
        report.save(file).map_err(|e| Failure::Io(e.to_string()))?;
        let all = convert::said(after.records, after.exceptions);
        said = format!("{said}; season: {all}");
    }
    files::note(&said);
    Ok(ExitCode::SUCCESS)
}

/// The report that a file keeps, which is of the reader's own sheet; a new one if there is no such file.
fn kept(file: &OsStr, reader: &OsStr, new: &Report) -> Result<Report, Failure> {
    match Report::load(file) {
        Ok(report) if report.reader_sheet() == new.reader_sheet() => Ok(report),
        Ok(_) => Err(Failure::refused(
            files::said(file),
            format!(
                "this report is of another sheet than {}: name the sheet that it began with, or another file",
                files::said(reader)
            ),
        )),
        Err(SavedError::Io { error, .. }) if error.kind() == ErrorKind::NotFound => Ok(new.clone()),
        Err(error @ SavedError::Io { .. }) => Err(Failure::Io(error.to_string())),
        Err(error) => Err(Failure::Io(format!("{}: {error}", files::said(file)))),
    }
}
