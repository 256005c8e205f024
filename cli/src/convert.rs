//! Converts a log.
use crate::arguments::Arguments;
use crate::failure::Failure;
use crate::progress::Bar;
use crate::{files, Command};
use std::ffi::{OsStr, OsString};
use std::io::{self, IsTerminal};
use std::path::Path;
use std::process::ExitCode;
use yirvagul::{Handling, LogConverter, LogError, Output};

pub const COMMAND: Command = Command {
    name: "convert",
    about: "converts a log from the layout of one sheet to that of another",
    help: "\
usage: yirvagul convert FROM.sheet TO.sheet IN OUT [--clamp | --stop] [--background FILE] [--jobs N]

  FROM.sheet         the layout sheet of the log
  TO.sheet           the layout sheet of the output
  IN                 the log: records of FROM.sheet, of any number
  OUT                the output: as many records of TO.sheet
  --stop             refuse if a number does not fit, and name the first; the default
  --clamp            write the nearest number that fits, and count it as an exception
  --background FILE  the bits that the log says nothing of: one record of TO.sheet, which then
                     serves all, or as many as the log has; without it they are zero
  --jobs N           convert on N threads, 1 to 64; the output is the same

A member line of TO.sheet may end in one more field, clamp or stop: for the numbers of that member
this word goes before --clamp and --stop, and the innermost one before those around it.

- is standard input or output. The output goes to a file beside OUT, which is renamed when it is
complete: a refusal or a full disk leaves OUT as it was. (A run that is killed leaves the other
file, .yirvagul-NUMBER-NUMBER.part.) If OUT is standard output or a device, all of IN is gone
over before the first byte is written.

At the end a line on standard error says how many records and exceptions there were, and without
--clamp that words clamped them.

example:
  yirvagul convert examples/rig.sheet examples/customer.sheet examples/rig.log out.log
",
    run,
};

fn run(words: Vec<OsString>) -> Result<ExitCode, Failure> {
    let arguments = Arguments::new(words, &["--clamp", "--stop"], &["--background", "--jobs"])?;
    let [from, to, log, out] = arguments.files(["FROM.sheet", "TO.sheet", "IN", "OUT"])?;
    let background = arguments.option("--background");
    let handling = handling(&arguments)?;
    let jobs = jobs(arguments.option("--jobs"))?;
    files::read_once(&[from, to, log, background.unwrap_or_default()])?;

    let sheets = (files::read_sheet(from)?, files::read_sheet(to)?);
    let (mut log_file, mut background_file) = (None, None);
    let mut converter = LogConverter::new(&sheets.0, &sheets.1, handling).jobs(jobs);
    if let Some(background) = background {
        converter = converter.background(files::input(background, &mut background_file)?);
    }
    if io::stderr().is_terminal() {
        let mut bar = Bar::new();
        converter = converter.progress(move |progress| bar.show(progress));
    }
    let input = files::input(log, &mut log_file)?;
    let mut out_file;
    let output = if files::is_standard(out) {
        out_file = files::standard_output()?;
        Output::File(&mut out_file)
    } else {
        Output::Path(Path::new(out))
    };
    let totals = converter
        .convert(input, output)
        .map_err(|error| match (&error, background) {
            (LogError::Background { .. }, Some(background)) => {
                Failure::Io(format!("{}: {error}", files::said(background)))
            }
            _ => Failure::of_log(error, from, to, log),
        })?;
    let mut line = said(totals.records, totals.exceptions);
    // no other number passes a call that stops
    match (handling, totals.exceptions) {
        (Handling::Clamp, _) | (_, 0) => {}
        (_, 1) => line += ", clamped by a word of its members",
        _ => line += ", clamped by a word of their members",
    }
    files::note(&line);
    Ok(ExitCode::SUCCESS)
}

fn handling(arguments: &Arguments) -> Result<Handling, Failure> {
    match (arguments.has("--clamp"), arguments.has("--stop")) {
        (true, true) => Err(Failure::usage("--clamp and --stop exclude each other")),
        (true, false) => Ok(Handling::Clamp),
        (false, _) => Ok(Handling::Stop),
    }
}

fn jobs(value: Option<&OsStr>) -> Result<usize, Failure> {
    let Some(value) = value else {
        return Ok(1);
    };
    let jobs = value.to_str().and_then(|value| value.parse().ok());
    jobs.filter(|jobs| (1..=64).contains(jobs)).ok_or_else(|| {
        let said = value.to_string_lossy();
        Failure::usage(format!("--jobs is {said}: give a number from 1 to 64"))
    })
}

/// How many records and exceptions there were.
pub fn said(records: u64, exceptions: u64) -> String {
    format!(
        "{}, {}",
        many(records, "record"),
        many(exceptions, "exception")
    )
}

/// A number of things, as "1 record" or "2 records".
pub fn many(n: u64, what: &str) -> String {
    format!("{n} {what}{}", if n == 1 { "" } else { "s" })
}
