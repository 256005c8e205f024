//! Lists where two logs differ.
use crate::arguments::Arguments;
use crate::convert::many;
use crate::failure::Failure;
use crate::files::{self, said};
use crate::Command;
use std::ffi::{OsStr, OsString};
use std::io::{BufWriter, Write};
use std::process::ExitCode;
use yirvagul::{compare, Differences, Error, LogError, WhichLog};

/// The exit status where something differs.
const DIFFER: u8 = 4;

pub const COMMAND: Command = Command {
    name: "compare",
    about: "lists where two logs differ, each with a sheet of its own",
    help: "\
usage: yirvagul compare FIRST.sheet SECOND.sheet FIRST SECOND

  FIRST.sheet     the layout sheet of the first log
  SECOND.sheet    the layout sheet of the second log
  FIRST           the first log: records of FIRST.sheet, of any number
  SECOND          the second log: as many records of SECOND.sheet

The list has a header, then a line for each number that differs, by record and then by byte: the
record, from 0, the byte in SECOND.sheet's record, and the numbers of the first and of the second
log, parted by tabs. Numbers are compared whose members both sheets name. Ints are the same if the
numbers are, whatever their layouts, and enums if their symbols are; two reals if their 64 bits
are, which is how they are listed; a real and an int if they are worth the same.

The status is 0 if nothing differs, and 4 if something does. - is standard input. A log that can
be read only once, as a pipe, is compared as it comes: if it turns out to have another number of
records than the other one, or no whole number, the lines before that are written already.

At the end a line on standard error says how many records and differences there were.

example:
  yirvagul convert examples/rig.sheet examples/customer.sheet examples/rig.log out.log
  yirvagul compare examples/rig.sheet examples/customer.sheet examples/rig.log out.log
",
    run,
};

fn run(words: Vec<OsString>) -> Result<ExitCode, Failure> {
    let arguments = Arguments::new(words, &[], &[])?;
    let names @ [one, other, first, second] =
        arguments.files(["FIRST.sheet", "SECOND.sheet", "FIRST", "SECOND"])?;
    files::read_once(&names)?;

    let sheets = (files::read_sheet(one)?, files::read_sheet(other)?);
    let (mut first_file, mut second_file) = (None, None);
    let input = files::input(first, &mut first_file)?;
    let other_input = files::input(second, &mut second_file)?;
    let mut found =
        compare(&sheets.0, &sheets.1, input, other_input).map_err(|error| failure(error, names))?;

    let mut out = BufWriter::new(files::standard_output()?);
    let mut put = |line: &str| out.write_all(line.as_bytes()).map_err(files::unwritten);
    put(Differences::HEADER)?;
    let (mut differences, mut ended) = (0, Ok(()));
    for difference in &mut found {
        match difference {
            Ok(difference) => put(&format!("{difference}\n"))?,
            Err(error) => {
                ended = Err(failure(error, names));
                break;
            }
        }
        differences += 1;
    }
    out.flush().map_err(files::unwritten)?;
    ended?;
    files::note(&format!(
        "{}, {}",
        many(found.compared(), "record"),
        many(differences, "difference")
    ));
    Ok(match differences {
        0 => ExitCode::SUCCESS,
        _ => ExitCode::from(DIFFER),
    })
}

/// Adds the names of the files that an error is about.
fn failure(error: LogError, names: [&OsStr; 4]) -> Failure {
    let [one, other, first, second] = names.map(said);
    match error {
        LogError::Refused(error) => match error {
            Error::Source { .. } => Failure::refused(one, error),
            Error::Destination { .. } => Failure::refused(other, error),
            _ => Failure::refused(format!("{one} and {other}"), error),
        },
        LogError::Ragged { which, .. } => {
            let log = match which {
                WhichLog::Second => second,
                _ => first,
            };
            Failure::Io(format!("{log}: {error}"))
        }
        LogError::Uneven { .. } => Failure::Io(format!("{first} and {second}: {error}")),
        _ => Failure::Io(error.to_string()),
    }
}
