//! Lists a sheet's leaves.
use crate::arguments::Arguments;
use crate::failure::Failure;
use crate::{files, Command};
use std::ffi::OsString;
use std::process::ExitCode;
use yirvagul::Error;

pub const COMMAND: Command = Command {
    name: "list",
    about: "lists where a sheet's numbers lie",
    help: "\
usage: yirvagul list SHEET

  SHEET    a layout sheet; - is standard input

The list has a header, then a line for each number of a record, in byte order: its byte, its
size in bytes and its class, parted by tabs. For a faulty sheet the output is one line,
`refused`, the refusal's number and the faulty line's, parted by tabs, and the status is 3.

example:
  yirvagul list examples/rig.sheet
",
    run,
};

fn run(words: Vec<OsString>) -> Result<ExitCode, Failure> {
    let arguments = Arguments::new(words, &[], &[])?;
    let [name] = arguments.files(["SHEET"])?;
    let sheet = files::read_sheet(name)?;
    match yirvagul::leaf_list(&sheet) {
        Ok(list) => files::put_all(list.as_bytes()),
        Err(error) => {
            let line = match error {
                Error::Source { line, .. } => line,
                _ => 0,
            };
            files::put(format!("refused\t{}\t{line}\n", error.number()).as_bytes())?;
            Err(Failure::refused(files::said(name), error))
        }
    }
}
