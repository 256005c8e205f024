//! Says how many bytes a sheet's record has.
use crate::arguments::Arguments;
use crate::failure::Failure;
use crate::{files, Command};
use std::ffi::OsString;
use std::process::ExitCode;

pub const COMMAND: Command = Command {
    name: "size",
    about: "says how many bytes a sheet's record has",
    help: "\
usage: yirvagul size SHEET

  SHEET    a layout sheet; - is standard input

example:
  yirvagul size examples/rig.sheet
",
    run,
};

fn run(words: Vec<OsString>) -> Result<ExitCode, Failure> {
    let arguments = Arguments::new(words, &[], &[])?;
    let [name] = arguments.files(["SHEET"])?;
    let sheet = files::read_sheet(name)?;
    match yirvagul::record_size(&sheet) {
        Ok(size) => files::put_all(format!("{size}\n").as_bytes()),
        Err(error) => Err(Failure::refused(files::said(name), error)),
    }
}
