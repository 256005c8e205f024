//! Files by their names, where `-` is standard input or output.
use crate::failure::Failure;
use std::ffi::OsStr;
use std::fs::File;
use std::io::{self, Read, Write};
use std::os::fd::AsFd;
use std::path::Path;
use std::process::ExitCode;
use yirvagul::Input;

/// One byte more than a sheet may have, so that one that is too long is seen to be.
const SHEET_BYTES: u64 = 16_385;

pub fn is_standard(name: &OsStr) -> bool {
    name == "-"
}

/// A file's name, for messages.
pub fn said(name: &OsStr) -> String {
    if is_standard(name) {
        "standard input".into()
    } else {
        Path::new(name).display().to_string()
    }
}

/// Standard input can be read for one thing.
pub fn read_once(names: &[&OsStr]) -> Result<(), Failure> {
    if names.iter().filter(|name| is_standard(name)).count() > 1 {
        return Err(Failure::usage("standard input (-) is there twice"));
    }
    Ok(())
}

/// Standard input as an open file: if it is a plain one, it can be read twice.
pub fn standard_input() -> Result<File, Failure> {
    let file = io::stdin().as_fd().try_clone_to_owned();
    file.map(File::from)
        .map_err(|error| Failure::Io(format!("cannot read standard input: {error}")))
}

/// A file to read, or standard input, which is kept open in `standard`.
pub fn input<'a>(name: &'a OsStr, standard: &'a mut Option<File>) -> Result<Input<'a>, Failure> {
    if is_standard(name) {
        return Ok(Input::File(standard.insert(standard_input()?)));
    }
    Ok(Input::Path(Path::new(name)))
}

/// Standard output, with nothing held back before it.
pub fn standard_output() -> Result<File, Failure> {
    let file = io::stdout().as_fd().try_clone_to_owned();
    file.map(File::from).map_err(unwritten)
}

pub fn unwritten(error: io::Error) -> Failure {
    Failure::Io(format!("cannot write standard output: {error}"))
}

pub fn read_sheet(name: &OsStr) -> Result<Vec<u8>, Failure> {
    let mut sheet = Vec::new();
    let file = if is_standard(name) {
        standard_input()?
    } else {
        File::open(name).map_err(|error| unread(name, error))?
    };
    let read = file.take(SHEET_BYTES).read_to_end(&mut sheet);
    read.map_err(|error| unread(name, error))?;
    Ok(sheet)
}

fn unread(name: &OsStr, error: io::Error) -> Failure {
    Failure::Io(format!("cannot read {}: {error}", said(name)))
}

/// Writes to standard output.
pub fn put(text: &[u8]) -> Result<(), Failure> {
    standard_output()?.write_all(text).map_err(unwritten)
}

/// Writes all that a command prints.
pub fn put_all(text: &[u8]) -> Result<ExitCode, Failure> {
    put(text).map(|()| ExitCode::SUCCESS)
}

/// Writes a line to standard error. If that is closed, there is nobody to tell.
pub fn note(line: &str) {
    let _ = writeln!(io::stderr(), "{line}");
}
