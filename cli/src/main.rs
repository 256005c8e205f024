//! The command line: each command is a module with its help and its run.
#![forbid(unsafe_code)]

mod arguments;
mod bits;
mod compare;
mod convert;
mod failure;
mod files;
mod list;
mod progress;
mod report;
mod size;

use failure::Failure;
use std::ffi::OsString;
use std::process::ExitCode;

struct Command {
    name: &'static str,
    /// One line, for the list of commands.
    about: &'static str,
    /// What follows it: its usage, its words and an example.
    help: &'static str,
    run: fn(Vec<OsString>) -> Result<ExitCode, Failure>,
}

const COMMANDS: [Command; 6] = [
    convert::COMMAND,
    compare::COMMAND,
    report::COMMAND,
    bits::COMMAND,
    list::COMMAND,
    size::COMMAND,
];

fn main() -> ExitCode {
    match run(std::env::args_os().skip(1).collect()) {
        Ok(status) => status,
        Err(failure) => {
            files::note(&format!("yirvagul: {failure}"));
            failure.status()
        }
    }
}

fn run(mut words: Vec<OsString>) -> Result<ExitCode, Failure> {
    if words.is_empty() {
        return Err(Failure::Usage("no command".into(), None));
    }
    let word = words.remove(0);
    match word.to_str() {
        Some("-h" | "--help") => return files::put_all(overview().as_bytes()),
        Some("-V" | "--version") => return files::put_all(version().as_bytes()),
        _ => {}
    }
    let Some(command) = COMMANDS.iter().find(|command| word == command.name) else {
        let word = word.to_string_lossy();
        return Err(Failure::Usage(format!("there is no command {word}"), None));
    };
    if words.iter().any(|word| word == "-h" || word == "--help") {
        let help = format!(
            "yirvagul {}: {}\n\n{}",
            command.name, command.about, command.help
        );
        return files::put_all(help.as_bytes());
    }
    (command.run)(words).map_err(|failure| failure.of(command.name))
}

fn version() -> String {
    format!("yirvagul {}\n", env!("CARGO_PKG_VERSION"))
}

fn overview() -> String {
    let commands = COMMANDS.map(|c| format!("  {:<9} {}\n", c.name, c.about));
    format!(
        "yirvagul: converts records of instrument logs from one binary layout to another

usage: yirvagul COMMAND ..
       yirvagul COMMAND --help
       yirvagul --version

commands:
{}
exit status: 0 done, 1 input or output failed, 2 usage, 3 refused, 4 two logs differ

example:
  yirvagul convert examples/rig.sheet examples/customer.sheet examples/rig.log out.log
",
        commands.concat()
    )
}
