//! Why a command failed, and its exit status.
use crate::files::said;
use std::ffi::OsStr;
use std::fmt::{self, Display};
use std::process::ExitCode;
use yirvagul::{Error, LogError};

pub enum Failure {
    /// The words make no command: what is wrong with them, and the command if there is one.
    Usage(String, Option<&'static str>),
    /// Input or output failed.
    Io(String),
    /// The library refused.
    Refused(String),
}

impl Failure {
    pub fn usage(what: impl Into<String>) -> Failure {
        Failure::Usage(what.into(), None)
    }

    /// A refusal, with the files that it is about.
    pub fn refused(files: impl Display, why: impl Display) -> Failure {
        Failure::Refused(format!("{files}: {why}"))
    }

    /// Adds the names of the files that an error of a log is about.
    pub fn of_log(error: LogError, from: &OsStr, to: &OsStr, log: &OsStr) -> Failure {
        match error {
            LogError::Refused(error) => match error {
                Error::Stop { .. } | Error::Full { .. } => Failure::refused(said(log), error),
                _ => Failure::of_sheets(error, from, to),
            },
            LogError::Ragged { .. } => Failure::Io(format!("{}: {error}", said(log))),
            _ => Failure::Io(error.to_string()),
        }
    }

    /// Adds the names of the sheets that a refusal is about.
    pub fn of_sheets(error: Error, from: &OsStr, to: &OsStr) -> Failure {
        match error {
            Error::Source { .. } => Failure::refused(said(from), error),
            Error::Destination { .. } => Failure::refused(said(to), error),
            _ => Failure::refused(format!("{} to {}", said(from), said(to)), error),
        }
    }

    /// The same, of this command.
    pub fn of(self, command: &'static str) -> Failure {
        match self {
            Failure::Usage(what, _) => Failure::Usage(what, Some(command)),
            other => other,
        }
    }

    pub fn status(&self) -> ExitCode {
        ExitCode::from(match self {
            Failure::Io(..) => 1,
            Failure::Usage(..) => 2,
            Failure::Refused(..) => 3,
        })
    }
}

impl fmt::Display for Failure {
    fn fmt(&self, f: &mut fmt::Formatter) -> fmt::Result {
        match self {
            Failure::Usage(what, None) => write!(f, "{what}: see `yirvagul --help`"),
            Failure::Usage(what, Some(command)) => {
                write!(f, "{what}: see `yirvagul {command} --help`")
            }
            Failure::Io(what) | Failure::Refused(what) => f.write_str(what),
        }
    }
}
