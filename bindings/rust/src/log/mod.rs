//! Logs of any length, converted in parts.
mod input;
mod output;
mod run;

use crate::{Error, Handling};
pub(crate) use input::Source;
pub use input::{Input, ReadSeek};
pub(crate) use output::replace;
pub use output::Output;
pub(crate) use run::{sized, PART_BYTES, PART_RECORDS};
use run::{Feed, Plan, Run, Take};
pub use run::{Part, Parts};
use std::{fmt, io};

/// Converts a log of any length: [`LogConverter`] without a background, on the caller's thread.
///
/// ```
/// use yirvagul::{convert_log, Handling};
///
/// let byte = b"int\t1\tLE\t0\t8\tzero\tzero\tunsigned\n";
/// let pair = b"int\t2\tBE\t0\t16\tzero\tzero\tunsigned\n";
/// let log = vec![7; 100_000]; // more records than one call takes
/// let mut out = vec![0; 200_000];
/// let totals = convert_log(byte, pair, Handling::Stop, &log, &mut out[..])?;
/// assert_eq!((totals.records, totals.exceptions), (100_000, 0));
/// assert_eq!(out[199_998..], [0, 7]);
/// # Ok::<(), yirvagul::LogError>(())
/// ```
pub fn convert_log<'i, 'o>(
    source_sheet: &[u8],
    destination_sheet: &[u8],
    handling: Handling,
    log: impl Into<Input<'i>>,
    output: impl Into<Output<'o>>,
) -> Result<Totals, LogError> {
    LogConverter::new(source_sheet, destination_sheet, handling).convert(log, output)
}

/// The parts of a converted log as they come: [`LogConverter::parts`] without a background. Parts are handed out before later ones are looked at.
pub fn convert_log_parts<'a>(
    source_sheet: &'a [u8],
    destination_sheet: &'a [u8],
    handling: Handling,
    log: impl Into<Input<'a>>,
) -> Result<Parts<'a>, LogError> {
    LogConverter::new(source_sheet, destination_sheet, handling).parts(log)
}

/// Converts one log of any length, in parts. It holds at most 4 MiB of it at a time; with several jobs 8 MiB for each, and 32 MiB in all.
///
/// A refusal, in whatever part, leaves the output as it was, and STOP names the first record of the whole log:
///
/// - into a path, the output goes to a file beside it, which is renamed when it is complete; so any failure leaves the path as it was;
/// - into a buffer or an open file, all parts are gone over before the first byte is written, and the log must not change meanwhile. One that can be read
///   only once goes through a temporary file, in the folder of [`std::env::temp_dir`].
///
/// Only [`LogConverter::parts`] hands out parts before later ones are looked at.
///
/// ```
/// use yirvagul::{Handling, LogConverter};
///
/// let nibble = b"bits\t1\tLE\t0\t4\tzero\tzero\n";
/// let kept = b"bits\t1\tLE\t0\t4\tzero\tkeep\n";
/// let mut out = [0; 3];
/// let mut seen = 0;
/// let totals = LogConverter::new(nibble, kept, Handling::Stop)
///     .background(&[0xa0])
///     .jobs(2)
///     .progress(|progress| seen = progress.records)
///     .convert(&[1, 2, 3], &mut out)?;
/// assert_eq!(out, [0xa1, 0xa2, 0xa3]);
/// assert_eq!((totals.records, totals.exceptions, seen), (3, 0, 3));
/// # Ok::<(), yirvagul::LogError>(())
/// ```
pub struct LogConverter<'a> {
    source_sheet: &'a [u8],
    destination_sheet: &'a [u8],
    handling: Handling,
    background: Option<Input<'a>>,
    jobs: usize,
    progress: Box<dyn FnMut(Progress) + 'a>,
}

impl fmt::Debug for LogConverter<'_> {
    fn fmt(&self, f: &mut fmt::Formatter) -> fmt::Result {
        f.debug_struct("LogConverter")
            .field("handling", &self.handling)
            .field("background", &self.background)
            .field("jobs", &self.jobs)
            .finish_non_exhaustive()
    }
}

impl<'a> LogConverter<'a> {
    /// Between the layouts of two sheets.
    pub fn new(source_sheet: &'a [u8], destination_sheet: &'a [u8], handling: Handling) -> Self {
        LogConverter {
            source_sheet,
            destination_sheet,
            handling,
            background: None,
            jobs: 1,
            progress: Box::new(|_| ()),
        }
    }

    /// The bits that no matched leaf fixes come from here: one destination record, which serves all, or exactly as many as the log has. Without it they are
    /// zero; in a buffer they are its own, as of [`convert_copying`](crate::convert_copying).
    #[must_use]
    pub fn background(mut self, background: impl Into<Input<'a>>) -> Self {
        self.background = Some(background.into());
        self
    }

    /// Converts on so many threads, 64 at most, with the same output, totals and refusal. 0 and 1: on the caller's thread.
    #[must_use]
    pub fn jobs(mut self, jobs: usize) -> Self {
        self.jobs = jobs.clamp(1, 64);
        self
    }

    /// Is told after each part how far the log is, for a progress bar.
    #[must_use]
    pub fn progress(mut self, report: impl FnMut(Progress) + 'a) -> Self {
        self.progress = Box::new(report);
        self
    }

    /// Converts a log.
    pub fn convert<'i, 'o>(
        mut self,
        log: impl Into<Input<'i>>,
        output: impl Into<Output<'o>>,
    ) -> Result<Totals, LogError> {
        let plan = self.plan()?;
        let log = Source::open(log.into(), "the log")?;
        let target = output.into().look()?;
        let feed = self.feed(plan, log, target.is_checked_first())?;
        target.take(Run {
            feed,
            jobs: self.jobs,
            progress: &mut self.progress,
        })
    }

    /// The converted parts as they come, on the caller's thread. A part is handed out before later ones are looked at, so a refusal can come after parts that
    /// were good; it is then the last item. What is refused for the sheets, the log's length or the background's is refused at once.
    ///
    /// ```
    /// use yirvagul::{Handling, LogConverter};
    ///
    /// let byte = b"int\t1\tLE\t0\t8\tzero\tzero\tunsigned\n";
    /// let log = vec![7; 100_000];
    /// let parts = LogConverter::new(byte, byte, Handling::Stop).parts(&log)?;
    /// let records = parts.records().expect("a buffer's length is known");
    /// for part in parts {
    ///     let part = part?;
    ///     println!("{} %", (part.first + part.records) * 100 / records);
    /// }
    /// # Ok::<(), yirvagul::LogError>(())
    /// ```
    pub fn parts(mut self, log: impl Into<Input<'a>>) -> Result<Parts<'a>, LogError> {
        self.jobs = 1;
        let plan = self.plan()?;
        let log = Source::open(log.into(), "the log")?;
        Ok(Parts::new(self.feed(plan, log, false)?))
    }

    fn plan(&self) -> Result<Plan<'a>, Error> {
        Plan::new(
            self.source_sheet,
            self.destination_sheet,
            self.handling,
            self.jobs,
        )
    }

    fn feed<'b>(
        &mut self,
        plan: Plan<'b>,
        log: Source<'b>,
        is_twice: bool,
    ) -> Result<Feed<'b>, LogError>
    where
        'a: 'b,
    {
        let background = self.background.take();
        let background = background.map(|input| Source::open(input, "the background"));
        Feed::new(plan, log, background.transpose()?, is_twice)
    }
}

/// Goes over a log in parts, and hands each on in a buffer that the caller's bytes were copied to.
pub(crate) fn each_part(
    source_sheet: &[u8],
    destination_sheet: &[u8],
    log: Input,
    take: &mut Take,
) -> Result<(), LogError> {
    let plan = Plan::new(source_sheet, destination_sheet, Handling::Clamp, 1)?;
    let log = Source::open(log, "the log")?;
    Feed::new(plan, log, None, false)?.each(take)
}

/// How far a log is.
#[derive(Clone, Copy, Debug, PartialEq, Eq)]
#[non_exhaustive]
pub struct Progress {
    /// The records that are done.
    pub records: u64,
    /// The records of the log, where its length is known.
    pub total: Option<u64>,
    /// Whether this is the first of two passes, which writes nothing.
    pub checking: bool,
}

/// What was converted.
#[derive(Clone, Copy, Debug, Default, PartialEq, Eq)]
#[non_exhaustive]
pub struct Totals {
    /// The log's records.
    pub records: u64,
    /// The leaves that raised an exception, in all records. Each was clamped: with [`Handling::Stop`], by the word of a member.
    pub exceptions: u64,
}

/// Which log of a call an error is about.
#[derive(Clone, Copy, Debug, PartialEq, Eq, Hash)]
#[non_exhaustive]
pub enum WhichLog {
    /// The only one.
    Only,
    /// The first of two that are compared.
    First,
    /// The second of them.
    Second,
}

impl fmt::Display for WhichLog {
    fn fmt(&self, f: &mut fmt::Formatter) -> fmt::Result {
        f.write_str(match self {
            WhichLog::Only => "the log",
            WhichLog::First => "the first log",
            WhichLog::Second => "the second log",
        })
    }
}

/// Why a log was not converted, reported or compared.
#[derive(Debug)]
#[non_exhaustive]
pub enum LogError {
    /// The library refused; or the output buffer has no room for the whole log, which is [`Error::Room`] too.
    Refused(Error),
    /// The log's length is no multiple of its record's size.
    #[non_exhaustive]
    Ragged {
        /// The log's bytes.
        bytes: u64,
        /// Its record's bytes.
        size: u64,
        /// Which log it is.
        which: WhichLog,
    },
    /// Two logs that are compared have not as many records.
    #[non_exhaustive]
    Uneven {
        /// The first log's records.
        first: u64,
        /// The second log's records.
        second: u64,
        /// Whether the longer one is a stream, which was read no further than so.
        or_more: bool,
    },
    /// The background is neither one destination record nor as many as the log has.
    #[non_exhaustive]
    Background {
        /// The background's bytes.
        bytes: u64,
        /// A destination record's bytes.
        size: u64,
        /// The log's records.
        records: u64,
    },
    /// Reading or writing failed.
    #[non_exhaustive]
    Io {
        /// What could not be done, as "read rig.log".
        doing: String,
        /// Why.
        error: io::Error,
    },
}

impl LogError {
    pub(crate) fn io(doing: impl Into<String>, error: io::Error) -> LogError {
        LogError::Io {
            doing: doing.into(),
            error,
        }
    }
}

impl fmt::Display for LogError {
    fn fmt(&self, f: &mut fmt::Formatter) -> fmt::Result {
        match self {
            LogError::Refused(error) => error.fmt(f),
            LogError::Ragged { bytes, size, which } => write!(
                f,
                "{which} has {bytes} bytes, which is no multiple of its record's {size}: complete the last record or cut its {} bytes off, or correct the sheet",
                bytes % size
            ),
            LogError::Uneven { first, second, or_more } => {
                let more = |records, other| if *or_more && records > other { " or more" } else { "" };
                write!(
                    f,
                    "the first log has {first} records{} and the second {second}{}: compare logs of as many records",
                    more(first, second),
                    more(second, first)
                )
            }
            LogError::Background { bytes, size, records } => write!(
                f,
                "the background has {bytes} bytes: give one destination record, which is {size} bytes, or as many as the log has, which is {records} x {size} bytes"
            ),
            LogError::Io { doing, error } => write!(f, "cannot {doing}: {error}"),
        }
    }
}

impl std::error::Error for LogError {
    fn source(&self) -> Option<&(dyn std::error::Error + 'static)> {
        match self {
            LogError::Io { error, .. } => Some(error),
            _ => None,
        }
    }
}

impl From<Error> for LogError {
    fn from(error: Error) -> LogError {
        LogError::Refused(error)
    }
}
