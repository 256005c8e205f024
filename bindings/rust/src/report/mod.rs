//! A report over a season of logs.
mod saved;

use crate::explain::{self, Call};
use crate::log::{each_part, Input, LogError};
use crate::{raw, record_size, sheet, sheets, Error, TABLE_WORDS};
pub use saved::SavedError;
use std::fmt;

/// A report's words: the records of all logs, their exceptions, then four for each int leaf.
const RECORDS: usize = 0;
const EXCEPTIONS: usize = 1;
const LEAVES: usize = 2;
const LEAF_WORDS: usize = 4;

/// The most bytes of the output: its header, and a line for each leaf.
const HEADER_BYTES: usize = 30;
const LINE_BYTES: usize = 76;

/// An int leaf has a byte at least, and a record 4,096 at most.
const MOST_LEAVES: usize = 4096;

/// The lowest, the highest, the sum and the number of samples of each int of a reader's sheet, over any number of logs.
///
/// It holds the reader's sheet, so that the numbers of one sheet never meet those of another; each log may have a sheet of its own. A log is converted to the
/// reader's layout by clamping, whatever the words of its members say: a number that was clamped is a sample and counts as an exception. An int that a log does
/// not have gets no sample from it.
///
/// ```
/// use yirvagul::Report;
///
/// let reader = b"int\t2\tLE\t0\t16\tzero\tzero\tsigned\ncomp\t4\nmember\tboost\t0\t0\nmember\toil\t2\t0\n";
/// let bench = b"int\t1\tLE\t0\t8\tzero\tzero\tunsigned\ncomp\t1\nmember\tboost\t0\t0\n";
/// let mut report = Report::new(reader)?;
/// report.add(bench, &[100, 98, 110])?;
/// let summary = report.add(reader, &[0x0c, 0xfe, 40, 0])?; // -500 and 40
/// assert_eq!((summary.records, summary.exceptions), (4, 0));
/// let boost = &summary.rows[0];
/// assert_eq!(boost.member.as_deref(), Some("boost"));
/// assert_eq!((boost.lowest, boost.highest), (Some(-500), Some(110)));
/// assert_eq!((boost.sum, boost.samples), (-192, 4));
/// assert_eq!(
///     summary.text,
///     "at\tlowest\thighest\tsum\tsamples\n0\t-500\t110\t-192\t4\n2\t40\t40\t40\t1\n"
/// );
/// // kept from run to run
/// let kept = report.to_bytes();
/// assert_eq!(Report::from_bytes(&kept)?, report);
/// # Ok::<(), Box<dyn std::error::Error>>(())
/// ```
#[derive(Clone, PartialEq, Eq)]
pub struct Report {
    sheet: Vec<u8>,
    memory: Vec<i64>,
    /// What it says.
    text: String,
}

/// What a report says.
#[derive(Clone, Debug, PartialEq, Eq)]
#[non_exhaustive]
pub struct Summary {
    /// The records of all logs.
    pub records: u64,
    /// The leaves in them that raised an exception, of every class.
    pub exceptions: u64,
    /// Each int of the reader's sheet, in byte order.
    pub rows: Vec<Row>,
    /// The same as text: a header, `at`, `lowest`, `highest`, `sum` and `samples` parted by tabs, then a line for each row, with `-` for what there is not.
    pub text: String,
}

/// What a report says of one int of its reader's sheet.
#[derive(Clone, Debug, PartialEq, Eq)]
#[non_exhaustive]
pub struct Row {
    /// Its first byte in the reader's record.
    pub at: u32,
    /// Its name, as `boost[1]`; empty where the record itself is the int.
    pub member: Option<String>,
    /// The lowest sample, if there is one.
    pub lowest: Option<i64>,
    /// The highest sample, if there is one.
    pub highest: Option<i64>,
    /// The sum of the samples.
    pub sum: i64,
    /// How many samples there are.
    pub samples: u64,
}

impl Report {
    /// The most records of one report.
    pub const MOST_RECORDS: u64 = 1_048_576;

    /// A report of no logs. Refused where the sheet is faulty, or has an int of more than 32 bits.
    pub fn new(reader_sheet: &[u8]) -> Result<Report, Error> {
        record_size(reader_sheet)?;
        let mut report = Report {
            sheet: reader_sheet.to_vec(),
            memory: vec![0; LEAVES + LEAF_WORDS * MOST_LEAVES],
            text: String::new(),
        };
        report.read()?;
        report.memory.truncate(report.words());
        Ok(report)
    }

    /// Adds a log of any length, whose records are of its own sheet, and gives what the report then says. The log is only read, in parts, and at most 4 MiB of
    /// it are held at a time. A refusal, in whatever part, leaves the report as it was before the log.
    pub fn add<'i>(
        &mut self,
        source_sheet: &[u8],
        log: impl Into<Input<'i>>,
    ) -> Result<Summary, LogError> {
        let mut next = self.clone();
        let mut writer = Writer::new(&self.memory);
        each_part(
            source_sheet,
            &self.sheet,
            log.into(),
            &mut |count, part, background| {
                next.text = writer.write(source_sheet, &mut next, count, part, background)?;
                Ok(())
            },
        )?;
        *self = next;
        Ok(self.summary())
    }

    /// What the report says.
    pub fn summary(&self) -> Summary {
        // no report that the library lets through has a negative count
        let count = |at: usize| self.memory[at] as u64;
        Summary {
            records: count(RECORDS),
            exceptions: count(EXCEPTIONS),
            rows: self.rows(),
            text: self.text.clone(),
        }
    }

    /// The same as text, as of [`Summary::text`].
    pub fn text(&self) -> &str {
        &self.text
    }

    /// The sheet that it was made with.
    pub fn reader_sheet(&self) -> &[u8] {
        &self.sheet
    }

    /// Reads what the memory says, by adding no record of the reader's own sheet.
    fn read(&mut self) -> Result<(), Error> {
        let sheet = self.sheet.clone();
        let mut writer = Writer::new(&self.memory);
        self.text = writer.write(&sheet, self, 0, &mut [], &[])?;
        Ok(())
    }

    /// The words that the memory needs: the text has a header, and a line for each int.
    fn words(&self) -> usize {
        LEAVES + LEAF_WORDS * (self.text.lines().count() - 1)
    }

    /// The lines of the text, as numbers.
    fn rows(&self) -> Vec<Row> {
        let record = sheet::read(&self.sheet).ok();
        let row = |line: &str| {
            let mut fields = line.split('\t');
            let mut field = || fields.next()?.parse::<i64>().ok();
            let (at, lowest, highest) = (field()? as u32, field(), field());
            let (sum, samples) = (field()?, field()? as u64);
            Some(Row {
                at,
                member: record.as_ref().and_then(|r| sheet::leaf_at(r, at)),
                lowest,
                highest,
                sum,
                samples,
            })
        };
        let lines = self.text.lines().skip(1);
        lines
            .map(|line| row(line).expect("the library writes five fields"))
            .collect()
    }
}

#[cfg(test)]
impl Report {
    pub(crate) fn set_word(&mut self, at: usize, word: i64) {
        self.memory[at] = word;
    }

    pub(crate) fn set_words(&mut self, words: usize) {
        self.memory.resize(words, 0);
    }
}

impl fmt::Debug for Report {
    fn fmt(&self, f: &mut fmt::Formatter) -> fmt::Result {
        f.debug_struct("Report")
            .field("records", &self.memory[RECORDS])
            .field("exceptions", &self.memory[EXCEPTIONS])
            .finish_non_exhaustive()
    }
}

/// The library's call, with a table and an output of its own.
struct Writer {
    table: Vec<u32>,
    output: Vec<u8>,
}

impl Writer {
    /// With room for the output of a memory.
    fn new(memory: &[i64]) -> Writer {
        Writer {
            table: vec![0; TABLE_WORDS],
            output: vec![0; HEADER_BYTES + LINE_BYTES * (memory.len() / LEAF_WORDS)],
        }
    }

    /// Adds the records of a part, and gives what the report then says.
    fn write(
        &mut self,
        source_sheet: &[u8],
        report: &mut Report,
        count: u64,
        part: &mut [u8],
        background: &[u8],
    ) -> Result<String, Error> {
        let sheets = sheets(source_sheet, &report.sheet, count);
        let held = report.memory[RECORDS];
        let Writer { table, output } = self;
        let answer = raw::report(&sheets, part, background, &mut report.memory, output, table);
        let len = explain::outcome(answer, &Call::Report(&sheets, held), table)?;
        Ok(String::from_utf8_lossy(&output[..len as usize]).into_owned())
    }
}
