//! Two logs of any length, compared in parts.
use crate::explain::{self, Call};
use crate::log::{sized, Input, LogError, Source, WhichLog, PART_BYTES, PART_RECORDS};
use crate::{raw, record_size, sheet, sheets, Given, COMPARE_HEADER_BYTES, TABLE_WORDS};
use std::fmt;
use std::ops::Range;
use std::rc::Rc;

/// The room for the list of one call, at first and at most. The latter holds a line for each leaf of a record, of which there are at most 4,096.
const LIST_BYTES: usize = 1 << 16;
const MOST_LIST_BYTES: usize = 2 << 20;

/// ROOM.
const ROOM: u64 = 7;

/// A leaf where two logs differ.
#[derive(Clone, Debug, PartialEq, Eq)]
#[non_exhaustive]
pub struct Difference {
    /// The record, from 0, counted from the logs' start.
    pub record: u64,
    /// The leaf's first byte in the second log's record.
    pub at: u32,
    /// Its name in the second log's sheet, as `boost[1]`; empty where the record itself is the leaf.
    pub member: Option<String>,
    /// The number that the first log has there.
    pub first: Given,
    /// The number that the second log has there.
    pub second: Given,
}

/// The line of the list: record, byte and both numbers, parted by tabs, a real's as its 64 bits.
impl fmt::Display for Difference {
    fn fmt(&self, f: &mut fmt::Formatter) -> fmt::Result {
        write!(f, "{}\t{}", self.record, self.at)?;
        for number in [self.first, self.second] {
            match number {
                Given::Whole(number) => write!(f, "\t{number}")?,
                Given::Real(bits) | Given::Unknown(_, bits) => write!(f, "\t{bits}")?,
            }
        }
        Ok(())
    }
}

/// Compares two logs of as many records, of any number, each with a sheet of its own, and gives each leaf where they differ, by record and then by byte.
///
/// Compared are the leaves of the second sheet that the first one matches: ints and bits by their numbers, whatever their layouts; enums by symbol, where a
/// number without a symbol equals only the same number without one; a real and a real by their 64 bits; a real and an int by exact worth, so that −0.0 is 0, and
/// a not-a-number differs from every int. Pads, gaps and members that only one log has are not looked at.
///
/// ```
/// use yirvagul::{compare, Given};
///
/// let rig = b"int\t2\tBE\t4\t12\tzero\tzero\tunsigned\narray\t0\t2\ncomp\t4\nmember\tboost\t0\t1\n";
/// let plain = b"int\t2\tLE\t0\t16\tzero\tzero\tsigned\narray\t0\t2\ncomp\t4\nmember\tboost\t0\t1\n";
/// // 100 and 2000, then 98 and 4095; and the same with another last number
/// let first = [0x06, 0x40, 0x7d, 0x00, 0x06, 0x20, 0xff, 0xf0];
/// let second = [100, 0, 0xd0, 0x07, 98, 0, 0xff, 0xff];
/// let differences = compare(rig, plain, &first, &second)?.collect::<Result<Vec<_>, _>>()?;
/// let [found] = &differences[..] else { panic!() };
/// assert_eq!((found.record, found.at, found.member.as_deref()), (1, 2, Some("boost[1]")));
/// assert_eq!((found.first, found.second), (Given::Whole(4095), Given::Whole(-1)));
/// assert_eq!(found.to_string(), "1\t2\t4095\t-1");
/// # Ok::<(), yirvagul::LogError>(())
/// ```
///
/// The logs are only read, in parts, and may be one buffer. At most 6 MiB are held at a time, however many differences there are. Sheets are judged at once, and
/// so are the logs' lengths where they are known; of a stream what is wrong comes as the last item.
pub fn compare<'a>(
    first_sheet: &'a [u8],
    second_sheet: &'a [u8],
    first: impl Into<Input<'a>>,
    second: impl Into<Input<'a>>,
) -> Result<Differences<'a>, LogError> {
    Differences::new((first_sheet, second_sheet), first.into(), second.into())
}

/// The leaves where two logs differ, as they are found: what [`compare`] gives.
pub struct Differences<'a> {
    first: Log<'a>,
    second: Log<'a>,
    /// The records that are read at a time.
    most: usize,
    /// Those of them that one call compares: fewer where the list would be too long.
    step: usize,
    /// The records of the part that is read, and those of them that are compared.
    records: usize,
    compared: usize,
    /// The records before that part.
    before: u64,
    table: Vec<u32>,
    list: Vec<u8>,
    /// The lines of the list that are not given yet, and the record that its first is about.
    lines: Range<usize>,
    base: u64,
    types: Option<(Rc<sheet::Type>, Rc<sheet::Type>)>,
    is_over: bool,
}

impl<'a> Differences<'a> {
    /// The list's header.
    pub const HEADER: &'static str = "record\tat\tfirst\tsecond\n";

    fn new(
        pair: (&'a [u8], &'a [u8]),
        first: Input<'a>,
        second: Input<'a>,
    ) -> Result<Self, LogError> {
        let (mut table, mut list) = (vec![0; TABLE_WORDS], vec![0; LIST_BYTES]);
        // the library judges sheets and path on no records
        let none = sheets(pair.0, pair.1, 0);
        let answer = raw::compare(&none, &[], &[], &mut list, &mut table);
        explain::outcome(
            answer,
            &Call::Compare(&none, &[], &[], list.len()),
            &mut table,
        )?;
        let first = Log::new(first, pair.0, WhichLog::First)?;
        let second = Log::new(second, pair.1, WhichLog::Second)?;
        if let (Some(one), Some(other)) = (first.records()?, second.records()?) {
            if one != other {
                return Err(LogError::Uneven {
                    first: one,
                    second: other,
                    or_more: false,
                });
            }
        }
        let most = (PART_BYTES / first.size.max(second.size)).clamp(1, PART_RECORDS);
        let types = sheet::read(pair.0).ok().zip(sheet::read(pair.1).ok());
        Ok(Differences {
            first,
            second,
            most,
            step: most,
            records: 0,
            compared: 0,
            before: 0,
            table,
            list,
            lines: 0..0,
            base: 0,
            types,
            is_over: false,
        })
    }

    /// The records of each log, where the length of one is known.
    pub fn records(&self) -> Option<u64> {
        let known = |log: &Log| log.records().ok().flatten();
        known(&self.first).or(known(&self.second))
    }

    /// The records that are compared so far. Their differences may not all be given yet.
    pub fn compared(&self) -> u64 {
        self.before + self.compared as u64
    }

    /// The next line of the list.
    fn line(&mut self) -> Option<Difference> {
        let left = &self.list[self.lines.clone()];
        let len = left.iter().position(|&byte| byte == b'\n')?;
        let found = self.row(&left[..len]);
        self.lines.start += len + 1;
        Some(found.expect("the library writes four numbers"))
    }

    fn row(&self, line: &[u8]) -> Option<Difference> {
        let mut fields = std::str::from_utf8(line).ok()?.split('\t');
        let record: u64 = fields.next()?.parse().ok()?;
        let at = fields.next()?.parse().ok()?;
        let reals = self
            .types
            .as_ref()
            .and_then(|(one, other)| sheet::are_reals(one, other, at));
        let reals = reals.unwrap_or_default();
        Some(Difference {
            record: self.base + record,
            at,
            member: self
                .types
                .as_ref()
                .and_then(|(_, of)| sheet::leaf_at(of, at)),
            first: Given::from_text(fields.next()?, reals.0)?,
            second: Given::from_text(fields.next()?, reals.1)?,
        })
    }

    /// Compares further records; false where there are none.
    fn further(&mut self) -> Result<bool, LogError> {
        if self.compared == self.records && !self.read()? {
            return Ok(false);
        }
        loop {
            let count = self.step.min(self.records - self.compared);
            let first = self.first.part(self.compared, count);
            let second = self.second.part(self.compared, count);
            let pair = sheets(self.first.sheet, self.second.sheet, count as u64);
            let answer = raw::compare(&pair, first, second, &mut self.list, &mut self.table);
            // both logs have whole records here, so only the list can be too short
            let room = self.list.len();
            if answer[0] == ROOM && room < MOST_LIST_BYTES {
                sized(&mut self.list, (8 * room).min(MOST_LIST_BYTES))?;
                continue;
            }
            if answer[0] == ROOM && count > 1 {
                self.step = count / 2;
                continue;
            }
            let call = Call::Compare(&pair, first, second, room);
            let len = explain::outcome(answer, &call, &mut self.table)? as usize;
            self.lines = COMPARE_HEADER_BYTES..len;
            self.base = self.compared();
            self.compared += count;
            if len < room / 4 {
                self.step = (2 * self.step).min(self.most);
            }
            return Ok(true);
        }
    }

    /// Reads the next part of both logs; false where they are at their end.
    fn read(&mut self) -> Result<bool, LogError> {
        self.before += self.records as u64;
        (self.records, self.compared) = (0, 0);
        let one = self.first.read(self.most)?;
        let other = self.second.read(self.most)?;
        if one != other {
            let all = |log: &Log, n: usize| match log.source.len() {
                Some(bytes) => bytes / log.size as u64,
                None => self.before + n as u64,
            };
            let longer = if one > other {
                &self.first
            } else {
                &self.second
            };
            return Err(LogError::Uneven {
                first: all(&self.first, one),
                second: all(&self.second, other),
                or_more: longer.source.len().is_none() && one.max(other) == self.most,
            });
        }
        self.records = one;
        Ok(one > 0)
    }
}

impl Iterator for Differences<'_> {
    type Item = Result<Difference, LogError>;

    fn next(&mut self) -> Option<Self::Item> {
        loop {
            if let Some(found) = self.line() {
                return Some(Ok(found));
            }
            if self.is_over {
                return None;
            }
            let went = self.further();
            self.is_over = !matches!(went, Ok(true));
            if let Err(error) = went {
                return Some(Err(error));
            }
        }
    }
}

impl std::iter::FusedIterator for Differences<'_> {}

impl fmt::Debug for Differences<'_> {
    fn fmt(&self, f: &mut fmt::Formatter) -> fmt::Result {
        f.debug_struct("Differences")
            .field("compared", &self.compared())
            .field("records", &self.records())
            .finish_non_exhaustive()
    }
}

/// One of the two logs, and the part of it that is read.
struct Log<'a> {
    sheet: &'a [u8],
    source: Source<'a>,
    which: WhichLog,
    /// Its record's bytes.
    size: usize,
    /// Its bytes that were read.
    bytes: u64,
    part: Vec<u8>,
}

impl<'a> Log<'a> {
    fn new(input: Input<'a>, sheet: &'a [u8], which: WhichLog) -> Result<Self, LogError> {
        let log = Log {
            sheet,
            source: Source::open(input, &which.to_string())?,
            which,
            size: record_size(sheet)?,
            bytes: 0,
            part: Vec::new(),
        };
        log.records()?;
        Ok(log)
    }

    /// Its records, where its length is known.
    fn records(&self) -> Result<Option<u64>, LogError> {
        self.source.len().map(|bytes| self.whole(bytes)).transpose()
    }

    /// The records of so many bytes.
    fn whole(&self, bytes: u64) -> Result<u64, LogError> {
        let size = self.size as u64;
        if bytes % size == 0 {
            return Ok(bytes / size);
        }
        Err(LogError::Ragged {
            bytes,
            size,
            which: self.which,
        })
    }

    /// Reads at most so many records, and gives how many there were.
    fn read(&mut self, most: usize) -> Result<usize, LogError> {
        sized(&mut self.part, most * self.size)?;
        let n = self.source.fill(&mut self.part)?;
        self.bytes += n as u64;
        self.whole(self.bytes)?;
        Ok(n / self.size)
    }

    /// Some records of the part.
    fn part(&self, first: usize, count: usize) -> &[u8] {
        &self.part[first * self.size..][..count * self.size]
    }
}
