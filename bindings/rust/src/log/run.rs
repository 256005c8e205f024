//! One log, gone over in parts, by one thread or several.
use super::input::Source;
use super::{LogError, Progress, Totals, WhichLog};
use crate::{Converter, Error, Handling, STACK_BYTES};
use std::io::ErrorKind;
use std::sync::mpsc::{self, Receiver, Sender};
use std::{fmt, thread};

/// The most records of one call.
pub(crate) const PART_RECORDS: usize = 65_536;

/// The most bytes of a part's source, or of what it is converted to.
pub(crate) const PART_BYTES: usize = 2 << 20;

/// The most bytes that all parts have together, sources and what they are converted to.
const ALL_BYTES: usize = 32 << 20;

/// A call's stack, and room for the rest that a thread does.
const THREAD_STACK_BYTES: usize = STACK_BYTES + (1 << 19);

/// The two layouts, which were found good, and the records of a part.
#[derive(Clone, Debug)]
pub(super) struct Plan<'a> {
    source_sheet: &'a [u8],
    destination_sheet: &'a [u8],
    handling: Handling,
    /// The size of a source record.
    pub from: usize,
    /// The size of a destination record.
    pub to: usize,
    records: usize,
}

impl<'a> Plan<'a> {
    /// Has the library judge the sheets and the path between them, by converting no record. Two parts of each job are on their way at a time.
    pub fn new(
        source_sheet: &'a [u8],
        destination_sheet: &'a [u8],
        handling: Handling,
        jobs: usize,
    ) -> Result<Self, Error> {
        let mut c = Converter::new();
        c.convert_copying(source_sheet, destination_sheet, 0, handling, &[], &mut [])?;
        let from = c.record_size(source_sheet)?;
        let to = c.record_size(destination_sheet)?;
        let bytes = PART_BYTES.min(ALL_BYTES / 4 / jobs);
        Ok(Plan {
            source_sheet,
            destination_sheet,
            handling,
            from,
            to,
            records: (bytes / from.max(to)).clamp(1, PART_RECORDS),
        })
    }
}

/// The bits that no matched leaf fixes.
enum Ground<'a> {
    /// Zeros, or what a lent buffer holds.
    Unnamed,
    /// One record, for all.
    One(Vec<u8>),
    /// As many as the log has.
    Each(Source<'a>),
}

impl<'a> Ground<'a> {
    /// The records of an input, each of so many bytes.
    fn new(background: Source<'a>, size: usize) -> Result<Self, LogError> {
        let mut background = background.again()?;
        if background.len() != Some(size as u64) {
            return Ok(Ground::Each(background));
        }
        let mut one = vec![0; size];
        background.fill(&mut one)?;
        Ok(Ground::One(one))
    }

    /// Whether it serves so many records.
    fn serves(&self, records: u64, size: u64) -> Result<(), LogError> {
        let Ground::Each(background) = self else {
            return Ok(());
        };
        let bytes = background.len().unwrap_or(0);
        if records.checked_mul(size) == Some(bytes) {
            return Ok(());
        }
        Err(LogError::Background {
            bytes,
            size,
            records,
        })
    }

    /// Puts the next records' background into a buffer.
    fn fill(&mut self, records: &mut [u8]) -> Result<(), LogError> {
        match self {
            Ground::Unnamed => {}
            Ground::One(one) => {
                for record in records.chunks_exact_mut(one.len()) {
                    record.copy_from_slice(one);
                }
            }
            Ground::Each(source) => {
                source.fill(records)?;
            }
        }
        Ok(())
    }
}

/// Where a part's records are converted: the background at first.
enum Out<'a> {
    Own(Vec<u8>),
    Lent(&'a mut [u8]),
}

impl Default for Out<'_> {
    fn default() -> Self {
        Out::Own(Vec::new())
    }
}

impl Out<'_> {
    fn bytes(&mut self) -> &mut [u8] {
        match self {
            Out::Own(own) => own,
            Out::Lent(lent) => lent,
        }
    }

    fn into_vec(self) -> Vec<u8> {
        match self {
            Out::Own(own) => own,
            Out::Lent(lent) => lent.to_vec(),
        }
    }
}

/// A part on its way.
#[derive(Default)]
struct Job<'a> {
    first: u64,
    records: u64,
    source: Vec<u8>,
    out: Out<'a>,
    exceptions: u64,
    refused: Option<Error>,
}

impl Job<'_> {
    fn convert(&mut self, c: &mut Converter, plan: &Plan) {
        let done = c.convert_copying(
            plan.source_sheet,
            plan.destination_sheet,
            self.records,
            plan.handling,
            &self.source,
            self.out.bytes(),
        );
        match done {
            Ok(exceptions) => self.exceptions = exceptions,
            Err(mut error) => {
                if let Error::Stop { record, .. } = &mut error {
                    *record += self.first;
                }
                self.refused = Some(error);
            }
        }
    }
}

/// The inputs of a run, and how far they are read.
pub(super) struct Feed<'a> {
    plan: Plan<'a>,
    log: Source<'a>,
    ground: Ground<'a>,
    /// What is left of a buffer that the parts are converted in.
    pub lent: Option<&'a mut [u8]>,
    records: u64,
    bytes: u64,
}

impl<'a> Feed<'a> {
    /// Compares the lengths of the inputs where they are known, which they are if the log is gone over twice.
    pub fn new(
        plan: Plan<'a>,
        mut log: Source<'a>,
        background: Option<Source<'a>>,
        is_twice: bool,
    ) -> Result<Self, LogError> {
        let ground = match background {
            Some(background) => Ground::new(background, plan.to)?,
            None => Ground::Unnamed,
        };
        if is_twice || matches!(ground, Ground::Each(_)) {
            log = log.again()?;
        }
        if let Some(bytes) = log.len() {
            let size = plan.from as u64;
            if bytes % size != 0 {
                let which = WhichLog::Only;
                return Err(LogError::Ragged { bytes, size, which });
            }
            ground.serves(bytes / size, plan.to as u64)?;
        }
        Ok(Feed {
            plan,
            log,
            ground,
            lent: None,
            records: 0,
            bytes: 0,
        })
    }

    /// The records of the log, where its length is known.
    pub fn total(&self) -> Option<u64> {
        Some(self.log.len()? / self.plan.from as u64)
    }

    /// The bytes that the log is converted to, where its length is known.
    pub fn output_bytes(&self) -> Option<u64> {
        Some(self.total()?.saturating_mul(self.plan.to as u64))
    }

    fn rewind(&mut self) -> Result<(), LogError> {
        (self.records, self.bytes) = (0, 0);
        if let Ground::Each(background) = &mut self.ground {
            background.rewind()?;
        }
        self.log.rewind()
    }

    /// Reads the next part; false where there is none.
    fn next(&mut self, job: &mut Job<'a>) -> Result<bool, LogError> {
        let Plan {
            from, to, records, ..
        } = self.plan;
        sized(&mut job.source, records * from)?;
        let n = self.log.fill(&mut job.source)?;
        self.bytes += n as u64;
        if n % from != 0 {
            return Err(LogError::Ragged {
                bytes: self.bytes,
                size: from as u64,
                which: WhichLog::Only,
            });
        }
        job.source.truncate(n);
        job.first = self.records;
        job.records = (n / from) as u64;
        let needs = n / from * to;
        match self.lent.take() {
            Some(lent) => {
                let (now, later) = lent.split_at_mut(needs);
                job.out = Out::Lent(now);
                self.lent = Some(later);
            }
            None => {
                let mut own = std::mem::take(&mut job.out).into_vec();
                own.clear();
                sized(&mut own, needs)?;
                job.out = Out::Own(own);
            }
        }
        self.ground.fill(job.out.bytes())?;
        self.records += job.records;
        Ok(n > 0)
    }
}

/// Takes a part's number of records, a buffer with them that has room for as many of either layout, and as many destination records of zeros.
pub(crate) type Take<'t> = dyn FnMut(u64, &mut [u8], &[u8]) -> Result<(), Error> + 't;

impl Feed<'_> {
    /// Hands each part on.
    pub fn each(&mut self, take: &mut Take) -> Result<(), LogError> {
        let mut job = Job::default();
        while self.next(&mut job)? {
            let background = job.out.bytes();
            let longer = job.source.len().max(background.len());
            sized(&mut job.source, longer)?;
            take(job.records, &mut job.source, background)?;
        }
        Ok(())
    }
}

/// Makes a buffer so long, with zeros behind what it has.
pub(crate) fn sized(buffer: &mut Vec<u8>, len: usize) -> Result<(), LogError> {
    let more = len.saturating_sub(buffer.len());
    let room = buffer.try_reserve_exact(more);
    room.map_err(|_| LogError::io("hold a part of the log", ErrorKind::OutOfMemory.into()))?;
    buffer.resize(len, 0);
    Ok(())
}

/// A run over the parts of a log.
pub(super) struct Run<'a> {
    pub feed: Feed<'a>,
    pub jobs: usize,
    pub progress: &'a mut dyn FnMut(Progress),
}

impl<'a> Run<'a> {
    /// Goes over all parts, and back to the first.
    pub fn check(&mut self) -> Result<(), LogError> {
        self.pass(true, &mut |_| Ok(()))?;
        self.feed.rewind()
    }

    /// Hands each converted part on, in order.
    pub fn convert(
        &mut self,
        put: &mut dyn FnMut(&[u8]) -> Result<(), LogError>,
    ) -> Result<Totals, LogError> {
        self.pass(false, put)
    }

    fn pass(
        &mut self,
        checking: bool,
        put: &mut dyn FnMut(&[u8]) -> Result<(), LogError>,
    ) -> Result<Totals, LogError> {
        let total = self.feed.total();
        let mut totals = Totals::default();
        let mut finish = |job: &mut Job| {
            if let Some(error) = job.refused.take() {
                return Err(error.into());
            }
            put(job.out.bytes())?;
            totals.records += job.records;
            totals.exceptions += job.exceptions;
            (self.progress)(Progress {
                records: totals.records,
                total,
                checking,
            });
            Ok(())
        };
        // no more threads than parts
        let parts = total.map_or(u64::MAX, |n| n.div_ceil(self.feed.plan.records as u64));
        match self.jobs.min(usize::try_from(parts).unwrap_or(usize::MAX)) {
            0 | 1 => alone(&mut self.feed, &mut finish)?,
            jobs => together(&mut self.feed, jobs, &mut finish)?,
        }
        Ok(totals)
    }
}

type Finish<'f> = dyn FnMut(&mut Job) -> Result<(), LogError> + 'f;

fn alone(feed: &mut Feed, finish: &mut Finish) -> Result<(), LogError> {
    let mut c = Converter::new();
    let mut job = Job::default();
    while feed.next(&mut job)? {
        job.convert(&mut c, &feed.plan);
        finish(&mut job)?;
    }
    Ok(())
}

/// The same by several threads. Parts go to them in turn and come back in that order, so the first refusal is the log's first.
fn together<'a>(feed: &mut Feed<'a>, jobs: usize, finish: &mut Finish) -> Result<(), LogError> {
    let plan = feed.plan.clone();
    thread::scope(|scope| {
        let workers = (0..jobs).map(|_| worker(scope, &plan));
        let workers = workers.collect::<Result<Vec<_>, _>>()?;
        let (mut sent, mut taken, mut spare) = (0, 0, Vec::new());
        let mut fed = Ok(true);
        loop {
            while matches!(fed, Ok(true)) && sent < taken + 2 * jobs {
                let mut job = spare.pop().unwrap_or_default();
                fed = feed.next(&mut job);
                if let Ok(true) = fed {
                    let (to, _) = &workers[sent % jobs];
                    to.send(job).expect("a worker takes parts to the end");
                    sent += 1;
                }
            }
            // a failed read comes after the parts that were read before it
            if taken == sent {
                return fed.map(|_| ());
            }
            let (_, from) = &workers[taken % jobs];
            let mut job: Job = from.recv().expect("a worker gives each part back");
            taken += 1;
            finish(&mut job)?;
            spare.push(job);
        }
    })
}

/// A thread that converts the parts that it is sent, until the sender is dropped.
fn worker<'s, 'a: 's>(
    scope: &'s thread::Scope<'s, '_>,
    plan: &'s Plan,
) -> Result<(Sender<Job<'a>>, Receiver<Job<'a>>), LogError> {
    let (to, parts) = mpsc::channel::<Job>();
    let (done, from) = mpsc::channel();
    let work = move || {
        let mut c = Converter::new();
        for mut job in parts {
            job.convert(&mut c, plan);
            if done.send(job).is_err() {
                break;
            }
        }
    };
    thread::Builder::new()
        .stack_size(THREAD_STACK_BYTES)
        .spawn_scoped(scope, work)
        .map_err(|error| LogError::io("start a thread", error))?;
    Ok((to, from))
}

/// The converted parts of a log as they come.
///
/// A part is handed out before later ones are looked at, so a refusal can come after parts that were good; nothing comes after it.
pub struct Parts<'a> {
    feed: Feed<'a>,
    converter: Converter,
    is_over: bool,
}

/// One part of a converted log.
#[derive(Clone, Debug, PartialEq, Eq)]
#[non_exhaustive]
pub struct Part {
    /// The log's record that it starts with, from 0.
    pub first: u64,
    /// How many records it has, 1 to 65,536.
    pub records: u64,
    /// The leaves of these records that raised an exception.
    pub exceptions: u64,
    /// The converted records.
    pub data: Vec<u8>,
}

impl<'a> Parts<'a> {
    pub(super) fn new(feed: Feed<'a>) -> Self {
        Parts {
            feed,
            converter: Converter::new(),
            is_over: false,
        }
    }

    /// The records of the whole log, where its length is known.
    pub fn records(&self) -> Option<u64> {
        self.feed.total()
    }

    fn part(&mut self) -> Result<Option<Part>, LogError> {
        let mut job = Job::default();
        if !self.feed.next(&mut job)? {
            return Ok(None);
        }
        job.convert(&mut self.converter, &self.feed.plan);
        match job.refused {
            Some(error) => Err(error.into()),
            None => Ok(Some(Part {
                first: job.first,
                records: job.records,
                exceptions: job.exceptions,
                data: job.out.into_vec(),
            })),
        }
    }
}

impl Iterator for Parts<'_> {
    type Item = Result<Part, LogError>;

    fn next(&mut self) -> Option<Self::Item> {
        if self.is_over {
            return None;
        }
        let part = self.part().transpose();
        self.is_over = !matches!(part, Some(Ok(_)));
        part
    }
}

impl std::iter::FusedIterator for Parts<'_> {}

impl fmt::Debug for Parts<'_> {
    fn fmt(&self, f: &mut fmt::Formatter) -> fmt::Result {
        f.debug_struct("Parts")
            .field("done", &self.feed.records)
            .field("records", &self.records())
            .finish_non_exhaustive()
    }
}
