//! Adds to a refusal what this crate's own reading of the sheets can tell.
use crate::error::{Buffer, Error, Short};
use crate::raw::{self, Answer, Sheets};
use crate::{sheet, Report, LIST_BYTES};
use std::rc::Rc;

/// What a call was given.
pub(crate) enum Call<'a> {
    /// The lengths of source and destination.
    Copying(&'a Sheets<'a>, usize, usize),
    /// The lengths of buffer and background.
    InPlace(&'a Sheets<'a>, usize, usize),
    /// With the reader's sheet for the destination's, and the records that the memory holds. No report lends a buffer that is too short.
    Report(&'a Sheets<'a>, i64),
    /// With the first log's sheet for the source's and the second's for the destination's; both logs, and the length of the list buffer.
    Compare(&'a Sheets<'a>, &'a [u8], &'a [u8], usize),
    /// It lends a mask for any sheet.
    Reach(&'a Sheets<'a>),
    /// The length of the list buffer.
    List(&'a [u8], usize),
    Size(&'a [u8]),
}

impl Call<'_> {
    fn source_sheet(&self) -> &[u8] {
        match self {
            Call::Copying(sheets, ..)
            | Call::InPlace(sheets, ..)
            | Call::Report(sheets, _)
            | Call::Compare(sheets, ..)
            | Call::Reach(sheets) => sheets.source,
            Call::List(sheet, _) | Call::Size(sheet) => sheet,
        }
    }

    /// None of a call of one sheet.
    fn destination_sheet(&self) -> Option<&[u8]> {
        match self {
            Call::Copying(sheets, ..)
            | Call::InPlace(sheets, ..)
            | Call::Report(sheets, _)
            | Call::Compare(sheets, ..)
            | Call::Reach(sheets) => Some(sheets.destination),
            Call::List(..) | Call::Size(..) => None,
        }
    }

    fn is_comparison(&self) -> bool {
        matches!(self, Call::Compare(..))
    }
}

/// What an answer's words say: the call's count, or its refusal, explained.
pub(crate) fn outcome(answer: Answer, call: &Call, table: &mut [u32]) -> Result<u64, Error> {
    if answer[0] == 0 {
        return Ok(answer[1]);
    }
    let mut error = Error::from_answer(answer);
    match &mut error {
        Error::Source {
            line,
            text,
            rule,
            only,
            compared,
        } => {
            (*text, *rule) = fault(call.source_sheet(), *line);
            *only = call.destination_sheet().is_none();
            *compared = call.is_comparison();
        }
        Error::Destination {
            line,
            text,
            rule,
            compared,
        } => {
            if let Some(sheet) = call.destination_sheet() {
                (*text, *rule) = fault(sheet, *line);
            }
            *compared = call.is_comparison();
        }
        Error::Path {
            member,
            why,
            compared,
        } => {
            *compared = call.is_comparison();
            if let Some(found) = no_path(call) {
                *member = Some(found.member);
                *why = Some(found.why);
            }
        }
        Error::Room { short } => *short = too_short(call, table),
        Error::Stop {
            at,
            member,
            stopped_by,
            ..
        } => {
            let leaf = destination(call).and_then(|record| sheet::find_leaf(&record, *at));
            if let Some(leaf) = leaf {
                *stopped_by = leaf.stopped_by().map(str::to_string);
                *member = Some(leaf.name);
            }
        }
        Error::Channel { member, precision } => {
            if let Some((name, bits)) = destination(call).and_then(|r| sheet::wide_int(&r)) {
                *member = Some(name);
                *precision = Some(bits);
            }
        }
        Error::Symbols { symbol, member } => {
            if let Some(found) = lost_symbol(call) {
                *symbol = Some(found.symbol);
                *member = Some(found.member);
            }
        }
        Error::Full { records } => {
            if let Call::Report(sheets, held) = call {
                let all = u64::try_from(*held).ok().map(|held| held + sheets.count);
                *records = all.filter(|all| *all > Report::MOST_RECORDS);
            }
        }
        _ => {}
    }
    Err(error)
}

/// The text of a faulty line, and the rule that it breaks if this crate finds the fault in the same line.
fn fault(sheet: &[u8], line: u32) -> (Option<String>, Option<String>) {
    let text = sheet::line(sheet, line).map(sheet::shown);
    let rule = sheet::read(sheet)
        .err()
        .filter(|fault| fault.line == line)
        .map(|fault| fault.rule);
    (text, rule)
}

/// The destination's record.
fn destination(call: &Call) -> Option<Rc<sheet::Type>> {
    sheet::read(call.destination_sheet()?).ok()
}

fn no_path(call: &Call) -> Option<sheet::NoPath> {
    let source = sheet::read(call.source_sheet()).ok()?;
    let names = if call.is_comparison() {
        ("first sheet", "second")
    } else {
        ("source", "destination")
    };
    sheet::no_path(&source, &*destination(call)?, names)
}

fn lost_symbol(call: &Call) -> Option<sheet::LostSymbol> {
    let source = sheet::read(call.source_sheet()).ok()?;
    sheet::lost_symbol(&source, &*destination(call)?)
}

/// The first buffer that holds less than it needs.
fn too_short(call: &Call, table: &mut [u32]) -> Option<Short> {
    let size = |sheet| Some(u64::from(sheet::read(sheet).ok()?.size));
    let lent = match call {
        Call::Copying(sheets, source, destination) => {
            let needs = |size| sheets.count.saturating_mul(size);
            let (s, d) = (size(sheets.source)?, size(sheets.destination)?);
            vec![
                (Buffer::Source, *source, needs(s)),
                (Buffer::Destination, *destination, needs(d)),
            ]
        }
        Call::InPlace(sheets, buffer, background) => {
            let needs = |size| sheets.count.saturating_mul(size);
            let (s, d) = (size(sheets.source)?, size(sheets.destination)?);
            vec![
                (Buffer::InPlace, *buffer, needs(s.max(d))),
                (Buffer::Background, *background, needs(d)),
            ]
        }
        Call::Compare(sheets, first, second, list) => {
            let needs = |size| sheets.count.saturating_mul(size);
            let (s, d) = (size(sheets.source)?, size(sheets.destination)?);
            let mut lent = vec![
                (Buffer::First, first.len(), needs(s)),
                (Buffer::Second, second.len(), needs(d)),
            ];
            if lent.iter().all(|(_, holds, needs)| *holds as u64 >= *needs) {
                lent.push((
                    Buffer::List,
                    *list,
                    listed(sheets, first, second, *list, table)?,
                ));
            }
            lent
        }
        Call::List(sheet, list) => {
            let whole = raw::leaf_list(sheet, &mut vec![0; LIST_BYTES], table);
            vec![(Buffer::List, *list, whole[1])]
        }
        Call::Report(..) | Call::Reach(_) | Call::Size(_) => vec![],
    };
    lent.into_iter()
        .map(|(buffer, holds, needs)| Short {
            buffer,
            holds: holds as u64,
            needs,
        })
        .find(|short| short.holds < short.needs)
}

/// The most bytes of a list that is made only to say how long it is.
const MOST_LISTED: usize = 64 << 20;

/// The length of a list of differences that has no room in so many bytes; none where it is too long to be made for that.
fn listed(
    sheets: &Sheets,
    first: &[u8],
    second: &[u8],
    room: usize,
    table: &mut [u32],
) -> Option<u64> {
    let mut room = room.max(1 << 12);
    while room < MOST_LISTED {
        room *= 4;
        let answer = raw::compare(sheets, first, second, &mut vec![0; room], table);
        if answer[0] == 0 {
            return Some(answer[1]);
        }
    }
    None
}
