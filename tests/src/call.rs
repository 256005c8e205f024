//! The four converting calls: the checks in the table's order, the answer,
//! and every lent byte and word after the call.

use crate::datatype::{Datatype, Word};
use crate::number;
use crate::obey;
use crate::paths::{self, Leaf, Match};
use crate::sheet;
use crate::symbols;
use std::rc::Rc;

/// An answer: the number from the table with every field beside it.
#[derive(Clone, Copy, Debug, Default, PartialEq, Eq)]
pub struct Answer {
    pub number: u64,
    /// Exceptions, the length of a list or a report, or the size of a record.
    pub count: u64,
    pub line: u64,
    pub record: u64,
    pub at: u64,
    pub kind: u64,
    /// What the magnitude is: of a number from 0 up, of a negative one, or the
    /// 64 bits of a real.
    pub given: u64,
    pub magnitude: u64,
}

impl Answer {
    pub fn refused(number: u64) -> Answer {
        Answer {
            number,
            ..Answer::default()
        }
    }

    pub fn faulty(number: u64, line: u64) -> Answer {
        Answer {
            line,
            ..Answer::refused(number)
        }
    }

    pub fn done(count: u64) -> Answer {
        Answer {
            count,
            ..Answer::default()
        }
    }
}

/// What a call leaves: its answer, the buffer that it may write, the table.
#[derive(Clone, Debug, PartialEq, Eq)]
pub struct After {
    pub answer: Answer,
    pub written: Vec<u8>,
    pub table: Vec<u32>,
}

/// What all four forms are given. A plain form names no handling.
#[derive(Clone, Copy, Debug)]
pub struct Call<'a> {
    pub source_sheet: &'a [u8],
    pub destination_sheet: &'a [u8],
    pub count: u64,
    pub handling: Option<u32>,
    pub table: &'a [u32],
}

/// Handling 0 writes the results of exceptions, handling 1 refuses.
pub const CLAMP: u32 = 0;
pub const STOP: u32 = 1;

/// Whether an exception of a destination leaf stops a call.
type Stops = fn(&Call, &Datatype, &Leaf) -> bool;

/// Document 02, 2026-12: "A leaf obeys the innermost member on its way that has
/// the word, else the call." The call's source sheet is not asked.
fn by_words(call: &Call, destination: &Datatype, leaf: &Leaf) -> bool {
    match obey::innermost(destination, &leaf.way) {
        Some(word) => word == Word::Stop,
        // 2026-10: "the plain forms, in place and copying, handle as 1".
        None => call.handling.unwrap_or(STOP) == STOP,
    }
}

/// 2026-12: "The season report still clamps everything."
fn never(_: &Call, _: &Datatype, _: &Leaf) -> bool {
    false
}

/// The number that a destination leaf was given: a matched number, or a real's
/// 64 bits.
#[derive(Clone, Copy, Debug, PartialEq, Eq)]
pub enum Given {
    Whole(i128),
    Real(u64),
}

impl Given {
    /// The answer's two words: a code, then the magnitude or the bits.
    pub fn words(self) -> (u64, u64) {
        match self {
            Given::Whole(number) => {
                // "Numbers run from −2^63 to 2^64 − 1."
                let magnitude = u64::try_from(number.unsigned_abs()).expect("64 bits");
                (u64::from(number < 0), magnitude)
            }
            Given::Real(pattern) => (2, pattern),
        }
    }
}

/// A matched leaf that raised an exception.
struct Raised {
    record: u64,
    at: u64,
    kind: u64,
    given: Given,
    stops: bool,
}

/// The copying form: the destination's own bytes are the background.
pub fn copying(call: Call, source: &[u8], destination: &[u8]) -> After {
    let mut written = destination.to_vec();
    let result = checked(&call).and_then(|(from, to)| {
        let (source_len, destination_len) = lengths(&call, &from, &to);
        if (source.len() as u128) < source_len || (destination.len() as u128) < destination_len {
            return Err(Answer::refused(7));
        }
        let background = &destination[..destination_len as usize];
        let (converted, count) = convert(&call, (&from, &to), source, background, by_words)?;
        written[..converted.len()].copy_from_slice(&converted);
        Ok(Answer::done(count))
    });
    after(call, result, written)
}

/// The in-place form: one buffer and a separate background.
pub fn in_place(call: Call, buffer: &[u8], background: &[u8]) -> After {
    move_records(call, buffer, background, by_words)
}

/// The same for the report: no exception stops it.
pub fn clamped_in_place(call: Call, buffer: &[u8], background: &[u8]) -> After {
    move_records(call, buffer, background, never)
}

fn move_records(call: Call, buffer: &[u8], background: &[u8], stops: Stops) -> After {
    let mut written = buffer.to_vec();
    let result = checked(&call).and_then(|(from, to)| {
        let (source_len, destination_len) = lengths(&call, &from, &to);
        let longer = source_len.max(destination_len);
        if (buffer.len() as u128) < longer || (background.len() as u128) < destination_len {
            return Err(Answer::refused(7));
        }
        let background = &background[..destination_len as usize];
        let (converted, count) = convert(&call, (&from, &to), buffer, background, stops)?;
        written[..converted.len()].copy_from_slice(&converted);
        // "Bytes nD to nS − 1 (if S is larger) are zero."
        for at in destination_len..source_len {
            written[at as usize] = 0;
        }
        Ok(Answer::done(count))
    });
    after(call, result, written)
}

/// "Its first 8,192 words are zero after every call that passes check 2."
pub fn table_after(answer: &Answer, table: &[u32]) -> Vec<u32> {
    let mut words = table.to_vec();
    if answer.number != 1 && answer.number != 2 {
        words[..8192].fill(0);
    }
    words
}

fn after(call: Call, result: Result<Answer, Answer>, written: Vec<u8>) -> After {
    let answer = result.unwrap_or_else(|refusal| refusal);
    After {
        answer,
        written,
        table: table_after(&answer, call.table),
    }
}

/// Checks 1 to 6, and 12.
fn checked(call: &Call) -> Result<(Rc<Datatype>, Rc<Datatype>), Answer> {
    if let Some(handling) = call.handling
        && handling != CLAMP
        && handling != STOP
    {
        return Err(Answer::refused(1));
    }
    let (from, to) = read_sheets(call)?;
    check_types_and_count(call, &from, &to)?;
    Ok((from, to))
}

/// Checks 2 to 4.
pub fn read_sheets(call: &Call) -> Result<(Rc<Datatype>, Rc<Datatype>), Answer> {
    if call.table.len() < 8192 {
        return Err(Answer::refused(2));
    }
    let from = sheet::read(call.source_sheet).map_err(|line| Answer::faulty(3, line))?;
    let to = sheet::read(call.destination_sheet).map_err(|line| Answer::faulty(4, line))?;
    Ok((from, to))
}

/// Checks 5, 12 and 6: "12 SYMBOLS, between PATH and COUNT, for the converting
/// forms and the report".
pub fn check_types_and_count(call: &Call, from: &Datatype, to: &Datatype) -> Result<(), Answer> {
    check_path(from, to)?;
    if !symbols::keeps_symbols(from, to) {
        return Err(Answer::refused(12));
    }
    check_count(call)
}

/// Checks 5 and 6: "The compare tool is not affected."
pub fn check_path_and_count(call: &Call, from: &Datatype, to: &Datatype) -> Result<(), Answer> {
    check_path(from, to)?;
    check_count(call)
}

fn check_path(from: &Datatype, to: &Datatype) -> Result<(), Answer> {
    match paths::has_path(from, to) {
        true => Ok(()),
        false => Err(Answer::refused(5)),
    }
}

fn check_count(call: &Call) -> Result<(), Answer> {
    match call.count > 65_536 {
        true => Err(Answer::refused(6)),
        false => Ok(()),
    }
}

/// nS and nD.
pub fn lengths(call: &Call, from: &Datatype, to: &Datatype) -> (u128, u128) {
    let count = u128::from(call.count);
    (
        count * u128::from(from.size()),
        count * u128::from(to.size()),
    )
}

/// The converted records and the exception count, or the answer STOP: "given
/// exactly when a leaf that obeys stop raises, and names the first such leaf; the
/// count takes all clamped ones".
fn convert(
    call: &Call,
    (from, to): (&Datatype, &Datatype),
    source: &[u8],
    background: &[u8],
    stops: Stops,
) -> Result<(Vec<u8>, u64), Answer> {
    let matches: Vec<(Match, bool)> = paths::matches(from, to)
        .into_iter()
        .map(|pair| {
            let stops = stops(call, to, &pair.to);
            (pair, stops)
        })
        .collect();
    let mut converted = background.to_vec();
    let mut raised = Vec::new();
    for record in 0..call.count {
        let source = part(source, record, from.size());
        let start = (record * to.size()) as usize;
        let destination = &mut converted[start..start + to.size() as usize];
        for (pair, stops) in &matches {
            if let Some((kind, given)) = convert_leaf(pair, source, destination) {
                raised.push(Raised {
                    record,
                    at: pair.to.at,
                    kind,
                    given,
                    stops: *stops,
                });
            }
        }
    }
    let stopping = raised.iter().filter(|raised| raised.stops);
    match stopping.min_by_key(|raised| (raised.record, raised.at)) {
        Some(first) => Err(stopped(first)),
        None => Ok((converted, raised.len() as u64)),
    }
}

fn stopped(first: &Raised) -> Answer {
    let (given, magnitude) = first.given.words();
    Answer {
        record: first.record,
        at: first.at,
        kind: first.kind,
        given,
        magnitude,
        ..Answer::refused(8)
    }
}

/// Record number `record` of a buffer of records of one size.
pub fn part(buffer: &[u8], record: u64, size: u64) -> &[u8] {
    let start = (record * size) as usize;
    &buffer[start..start + size as usize]
}

/// Writes one matched leaf over its background; gives the exception kind and
/// "the number it was given".
fn convert_leaf(pair: &Match, source: &[u8], destination: &mut [u8]) -> Option<(u64, Given)> {
    let found = number::read(
        number::layout(pair.from.datatype),
        &source[pair.from.at as usize..],
    );
    let (result, kind) = number::convert(pair.from.datatype, pair.to.datatype, found);
    let layout = number::layout(pair.to.datatype);
    number::write(layout, result, &mut destination[pair.to.at as usize..]);
    Some((kind?, given(pair.from.datatype, found)))
}

/// A source leaf's number, or its bits: the leaf that it goes to has no say.
pub fn given(source: &Datatype, number: i128) -> Given {
    match source {
        Datatype::Real(_) => Given::Real(number as u64),
        _ => Given::Whole(number),
    }
}
