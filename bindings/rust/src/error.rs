//! Refusals: document 01's numbers, names and place fields, with what this crate can explain of them, in plain words.
use crate::raw::Answer;
use std::fmt;

/// Why a number does not fit its destination leaf.
#[derive(Clone, Copy, Debug, PartialEq, Eq, Hash)]
#[non_exhaustive]
pub enum Kind {
    /// It is above the destination's range, or is +infinity; clamping writes the largest.
    Above,
    /// It is below it, or is -infinity; clamping writes the smallest.
    Below,
    /// An enum's number has no symbol in the source; clamping sets all significant bits.
    NoSymbol,
    /// A real for an int is a not-a-number (NaN), quiet or signalling; clamping writes 0.
    NotANumber,
    /// A real for an int has a fraction, or is a negative zero; clamping drops the fraction toward zero, or the sign.
    Truncated,
    /// An int for a real is no double; clamping writes the nearest one, of two as near the even one.
    Rounded,
    /// A kind that this version of the crate does not know, by its number.
    Unknown(u32),
}

impl Kind {
    /// The kind's number in document 01.
    pub fn number(self) -> u32 {
        match self {
            Kind::Above => 1,
            Kind::Below => 2,
            Kind::NoSymbol => 3,
            Kind::NotANumber => 4,
            Kind::Truncated => 5,
            Kind::Rounded => 6,
            Kind::Unknown(number) => number,
        }
    }

    fn from_number(number: u64) -> Kind {
        match number {
            1 => Kind::Above,
            2 => Kind::Below,
            3 => Kind::NoSymbol,
            4 => Kind::NotANumber,
            5 => Kind::Truncated,
            6 => Kind::Rounded,
            _ => Kind::Unknown(number as u32),
        }
    }
}

/// What is wrong with the number, and what to do about it.
impl fmt::Display for Kind {
    fn fmt(&self, f: &mut fmt::Formatter) -> fmt::Result {
        let subject = match self {
            Kind::NotANumber | Kind::Truncated => "the real",
            Kind::Rounded => "the int",
            _ => "the number",
        };
        write!(f, "{subject} {}", self.why(None, None))
    }
}

impl Kind {
    /// What is said of the number, where it is known or not, and of the member whose word is stop, if that stopped it.
    fn why(self, given: Option<Given>, stopped_by: Option<&str>) -> String {
        let (says, clamp) = match stopped_by {
            Some(member) => (
                format!(", and the destination sheet says stop for `{member}`"),
                "write clamp there",
            ),
            None => (String::new(), "clamp"),
        };
        let lost = match given {
            Some(Given::Real(NEGATIVE_ZERO)) => "is a negative zero",
            Some(Given::Real(_)) => "has a fraction",
            _ => "has a fraction, or is a negative zero",
        };
        match self {
            Kind::Above => format!("is above the destination's range{says}: widen the destination, or {clamp}"),
            Kind::Below => format!("is below the destination's range{says}: widen the destination, or {clamp}"),
            Kind::NoSymbol => format!("has no symbol in the source{says}: give it one in both enums, or {clamp}"),
            Kind::NotANumber => format!("is not-a-number, which no int holds{says}: make the destination a real, or {clamp}"),
            Kind::Truncated => format!("{lost}, which no int holds{says}: make the destination a real, or {clamp}"),
            Kind::Rounded => format!("is no double, only near one{says}: make the destination an int, or {clamp}"),
            Kind::Unknown(number) => format!("does not fit, for a reason that this version does not know (kind {number}){says}: {clamp}, or use a newer wrapper"),
        }
    }
}

const NEGATIVE_ZERO: u64 = 1 << 63;

/// The number that a destination leaf was given, as it stood in the source leaf: an enum's is the source's number, not the destination's. Of two logs that are
/// compared, the number that stands in a leaf.
#[derive(Clone, Copy, Debug, PartialEq, Eq, Hash)]
#[non_exhaustive]
pub enum Given {
    /// A number of an int, bits or an enum, from -2^63 to 2^64 - 1. An int that goes into a real is one of these too.
    Whole(i128),
    /// The 64 bits of a real, whatever it goes into: [`f64::from_bits`] gives the double.
    Real(u64),
    /// A code that this version of the crate does not know, and the word beside it: words 6 and 7 of the answer in include/yirvagul.h.
    Unknown(u64, u64),
}

impl Given {
    /// The number as a list of differences prints it, and whether its leaf is a real.
    pub(crate) fn from_text(text: &str, is_real: bool) -> Option<Given> {
        if is_real {
            return text.parse().ok().map(Given::Real);
        }
        text.parse().ok().map(Given::Whole)
    }

    fn from_words(given: u64, magnitude: u64) -> Given {
        match given {
            0 => Given::Whole(magnitude.into()),
            1 => Given::Whole(-i128::from(magnitude)),
            2 => Given::Real(magnitude),
            _ => Given::Unknown(given, magnitude),
        }
    }
}

/// As "the number 4095", "the real 255.5" or "the real NaN (0x7ff8000000000000)".
impl fmt::Display for Given {
    fn fmt(&self, f: &mut fmt::Formatter) -> fmt::Result {
        match *self {
            Given::Whole(number) => write!(f, "the number {number}"),
            Given::Real(bits) => match f64::from_bits(bits) {
                real if real.is_nan() => write!(f, "the real NaN ({bits:#018x})"),
                f64::INFINITY => f.write_str("the real +infinity"),
                f64::NEG_INFINITY => f.write_str("the real -infinity"),
                real => write!(f, "the real {real:?}"),
            },
            Given::Unknown(given, magnitude) => {
                write!(f, "the number of the words {given} and {magnitude}")
            }
        }
    }
}

/// A buffer that a call was lent.
#[derive(Clone, Copy, Debug, PartialEq, Eq, Hash)]
#[non_exhaustive]
pub enum Buffer {
    /// The source records of a copying call.
    Source,
    /// The destination of a copying call, or the output of a log.
    Destination,
    /// The one buffer of an in-place call.
    InPlace,
    /// The background of an in-place call.
    Background,
    /// The buffer for a list.
    List,
    /// The first of two logs that are compared.
    First,
    /// The second of them.
    Second,
}

impl fmt::Display for Buffer {
    fn fmt(&self, f: &mut fmt::Formatter) -> fmt::Result {
        f.write_str(match self {
            Buffer::Source => "source",
            Buffer::Destination => "destination",
            Buffer::InPlace => "buffer",
            Buffer::Background => "background",
            Buffer::List => "list buffer",
            Buffer::First => "first log",
            Buffer::Second => "second log",
        })
    }
}

/// A buffer that is too short.
#[derive(Clone, Copy, Debug, PartialEq, Eq, Hash)]
#[non_exhaustive]
pub struct Short {
    /// Which one.
    pub buffer: Buffer,
    /// The bytes that it holds.
    pub holds: u64,
    /// The bytes that it needs.
    pub needs: u64,
}

/// A refused call. It left data buffers, lists, reports and layouts as they were.
///
/// Its text says what is wrong, where, and what to do. The fields that are `Option`s are explanations: this crate reads the sheets once more to find them, and
/// where it finds none the text says only what the library answered.
///
/// ```
/// let sheet = b"int\t2\tBE\t4\t13\tzero\tzero\tunsigned\n";
/// let error = yirvagul::leaf_list(sheet).unwrap_err();
/// assert_eq!((error.number(), error.name()), (3, "SOURCE"));
/// assert_eq!(
///     error.to_string(),
///     "SOURCE (3): line 1 of the sheet is faulty, `int\\t2\\tBE\\t4\\t13\\tzero\\tzero\\tunsigned`: \
///      offset 4 and precision 13 make 17 bits, above the 16 of 2 bytes: make the size larger, or one of them smaller"
/// );
/// ```
#[derive(Clone, Debug, PartialEq, Eq)]
#[non_exhaustive]
pub enum Error {
    /// Handling is neither 0 nor 1. [`Handling`](crate::Handling) has no other values, so no call of this crate gives it.
    Handling,
    /// The working table has fewer than [`TABLE_WORDS`](crate::TABLE_WORDS) words.
    Table,
    /// The source sheet, the first log's, or the only one, is faulty.
    #[non_exhaustive]
    Source {
        /// The first faulty line, from 1; 0 where the sheet is too long.
        line: u32,
        /// That line, with what is not printed escaped as in Rust, and cut where it is long.
        text: Option<String>,
        /// The rule that it breaks, and what to do.
        rule: Option<String>,
        /// Whether the call had no other sheet.
        only: bool,
        /// Whether the call compared two logs, and this is the first log's sheet.
        compared: bool,
    },
    /// The destination sheet, or the second log's, is faulty.
    #[non_exhaustive]
    Destination {
        /// As of [`Error::Source`].
        line: u32,
        /// As of [`Error::Source`].
        text: Option<String>,
        /// As of [`Error::Source`].
        rule: Option<String>,
        /// Whether the call compared two logs, and this is the second log's sheet.
        compared: bool,
    },
    /// No path runs from the source type to the destination type, or from the first log's type to the second's.
    #[non_exhaustive]
    Path {
        /// The member that has none, as `boost[0]`; empty for the record itself.
        member: Option<String>,
        /// Why, as "is an int in the source and bits in the destination", and what to do.
        why: Option<String>,
        /// Whether the call compared two logs.
        compared: bool,
    },
    /// More than 65,536 records in one call.
    Count,
    /// A buffer is too short.
    #[non_exhaustive]
    Room {
        /// The first one that is.
        short: Option<Short>,
    },
    /// A number does not fit a leaf that obeys stop: by the word of a member of the destination sheet, or, where none on its way has one, by the call's
    /// [`Handling`](crate::Handling), which is stop in every plain form.
    #[non_exhaustive]
    Stop {
        /// The first record that has one, from 0; of a log, counted from the log's start.
        record: u64,
        /// The first byte of the first such leaf, in its destination record.
        at: u32,
        /// Why it does not fit.
        kind: Kind,
        /// The number that did not fit.
        given: Given,
        /// The leaf's name, as `boost[1]`; empty where the record itself is the leaf.
        member: Option<String>,
        /// The member by whose word it obeys stop, as `boost`: the innermost one on the leaf's way that has a word. None where the call's handling stopped it.
        stopped_by: Option<String>,
    },
    /// A setter's argument or result is outside its rule, or the layout was.
    Range,
    /// An int leaf of a reader's sheet has more than 32 bits.
    #[non_exhaustive]
    Channel {
        /// The first one's name, as `boost[0]`; empty where the record itself is the leaf.
        member: Option<String>,
        /// Its bits.
        precision: Option<u32>,
    },
    /// A report would have more than [`Report::MOST_RECORDS`](crate::Report::MOST_RECORDS) records; or its memory holds what no report's does.
    #[non_exhaustive]
    Full {
        /// The records that it would have, with those of the log as far as it was read; none where its memory is at fault.
        records: Option<u64>,
    },
    /// An enum of the source has a symbol that the destination's enum under the same member lacks. No comparison gives it.
    #[non_exhaustive]
    Symbols {
        /// The first such symbol of the source's enum.
        symbol: Option<String>,
        /// The first such member, by the destination's bytes, as `valve[0]`; empty where the record itself is the enum.
        member: Option<String>,
    },
    /// A refusal that this version of the crate does not know.
    #[non_exhaustive]
    Unknown {
        /// Its number.
        number: u32,
        /// The answer's eight words, as include/yirvagul.h has them; of a setter, the number alone.
        answer: [u64; 8],
    },
}

impl Error {
    /// The refusal's number in document 01.
    pub fn number(&self) -> u32 {
        match self {
            Error::Handling => 1,
            Error::Table => 2,
            Error::Source { .. } => 3,
            Error::Destination { .. } => 4,
            Error::Path { .. } => 5,
            Error::Count => 6,
            Error::Room { .. } => 7,
            Error::Stop { .. } => 8,
            Error::Range => 9,
            Error::Channel { .. } => 10,
            Error::Full { .. } => 11,
            Error::Symbols { .. } => 12,
            Error::Unknown { number, .. } => *number,
        }
    }

    /// Its name there, in capitals; `UNKNOWN` for [`Error::Unknown`].
    pub fn name(&self) -> &'static str {
        match self {
            Error::Handling => "HANDLING",
            Error::Table => "TABLE",
            Error::Source { .. } => "SOURCE",
            Error::Destination { .. } => "DESTINATION",
            Error::Path { .. } => "PATH",
            Error::Count => "COUNT",
            Error::Room { .. } => "ROOM",
            Error::Stop { .. } => "STOP",
            Error::Range => "RANGE",
            Error::Channel { .. } => "CHANNEL",
            Error::Full { .. } => "FULL",
            Error::Symbols { .. } => "SYMBOLS",
            Error::Unknown { .. } => "UNKNOWN",
        }
    }

    /// What an answer's words say by themselves. Line and byte fit 32 bits.
    pub(crate) fn from_answer(answer: Answer) -> Error {
        let [number, _, line, record, at, kind, given, magnitude] = answer;
        let (line, at) = (line as u32, at as u32);
        let (text, rule, member, why, short) = (None, None, None, None, None);
        let compared = false;
        match number {
            1 => Error::Handling,
            2 => Error::Table,
            3 => Error::Source {
                line,
                text,
                rule,
                only: false,
                compared,
            },
            4 => Error::Destination {
                line,
                text,
                rule,
                compared,
            },
            5 => Error::Path {
                member,
                why,
                compared,
            },
            6 => Error::Count,
            7 => Error::Room { short },
            8 => Error::Stop {
                record,
                at,
                kind: Kind::from_number(kind),
                given: Given::from_words(given, magnitude),
                member,
                stopped_by: None,
            },
            9 => Error::Range,
            10 => Error::Channel {
                member,
                precision: None,
            },
            11 => Error::Full { records: None },
            12 => Error::Symbols {
                symbol: None,
                member,
            },
            _ => Error::Unknown {
                number: number as u32,
                answer,
            },
        }
    }
}

fn faulty(
    f: &mut fmt::Formatter,
    sheet: &str,
    line: u32,
    text: &Option<String>,
    rule: &Option<String>,
) -> fmt::Result {
    match line {
        0 => write!(f, "the {sheet} is faulty")?,
        _ => write!(f, "line {line} of the {sheet} is faulty")?,
    }
    if let Some(text) = text {
        write!(f, ", `{text}`")?;
    }
    match (rule, line) {
        (Some(rule), _) => write!(f, ": {rule}"),
        (None, 0) => f.write_str(": keep it within 16,384 bytes"),
        (None, _) => f.write_str(": correct it by the rules of sheets and the lines before it"),
    }
}

/// A member's name in quotes, or the record itself.
fn named(member: &str) -> String {
    match member {
        "" => "the record".into(),
        _ => format!("`{member}`"),
    }
}

impl fmt::Display for Error {
    fn fmt(&self, f: &mut fmt::Formatter) -> fmt::Result {
        write!(f, "{} ({}): ", self.name(), self.number())?;
        match self {
            Error::Handling => f.write_str("handling is neither 0 (clamp) nor 1 (stop): pass one of them"),
            Error::Table => f.write_str("the working table is too short: lend at least 8,192 words"),
            Error::Source { line, text, rule, only: true, .. } => faulty(f, "sheet", *line, text, rule),
            Error::Source { line, text, rule, compared: true, .. } => faulty(f, "first sheet", *line, text, rule),
            Error::Source { line, text, rule, .. } => faulty(f, "source sheet", *line, text, rule),
            Error::Destination { line, text, rule, compared: true } => faulty(f, "second sheet", *line, text, rule),
            Error::Destination { line, text, rule, .. } => faulty(f, "destination sheet", *line, text, rule),
            Error::Path { member, why, compared } => {
                let (from, to) = if *compared { ("first log's", "second log's") } else { ("source", "destination") };
                write!(f, "no path from the {from} type to the {to} type: ")?;
                match (member, why) {
                    (Some(member), Some(why)) => write!(f, "{} {why}", named(member)),
                    _ => f.write_str("give members of one name the same class, or an int and a real, and arrays the same dimensions"),
                }
            }
            Error::Count => f.write_str("more than 65,536 records in one call: go in parts, as convert_log and compare do"),
            Error::Room { short: Some(Short { buffer, holds, needs }) } => write!(f, "the {buffer} is too short: it holds {holds} bytes and needs {needs}: lend a longer one"),
            Error::Room { .. } => f.write_str("a buffer is too short for that many records, or for the list: lend a longer one"),
            Error::Stop { record, at, kind, given, member, stopped_by } => {
                write!(f, "{given} for byte {at} of record {record}")?;
                if let Some(member) = member.as_deref().filter(|member| !member.is_empty()) {
                    write!(f, ", member `{member}`,")?;
                }
                write!(f, " {}", kind.why(Some(*given), stopped_by.as_deref()))
            }
            Error::Range => f.write_str("the argument or the layout breaks the rules of a layout: size 1 to 8 bytes, precision 1 to 64 bits, offset + precision within the size, no sign on bits"),
            Error::Channel { member: Some(member), precision: Some(precision) } => write!(f, "{} has {precision} bits, and a report takes ints of at most 32: narrow it in the reader's sheet, or leave it out", named(member)),
            Error::Channel { .. } => f.write_str("an int of the reader's sheet has more than 32 bits: narrow it, or leave it out"),
            Error::Full { records: Some(records) } => write!(f, "the report would have {records} records or more, and it takes 1,048,576: begin a new report"),
            Error::Full { .. } => f.write_str("the report is full, or its memory holds what no report's does: begin a new report"),
            Error::Symbols { symbol: Some(symbol), member: Some(member) } => {
                write!(f, "{} has the symbol `{symbol}` in the source and not in the destination: give the destination's enum that symbol, with a number of its own", named(member))
            }
            Error::Symbols { .. } => f.write_str("an enum has a symbol in the source and not in the destination: give the destination's enum that symbol, with a number of its own"),
            Error::Unknown { answer, .. } => write!(f, "a refusal that this version does not know, with the words {answer:?}: use a newer wrapper"),
        }
    }
}

impl std::error::Error for Error {}
