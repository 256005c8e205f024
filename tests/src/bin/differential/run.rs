//! One run of a converting call, through the library and through the
//! independent converter, and how two results differ.

use crate::capi;
use crate::random::Random;
use independent::call::{self, After, Answer, Call, STOP};

#[derive(Clone, Copy, Debug, PartialEq, Eq)]
pub enum Form {
    Copying,
    CopyingPlain,
    InPlace,
    InPlacePlain,
}

pub const FORMS: [Form; 4] = [
    Form::Copying,
    Form::CopyingPlain,
    Form::InPlace,
    Form::InPlacePlain,
];

/// The forms that name a handling.
pub const NAMING: [Form; 2] = [Form::Copying, Form::InPlace];

impl Form {
    pub fn is_copying(self) -> bool {
        matches!(self, Form::Copying | Form::CopyingPlain)
    }

    pub fn is_plain(self) -> bool {
        matches!(self, Form::CopyingPlain | Form::InPlacePlain)
    }

    pub fn name(self) -> &'static str {
        match self {
            Form::Copying => "copying",
            Form::CopyingPlain => "copying plain",
            Form::InPlace => "in place",
            Form::InPlacePlain => "in place plain",
        }
    }
}

/// What a call is given. `first` is the source or the in-place buffer,
/// `second` the destination or the background.
#[derive(Clone)]
pub struct Run {
    pub form: Form,
    pub source_sheet: Vec<u8>,
    pub destination_sheet: Vec<u8>,
    pub count: u64,
    pub handling: u32,
    pub first: Vec<u8>,
    pub second: Vec<u8>,
    pub table: Vec<u32>,
}

impl Run {
    /// Whether the call says that an exception stops it.
    pub fn stops(&self) -> bool {
        self.form.is_plain() || self.handling == STOP
    }
}

/// What a call leaves.
#[derive(Clone, PartialEq, Eq)]
pub struct Seen {
    pub answer: [u64; 8],
    pub written: Vec<u8>,
    pub table: Vec<u32>,
}

/// An answer as its eight words.
pub fn words(a: Answer) -> [u64; 8] {
    [
        a.number,
        a.count,
        a.line,
        a.record,
        a.at,
        a.kind,
        a.given,
        a.magnitude,
    ]
}

impl From<After> for Seen {
    fn from(after: After) -> Seen {
        Seen {
            answer: words(after.answer),
            written: after.written,
            table: after.table,
        }
    }
}

/// What the independent converter makes of a run.
pub fn expected(run: &Run) -> Seen {
    let call = Call {
        source_sheet: &run.source_sheet,
        destination_sheet: &run.destination_sheet,
        count: run.count,
        handling: (!run.form.is_plain()).then_some(run.handling),
        table: &run.table,
    };
    if run.form.is_copying() {
        call::copying(call, &run.first, &run.second).into()
    } else {
        call::in_place(call, &run.first, &run.second).into()
    }
}

/// Runs both and compares everything; gives what the library left.
pub fn both(random: &mut Random, run: &Run) -> Result<Seen, String> {
    let seen = capi::convert(random, run).map_err(|fault| format!("{fault}\n{}", tell(run)))?;
    match difference(&seen, &expected(run)) {
        None => Ok(seen),
        Some(fault) => Err(format!("{fault}\n{}", tell(run))),
    }
}

const FIELDS: [&str; 8] = [
    "number",
    "count",
    "line",
    "record",
    "at",
    "kind",
    "given",
    "magnitude",
];

/// In plain words, what the library left that was not expected.
pub fn difference(seen: &Seen, expected: &Seen) -> Option<String> {
    let mut told = answers_differ(&seen.answer, &expected.answer);
    told.extend(first_difference("byte", &seen.written, &expected.written));
    told.extend(first_difference("table word", &seen.table, &expected.table));
    (!told.is_empty()).then(|| told.join("\n"))
}

pub fn answers_differ(seen: &[u64; 8], expected: &[u64; 8]) -> Vec<String> {
    let mut told = Vec::new();
    for (i, field) in FIELDS.iter().enumerate() {
        let (got, wanted) = (seen[i], expected[i]);
        if got != wanted {
            told.push(format!(
                "answer's {field}: library {got}, expected {wanted}"
            ));
        }
    }
    told
}

pub fn first_difference<T>(what: &str, seen: &[T], expected: &[T]) -> Option<String>
where
    T: PartialEq + std::fmt::UpperHex,
{
    let pairs = || seen.iter().zip(expected);
    let at = pairs().position(|(a, b)| a != b)?;
    let differing = pairs().filter(|(a, b)| a != b).count();
    Some(format!(
        "{what} {at}: library {:X}, expected {:X} ({differing} differ of {})",
        seen[at],
        expected[at],
        expected.len()
    ))
}

/// What does not hold of a run, told with the run.
pub fn check(holds: bool, what: &str, run: &Run) -> Result<(), String> {
    match holds {
        true => Ok(()),
        false => Err(format!("{what}\n{}", tell(run))),
    }
}

/// A run in words, long buffers cut.
pub fn tell(run: &Run) -> String {
    let handling = if run.form.is_plain() {
        "none".to_string()
    } else {
        run.handling.to_string()
    };
    format!(
        "form: {}\ncount: {}\nhandling: {handling}\ntable words: {}\n\
         source sheet:\n{}\ndestination sheet:\n{}\n{}: {}\n{}: {}",
        run.form.name(),
        run.count,
        run.table.len(),
        show(&run.source_sheet),
        show(&run.destination_sheet),
        if run.form.is_copying() {
            "source"
        } else {
            "buffer"
        },
        hex(&run.first),
        if run.form.is_copying() {
            "destination"
        } else {
            "background"
        },
        hex(&run.second),
    )
}

/// A sheet with its odd bytes escaped.
pub fn show(sheet: &[u8]) -> String {
    let escaped = |line: &[u8]| format!("  {}", line.escape_ascii());
    let lines: Vec<String> = sheet
        .split_inclusive(|&byte| byte == 10)
        .map(escaped)
        .collect();
    lines.join("\n")
}

pub fn hex(bytes: &[u8]) -> String {
    let shown: Vec<String> = bytes.iter().take(96).map(|b| format!("{b:02X}")).collect();
    let more = if bytes.len() > 96 { " ..." } else { "" };
    format!("{} bytes: {}{more}", bytes.len(), shown.join(" "))
}
