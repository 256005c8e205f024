//! Draws which bits of a source record could change the result of a conversion.
mod svg;
mod text;

use crate::arguments::Arguments;
use crate::failure::Failure;
use crate::{files, Command};
use std::ffi::{OsStr, OsString};
use std::fs;
use std::io::{self, IsTerminal};
use std::ops::Range;
use std::process::ExitCode;
use yirvagul::{Bit, SourceBits};

pub const COMMAND: Command = Command {
    name: "bits",
    about: "draws which bits of a record could change what it is converted to",
    help: "\
usage: yirvagul bits FROM.sheet TO.sheet [--record HEX] [--svg FILE]

  FROM.sheet    the layout sheet of the source; - is standard input
  TO.sheet      the layout sheet of the destination; - is standard input
  --record HEX  the bytes of one source record, drawn beside: --record '06 43 7d 0c'
  --svg FILE    write the picture for a wall or a screen to FILE as well; - is standard output,
                in place of the text

Each bit of a source record is drawn by a letter, bit 7 of a byte first, eight bytes a row:

  N  a significant bit of a matched leaf: it can show in the result, and no other bit can
  p  a pad bit of a matched leaf
  u  a bit of a leaf that is not matched: the destination has no leaf of that name
  g  a gap: in no leaf

Below the bits stand the leaves of the source, and the bytes of the destination where they go. A
leaf whose name has no room there is named by its number in the list that follows. On a terminal
the letters have colours, unless NO_COLOR is set.

example:
  yirvagul bits examples/rig.sheet examples/customer.sheet --record '06 43 7d 0c ff f5 a7 01'
",
    run,
};

/// What is drawn: the bits, the bytes of a record if there is one, and the names of the two sheets.
struct Picture {
    bits: SourceBits,
    record: Option<Vec<u8>>,
    from: String,
    to: String,
}

/// Bytes that stand side by side.
const ROW: usize = 8;

fn run(words: Vec<OsString>) -> Result<ExitCode, Failure> {
    let arguments = Arguments::new(words, &[], &["--record", "--svg"])?;
    let [from, to] = arguments.files(["FROM.sheet", "TO.sheet"])?;
    files::read_once(&[from, to])?;
    let record = arguments.option("--record").map(bytes).transpose()?;

    let sheets = (files::read_sheet(from)?, files::read_sheet(to)?);
    let bits = yirvagul::source_bits(&sheets.0, &sheets.1)
        .map_err(|error| Failure::of_sheets(error, from, to))?;
    let picture = Picture {
        bits,
        record,
        from: files::said(from),
        to: files::said(to),
    };
    picture.has_its_record()?;
    if let Some(file) = arguments.option("--svg") {
        let drawn = svg::drawn(&picture);
        if files::is_standard(file) {
            files::put(drawn.as_bytes())?;
            return Ok(ExitCode::SUCCESS);
        }
        fs::write(file, drawn)
            .map_err(|e| Failure::Io(format!("cannot write {}: {e}", files::said(file))))?;
    }
    files::put(text::drawn(&picture, has_colours()).as_bytes())?;
    Ok(ExitCode::SUCCESS)
}

/// The bytes of hex digits, which blanks may part.
fn bytes(hex: &OsStr) -> Result<Vec<u8>, Failure> {
    let said = hex.to_string_lossy();
    let faulty = || {
        Failure::usage(format!(
            "--record is `{}`: give the bytes of a record, two hex digits each",
            said.escape_default()
        ))
    };
    let digits: Option<Vec<u32>> = said
        .chars()
        .filter(|digit| *digit != ' ')
        .map(|digit| digit.to_digit(16))
        .collect();
    let digits = digits.filter(|digits| digits.len() % 2 == 0);
    let pairs = digits.ok_or_else(faulty)?;
    Ok(pairs.chunks(2).map(|p| (p[0] << 4 | p[1]) as u8).collect())
}

/// Colours are for terminals, and for those who want them (no-color.org).
fn has_colours() -> bool {
    let is_set = |name| std::env::var_os(name).is_some_and(|value| !value.is_empty());
    let is_dumb = std::env::var_os("TERM").is_some_and(|term| term == "dumb");
    io::stdout().is_terminal() && !is_set("NO_COLOR") && !is_dumb
}

impl Picture {
    fn size(&self) -> usize {
        self.bits.mask().as_bytes().len()
    }

    /// A record that is there has as many bytes as the sheet says.
    fn has_its_record(&self) -> Result<(), Failure> {
        match &self.record {
            Some(record) if record.len() != self.size() => Err(Failure::usage(format!(
                "--record has {}, and a record of {} has {}",
                many(record.len(), "byte"),
                self.from,
                many(self.size(), "byte")
            ))),
            _ => Ok(()),
        }
    }

    /// What the bits of a byte are, the highest first.
    fn sorts(&self, byte: usize) -> [Bit; 8] {
        [7, 6, 5, 4, 3, 2, 1, 0].map(|bit| self.bits.bit(byte, bit))
    }

    /// The leaves with a byte in a row of bytes, each by its place in the list, with the first of those bytes and how many they are.
    fn leaves_in(&self, row: Range<usize>) -> Vec<(usize, usize, usize)> {
        let leaves = self.bits.leaves().iter().enumerate();
        let parts = leaves.map(|(i, leaf)| {
            let first = leaf.at.max(row.start);
            let end = (leaf.at + leaf.size).min(row.end);
            (i, first, end.saturating_sub(first))
        });
        parts.filter(|part| part.2 > 0).collect()
    }

    /// The rows of bytes.
    fn rows(&self) -> Vec<Range<usize>> {
        let starts = (0..self.size()).step_by(ROW);
        starts
            .map(|start| start..(start + ROW).min(self.size()))
            .collect()
    }

    /// A leaf's name; the record itself has none.
    fn name(&self, leaf: usize) -> &str {
        match self.bits.leaves()[leaf].name.as_str() {
            "" => "(record)",
            name => name,
        }
    }

    /// The bytes of a leaf, as `4-5`.
    fn bytes(&self, leaf: usize) -> String {
        let leaf = &self.bits.leaves()[leaf];
        match leaf.size {
            1 => leaf.at.to_string(),
            size => format!("{}-{}", leaf.at, leaf.at + size - 1),
        }
    }
}

/// What a letter says.
fn meaning(sort: Bit) -> &'static str {
    match sort {
        Bit::Significant => "significant in a matched leaf, can show in the result",
        Bit::Pad => "pad of a matched leaf",
        Bit::Unmatched => "in a leaf that is not matched",
        Bit::Gap => "gap, in no leaf",
    }
}

fn many(n: usize, what: &str) -> String {
    format!("{n} {what}{}", if n == 1 { "" } else { "s" })
}
