//! Sheets as the generator holds them: the lines' fields, not yet text.

use crate::generate::place;
use crate::random::Random;
use independent::datatype::{Atomic, Order, Pad, Word};
use independent::number;

pub type Name = Vec<u8>;

pub const REAL_BYTES: u64 = 8;

#[derive(Clone)]
pub enum Line {
    Int(Atomic),
    Bits(Atomic),
    Real(Order),
    Enum {
        base: usize,
        values: Vec<(Name, i128)>,
    },
    Comp {
        size: u64,
        members: Vec<Row>,
    },
    Array {
        base: usize,
        dimensions: Vec<u64>,
    },
}

/// A member line. Its word is chosen when the text is written.
#[derive(Clone)]
pub struct Row {
    pub name: Name,
    pub at: u64,
    pub datatype: usize,
}

#[derive(Clone, Default)]
pub struct Model {
    pub types: Vec<Line>,
}

impl Model {
    pub fn push(&mut self, line: Line) -> usize {
        self.types.push(line);
        self.types.len() - 1
    }

    /// Puts a type straight before the last one, which no other type uses; its
    /// number.
    pub fn insert(&mut self, line: Line) -> usize {
        let last = self.types.pop().expect("a sheet has a type");
        let own = self.push(line);
        self.types.push(last);
        own
    }

    /// Whether the last type is a compound with such a member.
    pub fn has_member(&self, name: &[u8]) -> bool {
        match self.types.last() {
            Some(Line::Comp { members, .. }) => members.iter().any(|row| row.name == name),
            _ => false,
        }
    }

    /// Adds a member to the last type, a compound, and places all of them anew.
    pub fn add_member(&mut self, random: &mut Random, row: Row) {
        let Some(Line::Comp { members, .. }) = self.types.last() else {
            unreachable!("the last type is a compound");
        };
        let mut members = members.clone();
        members.push(row);
        let size = place(random, self, &mut members, 400);
        self.types.pop();
        self.types.push(Line::Comp { size, members });
    }

    /// In bytes. Saturates where the sheet is not valid.
    pub fn size(&self, datatype: usize) -> u64 {
        match &self.types[datatype] {
            Line::Int(layout) | Line::Bits(layout) => layout.size,
            Line::Real(_) => REAL_BYTES,
            Line::Enum { base, .. } => self.size(*base),
            Line::Comp { size, .. } => *size,
            Line::Array { base, dimensions } => dimensions
                .iter()
                .fold(self.size(*base), |size, d| size.saturating_mul(*d)),
        }
    }

    /// Value and member lines.
    pub fn rows(&self) -> usize {
        let rows = |line: &Line| match line {
            Line::Enum { values, .. } => values.len(),
            Line::Comp { members, .. } => members.len(),
            _ => 0,
        };
        self.types.iter().map(rows).sum()
    }

    /// The range of an enum's numbers.
    pub fn range(&self, base: usize) -> (i128, i128) {
        match &self.types[base] {
            Line::Int(layout) => number::range(layout),
            _ => unreachable!("an enum's base is an int"),
        }
    }

    /// Types with a lower number than `user` that pass a test.
    pub fn earlier(&self, user: usize, fits: impl Fn(&Line, u64) -> bool) -> Vec<usize> {
        (0..user)
            .filter(|&i| fits(&self.types[i], self.size(i)))
            .collect()
    }

    /// The text without a word.
    pub fn text(&self) -> Vec<u8> {
        self.worded(|| None)
    }

    /// The text with the word that `word` gives for each member.
    pub fn worded(&self, mut word: impl FnMut() -> Option<Word>) -> Vec<u8> {
        let mut text = Vec::new();
        for line in &self.types {
            write_type(&mut text, line, &mut word);
        }
        text
    }
}

fn write_type(text: &mut Vec<u8>, line: &Line, word: &mut impl FnMut() -> Option<Word>) {
    match line {
        Line::Int(layout) => {
            let sign = if layout.signed { "signed" } else { "unsigned" };
            put(text, &format!("int\t{}\t{sign}\n", atomic(layout)));
        }
        Line::Bits(layout) => put(text, &format!("bits\t{}\n", atomic(layout))),
        Line::Real(order) => put(
            text,
            &format!("real\t{REAL_BYTES}\t{}\n", order_word(*order)),
        ),
        Line::Enum { base, values } => {
            put(text, &format!("enum\t{base}\n"));
            for (name, number) in values {
                put(text, "value\t");
                text.extend(name);
                put(text, &format!("\t{number}\n"));
            }
        }
        Line::Comp { size, members } => {
            put(text, &format!("comp\t{size}\n"));
            for row in members {
                put(text, "member\t");
                text.extend(&row.name);
                let word = match word() {
                    None => "",
                    Some(Word::Clamp) => "\tclamp",
                    Some(Word::Stop) => "\tstop",
                };
                put(text, &format!("\t{}\t{}{word}\n", row.at, row.datatype));
            }
        }
        Line::Array { base, dimensions } => {
            put(text, &format!("array\t{base}"));
            for dimension in dimensions {
                put(text, &format!("\t{dimension}"));
            }
            put(text, "\n");
        }
    }
}

fn put(text: &mut Vec<u8>, words: &str) {
    text.extend(words.as_bytes());
}

fn order_word(order: Order) -> &'static str {
    match order {
        Order::LittleEndian => "LE",
        Order::BigEndian => "BE",
    }
}

fn atomic(layout: &Atomic) -> String {
    let pad = |pad| match pad {
        Pad::Zero => "zero",
        Pad::One => "one",
        Pad::Keep => "keep",
    };
    format!(
        "{}\t{}\t{}\t{}\t{}\t{}",
        layout.size,
        order_word(layout.order),
        layout.offset,
        layout.precision,
        pad(layout.lsb),
        pad(layout.msb)
    )
}
