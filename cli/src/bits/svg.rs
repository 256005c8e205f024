//! The picture as an SVG, for a wall or a screen.
use super::{many, meaning, Picture, ROW};
use std::fmt::Write;
use std::ops::Range;
use yirvagul::Bit;

// Lengths in the picture's own units.
const MARGIN: usize = 48;
const CELL: usize = 26;
const CELL_HEIGHT: usize = 56;
const BYTE: usize = 8 * CELL;
const BETWEEN: usize = 20;
const LEAST_WIDTH: usize = 1100;
const LEGEND_STEP: usize = 58;

// Sizes of letters. One of the fixed-width fonts below takes six tenths of its size for each letter; a little more is reckoned with.
const TITLE: usize = 44;
const SUBTITLE: usize = 28;
const PLAIN: usize = 28;
const HEX: usize = 40;
const DIGIT: usize = 26;
const LETTER: usize = 34;
const NAME: usize = 24;
const NAME_STEP: usize = 30;

/// Lines of a leaf's name below its bytes, at most.
const NAME_LINES: usize = 3;

const STYLE: &str = "\
text{font-family:'DejaVu Sans Mono','Liberation Mono',Menlo,Consolas,'Courier New',monospace;fill:#111}
.m{text-anchor:middle}
.b{font-weight:bold}
.N{fill:#10305c}.p{fill:#ffc94d}.u{fill:#79808f}.g{fill:#fff}
rect.N,rect.p,rect.u,rect.g{stroke:#111;stroke-width:1.5}
text.N,text.u{fill:#fff}text.p{fill:#111}text.g{fill:#555}
.frame{fill:none;stroke:#111;stroke-width:4}
.leaf{fill:none;stroke:#111;stroke-width:4}
";

pub fn drawn(picture: &Picture) -> String {
    let bytes = picture.size().min(ROW);
    let drawing = bytes * (BYTE + BETWEEN) - BETWEEN;
    let width = drawing.max(LEAST_WIDTH);
    let mut canvas = Canvas {
        body: String::new(),
        y: MARGIN,
        width,
    };
    canvas.heading(picture);
    canvas.legend(picture);
    let mut cut = Vec::new();
    for row in picture.rows() {
        canvas.row(picture, row, &mut cut);
    }
    canvas.names(picture, &cut);
    let (width, height) = (width + 2 * MARGIN, canvas.y + MARGIN);
    let title = escaped(&heading(picture));
    format!(
        "<?xml version=\"1.0\" encoding=\"UTF-8\"?>\n\
         <svg xmlns=\"http://www.w3.org/2000/svg\" viewBox=\"0 0 {width} {height}\" role=\"img\">\n\
         <title>{title}</title>\n<style>\n{STYLE}</style>\n\
         <rect width=\"{width}\" height=\"{height}\" fill=\"#fff\"/>\n{}</svg>\n",
        canvas.body
    )
}

fn heading(picture: &Picture) -> String {
    format!("From {} to {}", picture.from, picture.to)
}

/// What is drawn so far, down to y; the width is that between the margins.
struct Canvas {
    body: String,
    y: usize,
    width: usize,
}

impl Canvas {
    fn text(&mut self, class: &str, x: usize, size: usize, text: &str) {
        let (y, text) = (self.y, escaped(text));
        let class = match class {
            "" => String::new(),
            _ => format!(" class=\"{class}\""),
        };
        let _ = writeln!(
            self.body,
            "<text{class} x=\"{x}\" y=\"{y}\" font-size=\"{size}\">{text}</text>"
        );
    }

    fn heading(&mut self, picture: &Picture) {
        let question = "Which bits of the source could have changed the result?";
        let size = TITLE.min(self.width * 10 / 6 / question.len());
        self.y += size;
        self.text("b", MARGIN, size, question);
        for line in wrapped(&heading(picture), fitting(self.width, SUBTITLE)) {
            self.y += SUBTITLE + SUBTITLE / 2;
            self.text("", MARGIN, SUBTITLE, &line);
        }
        self.y += SUBTITLE;
    }

    /// Each sort of bit, with its letter and how many there are.
    fn legend(&mut self, picture: &Picture) {
        for sort in Bit::ALL {
            self.cell(sort, MARGIN);
            self.y += CELL_HEIGHT * 2 / 3;
            let bits = many(picture.bits.count(sort), "bit");
            let said = format!("{bits}: {}", meaning(sort));
            self.text("", MARGIN + 2 * CELL, PLAIN, &said);
            self.y += LEGEND_STEP + 4 - CELL_HEIGHT * 2 / 3;
        }
        self.y += BETWEEN;
    }

    /// A bit's cell, with its letter, from y on.
    fn cell(&mut self, sort: Bit, x: usize) {
        let (y, letter) = (self.y, sort.letter());
        let _ = writeln!(
            self.body,
            "<rect class=\"{letter}\" x=\"{x}\" y=\"{y}\" width=\"{CELL}\" height=\"{CELL_HEIGHT}\"/>\
             <text class=\"m b {letter}\" x=\"{}\" y=\"{}\" font-size=\"{LETTER}\">{letter}</text>",
            x + CELL / 2,
            y + CELL_HEIGHT - 15,
        );
    }

    /// A row of bytes: their numbers, their bits, and the leaves below them. Notes the leaves whose names are cut.
    fn row(&mut self, picture: &Picture, row: Range<usize>, cut: &mut Vec<usize>) {
        let x = |byte: usize| MARGIN + (byte - row.start) * (BYTE + BETWEEN);
        self.y += PLAIN;
        for byte in row.clone() {
            self.text("m", x(byte) + BYTE / 2, PLAIN, &format!("byte {byte}"));
        }
        if let Some(record) = &picture.record {
            self.record(&record[row.clone()]);
        }
        self.y += 12;
        for byte in row.clone() {
            self.byte(picture.sorts(byte), x(byte));
        }
        self.y += CELL_HEIGHT;
        let top = self.y;
        for (leaf, first, bytes) in picture.leaves_in(row.clone()) {
            let span = bytes * (BYTE + BETWEEN) - BETWEEN;
            let bottom = self.leaf(picture, leaf, (x(first), top, span), cut);
            self.y = self.y.max(bottom);
        }
        self.y += 2 * BETWEEN;
    }

    /// The bytes of a record that stand in a row, in hex, and their bits.
    fn record(&mut self, bytes: &[u8]) {
        let x = |i: usize| MARGIN + i * (BYTE + BETWEEN);
        self.y += HEX + 8;
        for (i, byte) in bytes.iter().enumerate() {
            self.text("m b", x(i) + BYTE / 2, HEX, &format!("{byte:02x}"));
        }
        self.y += DIGIT + 14;
        for (i, byte) in bytes.iter().enumerate() {
            for (bit, digit) in format!("{byte:08b}").chars().enumerate() {
                let middle = x(i) + bit * CELL + CELL / 2;
                self.text("m", middle, DIGIT, &digit.to_string());
            }
        }
    }

    /// The cells of a byte, in a frame.
    fn byte(&mut self, sorts: [Bit; 8], x: usize) {
        for (i, sort) in sorts.into_iter().enumerate() {
            self.cell(sort, x + i * CELL);
        }
        let y = self.y;
        let _ = writeln!(
            self.body,
            "<rect class=\"frame\" x=\"{x}\" y=\"{y}\" width=\"{BYTE}\" height=\"{CELL_HEIGHT}\"/>"
        );
    }

    /// A bracket below a leaf's bytes, its name, and where it goes. Gives how far down that is.
    fn leaf(
        &mut self,
        picture: &Picture,
        leaf: usize,
        (x, top, span): (usize, usize, usize),
        cut: &mut Vec<usize>,
    ) -> usize {
        let _ = writeln!(
            self.body,
            "<path class=\"leaf\" d=\"M{} {} v14 H{} v-14\"/>",
            x + 3,
            top + 8,
            x + span - 3
        );
        let room = fitting(span, NAME);
        let mut lines = wrapped(picture.name(leaf), room);
        if lines.len() > NAME_LINES {
            lines.truncate(NAME_LINES);
            let number = format!("\u{2026}#{}", leaf + 1);
            let last = &mut lines[NAME_LINES - 1];
            *last = last.chars().take(room - number.chars().count()).collect();
            last.push_str(&number);
            if cut.last() != Some(&leaf) {
                cut.push(leaf);
            }
        }
        let (held, middle) = (self.y, x + span / 2);
        self.y = top + 22;
        for line in lines {
            self.y += NAME_STEP;
            self.text("m b", middle, NAME, &line);
        }
        self.y += NAME_STEP;
        let goes = match picture.bits.leaves()[leaf].destination {
            Some(to) => format!("\u{2192} byte {to}"),
            None => "not matched".into(),
        };
        self.text("m", middle, NAME, &goes);
        let bottom = self.y;
        self.y = held;
        bottom
    }

    /// What the arrows say, and the names that are cut.
    fn names(&mut self, picture: &Picture, cut: &[usize]) {
        let leaves = picture.bits.leaves();
        if leaves.iter().any(|leaf| leaf.destination.is_some()) {
            let said = "\u{2192} the byte of the destination record where the leaf of the same name starts";
            self.lines(said);
        }
        for &leaf in cut {
            let (name, bytes) = (picture.name(leaf), picture.bytes(leaf));
            let bytes = match leaves[leaf].size {
                1 => format!("byte {bytes}"),
                _ => format!("bytes {bytes}"),
            };
            let goes = match leaves[leaf].destination {
                Some(to) => format!(" \u{2192} byte {to}"),
                None => String::new(),
            };
            self.lines(&format!("#{} {name}, {bytes}{goes}", leaf + 1));
        }
    }

    /// A text from margin to margin.
    fn lines(&mut self, text: &str) {
        for line in wrapped(text, fitting(self.width, NAME)) {
            self.y += NAME_STEP;
            self.text("", MARGIN, NAME, &line);
        }
        self.y += NAME_STEP / 3;
    }
}

/// How many letters of a size have room.
fn fitting(width: usize, size: usize) -> usize {
    width * 100 / (size * 62)
}

/// The text in as few lines of at most so many letters, about as long as each other, parted behind a blank or a sign where one is near.
fn wrapped(text: &str, most: usize) -> Vec<String> {
    let mut lines = Vec::new();
    let mut rest: Vec<char> = text.chars().collect();
    while rest.len() > most {
        let left = rest.len().div_ceil(most);
        let even = rest.len().div_ceil(left);
        let least = rest.len() - (left - 1) * most;
        let is_near = |end: &usize| matches!(rest[end - 1], ' ' | '.' | ']' | '_' | '-');
        let ends = (least.max(even * 2 / 3)..=most).filter(is_near);
        let end = ends.min_by_key(|end| end.abs_diff(even)).unwrap_or(even);
        let others = rest.split_off(end);
        lines.push(rest.into_iter().collect::<String>().trim_end().into());
        rest = others;
    }
    lines.push(rest.into_iter().collect());
    lines
}

/// Text between tags, or in quotes. XML has no control characters.
fn escaped(text: &str) -> String {
    let mut safe = String::new();
    for letter in text.chars() {
        match letter {
            '&' => safe.push_str("&amp;"),
            '<' => safe.push_str("&lt;"),
            '>' => safe.push_str("&gt;"),
            '"' => safe.push_str("&quot;"),
            '\'' => safe.push_str("&apos;"),
            _ if letter.is_control() || matches!(letter, '\u{fffe}' | '\u{ffff}') => safe.push('?'),
            _ => safe.push(letter),
        }
    }
    safe
}
