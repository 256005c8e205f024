//! The picture as text: eight bytes a row, their bits as letters, the leaves below them.
use super::{meaning, Picture};
use std::fmt::Write;
use std::ops::Range;
use yirvagul::Bit;

/// The columns of a byte with the blank that parts it from the next.
const STEP: usize = 9;

pub fn drawn(picture: &Picture, has_colours: bool) -> String {
    let mut text = String::new();
    for range in picture.rows() {
        row(&mut text, picture, range, has_colours);
        text.push('\n');
    }
    for sort in Bit::ALL {
        let bits = picture.bits.count(sort);
        let word = if bits == 1 { "bit" } else { "bits" };
        let letter = painted(&[sort], has_colours);
        let _ = writeln!(text, "{letter}  {bits:>5} {word:4}  {}", meaning(sort));
    }
    list(&mut text, picture);
    text
}

/// A row of bytes: their numbers, the record's, what their bits are, and the leaves.
fn row(text: &mut String, picture: &Picture, row: Range<usize>, has_colours: bool) {
    let cells = |cell: &dyn Fn(usize) -> String| {
        let cells: Vec<String> = row.clone().map(cell).collect();
        cells.join(" ")
    };
    line(text, "byte", &cells(&|byte| format!("{byte:8}")));
    if let Some(record) = &picture.record {
        let hex = |byte| format!("{:>8}", format!("{:02x}", record[byte]));
        line(text, "hex", &cells(&hex));
        line(
            text,
            "bits",
            &cells(&|byte| format!("{:08b}", record[byte])),
        );
    }
    let letters = |byte| {
        let sorts: [Bit; 8] = picture.sorts(byte);
        let runs = sorts.chunk_by(|a, b| a == b);
        runs.map(|run| painted(run, has_colours)).collect()
    };
    line(text, "", &cells(&letters));
    let parts = picture.leaves_in(row.clone());
    if parts.is_empty() {
        return;
    }
    let named = parts
        .iter()
        .map(|&(leaf, first, bytes)| (first - row.start, bytes, name(picture, leaf, bytes)));
    line(text, "leaf", &beside(named));
    let goes = parts.iter().filter_map(|&(leaf, first, bytes)| {
        let to = picture.bits.leaves()[leaf].destination?;
        let byte = format!("byte {to}");
        let said = match byte.len() < STEP * bytes {
            true => byte,
            false => to.to_string(),
        };
        Some((first - row.start, bytes, said))
    });
    line(text, "to", &beside(goes));
}

/// One line, without blanks at its end.
fn line(text: &mut String, word: &str, rest: &str) {
    let line = format!("{word:4} {rest}");
    text.push_str(line.trim_end());
    text.push('\n');
}

/// The letters of bits of one sort.
fn painted(run: &[Bit], has_colours: bool) -> String {
    let letters: String = run.iter().map(|sort| sort.letter()).collect();
    match has_colours {
        true => format!("\x1b[{}m{letters}\x1b[0m", colour(run[0])),
        false => letters,
    }
}

/// The leaf's name if it has room below so many bytes, else its number in the list.
fn name(picture: &Picture, leaf: usize, bytes: usize) -> String {
    let name = picture.name(leaf);
    if name.len() < STEP * bytes {
        name.into()
    } else {
        format!("#{}", leaf + 1)
    }
}

/// Texts below the bytes that they are about, each with a line to the last of them. The bytes are counted within the row.
fn beside(parts: impl Iterator<Item = (usize, usize, String)>) -> String {
    let mut line = String::new();
    for (first, bytes, said) in parts {
        let (start, end) = (STEP * first, STEP * (first + bytes) - 1);
        while line.len() < start {
            line.push(' ');
        }
        line.push_str(&said);
        if line.len() + 1 < end {
            line.push(' ');
            line.extend(std::iter::repeat_n('-', end - line.len()));
        }
    }
    line
}

/// The leaves, a line each.
fn list(text: &mut String, picture: &Picture) {
    let leaves = picture.bits.leaves();
    if leaves.is_empty() {
        return;
    }
    let goes = |leaf: usize| match leaves[leaf].destination {
        Some(to) => format!("{}, byte {to}", picture.name(leaf)),
        None => "-".into(),
    };
    let lines = (0..leaves.len()).map(|leaf| {
        [
            format!("#{}", leaf + 1),
            picture.bytes(leaf),
            picture.name(leaf).into(),
            goes(leaf),
        ]
    });
    let header = ["leaf", "bytes", "name", "goes to"].map(String::from);
    let lines: Vec<[String; 4]> = std::iter::once(header).chain(lines).collect();
    let width = |column: usize| lines.iter().map(|l| l[column].len()).max().unwrap_or(0);
    let widths = [width(0), width(1), width(2)];
    text.push('\n');
    for [number, bytes, name, goes] in &lines {
        let [a, b, c] = widths;
        let _ = writeln!(text, "{number:a$}  {bytes:b$}  {name:c$}  {goes}");
    }
}

/// The codes of a terminal.
fn colour(sort: Bit) -> &'static str {
    match sort {
        Bit::Significant => "1;97;44",
        Bit::Pad => "30;43",
        Bit::Unmatched => "30;47",
        Bit::Gap => "2",
    }
}
