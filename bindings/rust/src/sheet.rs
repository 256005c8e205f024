//! This crate's own reading of sheets. It explains what the library refused: the rule that a line breaks, where two types have no path, which symbol a
//! destination lacks, which leaf stands at a byte and whose word it obeys, which is too wide for a report. The library alone decides; where this reading comes to
//! another place than the library, it explains nothing. It also says which numbers of two compared logs are the bits of a real, since the library's list does not.
use crate::Handling;
use std::rc::Rc;

const MOST_BYTES: usize = 16_384;
const MOST_TYPES: usize = 64;
const MOST_ROWS: usize = 256;
const MOST_RECORD_BYTES: u32 = 4096;
const MOST_CHANNEL_BITS: u32 = 32;
const REAL_BYTES: u32 = 8;

/// A datatype as a tree.
#[derive(Debug)]
pub(crate) struct Type {
    /// In bytes.
    pub size: u32,
    pub class: Class,
}

#[derive(Debug)]
pub(crate) enum Class {
    Int {
        precision: u32,
        lowest: i128,
        highest: i128,
    },
    Bits,
    Real,
    Enum {
        lowest: i128,
        highest: i128,
        values: Vec<Value>,
    },
    Comp {
        members: Vec<Member>,
    },
    Array {
        base: Rc<Type>,
        dimensions: Vec<u32>,
    },
}

#[derive(Debug)]
pub(crate) struct Value {
    name: Vec<u8>,
    number: i128,
    line: u32,
}

#[derive(Debug)]
pub(crate) struct Member {
    pub name: Vec<u8>,
    pub at: u32,
    pub of: Rc<Type>,
    /// The handling that its line ends in, if it has that word.
    word: Option<Handling>,
    line: u32,
}

/// The first faulty line, from 1 (0: the whole sheet), and the rule that it breaks, with what to do.
#[derive(Debug, PartialEq)]
pub(crate) struct Fault {
    pub line: u32,
    pub rule: String,
}

/// The sheet's type.
pub(crate) fn read(sheet: &[u8]) -> Result<Rc<Type>, Fault> {
    let fault = |line, rule: &str| Fault {
        line,
        rule: rule.into(),
    };
    if sheet.len() > MOST_BYTES {
        return Err(fault(
            0,
            "it is longer than 16,384 bytes: shorten its names, or drop types that nothing uses",
        ));
    }
    let mut so_far = SoFar::default();
    for (line, text) in (1..).zip(sheet.split_inclusive(|&byte| byte == 10)) {
        so_far.line = line;
        let Some((10, text)) = text.split_last() else {
            return Err(fault(
                line,
                "it does not end in byte 10: end the last line with a newline too",
            ));
        };
        so_far.take(text).map_err(|rule| Fault { line, rule })?;
    }
    let last = so_far.types.pop();
    last.ok_or_else(|| fault(1, "the sheet is empty: it has at least one type"))
}

/// The bytes of a line, from 1, without its end.
pub(crate) fn line(sheet: &[u8], number: u32) -> Option<&[u8]> {
    let before = (number as usize).checked_sub(1)?;
    let line = sheet.split_inclusive(|&byte| byte == 10).nth(before)?;
    Some(line.strip_suffix(b"\n").unwrap_or(line))
}

/// Bytes of a sheet as they are shown: tabs and all that a terminal does not print are escaped, and a long text is cut.
pub(crate) fn shown(bytes: &[u8]) -> String {
    const MOST: usize = 80;
    let mut text = String::new();
    for &byte in bytes.iter().take(MOST) {
        match byte {
            b'\\' => text.push_str("\\\\"),
            32..=126 => text.push(byte as char),
            _ => text.push_str(&byte.escape_ascii().to_string()),
        }
    }
    if bytes.len() > MOST {
        text.push_str("..");
    }
    text
}

// ---- reading

/// What the lines so far have said.
#[derive(Default)]
struct SoFar {
    line: u32,
    types: Vec<Rc<Type>>,
    rows: usize,
}

/// The columns of a line, by its first word.
fn columns(word: &[u8]) -> Option<&'static [&'static str]> {
    Some(match word {
        b"int" => &[
            "int",
            "size",
            "order",
            "offset",
            "precision",
            "lsb",
            "msb",
            "sign",
        ],
        b"bits" => &["bits", "size", "order", "offset", "precision", "lsb", "msb"],
        b"real" => &["real", "size", "order"],
        b"enum" => &["enum", "base"],
        b"value" => &["value", "name", "number"],
        b"comp" => &["comp", "size"],
        b"member" => &["member", "name", "byte offset", "type", "word"],
        b"array" => &["array", "base", "d1", "d2", "d3", "d4"],
        _ => return None,
    })
}

impl SoFar {
    /// Takes one line in, or says the rule that it breaks.
    fn take(&mut self, line: &[u8]) -> Result<(), String> {
        ends_cleanly(line)?;
        let fields: Vec<&[u8]> = line.split(|&byte| byte == b'\t').collect();
        let Some(columns) = columns(fields[0]) else {
            return Err(no_such_line(fields[0]));
        };
        has_its_fields(&fields, columns)?;
        match fields[0] {
            b"value" => return self.value(&fields),
            b"member" => return self.member(&fields),
            _ => {}
        }
        if self.types.len() == MOST_TYPES {
            return Err("it is the 65th type: a sheet has at most 64".into());
        }
        let new = match fields[0] {
            b"real" => real(&fields)?,
            b"enum" => self.enumeration(&fields)?,
            b"comp" => compound(&fields)?,
            b"array" => self.array(&fields)?,
            _ => atomic(&fields)?,
        };
        self.types.push(Rc::new(new));
        Ok(())
    }

    fn enumeration(&self, fields: &[&[u8]]) -> Result<Type, String> {
        let base = self.older("base", fields[1])?;
        let Class::Int {
            lowest, highest, ..
        } = base.class
        else {
            return Err(format!(
                "type {} is {}: an enum's base is an int",
                shown(fields[1]),
                base.class.word()
            ));
        };
        Ok(Type {
            size: base.size,
            class: Class::Enum {
                lowest,
                highest,
                values: Vec::new(),
            },
        })
    }

    fn array(&self, fields: &[&[u8]]) -> Result<Type, String> {
        let base = self.older("base", fields[1])?.clone();
        let mut dimensions = Vec::new();
        let mut size = u64::from(base.size);
        for (i, field) in (1..).zip(&fields[2..]) {
            let dimension = number(&format!("dimension {i}"), field)?;
            if dimension == 0 {
                return Err(format!("dimension {i} is 0: each is at least 1"));
            }
            dimensions.push(dimension);
            size = size.saturating_mul(u64::from(dimension));
        }
        if size > u64::from(MOST_RECORD_BYTES) {
            let by: Vec<String> = dimensions.iter().map(u32::to_string).collect();
            return Err(format!(
                "{} elements of {} pass 4,096 bytes: make a dimension smaller",
                by.join(" x "),
                bytes(base.size)
            ));
        }
        Ok(Type {
            size: size as u32,
            class: Class::Array { base, dimensions },
        })
    }

    /// A type that an enum or an array line names: one of those before the line.
    fn older(&self, column: &str, field: &[u8]) -> Result<&Rc<Type>, String> {
        let number = number(column, field)?;
        self.types
            .get(number as usize)
            .ok_or_else(|| match self.types.len() {
                0 => format!("there is no type {number}: no type stands before this line"),
                1 => format!("there is no type {number} yet: the only type before this line is 0"),
                n => format!(
                    "there is no type {number} yet: the types before this line are 0 to {}",
                    n - 1
                ),
            })
    }

    fn value(&mut self, fields: &[&[u8]]) -> Result<(), String> {
        let line = self.line;
        let name = name(fields[1])?;
        let newest = self.row("a value line follows an enum or its values")?;
        let Class::Enum {
            lowest,
            highest,
            values,
        } = newest
        else {
            return Err(format!(
                "a value line follows an enum or its values, and the type before it is {}",
                newest.word()
            ));
        };
        let number = signed(fields[2], *lowest, *highest)?;
        for other in values.iter() {
            if other.name == name {
                return Err(format!(
                    "the name `{}` stands on line {} already: give each value of an enum its own",
                    shown(&name),
                    other.line
                ));
            }
            if other.number == number {
                return Err(format!(
                    "the number {number} stands on line {} already, for `{}`: give each value of an enum its own",
                    other.line,
                    shown(&other.name)
                ));
            }
        }
        values.push(Value { name, number, line });
        Ok(())
    }

    fn member(&mut self, fields: &[&[u8]]) -> Result<(), String> {
        let line = self.line;
        let name = name(fields[1])?;
        let at = number("byte offset", fields[2])?;
        let number = number("type", fields[3])?;
        let word = fields.get(4).map(|field| handling(field)).transpose()?;
        let own = self.types.len().saturating_sub(1);
        let of = self.types[..own].get(number as usize).cloned();
        let size = self.types.last().map_or(0, |newest| newest.size);
        let newest = self.row("a member line follows a compound or its members")?;
        let Class::Comp { members } = newest else {
            return Err(format!(
                "a member line follows a compound or its members, and the type before it is {}",
                newest.word()
            ));
        };
        let of = of.ok_or_else(|| {
            format!("type {number} does not stand before the compound, which is type {own}: a member's type has a lower number")
        })?;
        let (first, last) = (u64::from(at), u64::from(at) + u64::from(of.size) - 1);
        if last >= u64::from(size) {
            return Err(format!(
                "it takes {}, and the compound has {}: move it, or make the compound larger",
                span(first, last),
                bytes(size)
            ));
        }
        for other in members.iter() {
            if other.name == name {
                return Err(format!(
                    "the name `{}` stands on line {} already: give each member of a compound its own",
                    shown(&name),
                    other.line
                ));
            }
            let (start, end) = (
                u64::from(other.at),
                u64::from(other.at) + u64::from(other.of.size) - 1,
            );
            if first <= end && start <= last {
                return Err(format!(
                    "it takes {}, and `{}` on line {} has {}: members do not overlap",
                    span(first, last),
                    shown(&other.name),
                    other.line,
                    span(start, end)
                ));
            }
        }
        members.push(Member {
            name,
            at,
            of,
            word,
            line,
        });
        Ok(())
    }

    /// The newest type, for one more value or member line.
    fn row(&mut self, follows: &str) -> Result<&mut Class, String> {
        if self.rows == MOST_ROWS {
            return Err(
                "it is the 257th value or member line: a sheet has at most 256 of them".into(),
            );
        }
        self.rows += 1;
        let newest = self.types.last_mut().and_then(Rc::get_mut);
        let newest = newest.ok_or_else(|| format!("{follows}, and no type stands before it"))?;
        Ok(&mut newest.class)
    }
}

/// What editors and other systems leave at a line's end.
fn ends_cleanly(line: &[u8]) -> Result<(), String> {
    Err(match line.last() {
        None => "the line is empty: drop it",
        Some(b'\r') => "it ends in a carriage return (byte 13): end each line with byte 10 alone",
        Some(b' ') => "it ends in a blank: drop it",
        Some(b'\t') => "it ends in a tab: drop it, or write the field that is missing",
        _ => return Ok(()),
    }
    .into())
}

fn no_such_line(word: &[u8]) -> String {
    let small = word.to_ascii_lowercase();
    let said = shown(word);
    if word.is_empty() {
        "it starts with a tab: start it with its first word".into()
    } else if columns(&small).is_some() {
        format!("its first word is `{said}`: write it in small letters")
    } else if word.contains(&b' ') {
        "its fields are parted by blanks: part them by one tab each".into()
    } else {
        format!(
            "its first word is `{said}`: write int, bits, real, enum, value, comp, member or array"
        )
    }
}

/// An array may leave out all dimensions but the first, a member its word.
fn has_its_fields(fields: &[&[u8]], columns: &[&str]) -> Result<(), String> {
    if fields.iter().any(|field| field.is_empty()) {
        return Err("two tabs stand together: part fields by one, and leave none empty".into());
    }
    let (word, has) = (columns[0], fields.len());
    if word == "array" {
        return match has {
            1 => Err(
                "it has no base: write the number of a type, then one to four dimensions".into(),
            ),
            2 => Err("it has no dimension: an array has one to four".into()),
            3..=6 => Ok(()),
            _ => Err(format!(
                "it has {} dimensions: an array has one to four",
                has - 2
            )),
        };
    }
    if has == columns.len() || (word == "member" && has + 1 == columns.len()) {
        return Ok(());
    }
    let hint = match word {
        "bits" if has == 8 => " (bits have no sign)",
        "real" if has > 3 => " (a real has no offset, precision, pads or sign)",
        "member" => " (the word is clamp or stop, or left out)",
        _ => "",
    };
    Err(format!(
        "it has {has} field{}, and a line of this sort {}{}: {}{hint}",
        if has == 1 { "" } else { "s" },
        if word == "member" { "4 or " } else { "" },
        columns.len(),
        columns.join(", ")
    ))
}

fn atomic(fields: &[&[u8]]) -> Result<Type, String> {
    let size = number("size", fields[1])?;
    word("order", fields[2], &["LE", "BE"])?;
    let offset = number("offset", fields[3])?;
    let precision = number("precision", fields[4])?;
    word("lsb pad", fields[5], &["zero", "one", "keep"])?;
    word("msb pad", fields[6], &["zero", "one", "keep"])?;
    let is_signed = match fields.get(7) {
        Some(sign) => Some(word("sign", sign, &["signed", "unsigned"])? == 0),
        None => None,
    };
    if !(1..=8).contains(&size) {
        return Err(format!("the size is {size}: it is 1 to 8 bytes"));
    }
    if !(1..=64).contains(&precision) {
        return Err(format!("the precision is {precision}: it is 1 to 64 bits"));
    }
    let (end, room) = (u64::from(offset) + u64::from(precision), 8 * size);
    if end > u64::from(room) {
        return Err(format!(
            "offset {offset} and precision {precision} make {end} bits, above the {room} of {}: make the size larger, or one of them smaller",
            bytes(size)
        ));
    }
    let class = match is_signed {
        None => Class::Bits,
        Some(false) => Class::Int {
            precision,
            lowest: 0,
            highest: (1 << precision) - 1,
        },
        Some(true) => Class::Int {
            precision,
            lowest: -(1 << (precision - 1)),
            highest: (1 << (precision - 1)) - 1,
        },
    };
    Ok(Type { size, class })
}

fn real(fields: &[&[u8]]) -> Result<Type, String> {
    let size = number("size", fields[1])?;
    word("order", fields[2], &["LE", "BE"])?;
    if size != REAL_BYTES {
        return Err(format!("the size is {size}: a real has 8 bytes"));
    }
    Ok(Type {
        size,
        class: Class::Real,
    })
}

fn compound(fields: &[&[u8]]) -> Result<Type, String> {
    let size = number("size", fields[1])?;
    if !(1..=MOST_RECORD_BYTES).contains(&size) {
        return Err(format!(
            "the size is {size}: a compound has 1 to 4,096 bytes"
        ));
    }
    Ok(Type {
        size,
        class: Class::Comp {
            members: Vec::new(),
        },
    })
}

/// One of a column's words, by its place among them.
fn word(column: &str, field: &[u8], words: &[&str]) -> Result<usize, String> {
    let found = words.iter().position(|word| word.as_bytes() == field);
    found.ok_or_else(|| {
        let (last, others) = words.split_last().expect("a column has words");
        format!(
            "the {column} is `{}`: write {} or {last}",
            shown(field),
            others.join(", ")
        )
    })
}

/// The word at the end of a member line.
fn handling(field: &[u8]) -> Result<Handling, String> {
    let found = word("last field", field, &["clamp", "stop"]);
    match found.map_err(|rule| rule + ", or leave it out")? {
        0 => Ok(Handling::Clamp),
        _ => Ok(Handling::Stop),
    }
}

fn name(field: &[u8]) -> Result<Vec<u8>, String> {
    let said = shown(field);
    if field.len() > 31 {
        return Err(format!(
            "the name `{said}` has {} bytes: a name has 1 to 31",
            field.len()
        ));
    }
    match field.iter().find(|byte| !(33..=126).contains(*byte)) {
        Some(byte) => Err(format!(
            "the name `{said}` has byte {byte}: a name's bytes are 33 to 126"
        )),
        None => Ok(field.to_vec()),
    }
}

/// Whether a text is digits without leading zeros; if not, why.
fn digits(column: &str, field: &[u8], digits: &[u8]) -> Result<(), String> {
    let said = shown(field);
    if digits.is_empty() || !digits.iter().all(u8::is_ascii_digit) {
        return Err(format!(
            "the {column} `{said}` is no number: write decimal digits alone"
        ));
    }
    if digits.len() > 1 && digits[0] == b'0' {
        return Err(format!(
            "the {column} `{said}` has a leading zero: write it without"
        ));
    }
    Ok(())
}

fn number(column: &str, field: &[u8]) -> Result<u32, String> {
    if let [b'+' | b'-', ..] = field {
        return Err(format!(
            "the {column} `{}` has a sign: write decimal digits alone",
            shown(field)
        ));
    }
    digits(column, field, field)?;
    let number = std::str::from_utf8(field).ok().and_then(|f| f.parse().ok());
    number.ok_or_else(|| {
        format!(
            "the {column} {} is above 4,294,967,295, the largest number of a sheet",
            shown(field)
        )
    })
}

/// The number of an enum's value.
fn signed(field: &[u8], lowest: i128, highest: i128) -> Result<i128, String> {
    let said = shown(field);
    match field {
        [b'+', ..] => {
            return Err(format!(
                "the number `{said}` has a plus: write decimal digits, with a minus before them where it is negative"
            ))
        }
        b"-0" => return Err("the number `-0` has a minus: write 0".into()),
        _ => digits("number", field, field.strip_prefix(b"-").unwrap_or(field))?,
    }
    let number = std::str::from_utf8(field).ok().and_then(|f| f.parse().ok());
    number
        .filter(|n| (lowest..=highest).contains(n))
        .ok_or_else(|| {
            format!(
                "the number {said} is outside the range of the enum's base, {lowest} to {highest}"
            )
        })
}

fn bytes(n: u32) -> String {
    format!("{n} byte{}", if n == 1 { "" } else { "s" })
}

fn span(first: u64, last: u64) -> String {
    if first == last {
        format!("byte {first}")
    } else {
        format!("bytes {first} to {last}")
    }
}

// ---- paths and names

impl Class {
    fn word(&self) -> &'static str {
        match self {
            Class::Int { .. } => "an int",
            Class::Bits => "bits",
            Class::Real => "a real",
            Class::Enum { .. } => "an enum",
            Class::Comp { .. } => "a compound",
            Class::Array { .. } => "an array",
        }
    }
}

/// A place where two types have no path: the member there (empty for the record itself), and why.
#[derive(Debug, PartialEq)]
pub(crate) struct NoPath {
    pub member: String,
    pub why: String,
}

/// What the two sheets are called, as `source` and `destination`.
type Names<'a> = (&'a str, &'a str);

/// The first place, in the order of the destination's members, at which there is no path.
pub(crate) fn no_path(source: &Type, destination: &Type, names: Names) -> Option<NoPath> {
    let mut way = String::new();
    let why = descend(source, destination, names, &mut way)?;
    Some(NoPath { member: way, why })
}

/// Goes down both types at once. Where there is no path, the way stays at that place.
fn descend(source: &Type, destination: &Type, names: Names, way: &mut String) -> Option<String> {
    let len = way.len();
    match (&source.class, &destination.class) {
        (Class::Int { .. } | Class::Real, Class::Int { .. } | Class::Real)
        | (Class::Bits, Class::Bits)
        | (Class::Enum { .. }, Class::Enum { .. }) => None,
        (Class::Comp { members: from }, Class::Comp { members }) => {
            for member in members {
                let Some(other) = from.iter().find(|other| other.name == member.name) else {
                    continue;
                };
                push_name(way, &member.name);
                if let Some(why) = descend(&other.of, &member.of, names, way) {
                    return Some(why);
                }
                way.truncate(len);
            }
            None
        }
        (
            Class::Array {
                base: from,
                dimensions: lengths,
            },
            Class::Array { base, dimensions },
        ) => {
            if lengths != dimensions {
                return Some(format!(
                    "is an array of {} in the {} and of {} in the {}: give both the same dimensions",
                    by(lengths),
                    names.0,
                    by(dimensions),
                    names.1
                ));
            }
            push_element(way, dimensions, 0);
            let why = descend(from, base, names, way);
            if why.is_none() {
                way.truncate(len);
            }
            why
        }
        (from, to) => Some(format!(
            "is {} in the {} and {} in the {}: give both the same class",
            from.word(),
            names.0,
            to.word(),
            names.1
        )),
    }
}

/// A symbol that a destination lacks: its name, and the member of the enums (empty for the record itself).
#[derive(Debug, PartialEq)]
pub(crate) struct LostSymbol {
    pub symbol: String,
    pub member: String,
}

/// The first one, in the order of the destination's bytes and then of the source's values.
pub(crate) fn lost_symbol(source: &Type, destination: &Type) -> Option<LostSymbol> {
    let mut way = String::new();
    let symbol = find_lost(source, destination, &mut way)?;
    Some(LostSymbol {
        symbol,
        member: way,
    })
}

/// Goes down both types at once. Where a symbol is lost, the way stays at that place. The elements of an array are all alike.
fn find_lost(source: &Type, destination: &Type, way: &mut String) -> Option<String> {
    let len = way.len();
    let found = match (&source.class, &destination.class) {
        (Class::Enum { values, .. }, Class::Enum { values: others, .. }) => {
            let lacks = |value: &&Value| others.iter().all(|other| other.name != value.name);
            return values.iter().find(lacks).map(|value| shown(&value.name));
        }
        (Class::Comp { members: from }, Class::Comp { members }) => {
            in_byte_order(members).into_iter().find_map(|member| {
                let other = from.iter().find(|other| other.name == member.name)?;
                way.truncate(len);
                push_name(way, &member.name);
                find_lost(&other.of, &member.of, way)
            })
        }
        (Class::Array { base: from, .. }, Class::Array { base, dimensions }) => {
            push_element(way, dimensions, 0);
            find_lost(from, base, way)
        }
        _ => None,
    };
    if found.is_none() {
        way.truncate(len);
    }
    found
}

fn in_byte_order(members: &[Member]) -> Vec<&Member> {
    let mut members: Vec<&Member> = members.iter().collect();
    members.sort_by_key(|member| member.at);
    members
}

/// The name of the leaf that starts at a byte, as `boost[1]`; empty where the record itself is the leaf.
pub(crate) fn leaf_at(record: &Type, at: u32) -> Option<String> {
    find_leaf(record, at).map(|leaf| leaf.name)
}

/// A leaf of a record, as of [`leaf_at`].
pub(crate) struct FoundLeaf {
    pub name: String,
    /// The word of the innermost member on its way that has one, and how much of the name is that member's.
    word: Option<(Handling, usize)>,
}

impl FoundLeaf {
    /// The member by whose word it obeys stop.
    pub fn stopped_by(&self) -> Option<&str> {
        match self.word {
            Some((Handling::Stop, len)) => Some(&self.name[..len]),
            _ => None,
        }
    }
}

pub(crate) fn find_leaf(record: &Type, at: u32) -> Option<FoundLeaf> {
    let (mut of, mut at, mut way, mut word) = (record, at, String::new(), None);
    loop {
        match &of.class {
            Class::Comp { members } => {
                let member = members
                    .iter()
                    .find(|m| (m.at..m.at + m.of.size).contains(&at))?;
                push_name(&mut way, &member.name);
                word = member.word.map(|said| (said, way.len())).or(word);
                at -= member.at;
                of = &member.of;
            }
            Class::Array { base, dimensions } => {
                let element = at / base.size;
                if element >= count(dimensions) {
                    return None;
                }
                push_element(&mut way, dimensions, element);
                at -= element * base.size;
                of = base;
            }
            _ => return (at == 0).then_some(FoundLeaf { name: way, word }),
        }
    }
}

/// Whether the leaf that starts at a byte of the second record is a real, and whether the leaf of the first record on the same way is one, that first.
pub(crate) fn are_reals(first: &Type, second: &Type, at: u32) -> Option<(bool, bool)> {
    let (mut first, mut second, mut at) = (first, second, at);
    loop {
        match (&first.class, &second.class) {
            (Class::Comp { members: others }, Class::Comp { members }) => {
                let member = members
                    .iter()
                    .find(|m| (m.at..m.at + m.of.size).contains(&at))?;
                first = &others.iter().find(|other| other.name == member.name)?.of;
                second = &member.of;
                at -= member.at;
            }
            (Class::Array { base: other, .. }, Class::Array { base, .. }) => {
                at %= base.size;
                (first, second) = (other, base);
            }
            (one, other) => {
                let is_real = |class: &Class| matches!(class, Class::Real);
                return (at == 0).then_some((is_real(one), is_real(other)));
            }
        }
    }
}

/// The first int leaf, in byte order, of more bits than a report takes: its name, as of [`leaf_at`], and its bits.
pub(crate) fn wide_int(record: &Type) -> Option<(String, u32)> {
    let mut at = 0;
    let precision = find_wide(record, &mut at)?;
    Some((leaf_at(record, at)?, precision))
}

/// Goes down to the leaf and adds up the bytes before it. The elements of an array are all alike.
fn find_wide(of: &Type, at: &mut u32) -> Option<u32> {
    match &of.class {
        Class::Int { precision, .. } => (*precision > MOST_CHANNEL_BITS).then_some(*precision),
        Class::Bits | Class::Real | Class::Enum { .. } => None,
        Class::Array { base, .. } => find_wide(base, at),
        Class::Comp { members } => {
            let start = *at;
            in_byte_order(members).into_iter().find_map(|member| {
                *at = start + member.at;
                find_wide(&member.of, at)
            })
        }
    }
}

/// Dimensions as a person says them.
fn by(dimensions: &[u32]) -> String {
    let words: Vec<String> = dimensions.iter().map(u32::to_string).collect();
    words.join(" by ")
}

/// An array has at most 4,096 bytes, and so as many elements.
pub(crate) fn count(dimensions: &[u32]) -> u32 {
    dimensions.iter().product()
}

pub(crate) fn push_name(way: &mut String, name: &[u8]) {
    if !way.is_empty() {
        way.push('.');
    }
    way.push_str(&shown(name));
}

/// The indices of an element, by its place in row-major order.
pub(crate) fn push_element(way: &mut String, dimensions: &[u32], element: u32) {
    let mut below = count(dimensions);
    for dimension in dimensions {
        below /= dimension;
        way.push_str(&format!("[{}]", element / below % dimension));
    }
}
