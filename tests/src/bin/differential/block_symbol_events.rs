//! Notes which enums conversions in blocks have met.

use crate::block_enums::CLOSE;
use crate::blocks::{FEWEST, Unit};
use crate::run::Run;
use independent::call::part;
use independent::datatype::{Atomic, Datatype, Pad, Value};
use independent::number;
use independent::paths::Match;

/// What every form must have met.
const EACH: [&str; 15] = [
    "enums that span just 512",
    "enums that span 513",
    "2 symbols far apart",
    "40 symbols far apart",
    "enums far apart, with offset and pads",
    "an enum into pads",
    "an enum into kept pads",
    "2 pairs of enums",
    "3 pairs of enums",
    "4 pairs of enums",
    "5 pairs of enums",
    "6 pairs of enums",
    "a pair of enums in several members",
    "an array of enums that fills the record",
    "pairs that lie close and pairs far apart",
];

/// What every form must have met of exceptions: a plain one by words.
pub const CLAMPING: [&str; 3] = [
    "a number without a symbol past the first, close",
    "a number without a symbol past the first, far apart",
    "a source enum without values",
];

/// What every form must have met of STOP.
pub const STOPPING: [&str; 5] = [
    "STOP without a symbol in a later one, close",
    "STOP without a symbol in a later one, far apart",
    "STOP among 2 to 4 pairs of enums",
    "STOP among 5 or 6 pairs of enums",
    "STOP at an enum without values",
];

/// What every form must have met.
pub fn each() -> Vec<String> {
    let mut each: Vec<String> = EACH.iter().map(|event| event.to_string()).collect();
    for size in [1, 2, 4, 8] {
        for signed in [false, true] {
            each.push(from_bytes("enums that lie close", size, signed));
            each.push(from_bytes("enums by halves", size, signed));
        }
    }
    each
}

fn from_bytes(event: &str, size: u64, signed: bool) -> String {
    let sign = if signed { "signed" } else { "unsigned" };
    format!("{event}, from {size} bytes, {sign}")
}

/// A matched pair of enums.
struct Pair<'a> {
    leaf: &'a Match<'a>,
    from: &'a Atomic,
    to: &'a Atomic,
    values: &'a [Value],
}

impl Pair<'_> {
    /// How many significant bits lie between those of the symbols, both ends
    /// included.
    fn span(&self) -> i128 {
        let bits = |value: &Value| value.number & ((1 << self.from.precision) - 1);
        let bits = self.values.iter().map(bits);
        let ends = (bits.clone().min(), bits.max());
        match ends {
            (Some(least), Some(most)) => most - least + 1,
            _ => 0,
        }
    }

    fn is_close(&self) -> bool {
        let words = self.from.precision <= 32 && self.to.precision <= 32;
        !self.values.is_empty() && self.span() <= CLOSE && words
    }

    /// Wide, or of one byte and into more than a table's word has.
    fn is_far(&self) -> bool {
        let several = self.values.len() > 1;
        self.span() > CLOSE || (several && self.from.size == 1 && self.to.precision > 32)
    }

    fn is_of(&self, other: &Pair) -> bool {
        std::ptr::eq(self.leaf.from.datatype, other.leaf.from.datatype)
            && std::ptr::eq(self.leaf.to.datatype, other.leaf.to.datatype)
    }
}

fn pair<'a>(leaf: &'a Match<'a>) -> Option<Pair<'a>> {
    match (leaf.from.datatype, leaf.to.datatype) {
        (Datatype::Enum { base, values }, Datatype::Enum { base: to, .. }) => Some(Pair {
            leaf,
            from: base,
            to,
            values,
        }),
        _ => None,
    }
}

/// One of each pair of types.
fn different<'a, 'b>(pairs: &'b [Pair<'a>]) -> Vec<&'b Pair<'a>> {
    let mut found: Vec<&Pair> = Vec::new();
    for pair in pairs {
        if !found.iter().any(|other| other.is_of(pair)) {
            found.push(pair);
        }
    }
    found
}

fn spare(layout: &Atomic) -> (u64, u64) {
    let above = 8 * layout.size - layout.offset - layout.precision;
    (layout.offset, above)
}

fn keeps(layout: &Atomic) -> bool {
    let (below, above) = spare(layout);
    (below > 0 && layout.lsb == Pad::Keep) || (above > 0 && layout.msb == Pad::Keep)
}

/// Notes a run that is done.
pub fn note_done(
    saw: &mut impl FnMut(bool, &str),
    run: &Run,
    (from, to): (&Datatype, &Datatype),
    matches: &[Match],
) {
    let pairs: Vec<Pair> = matches.iter().filter_map(pair).collect();
    let different = different(&pairs);
    let element = Unit::smallest(from, to);
    let in_block = run.count >= FEWEST || element.each >= 4 * FEWEST;
    if pairs.is_empty() || !in_block {
        return;
    }
    let number = different.len();
    saw(
        (2..=6).contains(&number),
        &format!("{number} pairs of enums"),
    );
    if number > 4 {
        return;
    }
    let is = |test: &dyn Fn(&Pair) -> bool| different.iter().any(|pair| test(pair));
    for size in [1, 2, 4, 8] {
        for signed in [false, true] {
            let such = |pair: &Pair| pair.from.size == size && pair.from.signed == signed;
            let close = is(&|pair| (1..=CLOSE).contains(&pair.span()) && such(pair));
            saw(close, &from_bytes("enums that lie close", size, signed));
            let far = is(&|pair| pair.is_far() && such(pair));
            saw(far, &from_bytes("enums by halves", size, signed));
        }
    }
    let span = |span| is(&|pair| pair.span() == span);
    saw(span(CLOSE), "enums that span just 512");
    saw(span(CLOSE + 1), "enums that span 513");
    let symbols = |number| is(&|pair| pair.span() > CLOSE && pair.values.len() == number);
    saw(symbols(2), "2 symbols far apart");
    saw(symbols(40), "40 symbols far apart");
    let padded = |layout: &Atomic| spare(layout).0 > 0 && spare(layout).1 > 0;
    saw(
        is(&|pair| pair.is_far() && padded(pair.from)),
        "enums far apart, with offset and pads",
    );
    let has_pads = is(&|pair| spare(pair.to) != (0, 0) && !keeps(pair.to));
    saw(has_pads, "an enum into pads");
    saw(is(&|pair| keeps(pair.to)), "an enum into kept pads");
    let again = element.each == 1 && pairs.len() > number;
    saw(again, "a pair of enums in several members");
    let fills = element.each > 1 && matches!(element.to, Datatype::Enum { .. });
    saw(fills, "an array of enums that fills the record");
    saw(
        is(&|pair| pair.values.is_empty()),
        "a source enum without values",
    );
    saw(
        is(&|pair| pair.is_close()) && is(&|pair| pair.is_far()),
        "pairs that lie close and pairs far apart",
    );
    let block = Unit::record(from, to).block(run.form);
    let lacks = |pair: &Pair, record: u64| {
        let bytes = &part(&run.first, record, from.size())[pair.leaf.from.at as usize..];
        let found = number::read(pair.from, bytes);
        pair.values.iter().all(|value| value.number != found)
    };
    let later = |test: fn(&Pair) -> bool| {
        let past = |pair: &Pair| (block..run.count).any(|record| lacks(pair, record));
        pairs.iter().any(|pair| test(pair) && past(pair))
    };
    saw(
        later(|pair| pair.is_close()),
        "a number without a symbol past the first, close",
    );
    saw(
        later(|pair| pair.is_far()),
        "a number without a symbol past the first, far apart",
    );
}

/// Notes where a run stopped, if at an enum.
pub fn note_stop(
    saw: &mut impl FnMut(bool, &str),
    (record, at): (u64, u64),
    (from, to): (&Datatype, &Datatype),
    matches: &[Match],
) {
    let pairs: Vec<Pair> = matches.iter().filter_map(pair).collect();
    let Some(found) = pairs.iter().find(|pair| pair.leaf.to.at == at) else {
        return;
    };
    let later = record >= Unit::record(from, to).searched();
    let number = different(&pairs).len();
    if number <= 4 {
        saw(
            later && found.is_close(),
            "STOP without a symbol in a later one, close",
        );
        saw(
            later && found.is_far(),
            "STOP without a symbol in a later one, far apart",
        );
    }
    let past = record >= FEWEST;
    let some = (2..=4).contains(&number);
    saw(past && some, "STOP among 2 to 4 pairs of enums");
    saw(past && number > 4, "STOP among 5 or 6 pairs of enums");
    saw(found.values.is_empty(), "STOP at an enum without values");
}
