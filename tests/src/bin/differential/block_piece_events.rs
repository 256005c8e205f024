//! Notes which leaves that stay as they are, and which equal parts of records,
//! conversions in blocks have met.

use crate::blocks::FEWEST;
use crate::run::{Run, Seen};
use crate::words;
use independent::datatype::{Atomic, Datatype, Order, Pad};
use independent::number;
use independent::paths::Match;

/// What every form must have met.
pub const EACH: [&str; 18] = [
    "a record that stays as it is",
    "an int, bits and a real that stay as they are",
    "an array that stays as it is",
    "a gap between members that stay",
    "a gap behind members that stay",
    "members that stay in another order",
    "a piece before members that change",
    "a piece behind members that change",
    "a piece of more than 16 bytes among members that change",
    "a piece at another byte",
    "equal parts whose types have other numbers",
    "equal parts of several members, whose types have other numbers",
    "parts but for a sign in the source",
    "parts but for a sign in the destination",
    "parts but for an order in the source",
    "parts but for an order in the destination",
    "parts but for a pad in the source",
    "parts but for a pad in the destination",
];

/// What every form must have met of STOP.
pub const STOPPING: [&str; 4] = [
    "a record that stays as it is, and nothing stops",
    "STOP beside a piece that stays",
    "STOP in equal parts whose types have other numbers",
    "STOP in parts but for a word",
];

/// Adjoining leaves that stay as they are: the first and how many.
struct Piece {
    first: usize,
    leaves: usize,
    bytes: u64,
}

/// The matches in the destination's byte order.
fn in_order<'a>(matches: &'a [Match<'a>]) -> Vec<&'a Match<'a>> {
    let mut ordered: Vec<&Match> = matches.iter().collect();
    ordered.sort_by_key(|pair| pair.to.at);
    ordered
}

/// Whether every byte of a leaf is the source's.
fn stays(pair: &Match) -> bool {
    let (from, to) = (
        number::layout(pair.from.datatype),
        number::layout(pair.to.datatype),
    );
    let classes = matches!(
        (pair.from.datatype, pair.to.datatype),
        (Datatype::Int(_), Datatype::Int(_))
            | (Datatype::Bits(_), Datatype::Bits(_))
            | (Datatype::Real(_), Datatype::Real(_))
    );
    classes
        && from.precision == 8 * from.size
        && to.precision == 8 * to.size
        && (from.size, from.order, from.signed) == (to.size, to.order, to.signed)
}

/// All pieces of at least one leaf.
fn pieces(ordered: &[&Match]) -> Vec<Piece> {
    let mut found: Vec<Piece> = Vec::new();
    for (i, pair) in ordered.iter().enumerate() {
        if !stays(pair) {
            continue;
        }
        let bytes = pair.to.datatype.size();
        if let Some(piece) = found.last_mut() {
            let first = ordered[piece.first];
            let adjoins = piece.first + piece.leaves == i
                && pair.to.at == first.to.at + piece.bytes
                && pair.from.at == first.from.at + piece.bytes;
            if adjoins {
                piece.leaves += 1;
                piece.bytes += bytes;
                continue;
            }
        }
        found.push(Piece {
            first: i,
            leaves: 1,
            bytes,
        });
    }
    found
}

/// Notes a run that is done.
pub fn note_done(
    saw: &mut impl FnMut(bool, &str),
    run: &Run,
    seen: &Seen,
    (from, to): (&Datatype, &Datatype),
    matches: &[Match],
) {
    if run.count < FEWEST || matches.is_empty() {
        return;
    }
    let ordered = in_order(matches);
    let pieces = pieces(&ordered);
    let sizes = (from.size(), to.size());
    if ordered.iter().all(|pair| stays(pair)) {
        note_staying(saw, run, seen, sizes, &ordered, &pieces);
    } else {
        note_pieces(saw, &ordered, &pieces);
    }
    note_parts(saw, sizes, &ordered);
}

/// Of records all of whose leaves stay as they are.
fn note_staying(
    saw: &mut impl FnMut(bool, &str),
    run: &Run,
    seen: &Seen,
    (from, to): (u64, u64),
    ordered: &[&Match],
    pieces: &[Piece],
) {
    if from != to {
        return;
    }
    let length = (run.count * to) as usize;
    let same = seen.written[..length] == run.first[..length];
    let turned = ordered
        .windows(2)
        .any(|pair| pair[0].from.at > pair[1].from.at);
    let whole = same && pieces.len() == 1 && pieces[0].bytes == to;
    let is = |test: fn(&Datatype) -> bool| ordered.iter().any(|pair| test(pair.to.datatype));
    saw(whole, "a record that stays as it is");
    let classes = is(|leaf| matches!(leaf, Datatype::Int(_)))
        && is(|leaf| matches!(leaf, Datatype::Bits(_)))
        && is(|leaf| matches!(leaf, Datatype::Real(_)));
    saw(
        whole && classes,
        "an int, bits and a real that stay as they are",
    );
    let elements = ordered.len() > 1
        && ordered
            .iter()
            .all(|pair| std::ptr::eq(pair.to.datatype, ordered[0].to.datatype));
    saw(whole && elements, "an array that stays as it is");
    if run.stops() {
        saw(whole, "a record that stays as it is, and nothing stops");
    }
    let end = |pair: &Match| pair.to.at + pair.to.datatype.size();
    let last = ordered.last().map_or(0, |pair| end(pair));
    let between = ordered.windows(2).any(|pair| end(pair[0]) < pair[1].to.at);
    // The gap's bytes are the background's.
    let gap = words::off(&run.source_sheet) == words::off(&run.destination_sheet) && !same;
    saw(gap && between, "a gap between members that stay");
    saw(gap && last < to, "a gap behind members that stay");
    saw(turned, "members that stay in another order");
}

/// Of records in which some leaves stay as they are and others do not.
fn note_pieces(saw: &mut impl FnMut(bool, &str), ordered: &[&Match], pieces: &[Piece]) {
    let several = || pieces.iter().filter(|piece| piece.leaves > 1);
    let changes = |leaf: Option<&&Match>| leaf.is_some_and(|pair| !stays(pair));
    let before = |piece: &Piece| changes(ordered.get(piece.first + piece.leaves));
    let behind = |piece: &Piece| changes(ordered[..piece.first].last());
    let moved = |piece: &Piece| {
        let first = ordered[piece.first];
        first.from.at != first.to.at
    };
    saw(several().any(before), "a piece before members that change");
    saw(several().any(behind), "a piece behind members that change");
    saw(
        several().any(|piece| piece.bytes > 16),
        "a piece of more than 16 bytes among members that change",
    );
    saw(several().any(moved), "a piece at another byte");
}

/// What two leaves of equal parts may differ in.
type Alike = fn(&Datatype, &Datatype) -> bool;

fn one_type(first: &Datatype, second: &Datatype) -> bool {
    std::ptr::eq(first, second)
}

/// Two lines that say the same but for what `change` sets.
fn alike_but(first: &Datatype, second: &Datatype, change: fn(&mut Atomic)) -> bool {
    let (mut own, mut other) = match (first, second) {
        (Datatype::Int(own), Datatype::Int(other))
        | (Datatype::Bits(own), Datatype::Bits(other))
        | (Datatype::Real(own), Datatype::Real(other)) => (*own, *other),
        _ => return one_type(first, second),
    };
    change(&mut own);
    change(&mut other);
    own == other
}

fn one_line(first: &Datatype, second: &Datatype) -> bool {
    alike_but(first, second, |_| {})
}

fn but_for_sign(first: &Datatype, second: &Datatype) -> bool {
    alike_but(first, second, |layout| layout.signed = false)
}

fn but_for_order(first: &Datatype, second: &Datatype) -> bool {
    alike_but(first, second, |layout| layout.order = Order::LittleEndian)
}

fn but_for_pads(first: &Datatype, second: &Datatype) -> bool {
    alike_but(first, second, |layout| {
        (layout.lsb, layout.msb) = (Pad::Zero, Pad::Zero);
    })
}

/// The most equal parts into which a record falls, if leaves are alike by these
/// tests in the source and in the destination.
fn parts(sizes: (u64, u64), ordered: &[&Match], (own, other): (Alike, Alike)) -> usize {
    let leaves = ordered.len();
    let are_parts = |each: &usize| {
        let parts = (leaves / each) as u64;
        if leaves % each > 0 || sizes.0 % parts > 0 || sizes.1 % parts > 0 {
            return false;
        }
        let (from, to) = (sizes.0 / parts, sizes.1 / parts);
        let again = |(x, y): (&&Match, &&Match)| {
            y.from.at == x.from.at + from
                && y.to.at == x.to.at + to
                && own(x.from.datatype, y.from.datatype)
                && other(x.to.datatype, y.to.datatype)
        };
        let lies = |x: &&Match| {
            x.from.at + x.from.datatype.size() <= from && x.to.at + x.to.datatype.size() <= to
        };
        ordered.iter().zip(&ordered[*each..]).all(again) && ordered[..*each].iter().all(lies)
    };
    (1..=leaves / 2)
        .find(are_parts)
        .map_or(1, |each| leaves / each)
}

fn is_numbered(sizes: (u64, u64), ordered: &[&Match]) -> bool {
    let lines = parts(sizes, ordered, (one_line, one_line));
    lines > parts(sizes, ordered, (one_type, one_type))
}

/// Whether a record falls into more parts if a word is not looked at.
fn parts_but(sizes: (u64, u64), ordered: &[&Match], but: (Alike, Alike)) -> bool {
    parts(sizes, ordered, but) > parts(sizes, ordered, (one_line, one_line))
}

fn note_parts(saw: &mut impl FnMut(bool, &str), sizes: (u64, u64), ordered: &[&Match]) {
    if !(2..=64).contains(&ordered.len()) {
        return;
    }
    let numbered = is_numbered(sizes, ordered);
    saw(numbered, "equal parts whose types have other numbers");
    let lines = parts(sizes, ordered, (one_line, one_line));
    saw(
        numbered && ordered.len() > lines,
        "equal parts of several members, whose types have other numbers",
    );
    let words: [(Alike, &str); 3] = [
        (but_for_sign, "a sign"),
        (but_for_order, "an order"),
        (but_for_pads, "a pad"),
    ];
    for (but, word) in words {
        let in_source = parts_but(sizes, ordered, (but, one_line));
        saw(in_source, &format!("parts but for {word} in the source"));
        let in_destination = parts_but(sizes, ordered, (one_line, but));
        saw(
            in_destination,
            &format!("parts but for {word} in the destination"),
        );
    }
}

/// Notes where a run stopped.
pub fn note_stop(
    saw: &mut impl FnMut(bool, &str),
    record: u64,
    (from, to): (&Datatype, &Datatype),
    matches: &[Match],
) {
    let ordered = in_order(matches);
    if record < FEWEST || !(2..=64).contains(&ordered.len()) {
        return;
    }
    let several = pieces(&ordered).iter().any(|piece| piece.leaves > 1);
    saw(several, "STOP beside a piece that stays");
    let sizes = (from.size(), to.size());
    saw(
        is_numbered(sizes, &ordered),
        "STOP in equal parts whose types have other numbers",
    );
    let any = |test: Alike| {
        let but: [(Alike, Alike); 2] = [(test, one_line), (one_line, test)];
        but.iter().any(|but| parts_but(sizes, &ordered, *but))
    };
    saw(
        any(but_for_sign) || any(but_for_order) || any(but_for_pads),
        "STOP in parts but for a word",
    );
}
