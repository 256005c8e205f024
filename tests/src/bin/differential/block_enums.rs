//! Pairs of sheets with enums, for conversions in blocks: numbers that lie close
//! or far apart, one or several pairs in a record, arrays that fill it.

use crate::block_sheets::{array, numbers, row};
use crate::generate::{atomic, kept_enums, place};
use crate::model::{Line, Model, Name, Row};
use crate::random::Random;
use independent::datatype::Atomic;
use independent::number;
use std::collections::BTreeSet;

/// Value and member lines that the enums of one sheet have at most.
const ROWS: u64 = 200;

/// The widest span of numbers that lie close.
pub const CLOSE: i128 = 512;

/// Two sheets with a path, of enums and a few other numbers.
pub fn sheets(random: &mut Random) -> (Model, Model) {
    match random.below(12) {
        0..=1 => array(random, single),
        2..=7 => {
            let pairs = random.between(1, 4);
            members(random, pairs)
        }
        8 => array(random, several),
        _ => {
            let pairs = random.between(5, 6);
            members(random, pairs)
        }
    }
}

fn single(random: &mut Random, from: &mut Model, to: &mut Model) -> (usize, usize) {
    enums(random, from, to, 40)
}

/// Two compounds of two enums.
fn several(random: &mut Random, from: &mut Model, to: &mut Model) -> (usize, usize) {
    let (mut rows, mut others) = (Vec::new(), Vec::new());
    for name in [b"x", b"y"] {
        let (first, second) = enums(random, from, to, 20);
        rows.push(row(name, first));
        others.push(row(name, second));
    }
    (placed(random, from, rows), placed(random, to, others))
}

/// Members of so many different pairs of enums, some of them again, and some
/// ints among them.
fn members(random: &mut Random, pairs: u64) -> (Model, Model) {
    let (mut from, mut to) = (Model::default(), Model::default());
    let mut kinds = Vec::new();
    for _ in 0..pairs {
        kinds.push(match random.percent(10) {
            true => kept_enums(random, &mut from, &mut to, 0),
            false => enums(random, &mut from, &mut to, (ROWS / pairs).min(40)),
        });
    }
    for _ in 0..random.below(3) {
        kinds.push(match random.percent(60) {
            true => *random.pick(&kinds),
            false => numbers(random, &mut from, &mut to),
        });
    }
    random.shuffle(&mut kinds);
    let rows = |kind: fn(&(usize, usize)) -> usize| -> Vec<Row> {
        let named = |(i, pair)| row(format!("m{i}").as_bytes(), kind(pair));
        kinds.iter().enumerate().map(named).collect()
    };
    let (own, others) = (rows(|pair| pair.0), rows(|pair| pair.1));
    placed(random, &mut from, own);
    placed(random, &mut to, others);
    (from, to)
}

fn placed(random: &mut Random, model: &mut Model, mut members: Vec<Row>) -> usize {
    let size = place(random, model, &mut members, 120);
    model.push(Line::Comp { size, members })
}

/// Two enums of at most so many symbols in the source, which the destination
/// has too.
fn enums(random: &mut Random, from: &mut Model, to: &mut Model, most: u64) -> (usize, usize) {
    let base = layout(random);
    let found = match random.below(20) {
        0 => BTreeSet::new(),
        1..=8 => close(random, &base, most),
        _ => far(random, &base, most),
    };
    let mut names: Vec<Name> = (0..found.len() + 2)
        .map(|i| format!("s{i}").into_bytes())
        .collect();
    random.shuffle(&mut names);
    let mut found: Vec<i128> = found.into_iter().collect();
    random.shuffle(&mut found);
    let more = random.below(3) as usize;
    let needed = found.len() + more;
    let other = loop {
        let other = destination(random);
        let (low, high) = number::range(&other);
        if high - low >= needed as i128 {
            break other;
        }
    };
    let others = distinct(random, number::range(&other), needed);
    let mut others: Vec<(Name, i128)> = names.iter().cloned().zip(others).collect();
    random.shuffle(&mut others);
    let values = names.into_iter().zip(found).collect();
    let base = from.push(Line::Int(base));
    let own = from.push(Line::Enum { base, values });
    let base = to.push(Line::Int(other));
    let other = to.push(Line::Enum {
        base,
        values: others,
    });
    (own, other)
}

/// The source's base: mostly of 1, 2, 4 or 8 bytes, with pads in some.
fn layout(random: &mut Random) -> Atomic {
    let any = atomic(random, 8);
    if random.percent(15) {
        return any;
    }
    let size = *random.pick(&[1, 2, 4, 8]);
    let spare = match random.percent(35) {
        true => random.between(1, if size == 1 { 5 } else { 7 }),
        false => 0,
    };
    Atomic {
        size,
        offset: random.between(0, spare),
        precision: 8 * size - spare,
        ..any
    }
}

/// The destination's base: whole bytes, or any with pads.
fn destination(random: &mut Random) -> Atomic {
    let any = atomic(random, 8);
    if random.percent(50) {
        return any;
    }
    let size = *random.pick(&[1, 2, 4, 8]);
    Atomic {
        size,
        offset: 0,
        precision: 8 * size,
        ..any
    }
}

/// Numbers of one sign that lie within 512, sometimes at both ends of them.
fn close(random: &mut Random, base: &Atomic, most: u64) -> BTreeSet<i128> {
    let (low, high) = number::range(base);
    let (low, high) = match base.precision {
        1..=9 => (low, high),
        _ if base.signed && random.percent(50) => (low, -1),
        _ => (0, high),
    };
    let last = (high - CLOSE + 1).max(low);
    let start = random.number(low, last);
    let end = (start + CLOSE - 1).min(high);
    let wanted = symbols(random, most - 2);
    let mut found = distinct(random, (start, end), wanted);
    if random.percent(40) {
        found.extend([start, end]);
    }
    found
}

/// Numbers of the whole range, or just one more than lie close.
fn far(random: &mut Random, base: &Atomic, most: u64) -> BTreeSet<i128> {
    let (low, high) = number::range(base);
    if base.precision > 10 && random.percent(15) {
        let low = low.max(0);
        let start = random.number(low, high - CLOSE);
        let ends = (start, start + CLOSE);
        let wanted = symbols(random, most - 2);
        let mut found = distinct(random, ends, wanted);
        found.extend([ends.0, ends.1]);
        return found;
    }
    let wanted = symbols(random, most);
    distinct(random, (low, high), wanted)
}

fn symbols(random: &mut Random, most: u64) -> usize {
    let symbols = match random.below(4) {
        0 => 2,
        1 => random.between(3, 8),
        2 => random.between(2, most),
        _ => most,
    };
    symbols as usize
}

/// So many numbers of a range, or all of it; some of them beside each other.
pub fn distinct(random: &mut Random, (low, high): (i128, i128), wanted: usize) -> BTreeSet<i128> {
    let mut found = BTreeSet::new();
    let wanted = (high - low + 1).min(wanted as i128) as usize;
    let mut tries = 0;
    while found.len() < wanted && tries < 8 * wanted {
        let beside = found.last().map(|number| number + 1);
        let number = match beside {
            Some(number) if random.percent(15) => number,
            _ => random.number(low, high),
        };
        found.insert(number.min(high));
        tries += 1;
    }
    let mut rest = low..=high;
    while found.len() < wanted {
        found.extend(rest.next());
    }
    found
}
