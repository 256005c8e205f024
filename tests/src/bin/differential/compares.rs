//! Cases of two logs compared.

use crate::compare_events;
use crate::compare_run::{self, CompareRun};
use crate::convert::{self, large_count, length, resize, small_count, with_types};
use crate::derive::derive;
use crate::generate;
use crate::limits;
use crate::model::Model;
use crate::patterns::{beside, pattern};
use crate::random::Random;
use crate::records::records;
use crate::tally::Tally;
use crate::words;
use independent::call::part;
use independent::compare::{differences, is_same, text};
use independent::datatype::{Atomic, Datatype, Pad};
use independent::number;
use independent::paths::{Leaf, Match};
use independent::real::{self, INFINITY, SIGN};

/// A call like most, each check failing in so many of a hundred.
pub fn case(random: &mut Random, tally: &mut Tally, spoil: u64) -> Result<(), String> {
    let (from, to) = models(random, spoil);
    let from = convert::text(random, spoil, &from);
    let to = convert::text(random, spoil, &to);
    let run = make(random, spoil, from, to);
    finish(random, tally, &run)
}

/// A call with sheets at the limits.
pub fn limit_case(random: &mut Random, tally: &mut Tally) -> Result<(), String> {
    let model = limits::valid(random);
    let other = derive(random, &model);
    let (from, to) = words::texts(random, &model, &other);
    let run = make(random, 3, from, to);
    finish(random, tally, &run)
}

/// 65,536 records of a few bytes.
pub fn long_case(random: &mut Random, tally: &mut Tally) -> Result<(), String> {
    let model = convert::few_bytes(random);
    let other = derive(random, &model);
    let (from, to) = words::texts(random, &model, &other);
    let mut run = make(random, 0, from.clone(), to.clone());
    with_types(&from, &to, |from, to, matches| {
        run.count = 65_536;
        run.is_one = false;
        run.first = first(random, from, run.count, matches);
        let share = *random.pick(&[0, 0, 1, 100]);
        run.second = second(random, (from, to), &run.first, matches, share);
        if random.percent(30) {
            // The last record once more, with other numbers.
            let last = &run.first[(65_535 * from.size()) as usize..];
            let other = second(random, (from, to), last, matches, 100);
            run.second.truncate((65_535 * to.size()) as usize);
            run.second.extend(other);
        }
        run.list = room(random, 0, &run, from, to);
    });
    finish(random, tally, &run)
}

fn finish(random: &mut Random, tally: &mut Tally, run: &CompareRun) -> Result<(), String> {
    let seen = compare_run::both(random, run)?;
    compare_events::note(tally, run, &seen);
    Ok(())
}

/// Models for two sheets, mostly with a path: of ints and reals alone, of leaves
/// that differ much, of one sheet twice, or of any.
pub fn models(random: &mut Random, spoil: u64) -> (Model, Model) {
    match random.below(10) {
        0 | 1 => generate::reals(random),
        2..=4 => generate::unequal(random),
        5 => {
            let model = convert::model(random);
            (model.clone(), model)
        }
        _ => convert::models(random, spoil),
    }
}

/// Fills in the rest of a call with two sheets.
pub fn make(random: &mut Random, spoil: u64, from: Vec<u8>, to: Vec<u8>) -> CompareRun {
    let mut run = CompareRun {
        first_sheet: from.clone(),
        second_sheet: to.clone(),
        count: random.below(5),
        first: random.bytes(64),
        second: random.bytes(64),
        is_one: random.percent(10),
        list: random.bytes(100),
        table: convert::table(random, spoil),
    };
    let sizes = with_types(&from, &to, |from, to, matches| {
        let work = matches.len() as u64 + (from.size() + to.size()) / 8 + 1;
        run.count = small_count(random, 4000 / work + 1);
        run.first = first(random, from, run.count, matches);
        let share = *random.pick(&[0, 0, 5, 50, 100]);
        run.second = second(random, (from, to), &run.first, matches, share);
        if run.is_one {
            let longer = from.size().max(to.size()) * run.count;
            resize(random, &mut run.first, longer as usize);
        }
        run.list = room(random, spoil, &run, from, to);
        (from.size(), to.size())
    });
    if let Some((from, to)) = sizes {
        let longer = if run.is_one { from.max(to) } else { from };
        let lengths = (
            length(random, spoil, run.count * longer),
            length(random, spoil, run.count * to),
        );
        resize(random, &mut run.first, lengths.0);
        resize(random, &mut run.second, lengths.1);
        if random.percent(spoil) {
            run.count = large_count(random, from);
        }
    } else if random.percent(spoil) {
        run.count = large_count(random, 8);
    }
    run
}

/// Just the room for the list, or more; in so many of a hundred less, mostly by
/// one byte.
fn room(
    random: &mut Random,
    spoil: u64,
    run: &CompareRun,
    from: &Datatype,
    to: &Datatype,
) -> Vec<u8> {
    let second = if run.is_one { &run.first } else { &run.second };
    let list = text(&differences(from, to, run.count, &run.first, second));
    let length = match random.percent(spoil / 2) {
        // Not even the header has room.
        true => random.below(23) as usize,
        false => length(random, spoil, list.len() as u64),
    };
    random.bytes(length)
}

/// A first log. Between a real and an int some numbers are ends of ranges, or no
/// numbers.
pub fn first(random: &mut Random, from: &Datatype, count: u64, matches: &[Match]) -> Vec<u8> {
    let mut bytes = records(random, from.size(), count, matches);
    for record in bytes.chunks_mut(from.size() as usize) {
        for pair in matches {
            let number = match (pair.from.datatype, pair.to.datatype) {
                _ if random.percent(90) => None,
                (Datatype::Real(_), Datatype::Int(_)) => {
                    let whole = *random.pick(&[1 << 53, 1 << 63, 1 << 64, -(1 << 63), -1]);
                    let odd = [SIGN, INFINITY, INFINITY | SIGN, INFINITY | 1, u64::MAX];
                    let real = [real::from_int(whole).0, *random.pick(&odd)];
                    Some(i128::from(*random.pick(&real)))
                }
                (Datatype::Int(layout), Datatype::Real(_)) => {
                    let (low, high) = number::range(layout);
                    let ends = [low, high, 1 << 63, (1 << 53) + 1, -(1 << 53), 0];
                    Some((*random.pick(&ends)).clamp(low, high))
                }
                _ => None,
            };
            put(&pair.from, number, record);
        }
    }
    bytes
}

/// A second log for a first one of so many records: in so many of a hundred
/// matched leaves any number, and else the same one, if there is one. Pad bits,
/// gaps and unmatched leaves are random.
pub fn second(
    random: &mut Random,
    (from, to): (&Datatype, &Datatype),
    first: &[u8],
    matches: &[Match],
    share: u64,
) -> Vec<u8> {
    let count = first.len() as u64 / from.size();
    let mut bytes = random.bytes((to.size() * count) as usize);
    for record in 0..count {
        let source = part(first, record, from.size());
        let start = (record * to.size()) as usize;
        for pair in matches {
            let own = read(&pair.from, source);
            let number = match random.percent(share) {
                true => Some(other(random, pair, own)),
                false => same(pair, own).or_else(|| Some(other(random, pair, own))),
            };
            put(&pair.to, number, &mut bytes[start..]);
        }
    }
    bytes
}

pub fn read(leaf: &Leaf, record: &[u8]) -> i128 {
    number::read(number::layout(leaf.datatype), &record[leaf.at as usize..])
}

/// Writes a number into a leaf, pads as they are; of a number that is out of
/// range its low bits.
pub fn put(leaf: &Leaf, number: Option<i128>, record: &mut [u8]) {
    let kept = Atomic {
        lsb: Pad::Keep,
        msb: Pad::Keep,
        ..*number::layout(leaf.datatype)
    };
    if let Some(number) = number {
        number::write(&kept, number, &mut record[leaf.at as usize..]);
    }
}

/// The number of the second leaf that is the same as one of the first.
pub fn same(pair: &Match, own: i128) -> Option<i128> {
    let (low, high) = number::range(number::layout(pair.to.datatype));
    let number = match (pair.from.datatype, pair.to.datatype) {
        (Datatype::Enum { values, .. }, Datatype::Enum { values: others, .. }) => {
            match values.iter().find(|value| value.number == own) {
                Some(value) => others.iter().find(|other| other.name == value.name)?.number,
                None => own,
            }
        }
        (Datatype::Int(_), Datatype::Real(_)) => i128::from(real::from_int(own).0),
        (Datatype::Real(_), Datatype::Int(layout)) => real::to_int(layout, own as u64).0,
        _ => own,
    };
    let is_there = (low..=high).contains(&number);
    (is_there && is_same(pair.from.datatype, pair.to.datatype, own, number)).then_some(number)
}

/// A number of the second leaf that is likely another one than the first's, and
/// near to it.
fn other(random: &mut Random, pair: &Match, own: i128) -> i128 {
    let (low, high) = number::range(number::layout(pair.to.datatype));
    let flipped = own ^ 1 << random.below(64);
    match (pair.from.datatype, pair.to.datatype) {
        (_, Datatype::Real(_)) => {
            let is_real = matches!(pair.from.datatype, Datatype::Real(_));
            let bits = match random.below(8) {
                0 => *random.pick(&[0, SIGN, INFINITY, SIGN | INFINITY]),
                1 => INFINITY | random.next() | 1,
                // The bits of a number, as if they were a real's.
                2 => own as u64,
                3 if is_real => own as u64 ^ SIGN,
                4 if is_real => flipped as u64,
                3 | 4 if !is_real => beside(random, own),
                // The nearest one, which is the number itself or not; and the other sign.
                5 if !is_real => real::from_int(own).0,
                6 if !is_real => real::from_int(own).0 ^ SIGN,
                _ => pattern(random),
            };
            i128::from(bits)
        }
        (Datatype::Real(_), Datatype::Int(layout)) => match random.below(5) {
            0 | 1 => real::to_int(layout, own as u64).0,
            2 => -real::to_int(layout, own as u64).0,
            // The same bits, as if they were a number.
            3 => own,
            _ => random.number(low, high),
        },
        (_, Datatype::Enum { values, .. }) if !values.is_empty() && random.percent(30) => {
            random.pick(values).number
        }
        _ => match random.below(5) {
            0 | 1 => own,
            2 => flipped,
            3 => own + 1 - 2 * i128::from(random.percent(50)),
            _ => random.number(low, high),
        },
    }
}
