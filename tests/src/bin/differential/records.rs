//! Bytes of source records: random, at the edges, or with numbers chosen
//! for the destination.

use crate::patterns::{beside, near_tie, pattern, whole_double};
use crate::random::Random;
use independent::datatype::{Atomic, Datatype, Pad};
use independent::number;
use independent::paths::Match;
use independent::real;

/// Source records for matched leaves. Pad bits and gaps are random.
pub fn records(random: &mut Random, size: u64, count: u64, matches: &[Match]) -> Vec<u8> {
    let mut bytes = random.bytes((size * count) as usize);
    // In how many of a hundred leaves the number may raise an exception.
    let share = *random.pick(&[0, 0, 0, 3, 30, 100]);
    if matches.is_empty() || count == 0 {
        return bytes;
    }
    for record in bytes.chunks_mut(size as usize) {
        for pair in matches {
            let number = if share == 100 {
                // The random bytes, but for reals.
                is_real(pair.from.datatype).then(|| i128::from(pattern(random)))
            } else if random.percent(share) {
                edge(random, pair)
            } else {
                fitting(random, pair)
            };
            put(pair, number, record);
        }
    }
    if random.percent(40) {
        // A single leaf that may raise one.
        let record = random.below(count);
        let pair = random.pick(matches);
        let number = edge(random, pair);
        put(pair, number, &mut bytes[(record * size) as usize..]);
    }
    bytes
}

/// Source records whose numbers all fit, where a pair has one that does.
pub fn fitting_records(random: &mut Random, size: u64, count: u64, matches: &[Match]) -> Vec<u8> {
    let mut bytes = random.bytes((size * count) as usize);
    for record in bytes.chunks_mut(size as usize) {
        for pair in matches {
            let number = fitting(random, pair);
            put(pair, number, record);
        }
    }
    bytes
}

/// Writes a number into a pair's source leaf, pads as they are.
pub fn put(pair: &Match, number: Option<i128>, record: &mut [u8]) {
    let kept = Atomic {
        lsb: Pad::Keep,
        msb: Pad::Keep,
        ..*number::layout(pair.from.datatype)
    };
    if let Some(number) = number {
        number::write(&kept, number, &mut record[pair.from.at as usize..]);
    }
}

/// The same matched numbers, all other bits random.
pub fn with_other_free_bits(
    random: &mut Random,
    old: &[u8],
    size: u64,
    matches: &[Match],
) -> Vec<u8> {
    let mut bytes = random.bytes(old.len());
    let pairs = old
        .chunks(size as usize)
        .zip(bytes.chunks_mut(size as usize));
    for (record, fresh) in pairs {
        for pair in matches {
            let layout = number::layout(pair.from.datatype);
            let number = number::read(layout, &record[pair.from.at as usize..]);
            put(pair, Some(number), fresh);
        }
    }
    bytes
}

/// A number that raises no exception, if there is one.
pub fn fitting(random: &mut Random, pair: &Match) -> Option<i128> {
    if let Datatype::Enum { values, .. } = pair.from.datatype {
        let fits = |number: &i128| convert(pair, *number).is_none();
        if let Some(value) = values.get(random.below(values.len().max(1) as u64) as usize)
            && fits(&value.number)
        {
            return Some(value.number);
        }
        let numbers: Vec<i128> = values.iter().map(|v| v.number).filter(fits).collect();
        return (!numbers.is_empty()).then(|| *random.pick(&numbers));
    }
    let (low, high) = number::range(number::layout(pair.from.datatype));
    let (least, most) = number::range(number::layout(pair.to.datatype));
    let number = match (is_real(pair.from.datatype), is_real(pair.to.datatype)) {
        (false, false) => random.number(low.max(least), high.min(most)),
        (true, true) => i128::from(pattern(random)),
        (false, true) => double_within(random, (low, high)),
        (true, false) => {
            let number = double_within(random, (least, most));
            i128::from(real::from_int(number).0)
        }
    };
    Some(number)
}

fn is_real(leaf: &Datatype) -> bool {
    matches!(leaf, Datatype::Real(_))
}

/// A number of a range that is a double.
fn double_within(random: &mut Random, (low, high): (i128, i128)) -> i128 {
    for _ in 0..8 {
        let number = if random.percent(50) {
            random.number(low, high)
        } else {
            whole_double(random)
        };
        let is_double = real::from_int(number).1.is_none();
        if is_double && (low..=high).contains(&number) {
            return number;
        }
    }
    0
}

/// A number just past an end of the destination's range, if the source's
/// has it; for an enum any number; for reals also ties, fractions and what is
/// no number.
fn edge(random: &mut Random, pair: &Match) -> Option<i128> {
    let (low, high) = number::range(number::layout(pair.from.datatype));
    let (least, most) = number::range(number::layout(pair.to.datatype));
    match (is_real(pair.from.datatype), is_real(pair.to.datatype)) {
        (false, true) if random.percent(70) => return Some(near_tie(random).clamp(low, high)),
        (true, false) if random.percent(60) => {
            let end = *random.pick(&[least - 1, least, most, most + 1, 0]);
            return Some(i128::from(beside(random, end)));
        }
        (true, _) => return Some(i128::from(pattern(random))),
        _ => {}
    }
    let number = match random.below(3) {
        0 => least - 1,
        1 => most + 1,
        _ => random.number(low, high),
    };
    Some(number.clamp(low, high))
}

/// The exception kind that a number raises.
fn convert(pair: &Match, number: i128) -> Option<u64> {
    number::convert(pair.from.datatype, pair.to.datatype, number).1
}
