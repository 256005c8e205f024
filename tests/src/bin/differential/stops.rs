//! Cases in which a number does not fit, and the call stops.

use crate::convert::{self, with_types};
use crate::generate;
use crate::patterns::{beside, near_tie, pattern};
use crate::random::Random;
use crate::records::{put, records};
use crate::run::{FORMS, Run};
use crate::tally::Tally;
use crate::words;
use independent::datatype::Datatype;
use independent::number;
use independent::paths::Match;
use independent::real::{INFINITY, SIGN};

/// A run of a few records in which one leaf at least raises an exception, if
/// its pair has a number that does.
pub fn case(random: &mut Random, tally: &mut Tally) -> Result<(), String> {
    let (from, to) = generate::unequal(random);
    let (from, to) = words::texts(random, &from, &to);
    let made = with_types(&from, &to, |source, destination, matches| {
        let count = random.between(1, 6);
        let form = *random.pick(&FORMS);
        let mut first = records(random, source.size(), count, matches);
        for _ in 0..random.between(1, 3) {
            let record = (random.below(count) * source.size()) as usize;
            let pair = random.pick(matches);
            put(pair, raising(random, pair), &mut first[record..]);
        }
        if !form.is_copying() {
            let longer = source.size().max(destination.size());
            first.resize((longer * count) as usize, 0x5A);
        }
        let second = random.bytes((destination.size() * count) as usize);
        (form, count, first, second)
    });
    let (form, count, first, second) = made.expect("every pair has a path");
    let run = Run {
        form,
        source_sheet: from,
        destination_sheet: to,
        count,
        handling: 1,
        first,
        second,
        table: random.words(8192),
    };
    convert::finish(random, tally, &run)
}

/// A number of the source leaf that raises an exception, often an end of all
/// numbers, if one is easily found.
pub fn raising(random: &mut Random, pair: &Match) -> Option<i128> {
    let (low, high) = number::range(number::layout(pair.from.datatype));
    let raises = |number: &i128| {
        let (_, kind) = number::convert(pair.from.datatype, pair.to.datatype, *number);
        kind.is_some()
    };
    (0..12)
        .map(|_| one(random, pair).clamp(low, high))
        .find(raises)
}

fn one(random: &mut Random, pair: &Match) -> i128 {
    let (low, high) = number::range(number::layout(pair.from.datatype));
    let (least, most) = number::range(number::layout(pair.to.datatype));
    match (pair.from.datatype, pair.to.datatype) {
        (Datatype::Real(_), _) => {
            let quiet = INFINITY | INFINITY >> 1;
            let end = *random.pick(&[least - 1, least, most, most + 1]);
            let bits = match random.below(10) {
                0 => *random.pick(&[SIGN, INFINITY, SIGN | INFINITY]),
                1 => quiet | random.next(),
                2 => INFINITY | random.next() & !quiet | 1,
                3 | 4 => beside(random, end),
                _ => pattern(random),
            };
            i128::from(bits)
        }
        (_, Datatype::Enum { values, .. }) if !values.is_empty() && random.percent(30) => {
            // It has a symbol in the destination, and none in the source.
            random.pick(values).number
        }
        (Datatype::Enum { values, .. }, _) if !values.is_empty() && random.percent(30) => {
            // Beside a number that has one.
            random.pick(values).number + *random.pick(&[-1, 1])
        }
        (_, Datatype::Real(_)) if random.percent(40) => near_tie(random),
        _ if random.percent(60) => {
            let ends = [low, low + 1, high, least - 1, most + 1, -1, 0, 1 << 63];
            *random.pick(&ends)
        }
        _ => random.number(low, high),
    }
}
