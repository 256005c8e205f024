//! Patterns of reals and whole numbers beside them: ties, ends of ranges, every
//! exponent, subnormals, infinities, not-a-numbers, zeros of both signs.

use crate::random::Random;
use independent::real::{self, FRACTION_BITS, INFINITY, SIGN};

const FRACTION: u64 = (1 << FRACTION_BITS) - 1;

/// The exponent field of 1.
const ONE: u64 = 1023;

/// Any pattern, often a special one, and often one of a magnitude that some int
/// has.
pub fn pattern(random: &mut Random) -> u64 {
    let fraction = match random.below(8) {
        0 | 1 => 0,
        2 => 1,
        3 => FRACTION,
        4 => 1 << random.below(FRACTION_BITS),
        // Bits down to some place, as of a number with few digits.
        5 => (random.next() & FRACTION) >> random.below(53) << random.below(53) & FRACTION,
        _ => random.next() & FRACTION,
    };
    let exponent = match random.below(12) {
        0 => 0,
        1 => *random.pick(&[1, 2, INFINITY >> FRACTION_BITS, 2046]),
        2 => random.below(2048),
        3 | 4 => random.between(ONE - 3, ONE + 1),
        _ => random.between(ONE, ONE + 66),
    };
    let sign = if random.percent(50) { SIGN } else { 0 };
    sign | exponent << FRACTION_BITS | fraction
}

/// A pattern at a whole number, or a few patterns beside it.
pub fn beside(random: &mut Random, number: i128) -> u64 {
    let at = real::from_int(number).0;
    let step = *random.pick(&[0, 0, 1, 1, 2, 3, 1 << 40, 1 << 51]);
    if random.percent(50) {
        at.wrapping_add(step)
    } else {
        at.wrapping_sub(step)
    }
}

/// A whole number of any length in bits, mostly at or beside a tie of doubles
/// where it is longer than a double holds.
pub fn near_tie(random: &mut Random) -> i128 {
    let (head, unit) = head(random);
    let half = unit / 2;
    let behind = match random.below(8) {
        0 => 0,
        1 => 1,
        2 => unit - 1,
        3 => half - 1,
        4 => half + 1,
        _ => half,
    };
    head + signed(random, behind)
}

/// A whole number that is a double.
pub fn whole_double(random: &mut Random) -> i128 {
    head(random).0
}

/// A whole number of at most 53 bits with zeros behind them, and what its
/// lowest bit is worth.
fn head(random: &mut Random) -> (i128, i128) {
    let bits = random.between(1, 64);
    let top = u64::MAX >> (64 - bits);
    let number = match random.below(4) {
        0 => top,
        1 => 1 << (bits - 1),
        _ => random.next() & top | 1 << (bits - 1),
    };
    let behind = bits.saturating_sub(53);
    let number = i128::from(number >> behind << behind);
    (signed(random, number), 1 << behind)
}

fn signed(random: &mut Random, number: i128) -> i128 {
    if random.percent(50) { -number } else { number }
}
