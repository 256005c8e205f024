//! Reals: what the 64 bits of an IEEE 754 binary64 are worth, over whole
//! numbers alone. No float of the machine is used here.

use crate::datatype::Atomic;
use crate::number;

/// Bits of the fraction; the exponent's eleven stand above them.
pub const FRACTION_BITS: u64 = 52;
const LARGEST_EXPONENT: u64 = 0x7FF;

/// The exponent field of a number whose lowest fraction bit is worth 1.
const UNIT_EXPONENT: i64 = 1023 + 52;

pub const SIGN: u64 = 1 << 63;
pub const INFINITY: u64 = LARGEST_EXPONENT << FRACTION_BITS;

/// A pattern with its sign dropped.
fn magnitude(pattern: u64) -> u64 {
    pattern & !SIGN
}

pub fn is_negative(pattern: u64) -> bool {
    pattern & SIGN != 0
}

pub fn is_infinite(pattern: u64) -> bool {
    magnitude(pattern) == INFINITY
}

/// The largest exponent with a fraction, quiet or signalling.
pub fn is_not_a_number(pattern: u64) -> bool {
    magnitude(pattern) > INFINITY
}

/// The whole part of a finite pattern's magnitude, and whether a fraction is
/// left. One of 2^116 or more may come out as another one of 2^116 or more: no
/// range has either.
pub fn whole_part(pattern: u64) -> (u128, bool) {
    let field = magnitude(pattern) >> FRACTION_BITS;
    let fraction = pattern & ((1 << FRACTION_BITS) - 1);
    // A normal number has one more bit above its fraction, a subnormal one has
    // the exponent of the smallest normal ones.
    let (bits, exponent) = match field {
        0 => (fraction, 1),
        _ => (fraction + (1 << FRACTION_BITS), field),
    };
    // What the lowest bit is worth, as a power of two.
    let power = exponent as i64 - UNIT_EXPONENT;
    if power >= 0 {
        return (u128::from(bits) << power.min(64), false);
    }
    let behind = (-power).min(63);
    let is_left = bits & ((1 << behind) - 1) != 0;
    (u128::from(bits >> behind), is_left)
}

/// Whether a pattern without a sign is worth more than a whole number.
fn is_above(pattern: u64, number: u128) -> bool {
    if pattern >= INFINITY {
        return true;
    }
    let (whole, is_left) = whole_part(pattern);
    whole > number || (whole == number && is_left)
}

/// "Int to real gives the nearest double, ties to even, 0 as +0; kind 6
/// exactly where that double isn't the number."
pub fn from_int(number: i128) -> (u64, Option<u64>) {
    let wanted = number.unsigned_abs();
    // The largest double that is not above, from its top bit down: of two
    // patterns without a sign the larger one is worth more.
    let mut below = 0;
    for bit in (0..63).rev() {
        let tried = below | 1 << bit;
        if !is_above(tried, wanted) {
            below = tried;
        }
    }
    let sign = if number < 0 { SIGN } else { 0 };
    let low = whole_part(below).0;
    if low == wanted {
        return (sign | below, None);
    }
    // Here both neighbours are above 2^53, and so whole numbers.
    let above = below + 1;
    let (under, over) = (wanted - low, whole_part(above).0 - wanted);
    let takes_above = over < under || (over == under && above % 2 == 0);
    let nearest = if takes_above { above } else { below };
    (sign | nearest, Some(6))
}

/// "Real to int drops the fraction toward zero, then applies the range as
/// before, kinds 1 and 2, with infinities as out of range. In range, kind 5 if
/// a fraction or the sign of a negative zero was lost. Not-a-number gives 0,
/// kind 4."
pub fn to_int(layout: &Atomic, pattern: u64) -> (i128, Option<u64>) {
    if is_not_a_number(pattern) {
        return (0, Some(4));
    }
    let (smallest, largest) = number::range(layout);
    if is_infinite(pattern) {
        return match is_negative(pattern) {
            true => (smallest, Some(2)),
            false => (largest, Some(1)),
        };
    }
    let (whole, is_left) = whole_part(pattern);
    let number = match is_negative(pattern) {
        true => -(whole as i128),
        false => whole as i128,
    };
    let (fitted, kind) = number::clamp(layout, number);
    let is_lost = is_left || pattern == SIGN;
    match kind {
        None if is_lost => (fitted, Some(5)),
        _ => (fitted, kind),
    }
}
