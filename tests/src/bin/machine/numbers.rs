//! Numbers of a layout and patterns of reals, heavy on ties, ends of ranges and
//! exponents.

use crate::random::Random;
use independent::datatype::Atomic;
use independent::number;

/// A number of a layout: any, near an end, of any length in bits, or at or
/// beside a tie of doubles.
pub fn int(random: &mut Random, layout: &Atomic) -> i128 {
    let (low, high) = number::range(layout);
    let bits = random.between(1, layout.precision);
    let any = random.next() >> (64 - bits);
    let number = match random.below(4) {
        0 => return random.number(low, high),
        1 => i128::from(any),
        _ => {
            // 53 bits, then half of what their last is worth, or beside it.
            let behind = bits.saturating_sub(53);
            let half = (1_i128 << behind) / 2;
            let head = i128::from(any >> behind << behind);
            head + half + i128::from(random.below(3)) - 1
        }
    };
    let number = if random.percent(50) { -number } else { number };
    number.clamp(low, high)
}

/// A pattern: any, of an exponent that matters to a layout, beside a whole
/// number of it, or a special one.
pub fn pattern(random: &mut Random, layout: &Atomic) -> u64 {
    let any = random.next();
    let fraction = any & 0x000F_FFFF_FFFF_FFFF;
    let sign = any & 1 << 63;
    match random.below(8) {
        0 => any,
        1 => {
            let special = [
                0,
                1,
                0x7FF0 << 48,
                0x7FF8 << 48,
                (0x7FF0 << 48) + 1,
                0x10 << 48,
            ];
            sign | random.pick(&special)
        }
        2 | 3 => {
            let exponent = 1021 + random.below(layout.precision + 5);
            sign | exponent << 52 | fraction
        }
        4 => {
            // A number with few bits behind the point.
            let number =
                int(random, layout) as f64 + [0.0, 0.5, 0.25, -0.5][random.below(4) as usize];
            number.to_bits()
        }
        _ => {
            let (low, high) = number::range(layout);
            let within = int(random, layout);
            let number = *random.pick(&[low - 1, low, high, high + 1, within]);
            let step = random.below(5).wrapping_sub(2);
            (number as f64).to_bits().wrapping_add(step)
        }
    }
}
