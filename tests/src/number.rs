//! Where the bits lie: numbers read, written and clamped bit by bit.

use crate::datatype::{Atomic, Datatype, Order, Pad, Value};
use crate::real;

/// The byte that holds a bit of the container, and the bit's place in it.
fn place(layout: &Atomic, bit: u64) -> (usize, u64) {
    let byte = match layout.order {
        Order::LittleEndian => bit / 8,
        Order::BigEndian => layout.size - 1 - bit / 8,
    };
    (byte as usize, bit % 8)
}

pub fn bit(layout: &Atomic, bytes: &[u8], bit: u64) -> bool {
    let (byte, within) = place(layout, bit);
    bytes[byte] >> within & 1 == 1
}

pub fn set_bit(layout: &Atomic, bytes: &mut [u8], bit: u64, on: bool) {
    let (byte, within) = place(layout, bit);
    if on {
        bytes[byte] |= 1 << within;
    } else {
        bytes[byte] &= !(1 << within);
    }
}

/// Whether a bit of the container is one of the number's.
pub fn is_significant(layout: &Atomic, bit: u64) -> bool {
    (layout.offset..layout.offset + layout.precision).contains(&bit)
}

/// "The number occupies bits offset to offset + precision − 1. Sign comes
/// from the top significant bit."
pub fn read(layout: &Atomic, bytes: &[u8]) -> i128 {
    let mut number = 0;
    for i in 0..layout.precision {
        if bit(layout, bytes, layout.offset + i) {
            number += 1_i128 << i;
        }
    }
    let top = layout.offset + layout.precision - 1;
    if layout.signed && bit(layout, bytes, top) {
        number -= 1_i128 << layout.precision;
    }
    number
}

/// Writes over the background, which `bytes` holds. "Writing sets lower
/// bits by the lsb pad and higher bits by the msb pad."
pub fn write(layout: &Atomic, number: i128, bytes: &mut [u8]) {
    for bit in 0..8 * layout.size {
        if is_significant(layout, bit) {
            let on = number >> (bit - layout.offset) & 1 == 1;
            set_bit(layout, bytes, bit, on);
        } else if bit < layout.offset {
            set_pad(layout, bytes, bit, layout.lsb);
        } else {
            set_pad(layout, bytes, bit, layout.msb);
        }
    }
}

fn set_pad(layout: &Atomic, bytes: &mut [u8], bit: u64, pad: Pad) {
    match pad {
        Pad::Zero => set_bit(layout, bytes, bit, false),
        Pad::One => set_bit(layout, bytes, bit, true),
        Pad::Keep => {}
    }
}

/// The smallest and the largest number.
pub fn range(layout: &Atomic) -> (i128, i128) {
    if layout.signed {
        let half = 1_i128 << (layout.precision - 1);
        (-half, half - 1)
    } else {
        (0, (1_i128 << layout.precision) - 1)
    }
}

/// "All significant bits one", as the number to write.
const ALL_ONES: i128 = -1;

/// The number to write into the destination leaf, and the exception kind. A
/// real's number is its 64 bits.
pub fn convert(source: &Datatype, destination: &Datatype, number: i128) -> (i128, Option<u64>) {
    match (source, destination) {
        (Datatype::Int(_), Datatype::Int(layout)) => clamp(layout, number),
        (Datatype::Bits(_), Datatype::Bits(layout)) => clamp(layout, number),
        (Datatype::Int(_), Datatype::Real(_)) => {
            let (pattern, kind) = real::from_int(number);
            (i128::from(pattern), kind)
        }
        (Datatype::Real(_), Datatype::Int(layout)) => real::to_int(layout, number as u64),
        // "Real to real copies all 64 bits."
        (Datatype::Real(_), Datatype::Real(_)) => (number, None),
        (Datatype::Enum { values, .. }, Datatype::Enum { values: others, .. }) => {
            match symbol(values, others, number) {
                Some(number) => (number, None),
                None => (ALL_ONES, Some(3)),
            }
        }
        _ => unreachable!("these leaves have no path"),
    }
}

pub fn clamp(layout: &Atomic, number: i128) -> (i128, Option<u64>) {
    let (smallest, largest) = range(layout);
    if number > largest {
        (largest, Some(1))
    } else if number < smallest {
        (smallest, Some(2))
    } else {
        (number, None)
    }
}

/// "Number to symbol, symbol to the destination's number."
fn symbol(source: &[Value], destination: &[Value], number: i128) -> Option<i128> {
    let from = source.iter().find(|value| value.number == number)?;
    let to = destination.iter().find(|value| value.name == from.name)?;
    Some(to.number)
}

/// The atomic layout in which a leaf's number lies.
pub fn layout(leaf: &Datatype) -> &Atomic {
    match leaf {
        Datatype::Int(layout) | Datatype::Bits(layout) | Datatype::Real(layout) => layout,
        Datatype::Enum { base, .. } => base,
        _ => unreachable!("a leaf is an int, bits, real or enum place"),
    }
}
