//! Sheets of one line: an int or a real.

use crate::random::Random;
use independent::datatype::{Atomic, Datatype, Order, Pad};
use independent::number;

pub fn order(random: &mut Random) -> Order {
    *random.pick(&[Order::LittleEndian, Order::BigEndian])
}

fn word(order: Order) -> &'static str {
    match order {
        Order::LittleEndian => "LE",
        Order::BigEndian => "BE",
    }
}

/// Whole bytes or any precision; the pads are zero.
pub fn layout(random: &mut Random) -> Atomic {
    let size = *random.pick(&[1, 2, 4, 7, 8, 8, 8]);
    let precision = match random.below(3) {
        0 => random.between(1, 8 * size),
        _ => 8 * size,
    };
    Atomic {
        size,
        order: order(random),
        offset: random.between(0, 8 * size - precision),
        precision,
        lsb: Pad::Zero,
        msb: Pad::Zero,
        signed: random.percent(50),
    }
}

pub fn int_line(layout: &Atomic) -> String {
    let sign = if layout.signed { "signed" } else { "unsigned" };
    let Atomic {
        size,
        offset,
        precision,
        ..
    } = layout;
    format!(
        "int\t{size}\t{}\t{offset}\t{precision}\tzero\tzero\t{sign}\n",
        word(layout.order)
    )
}

pub fn real_line(order: Order) -> String {
    format!("real\t8\t{}\n", word(order))
}

pub fn real_layout(order: Order) -> Atomic {
    *number::layout(&Datatype::real(order))
}
