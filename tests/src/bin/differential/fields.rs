//! The setter of the field: what is asked for, and its laws on whole layouts.

use crate::capi;
use crate::others::odd_word;
use crate::random::Random;
use crate::tally::Tally;
use independent::setters::{Setter, Words};

const CLASS: usize = 0;
const SIZE: usize = 1;
const PRECISION: usize = 4;

/// What a whole run must have met.
pub const NEEDED: [&str; 7] = [
    "field: the size grew",
    "field: a size larger than needed stayed",
    "field: of a bits layout",
    "field: an end past 2^32",
    "law: a field set twice",
    "law: the last field decides",
    "law: a larger first field shows in the size",
];

/// An offset and a precision. An odd offset goes by the precision asked for.
pub fn asked(random: &mut Random, layout: Words, odd: bool) -> (u32, u32) {
    let mut other = layout;
    if !odd || random.percent(60) {
        other[PRECISION] = random.between(0, 66) as u32;
    } else {
        other[PRECISION] = odd_word(random, layout);
    }
    let offset = if odd {
        odd_word(random, other)
    } else {
        random.between(0, 66) as u32
    };
    (offset, other[PRECISION])
}

/// What is met when a field is set on `before`, and `after` is left.
pub fn saw(tally: &mut Tally, before: Words, after: Words, (offset, precision): (u32, u32)) {
    if after[SIZE] > before[SIZE] {
        tally.saw("field: the size grew");
    } else if after[SIZE] > (offset + precision).div_ceil(8) {
        tally.saw("field: a size larger than needed stayed");
    }
    if before[CLASS] == 1 {
        tally.saw("field: of a bits layout");
    }
}

/// A field that is set on `before` and leaves `after`: set again it changes
/// nothing, and behind another one it shows in the size alone.
pub fn laws(
    random: &mut Random,
    tally: &mut Tally,
    before: Words,
    after: Words,
    (offset, precision): (u32, u32),
) -> Result<(), String> {
    let again = capi::set(random, after, Setter::Field(offset, precision))?;
    if again != (0, after) {
        return Err(format!(
            "the field {offset}, {precision} set again on {after:?}: {again:?}"
        ));
    }
    tally.saw("law: a field set twice");
    let (o, p) = asked(random, before, false);
    let alone = capi::set(random, before, Setter::Field(o, p))?;
    let both = capi::set(random, after, Setter::Field(o, p))?;
    let mut expected = alone.1;
    expected[SIZE] = expected[SIZE].max(after[SIZE]);
    if both.0 != alone.0 || (both.0 == 0 && both.1 != expected) {
        return Err(format!(
            "the field {o}, {p} on {before:?}: {alone:?}; behind {offset}, {precision}: {both:?}"
        ));
    }
    if both.0 == 0 {
        tally.saw("law: the last field decides");
        if both.1 != alone.1 {
            tally.saw("law: a larger first field shows in the size");
        }
    }
    Ok(())
}
