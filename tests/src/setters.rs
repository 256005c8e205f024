//! The setters of an atomic layout, given as eight words: class (0 int,
//! 1 bits), size, order (0 LE, 1 BE), offset, precision, lsb, msb (0 zero,
//! 1 one, 2 keep), sign (0 unsigned, 1 signed; 0 for bits).

pub type Words = [u32; 8];

const CLASS: usize = 0;
const SIZE: usize = 1;
const ORDER: usize = 2;
const OFFSET: usize = 3;
const PRECISION: usize = 4;
const LSB: usize = 5;
const MSB: usize = 6;
const SIGN: usize = 7;

/// One call of a setter with its arguments.
#[derive(Clone, Copy, Debug, PartialEq, Eq)]
pub enum Setter {
    Size(u32),
    Order(u32),
    /// Offset, then precision.
    Field(u32, u32),
    Pads(u32, u32),
    Sign(u32),
}

/// The answer number and the layout after the call. "A setter that refuses
/// returns the layout it was given."
pub fn set(layout: Words, setter: Setter) -> (u32, Words) {
    if !is_valid(&layout) {
        return (9, layout);
    }
    match changed(layout, setter) {
        Some(result) => (0, result),
        None => (9, layout),
    }
}

/// The rules of an atomic layout, and every word a code.
pub fn is_valid(layout: &Words) -> bool {
    let [class, size, order, offset, precision, lsb, msb, sign] = layout.map(u64::from);
    class <= 1
        && (1..=8).contains(&size)
        && order <= 1
        && (1..=64).contains(&precision)
        && offset + precision <= 8 * size
        && lsb <= 2
        && msb <= 2
        && sign <= if class == 1 { 0 } else { 1 }
}

fn changed(layout: Words, setter: Setter) -> Option<Words> {
    let mut result = layout;
    match setter {
        Setter::Size(size) => return set_size(layout, size),
        Setter::Field(offset, precision) => return set_field(layout, offset, precision),
        Setter::Order(order) if order <= 1 => result[ORDER] = order,
        Setter::Pads(lsb, msb) if lsb <= 2 && msb <= 2 => {
            result[LSB] = lsb;
            result[MSB] = msb;
        }
        // "Sign on a bits layout is refused."
        Setter::Sign(sign) if sign <= 1 && layout[CLASS] == 0 => result[SIGN] = sign,
        _ => return None,
    }
    Some(result)
}

/// "1..8. p' = min(p, 8s'), o' = min(o, 8s' − p')."
fn set_size(layout: Words, size: u32) -> Option<Words> {
    if !(1..=8).contains(&size) {
        return None;
    }
    let precision = layout[PRECISION].min(8 * size);
    let mut result = layout;
    result[SIZE] = size;
    result[PRECISION] = precision;
    result[OFFSET] = layout[OFFSET].min(8 * size - precision);
    Some(result)
}

/// Document 02, 2026-04: "o' from 0 and p' from 1 to 64, leaves exactly these,
/// and grows size only if o' + p' passes 8 × size, to the least that holds it".
/// Refused if that would pass 8.
fn set_field(layout: Words, offset: u32, precision: u32) -> Option<Words> {
    if !(1..=64).contains(&precision) {
        return None;
    }
    let end = u64::from(offset) + u64::from(precision);
    let mut result = layout;
    result[SIZE] = (layout[SIZE]..=8).find(|&size| end <= 8 * u64::from(size))?;
    result[OFFSET] = offset;
    result[PRECISION] = precision;
    Some(result)
}
