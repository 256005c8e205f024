//! The fields of a sheet's line: words, names and numbers.

use crate::datatype::{Order, Pad, Word};

pub fn order(field: &[u8]) -> Option<Order> {
    match field {
        b"LE" => Some(Order::LittleEndian),
        b"BE" => Some(Order::BigEndian),
        _ => None,
    }
}

pub fn pad(field: &[u8]) -> Option<Pad> {
    match field {
        b"zero" => Some(Pad::Zero),
        b"one" => Some(Pad::One),
        b"keep" => Some(Pad::Keep),
        _ => None,
    }
}

/// "A further field `clamp` or `stop`."
pub fn word(field: &[u8]) -> Option<Word> {
    match field {
        b"clamp" => Some(Word::Clamp),
        b"stop" => Some(Word::Stop),
        _ => None,
    }
}

/// "A name is 1 to 31 bytes in 33..126."
pub fn name(field: &[u8]) -> Option<Vec<u8>> {
    let fits = (1..=31).contains(&field.len()) && field.iter().all(|b| (33..=126).contains(b));
    fits.then(|| field.to_vec())
}

/// "Decimal without leading zeros, at most 4,294,967,295."
pub fn natural(field: &[u8]) -> Option<u64> {
    let number = digits(field)?;
    (number <= 4_294_967_295).then_some(number as u64)
}

/// A number of an enum, which may have a leading minus.
pub fn whole(field: &[u8]) -> Option<i128> {
    match field {
        b"-0" => None,
        [b'-', rest @ ..] => Some(-digits(rest)?),
        _ => digits(field),
    }
}

/// Digits without leading zeros. More than 20 of them pass every bound.
fn digits(field: &[u8]) -> Option<i128> {
    let all_digits = field.iter().all(|byte| byte.is_ascii_digit());
    if field.is_empty() || field.len() > 20 || !all_digits {
        return None;
    }
    if field.len() > 1 && field[0] == b'0' {
        return None;
    }
    Some(
        field
            .iter()
            .fold(0, |sum, byte| 10 * sum + i128::from(byte - b'0')),
    )
}
