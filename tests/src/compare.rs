//! Two logs compared (document 02, 2026-06).

use crate::call::{self, After, Answer, Call, part};
use crate::datatype::{Datatype, Value};
use crate::number;
use crate::paths::{self, Leaf};
use crate::real;

/// A matched leaf where the logs differ. A real's number is its 64 bits.
#[derive(Clone, Copy, Debug, PartialEq, Eq)]
pub struct Difference {
    pub record: u64,
    /// "At in the second layout", in bytes.
    pub at: u64,
    pub first: i128,
    pub second: i128,
}

/// "Refusals: 2 to 7 as in the copying form, with nS and nD for the two buffers
/// and 7 for the list; the list buffer is then unchanged." The first log is the
/// call's source, the second its destination; there is no handling.
pub fn compare(call: Call, first: &[u8], second: &[u8], list: &[u8]) -> After {
    let mut written = list.to_vec();
    let result = fill(call, first, second, &mut written);
    let answer = result.unwrap_or_else(|refusal| refusal);
    After {
        answer,
        written,
        table: call::table_after(&answer, call.table),
    }
}

fn fill(call: Call, first: &[u8], second: &[u8], list: &mut [u8]) -> Result<Answer, Answer> {
    let (from, to) = call::read_sheets(&call)?;
    call::check_path_and_count(&call, &from, &to)?;
    let (first_len, second_len) = call::lengths(&call, &from, &to);
    if (first.len() as u128) < first_len || (second.len() as u128) < second_len {
        return Err(Answer::refused(7));
    }
    let text = text(&differences(&from, &to, call.count, first, second));
    if list.len() < text.len() {
        return Err(Answer::refused(7));
    }
    list[..text.len()].copy_from_slice(&text);
    Ok(Answer::done(text.len() as u64))
}

/// "List each matched leaf where they differ. Order: record, then byte." Asks for
/// datatypes that have a path, and for both buffers' records.
pub fn differences(
    from: &Datatype,
    to: &Datatype,
    count: u64,
    first: &[u8],
    second: &[u8],
) -> Vec<Difference> {
    let mut matches = paths::matches(from, to);
    matches.sort_by_key(|pair| pair.to.at);
    let mut found = Vec::new();
    for record in 0..count {
        let bytes = part(first, record, from.size());
        let others = part(second, record, to.size());
        for pair in &matches {
            let (first, second) = (read(&pair.from, bytes), read(&pair.to, others));
            if !is_same(pair.from.datatype, pair.to.datatype, first, second) {
                found.push(Difference {
                    record,
                    at: pair.to.at,
                    first,
                    second,
                });
            }
        }
    }
    found
}

fn read(leaf: &Leaf, record: &[u8]) -> i128 {
    number::read(number::layout(leaf.datatype), &record[leaf.at as usize..])
}

/// Whether the numbers of two leaves that have a path are the same.
pub fn is_same(from: &Datatype, to: &Datatype, first: i128, second: i128) -> bool {
    match (from, to) {
        // "Enums compare by symbol, and a number without a symbol equals only the
        // same number without one."
        (Datatype::Enum { values, .. }, Datatype::Enum { values: others, .. }) => {
            match (symbol(values, first), symbol(others, second)) {
                (Some(one), Some(other)) => one == other,
                (None, None) => first == second,
                _ => false,
            }
        }
        // "A real against an int by exact worth, where not-a-number always differs."
        (Datatype::Real(_), Datatype::Int(_)) => is_worth(first as u64, second),
        (Datatype::Int(_), Datatype::Real(_)) => is_worth(second as u64, first),
        // "A real against a real compares its 64 bits", and "numbers compare
        // exactly, whatever the widths."
        _ => first == second,
    }
}

fn symbol(values: &[Value], number: i128) -> Option<&[u8]> {
    let value = values.iter().find(|value| value.number == number)?;
    Some(&value.name)
}

/// Whether the 64 bits of a real are worth just a whole number.
pub fn is_worth(pattern: u64, number: i128) -> bool {
    if real::is_not_a_number(pattern) || real::is_infinite(pattern) {
        return false;
    }
    let (whole, is_left) = real::whole_part(pattern);
    let is_negative = real::is_negative(pattern) && whole > 0;
    !is_left && whole == number.unsigned_abs() && is_negative == (number < 0)
}

/// "`record⇥at⇥first⇥second`", then a line for each.
pub fn text(differences: &[Difference]) -> Vec<u8> {
    let mut text = String::from("record\tat\tfirst\tsecond\n");
    for found in differences {
        let Difference {
            record,
            at,
            first,
            second,
        } = found;
        text.push_str(&format!("{record}\t{at}\t{first}\t{second}\n"));
    }
    text.into_bytes()
}
