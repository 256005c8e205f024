//! Which bits of a source record a conversion can turn on: a mask, and the
//! call that gives it.

use crate::call::{self, After, Answer, Call, table_after};
use crate::datatype::Datatype;
use crate::number;
use crate::paths;
use crate::symbols;

/// One source record in which the significant bits of the matched source
/// leaves are one, and all others zero. Asks for datatypes that have a path.
pub fn mask(from: &Datatype, to: &Datatype) -> Vec<u8> {
    let mut mask = vec![0; from.size() as usize];
    for pair in paths::matches(from, to) {
        let layout = number::layout(pair.from.datatype);
        let bytes = &mut mask[pair.from.at as usize..];
        for bit in 0..8 * layout.size {
            if number::is_significant(layout, bit) {
                number::set_bit(layout, bytes, bit, true);
            }
        }
    }
    mask
}

/// "Checks 2, 3, 4, 5, 12, 7 (a mask buffer under one source record); done
/// carries the mask's length; a refusal leaves the mask buffer, and bytes
/// behind the mask never change." Count and handling of the call are not
/// looked at.
pub fn reach(call: Call, buffer: &[u8]) -> After {
    let mut written = buffer.to_vec();
    let answer = fill(call, &mut written).unwrap_or_else(|refusal| refusal);
    After {
        answer,
        written,
        table: table_after(&answer, call.table),
    }
}

fn fill(call: Call, buffer: &mut [u8]) -> Result<Answer, Answer> {
    let (from, to) = call::read_sheets(&call)?;
    if !paths::has_path(&from, &to) {
        return Err(Answer::refused(5));
    }
    if !symbols::keeps_symbols(&from, &to) {
        return Err(Answer::refused(12));
    }
    let mask = mask(&from, &to);
    if buffer.len() < mask.len() {
        return Err(Answer::refused(7));
    }
    buffer[..mask.len()].copy_from_slice(&mask);
    Ok(Answer::done(mask.len() as u64))
}
