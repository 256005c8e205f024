//! The size of a record.

use crate::call::{After, Answer, table_after};
use crate::sheet;

/// Checks 2 and 3 apply; done carries the size in bytes of one record of the
/// sheet's type in place of the count. No buffer is written.
pub fn record_size(sheet: &[u8], table: &[u32]) -> After {
    let answer = if table.len() < 8192 {
        Answer::refused(2)
    } else {
        match sheet::read(sheet) {
            Ok(datatype) => Answer::done(datatype.size()),
            Err(line) => Answer::faulty(3, line),
        }
    };
    After {
        answer,
        written: Vec::new(),
        table: table_after(&answer, table),
    }
}
