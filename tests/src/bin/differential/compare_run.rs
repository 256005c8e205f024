//! One call that compares two logs, through the library and through the
//! independent converter.

use crate::capi;
use crate::random::Random;
use crate::run::{self, Seen};
use independent::call::Call;
use independent::compare;

/// What a call is given.
#[derive(Clone)]
pub struct CompareRun {
    pub first_sheet: Vec<u8>,
    pub second_sheet: Vec<u8>,
    pub count: u64,
    pub first: Vec<u8>,
    pub second: Vec<u8>,
    /// Whether both logs are lent as one buffer, which is the first.
    pub is_one: bool,
    pub list: Vec<u8>,
    pub table: Vec<u32>,
}

/// What the independent converter makes of a call.
pub fn expected(run: &CompareRun) -> Seen {
    let call = Call {
        source_sheet: &run.first_sheet,
        destination_sheet: &run.second_sheet,
        count: run.count,
        handling: None,
        table: &run.table,
    };
    let second = if run.is_one { &run.first } else { &run.second };
    compare::compare(call, &run.first, second, &run.list).into()
}

/// Runs both and compares everything; gives what the library left.
pub fn both(random: &mut Random, run: &CompareRun) -> Result<Seen, String> {
    let seen = capi::compare(random, run).map_err(|fault| format!("{fault}\n{}", tell(run)))?;
    match run::difference(&seen, &expected(run)) {
        None => Ok(seen),
        Some(fault) => Err(format!("{fault}\n{}", tell(run))),
    }
}

/// A call in words, long buffers cut.
pub fn tell(run: &CompareRun) -> String {
    format!(
        "comparison\ncount: {}\ntable words: {}\nlist bytes: {}\n\
         first sheet:\n{}\nsecond sheet:\n{}\nfirst: {}\nsecond: {}",
        run.count,
        run.table.len(),
        run.list.len(),
        run::show(&run.first_sheet),
        run::show(&run.second_sheet),
        run::hex(&run.first),
        match run.is_one {
            true => "the first".to_string(),
            false => run::hex(&run.second),
        },
    )
}
