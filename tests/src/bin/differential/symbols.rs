//! Cases of enums that keep their symbols or lose some.

use crate::compare_run;
use crate::compares;
use crate::convert;
use crate::generate;
use crate::properties;
use crate::random::Random;
use crate::reports;
use crate::symbol_events;
use crate::tally::Tally;
use crate::words;

/// A conversion, a report and a comparison between the same two sheets.
pub fn case(random: &mut Random, tally: &mut Tally) -> Result<(), String> {
    let (from, to) = generate::symbols(random);
    let (from, to) = words::texts(random, &from, &to);
    let run = convert::make(random, 6, from.clone(), to.clone());
    convert::finish(random, tally, &run)?;
    let run = reports::make(random, 6, from.clone(), to.clone());
    reports::finish(random, tally, &run)?;
    let run = compares::make(random, 3, from.clone(), to.clone());
    let seen = compare_run::both(random, &run)?;
    symbol_events::note_compared(tally, &run, &seen);
    properties::hold(random, tally, &from, &to)
}
