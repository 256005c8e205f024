//! Cases of words on members: nested, above arrays and in their elements, on
//! compounds that several members share, in both sheets.

use crate::convert::with_types;
use crate::generate::unequal_leaves;
use crate::model::Model;
use crate::random::Random;
use crate::records::{fitting_records, put};
use crate::run::{FORMS, NAMING, Run};
use crate::stops::raising;
use crate::tally::Tally;
use crate::word_laws;
use crate::words;
use crate::{convert, trees};
use independent::call::{CLAMP, STOP};
use independent::paths::Match;

const COUNTS: [u64; 9] = [0, 1, 1, 1, 2, 3, 5, 9, 40];

pub fn case(random: &mut Random, tally: &mut Tally) -> Result<(), String> {
    let models = trees::sheets(random, 2, leaf, stands);
    let (from, to) = (&models[0], &models[1]);
    let sheets = (words::text(random, from), words::often(random, to));
    let Some(run) = make(random, sheets) else {
        return Ok(());
    };
    let seen = convert::hold(random, tally, &run)?;
    word_laws::hold(random, tally, &run, &seen)?;
    match random.percent(25) {
        true => word_laws::other_calls(random, tally, from, to),
        false => Ok(()),
    }
}

fn leaf(random: &mut Random, models: &mut [Model]) -> Vec<usize> {
    let [from, to] = models else {
        unreachable!("there are two sheets");
    };
    let (first, second) = unequal_leaves(random, from, to);
    vec![first, second]
}

/// In both sheets mostly.
fn stands(random: &mut Random) -> Vec<bool> {
    match random.below(20) {
        0 => vec![true, false],
        1 => vec![false, true],
        _ => vec![true, true],
    }
}

/// A run between two sheets in which few leaves raise, or none.
fn make(random: &mut Random, (from, to): (Vec<u8>, Vec<u8>)) -> Option<Run> {
    // Half of them clamp where no word is said.
    let (form, handling) = match random.percent(50) {
        true => (*random.pick(&NAMING), CLAMP),
        false => (*random.pick(&FORMS), STOP),
    };
    let (count, first, second) = with_types(&from, &to, |source, destination, matches| {
        let most = 3000 / (matches.len() as u64 + 1) + 1;
        let count = (*random.pick(&COUNTS)).min(most);
        let mut first = fitting_records(random, source.size(), count, matches);
        raise_some(random, source.size(), matches, &mut first);
        if !form.is_copying() {
            let longer = source.size().max(destination.size());
            convert::resize(random, &mut first, (longer * count) as usize);
        }
        let second = random.bytes((destination.size() * count) as usize);
        (count, first, second)
    })?;
    Some(Run {
        form,
        source_sheet: from,
        destination_sheet: to,
        count,
        handling,
        first,
        second,
        table: random.words(8192),
    })
}

/// Puts numbers that raise into none, one or some leaves.
fn raise_some(random: &mut Random, size: u64, matches: &[Match], records: &mut [u8]) {
    if matches.is_empty() || records.is_empty() {
        return;
    }
    let count = records.len() as u64 / size;
    for _ in 0..*random.pick(&[0, 1, 1, 1, 2, 2, 3, 8, 60]) {
        let record = match random.percent(25) {
            true => count - 1,
            false => random.below(count),
        };
        let record = (record * size) as usize;
        let pair = random.pick(matches);
        put(pair, raising(random, pair), &mut records[record..]);
    }
}
