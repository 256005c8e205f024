//! Conversions of about a block of records in which the words of members decide,
//! and what they have met.

use crate::block_sheets;
use crate::blocks::{FEWEST, Unit, run_log, stop_at};
use crate::generate::paired;
use crate::random::Random;
use crate::records::{fitting_records, put};
use crate::run::{FORMS, Run};
use crate::stops::raising;
use crate::tally::Tally;
use crate::words;
use independent::call::STOP;
use independent::datatype::Datatype;
use independent::paths::Match;

/// Numbers of records at and beside a whole block.
const COUNTS: [u64; 3] = [255, 256, 257];

/// What every form must have met.
pub fn each() -> Vec<String> {
    let places = ["first", "last", "middle"];
    let stops = places.iter().map(|place| stop_event(place));
    let counts = COUNTS.iter().flat_map(|count| {
        let of = |end| count_event(end, *count);
        [of("STOP"), of("done with an exception")]
    });
    stops.chain(counts).collect()
}

fn count_event(end: &str, count: u64) -> String {
    format!("words, {end} of {count} records")
}

fn stop_event(place: &str) -> String {
    format!("words, STOP at the {place} record of one")
}

/// Leaves that clamp raise, and in some runs one that stops.
pub fn case(random: &mut Random, tally: &mut Tally) -> Result<(), String> {
    let (from, to) = paired(random, 5, block_sheets::leaves);
    let share = words::some(random);
    let sheets = (words::text(random, &from), words::with(random, &to, share));
    let (form, handling) = (*random.pick(&FORMS), random.below(2) as u32);
    let call_stops = form.is_plain() || handling == STOP;
    let made = |random: &mut Random, from: &Datatype, to: &Datatype, matches: &[Match]| {
        let count = match random.percent(95) {
            true => *random.pick(&COUNTS),
            false => random.between(300, 600),
        };
        let mut bytes = fitting_records(random, from.size(), count, matches);
        let stops = |pair: &&Match| words::stop(to, &pair.to, call_stops);
        let (stopping, clamping): (Vec<&Match>, Vec<&Match>) = matches.iter().partition(stops);
        for _ in 0..random.between(1, 4) {
            let record = random.below(count) * from.size();
            raise(random, &clamping, &mut bytes[record as usize..]);
        }
        if random.percent(50) {
            let block = Unit::record(from, to).searched();
            let record = stop_at(random, block, count) * from.size();
            raise(random, &stopping, &mut bytes[record as usize..]);
        }
        (count, bytes)
    };
    run_log(random, tally, (form, handling), sheets, made)
}

/// Puts a number that raises into one of some leaves, if one is found.
fn raise(random: &mut Random, pairs: &[&Match], record: &mut [u8]) {
    if !pairs.is_empty() {
        let pair = *random.pick(pairs);
        put(pair, raising(random, pair), record);
    }
}

/// Notes a run in which a leaf obeys otherwise than the call says.
pub fn note(
    saw: &mut impl FnMut(bool, &str),
    run: &Run,
    answer: &[u64; 8],
    (from, to): (&Datatype, &Datatype),
    matches: &[Match],
) {
    let differs = |pair: &Match| words::stop(to, &pair.to, run.stops()) != run.stops();
    if run.count < FEWEST || !matches.iter().any(differs) {
        return;
    }
    let [number, raised, _, record, ..] = *answer;
    let stopped = number == 8;
    let block = Unit::record(from, to).searched();
    let place = match record % block {
        0 => "first",
        within if within == block - 1 => "last",
        _ => "middle",
    };
    saw(stopped, &stop_event(place));
    if COUNTS.contains(&run.count) {
        let of = |end| count_event(end, run.count);
        saw(stopped, &of("STOP"));
        saw(!stopped && raised > 0, &of("done with an exception"));
    }
}
