//! Which bits of a source record show: the call's mask against the independent
//! one, and flips and witnesses that say the same of conversions.

use crate::capi;
use crate::convert::with_types;
use crate::derive::derive;
use crate::generate;
use crate::random::Random;
use crate::records::{put, records};
use crate::run::{self, FORMS, Form, NAMING, Run, Seen, check};
use crate::tally::Tally;
use crate::word_events;
use crate::words::{self, Share};
use independent::call::{CLAMP, Call};
use independent::datatype::{Datatype, Order, Word};
use independent::number;
use independent::obey;
use independent::paths::{self, Match};
use independent::reach;
use independent::sheet;

pub const ANSWERS: [u64; 7] = [0, 2, 3, 4, 5, 7, 12];

pub const NEEDED: [&str; 44] = [
    "case: which bits show",
    "reach: a mask short by one byte",
    "reach: just the room for the mask",
    "reach: bytes behind the mask",
    "reach: a mask of 4,096 bytes",
    "reach: no bit at all",
    "reach: a little-endian number over several bytes, with pads",
    "reach: a big-endian number over several bytes, with pads",
    "reach: a matched real",
    "reach: a matched enum",
    "reach: a matched enum without a value",
    "reach: an unmatched leaf",
    "reach: an unmatched enum with symbols",
    "reach SOURCE at line 0",
    "reach, 2 and 3 at once",
    "reach, 3 and 4 at once",
    "reach, 4 and 7 at once",
    "reach, 5 and 7 at once",
    "reach, 7 and 12 at once",
    "flip: a pad bit does not show",
    "flip: a bit of an unmatched leaf does not show",
    "flip: a bit of a gap does not show",
    "flip: a bit outside the mask does not show in place",
    "flip: a bit outside the mask does not show under STOP",
    "flip: a bit outside the mask does not show in a cleared tail",
    "flip: a bit of the mask shows",
    "flip: a bit of the mask is hidden by a clamp",
    "witness: past record 0",
    "witness: copying",
    "witness: in place",
    "witness: clamped by words",
    "witness: in the converted bytes",
    "witness: in the count alone",
    "witness: a sign's bit",
    "witness: int to int",
    "witness: bits to bits",
    "witness: int to real",
    "witness: real to int",
    "witness: real to real",
    "witness: an enum by another symbol",
    "witness: an enum by a number without a symbol",
    "witness: an enum without a value is hidden",
    "witness: an enum without a value shows in STOP's number",
    "witness: a later enum without a value is hidden under STOP too",
];

// ---- the call

/// The call on the sheets of a run, with the run's table.
pub fn of_run(random: &mut Random, tally: &mut Tally, run: &Run) -> Result<(), String> {
    let (from, to) = (&run.source_sheet, &run.destination_sheet);
    let needed = sheet::read(from).map_or(40, |datatype| datatype.size());
    let length = match random.below(8) {
        0 => random.below(needed),
        1 => needed - 1,
        2..=4 => needed,
        _ => needed + random.between(1, 40),
    };
    ask(random, tally, (from, to), length, &run.table).map(|_| ())
}

/// Runs the call and compares everything that it leaves.
pub fn ask(
    random: &mut Random,
    tally: &mut Tally,
    (from, to): (&[u8], &[u8]),
    length: u64,
    table: &[u32],
) -> Result<Seen, String> {
    let buffer = random.bytes(length as usize);
    let call = Call {
        source_sheet: from,
        destination_sheet: to,
        count: 0,
        handling: None,
        table,
    };
    let expected: Seen = reach::reach(call, &buffer).into();
    let told = |fault: String| {
        format!(
            "{fault}\nreach, room {length}, table {}\nsource sheet:\n{}\ndestination sheet:\n{}",
            table.len(),
            run::show(from),
            run::show(to)
        )
    };
    let seen = capi::reach(random, (from, to), &buffer, table).map_err(told)?;
    if let Some(fault) = run::difference(&seen, &expected) {
        return Err(told(fault));
    }
    note(tally, (from, to), length, &seen);
    Ok(seen)
}

fn note(tally: &mut Tally, (from, to): (&[u8], &[u8]), length: u64, seen: &Seen) {
    let [number, size, line, ..] = seen.answer;
    tally.answer("reach", number);
    word_events::note_call(tally, "reach", &[from, to], number);
    let (source, destination) = (sheet::read(from), sheet::read(to));
    let mut saw = |holds: bool, what: &str| {
        if holds {
            tally.saw(what);
        }
    };
    saw(number == 3 && line == 0, "reach SOURCE at line 0");
    saw(number == 2 && source.is_err(), "reach, 2 and 3 at once");
    saw(
        number == 3 && destination.is_err(),
        "reach, 3 and 4 at once",
    );
    let Ok(source) = source else { return };
    let is_short = length < source.size();
    saw(number == 4 && is_short, "reach, 4 and 7 at once");
    saw(number == 5 && is_short, "reach, 5 and 7 at once");
    saw(number == 12 && is_short, "reach, 7 and 12 at once");
    let by_one = number == 7 && length + 1 == source.size();
    saw(by_one, "reach: a mask short by one byte");
    if number != 0 {
        return;
    }
    saw(length == size, "reach: just the room for the mask");
    saw(length > size, "reach: bytes behind the mask");
    saw(size == 4096, "reach: a mask of 4,096 bytes");
    let mask = &seen.written[..size as usize];
    saw(mask.iter().all(|byte| *byte == 0), "reach: no bit at all");
    let destination = destination.expect("the call is done");
    let matches = paths::matches(&source, &destination);
    for pair in &matches {
        note_pair(tally, pair.from.datatype);
    }
    note_unmatched(tally, &source, &matches);
}

fn note_pair(tally: &mut Tally, leaf: &Datatype) {
    let layout = number::layout(leaf);
    let is_wide = layout.size > 1 && layout.precision > 8 && !layout.precision.is_multiple_of(8);
    if is_wide {
        tally.saw(match layout.order {
            Order::LittleEndian => "reach: a little-endian number over several bytes, with pads",
            Order::BigEndian => "reach: a big-endian number over several bytes, with pads",
        });
    }
    match leaf {
        Datatype::Real(_) => tally.saw("reach: a matched real"),
        Datatype::Enum { values, .. } => {
            tally.saw("reach: a matched enum");
            if values.is_empty() {
                tally.saw("reach: a matched enum without a value");
            }
        }
        _ => {}
    }
}

fn note_unmatched(tally: &mut Tally, source: &Datatype, matches: &[Match]) {
    for leaf in paths::leaves(source) {
        if matches.iter().any(|pair| pair.from.at == leaf.at) {
            continue;
        }
        tally.saw("reach: an unmatched leaf");
        if let Datatype::Enum { values, .. } = leaf.datatype
            && !values.is_empty()
        {
            tally.saw("reach: an unmatched enum with symbols");
        }
    }
}

// ---- what conversions turn on

/// Two sheets whose conversions are tried, and the mask that the call gave.
struct Setting<'a> {
    sheets: (&'a [u8], &'a [u8]),
    from: &'a Datatype,
    to: &'a Datatype,
    matches: &'a [Match<'a>],
    mask: Vec<u8>,
    table: Vec<u32>,
}

/// Every bit of a source is flipped, and every bit of the mask has its witness.
pub fn case(random: &mut Random, tally: &mut Tally) -> Result<(), String> {
    let (from, to) = match random.below(4) {
        0 => {
            let model = generate::sheet(random, 16);
            let other = derive(random, &model);
            (model, other)
        }
        _ => generate::showing(random),
    };
    let share = match random.below(4) {
        0 => words::some(random),
        1 => Share {
            silent: *random.pick(&[0, 50]),
            stop: 0,
        },
        _ => words::NONE,
    };
    let (from, to) = (words::text(random, &from), words::with(random, &to, share));
    let table = random.words(8192);
    let tried = with_types(&from, &to, |source, destination, matches| {
        let seen = ask(random, tally, (&from, &to), source.size(), &table)?;
        if seen.answer[0] != 0 {
            return Ok(());
        }
        let setting = Setting {
            sheets: (&from, &to),
            from: source,
            to: destination,
            matches,
            mask: seen.written,
            table,
        };
        setting.flips(random, tally)?;
        // A leaf that obeys stop hides every later one where it raises.
        match setting.all_obey(Word::Clamp) {
            true => setting.witnesses(random, tally),
            false => Ok(()),
        }
    });
    tried.unwrap_or(Ok(()))
}

/// Turns one bit: bit 0 is the lowest of its byte.
fn turn(bytes: &mut [u8], at: usize, bit: u64) {
    bytes[at] ^= 1 << bit;
}

impl Setting<'_> {
    /// A run over these source records and this background.
    fn run(&self, form: Form, handling: u32, source: &[u8], background: &[u8]) -> Run {
        let count = source.len() as u64 / self.from.size();
        let mut first = source.to_vec();
        if !form.is_copying() {
            let longer = self.from.size().max(self.to.size());
            first.resize((longer * count) as usize, 0x5A);
        }
        Run {
            form,
            source_sheet: self.sheets.0.to_vec(),
            destination_sheet: self.sheets.1.to_vec(),
            count,
            handling,
            first,
            second: background.to_vec(),
            table: self.table.clone(),
        }
    }

    /// Whether no word on the way of a matched leaf says otherwise.
    fn all_obey(&self, word: Word) -> bool {
        let said = |pair: &Match| obey::innermost(self.to, &pair.to.way);
        let mut words = self.matches.iter().map(said);
        words.all(|own| own.is_none_or(|own| own == word))
    }

    /// A call in which every leaf clamps: of any form, if words say so.
    fn clamping(&self, random: &mut Random) -> (Form, u32) {
        let said = |pair: &Match| obey::innermost(self.to, &pair.to.way);
        match self.matches.iter().all(|pair| said(pair).is_some()) {
            true => (*random.pick(&FORMS), random.below(2) as u32),
            false => (*random.pick(&NAMING), CLAMP),
        }
    }

    fn is_in_mask(&self, byte: usize, bit: u64) -> bool {
        self.mask[byte] >> bit & 1 == 1
    }

    /// No bit outside the mask shows, in answer, converted bytes or cleared
    /// tail. Of the others a clamp may hide some.
    fn flips(&self, random: &mut Random, tally: &mut Tally) -> Result<(), String> {
        let (size, count) = (self.from.size(), random.between(1, 3));
        let source = records(random, size, count, self.matches);
        let background = random.bytes((self.to.size() * count) as usize);
        let (form, handling) = (*random.pick(&FORMS), random.below(2) as u32);
        let unflipped = run::both(random, &self.run(form, handling, &source, &background))?;
        let is_done = unflipped.answer[0] == 0;
        for place in 0..8 * size {
            let (byte, bit) = ((place / 8) as usize, place % 8);
            let mut flipped = source.clone();
            let record = random.below(count) * size;
            turn(&mut flipped, record as usize + byte, bit);
            let run = self.run(form, handling, &flipped, &background);
            let seen = run::both(random, &run)?;
            // After a refusal a buffer is as it was.
            let shows =
                seen.answer != unflipped.answer || is_done && seen.written != unflipped.written;
            if self.is_in_mask(byte, bit) {
                if shows {
                    tally.saw("flip: a bit of the mask shows");
                } else if is_done {
                    tally.saw("flip: a bit of the mask is hidden by a clamp");
                    let raised = unflipped.answer[1] > 0;
                    check(raised, "a bit of the mask is hidden without a clamp", &run)?;
                }
                continue;
            }
            check(!shows, "a bit outside the mask shows", &run)?;
            self.note_flip(tally, byte as u64, &run, is_done);
        }
        Ok(())
    }

    fn note_flip(&self, tally: &mut Tally, byte: u64, run: &Run, is_done: bool) {
        let leaves = paths::leaves(self.from);
        let has = |at: u64, leaf: &Datatype| (at..at + leaf.size()).contains(&byte);
        let is_matched = self
            .matches
            .iter()
            .any(|pair| has(pair.from.at, pair.from.datatype));
        tally.saw(if is_matched {
            "flip: a pad bit does not show"
        } else if leaves.iter().any(|leaf| has(leaf.at, leaf.datatype)) {
            "flip: a bit of an unmatched leaf does not show"
        } else {
            "flip: a bit of a gap does not show"
        });
        if !is_done {
            tally.saw("flip: a bit outside the mask does not show under STOP");
        } else if !run.form.is_copying() {
            tally.saw("flip: a bit outside the mask does not show in place");
            if self.from.size() > self.to.size() {
                tally.saw("flip: a bit outside the mask does not show in a cleared tail");
            }
        }
    }

    /// Each bit of the mask shows between two sources that differ in it alone.
    fn witnesses(&self, random: &mut Random, tally: &mut Tally) -> Result<(), String> {
        for pair in self.matches {
            let layout = number::layout(pair.from.datatype);
            for bit in layout.offset..layout.offset + layout.precision {
                let count = random.between(1, 3);
                let record = random.below(count);
                if without_value(pair) {
                    self.valueless(random, tally, pair, (bit, count, record))?;
                } else {
                    self.witness(random, tally, pair, (bit, count, record))?;
                }
            }
        }
        Ok(())
    }

    /// Two sources of zeros and one symbol's number, if the leaf is an enum,
    /// that differ in one bit of the leaf in one record.
    fn two(
        &self,
        random: &mut Random,
        pair: &Match,
        (bit, count, record): (u64, u64, u64),
    ) -> (Vec<u8>, Vec<u8>) {
        let size = self.from.size();
        let mut one = vec![0; (size * count) as usize];
        let start = (record * size) as usize;
        if let Datatype::Enum { values, .. } = pair.from.datatype
            && !values.is_empty()
        {
            put(pair, Some(random.pick(values).number), &mut one[start..]);
        }
        let mut other = one.clone();
        let layout = number::layout(pair.from.datatype);
        let leaf = &mut other[start + pair.from.at as usize..];
        let on = number::bit(layout, leaf, bit);
        number::set_bit(layout, leaf, bit, !on);
        (one, other)
    }

    /// What is seen of two sources, and the second one's run.
    fn run_two(
        &self,
        random: &mut Random,
        (form, handling): (Form, u32),
        (one, other): &(Vec<u8>, Vec<u8>),
        background: &[u8],
    ) -> Result<(Seen, Seen, Run), String> {
        let run = self.run(form, handling, other, background);
        let seen = run::both(random, &self.run(form, handling, one, background))?;
        let again = run::both(random, &run)?;
        Ok((seen, again, run))
    }

    fn witness(
        &self,
        random: &mut Random,
        tally: &mut Tally,
        pair: &Match,
        at: (u64, u64, u64),
    ) -> Result<(), String> {
        let sources = self.two(random, pair, at);
        let (form, handling) = self.clamping(random);
        let converted = (self.to.size() * at.1) as usize;
        let background = random.bytes(converted);
        let call = (form, handling);
        let (seen, again, run) = self.run_two(random, call, &sources, &background)?;
        let are_done = seen.answer[0] == 0 && again.answer[0] == 0;
        check(are_done, "a witness is refused", &run)?;
        let in_bytes = seen.written[..converted] != again.written[..converted];
        let in_count = seen.answer[1] != again.answer[1];
        check(
            in_bytes || in_count,
            "a bit of the mask does not show",
            &run,
        )?;
        tally.saw(match in_bytes {
            true => "witness: in the converted bytes",
            false => "witness: in the count alone",
        });
        tally.saw(match form.is_copying() {
            true => "witness: copying",
            false => "witness: in place",
        });
        if run.stops() {
            tally.saw("witness: clamped by words");
        }
        if at.2 > 0 {
            tally.saw("witness: past record 0");
        }
        let layout = number::layout(pair.from.datatype);
        if layout.signed && at.0 + 1 == layout.offset + layout.precision {
            tally.saw("witness: a sign's bit");
        }
        tally.saw(match (pair.from.datatype, pair.to.datatype) {
            (Datatype::Int(_), Datatype::Int(_)) => "witness: int to int",
            (Datatype::Int(_), _) => "witness: int to real",
            (Datatype::Real(_), Datatype::Int(_)) => "witness: real to int",
            (Datatype::Real(_), _) => "witness: real to real",
            (Datatype::Bits(_), _) => "witness: bits to bits",
            _ if in_count => "witness: an enum by a number without a symbol",
            _ => "witness: an enum by another symbol",
        });
        Ok(())
    }

    /// A source enum without a value: clamped, every number raises alike. With
    /// handling 1 and no word against it STOP names the number of the first raising leaf: in
    /// record 0 the first such enum, and never another one.
    fn valueless(
        &self,
        random: &mut Random,
        tally: &mut Tally,
        pair: &Match,
        at: (u64, u64, u64),
    ) -> Result<(), String> {
        let mut sources = self.two(random, pair, at);
        let background = random.bytes((self.to.size() * at.1) as usize);
        let call = self.clamping(random);
        let (seen, again, run) = self.run_two(random, call, &sources, &background)?;
        let same = (seen.answer, &seen.written) == (again.answer, &again.written);
        check(same, "an enum without a value shows", &run)?;
        tally.saw("witness: an enum without a value is hidden");
        if !self.all_obey(Word::Stop) {
            return Ok(());
        }

        // Every other leaf fits: an enum has the number of its first symbol.
        for bytes in [&mut sources.0, &mut sources.1] {
            for record in bytes.chunks_mut(self.from.size() as usize) {
                for enumerated in self.matches {
                    if let Datatype::Enum { values, .. } = enumerated.from.datatype {
                        put(enumerated, values.first().map(|v| v.number), record);
                    }
                }
            }
        }
        let form = *random.pick(&FORMS);
        let (seen, again, run) = self.run_two(random, (form, 1), &sources, &background)?;
        let are_stopped = seen.answer[0] == 8 && again.answer[0] == 8;
        check(are_stopped, "an enum without a value raises nothing", &run)?;
        let enums = self.matches.iter().filter(|pair| without_value(pair));
        let first = enums.map(|pair| pair.to.at).min();
        let is_first = at.2 == 0 && first == Some(pair.to.at);
        let shows = seen.answer != again.answer;
        check(shows == is_first, "STOP names another number", &run)?;
        tally.saw(match is_first {
            true => "witness: an enum without a value shows in STOP's number",
            false => "witness: a later enum without a value is hidden under STOP too",
        });
        Ok(())
    }
}

fn without_value(pair: &Match) -> bool {
    matches!(pair.from.datatype, Datatype::Enum { values, .. } if values.is_empty())
}
