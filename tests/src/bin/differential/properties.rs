//! What whole calls promise, held against the library by itself: runs that
//! belong together are compared with each other.

use crate::convert::{self, with_types};
use crate::derive::derive;
use crate::random::Random;
use crate::records::{fitting, put, records, with_other_free_bits};
use crate::run::{self, FORMS, Form, Run, Seen, check};
use crate::sizes;
use crate::symbol_events::is_turned;
use crate::tally::Tally;
use crate::words;
use independent::call::part;
use independent::datatype::Datatype;
use independent::number;
use independent::paths::Match;
use independent::symbols::keeps_symbols;

/// A run that passes every check before STOP but SYMBOLS, with what it is about.
struct Setting<'a> {
    run: Run,
    from: &'a Datatype,
    to: &'a Datatype,
    matches: &'a [Match<'a>],
}

pub fn case(random: &mut Random, tally: &mut Tally) -> Result<(), String> {
    refused_case(random, tally)?;
    let (from, to) = sheets(random);
    hold(random, tally, &from, &to)
}

/// Two sheets that mostly have a path.
fn sheets(random: &mut Random) -> (Vec<u8>, Vec<u8>) {
    let model = convert::model(random);
    let other = derive(random, &model);
    words::texts(random, &model, &other)
}

/// All of them between two sheets, if there is a path.
pub fn hold(random: &mut Random, tally: &mut Tally, from: &[u8], to: &[u8]) -> Result<(), String> {
    let words = 8192 + random.below(3) as usize;
    let table = random.words(words);
    sizes::of_sheet(random, tally, from, &table)?;
    sizes::of_sheet(random, tally, to, &table)?;
    let tested = with_types(from, to, |datatype, other, matches| {
        let count = random
            .between(1, 1500 / (matches.len() as u64 + 1) + 1)
            .min(12);
        let run = Run {
            form: Form::Copying,
            source_sheet: from.to_vec(),
            destination_sheet: to.to_vec(),
            count,
            handling: random.below(2) as u32,
            first: records(random, datatype.size(), count, matches),
            second: random.bytes((other.size() * count) as usize),
            table,
        };
        let setting = Setting {
            run,
            from: datatype,
            to: other,
            matches,
        };
        in_place_equals_copy(random, tally, &setting)?;
        free_bytes_do_not_show(random, tally, &setting)?;
        way_back(random, tally, &setting)?;
        changed_number_shows(random, tally, &setting)
    });
    tested.unwrap_or(Ok(()))
}

impl Setting<'_> {
    /// The same records and background in another form.
    fn formed(&self, random: &mut Random, form: Form) -> Run {
        let mut run = self.run.clone();
        run.form = form;
        if !form.is_copying() {
            let longer = run.count * self.from.size().max(self.to.size());
            let behind = longer as usize + random.below(5) as usize - run.first.len();
            run.first.extend(random.bytes(behind));
        }
        run
    }

    /// nD.
    fn converted(&self) -> usize {
        (self.run.count * self.to.size()) as usize
    }
}

fn in_place_equals_copy(
    random: &mut Random,
    tally: &mut Tally,
    setting: &Setting,
) -> Result<(), String> {
    let plain = random.percent(50);
    let forms = if plain {
        (Form::CopyingPlain, Form::InPlacePlain)
    } else {
        (Form::Copying, Form::InPlace)
    };
    let run = setting.formed(random, forms.0);
    let copy = run::both(random, &run)?;
    let run = setting.formed(random, forms.1);
    let moved = run::both(random, &run)?;
    let (end, tail) = (setting.converted(), setting.run.first.len());
    check(
        moved.answer == copy.answer,
        "in place answers otherwise",
        &run,
    )?;
    if copy.answer[0] == 0 {
        let same = moved.written[..end] == copy.written[..end];
        check(same, "in place converts otherwise than from a copy", &run)?;
        let zero = end >= tail || moved.written[end..tail].iter().all(|&byte| byte == 0);
        check(zero, "the tail is not cleared", &run)?;
        let later = end.max(tail);
        let kept = moved.written[later..] == run.first[later..];
        check(kept, "bytes behind the records changed", &run)?;
    }
    tally.saw("property: in place equals from a copy");
    Ok(())
}

fn free_bytes_do_not_show(
    random: &mut Random,
    tally: &mut Tally,
    setting: &Setting,
) -> Result<(), String> {
    let form = *random.pick(&FORMS);
    let one = setting.formed(random, form);
    let mut other = one.clone();
    let size = setting.from.size();
    let records = with_other_free_bits(random, &setting.run.first, size, setting.matches);
    other.first = random.bytes(one.first.len());
    other.first[..records.len()].copy_from_slice(&records);
    other.table = random.words(one.table.len());
    let (seen, again) = (run::both(random, &one)?, run::both(random, &other)?);
    check(
        seen.answer == again.answer,
        "free bytes show in the answer",
        &other,
    )?;
    let end = setting.converted();
    if seen.answer[0] == 0 {
        let same = seen.written[..end] == again.written[..end];
        check(same, "free bytes show in the converted bytes", &other)?;
    } else if seen.answer[0] == 8 {
        tally.saw("property: free bytes do not show under STOP");
    } else {
        tally.saw("property: data bytes do not show in SYMBOLS");
    }
    tally.saw("property: free bytes do not show");
    Ok(())
}

/// Done without an exception in any form, and the converted bytes.
fn clean(random: &mut Random, setting: &Setting) -> Result<Option<(Run, Seen)>, String> {
    let form = *random.pick(&FORMS);
    let run = setting.formed(random, form);
    let seen = run::both(random, &run)?;
    Ok((seen.answer[..2] == [0, 0]).then_some((run, seen)))
}

/// "Converting back is now claimed only where matched enums have equal symbol
/// sets"; where a destination has more symbols, the way back is refused.
fn way_back(random: &mut Random, tally: &mut Tally, setting: &Setting) -> Result<(), String> {
    let form = *random.pick(&FORMS);
    let run = setting.formed(random, form);
    let seen = run::both(random, &run)?;
    if seen.answer[0] != 0 {
        return Ok(());
    }
    let (from, to, count) = (setting.from.size(), setting.to.size(), run.count);
    let mut back = run.clone();
    back.form = *random.pick(&FORMS);
    back.source_sheet = run.destination_sheet.clone();
    back.destination_sheet = run.source_sheet.clone();
    back.first = seen.written[..setting.converted()].to_vec();
    if !back.form.is_copying() {
        back.first.resize((from.max(to) * count) as usize, 0x5A);
    }
    back.second = random.bytes((from * count) as usize);
    let returned = run::both(random, &back)?;
    if !keeps_symbols(setting.to, setting.from) {
        let is_refused = returned.answer[0] == 12;
        check(is_refused, "the way back loses a symbol", &back)?;
        tally.saw("property: the way back is refused where the destination has more symbols");
        return Ok(());
    }
    if seen.answer[1] != 0 {
        return Ok(());
    }
    check(
        returned.answer[..2] == [0, 0],
        "the way back raises an exception",
        &back,
    )?;
    for record in 0..count {
        for pair in setting.matches {
            let read = |bytes: &[u8]| {
                let leaf = &part(bytes, record, from)[pair.from.at as usize..];
                number::read(number::layout(pair.from.datatype), leaf)
            };
            let same = read(&run.first) == read(&returned.written);
            check(same, "the way back gives another number", &back)?;
        }
    }
    tally.saw("property: the way back");
    if is_turned(setting.matches) {
        tally.saw("property: the way back, equal sets of other order and numbers");
    }
    Ok(())
}

fn changed_number_shows(
    random: &mut Random,
    tally: &mut Tally,
    setting: &Setting,
) -> Result<(), String> {
    let Some((run, seen)) = clean(random, setting)? else {
        return Ok(());
    };
    if setting.matches.is_empty() {
        return Ok(());
    }
    let mut other = run.clone();
    let pair = random.pick(setting.matches);
    let record = (random.below(run.count) * setting.from.size()) as usize;
    let new = fitting(random, pair);
    put(pair, new, &mut other.first[record..]);
    let layout = number::layout(pair.from.datatype);
    let read = |run: &Run| number::read(layout, &run.first[record + pair.from.at as usize..]);
    let again = run::both(random, &other)?;
    if read(&run) == read(&other) || again.answer[..2] != [0, 0] {
        return Ok(());
    }
    let end = setting.converted();
    let differ = seen.written[..end] != again.written[..end];
    check(differ, "a changed number does not show", &other)?;
    tally.saw("property: a changed number shows");
    Ok(())
}

/// Where a check before STOP refuses, data bytes do not show at all.
fn refused_case(random: &mut Random, tally: &mut Tally) -> Result<(), String> {
    let (from, to) = sheets(random);
    let run = convert::make(random, 20, from, to);
    let seen = run::both(random, &run)?;
    sizes::of_run(random, tally, &run)?;
    if seen.answer[0] == 0 || seen.answer[0] == 8 {
        return Ok(());
    }
    let mut other = run.clone();
    other.first = random.bytes(run.first.len());
    other.second = random.bytes(run.second.len());
    other.table = random.words(run.table.len());
    let again = run::both(random, &other)?;
    check(
        seen.answer == again.answer,
        "data bytes show in a refusal",
        &other,
    )?;
    tally.saw("property: data bytes do not show in a refusal");
    Ok(())
}
