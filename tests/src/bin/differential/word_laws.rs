//! What words promise, held against the library by itself: calls with words are
//! compared with the same calls without them.

use crate::capi;
use crate::compare_run;
use crate::compares;
use crate::convert::with_types;
use crate::model::Model;
use crate::random::Random;
use crate::reaches;
use crate::report_run;
use crate::reports;
use crate::run::{self, Form, Run, Seen, check};
use crate::tally::Tally;
use crate::words;
use independent::call::{CLAMP, STOP};
use independent::datatype::Word;
use independent::obey;
use independent::report::EXCEPTIONS;
use independent::sheet;

/// What a whole run must have met.
pub const NEEDED: [&str; 12] = [
    "law: words of the source do not show",
    "law: words of the source do not show under STOP",
    "law: without words in the destination handling 0 clamps",
    "law: without words in the destination the others stop",
    "law: words that make every leaf stop are as handling 1",
    "law: words that make every leaf clamp are as handling 0",
    "law: words do not show in a report",
    "law: words do not show in a report, where handling 0 stops by them",
    "law: words do not show in a comparison",
    "law: words do not show in a mask",
    "law: words do not show in a leaf list",
    "law: words do not show in a record size",
];

/// Of a converting call, with what it left, that passes every check before STOP
/// but SYMBOLS.
pub fn hold(random: &mut Random, tally: &mut Tally, run: &Run, seen: &Seen) -> Result<(), String> {
    source_words(random, tally, run, seen)?;
    let wordless = Run {
        destination_sheet: words::off(&run.destination_sheet),
        ..run.clone()
    };
    the_call_decides(random, tally, &wordless)?;
    words_as_a_handling(random, tally, (run, seen), wordless)
}

/// "Source sheets may carry it without effect."
fn source_words(
    random: &mut Random,
    tally: &mut Tally,
    run: &Run,
    seen: &Seen,
) -> Result<(), String> {
    if !words::has(&run.source_sheet) {
        return Ok(());
    }
    let other = Run {
        source_sheet: words::off(&run.source_sheet),
        ..run.clone()
    };
    let again = run::both(random, &other)?;
    check(*seen == again, "words of the source show", run)?;
    tally.saw(match seen.answer[0] {
        8 => "law: words of the source do not show under STOP",
        _ => "law: words of the source do not show",
    });
    Ok(())
}

/// A destination without words: handling 0 never stops, the others are never done
/// with an exception.
fn the_call_decides(random: &mut Random, tally: &mut Tally, run: &Run) -> Result<(), String> {
    let [number, count, ..] = run::both(random, run)?.answer;
    let decides = match run.stops() {
        true => number != 0 || count == 0,
        false => number != 8,
    };
    check(decides, "without words the call does not decide", run)?;
    if number == 8 {
        tally.saw("law: without words in the destination the others stop");
    } else if count > 0 {
        tally.saw("law: without words in the destination handling 0 clamps");
    }
    Ok(())
}

/// Where words make every matched leaf obey alike, they are as that handling.
fn words_as_a_handling(
    random: &mut Random,
    tally: &mut Tally,
    (run, seen): (&Run, &Seen),
    wordless: Run,
) -> Result<(), String> {
    let said = with_types(
        &run.source_sheet,
        &run.destination_sheet,
        |_, to, matches| {
            let mut said = matches.iter().map(|pair| obey::innermost(to, &pair.to.way));
            let first = said.next()??;
            said.all(|word| word == Some(first)).then_some(first)
        },
    );
    let Some(word) = said.flatten() else {
        return Ok(());
    };
    let (handling, law) = match word {
        Word::Clamp => (
            CLAMP,
            "law: words that make every leaf clamp are as handling 0",
        ),
        Word::Stop => (
            STOP,
            "law: words that make every leaf stop are as handling 1",
        ),
    };
    let form = match run.form.is_copying() {
        true => Form::Copying,
        false => Form::InPlace,
    };
    let named = Run {
        form,
        handling,
        ..wordless
    };
    let again = run::both(random, &named)?;
    check(*seen == again, "words are not as the handling", run)?;
    tally.saw(law);
    Ok(())
}

/// Report, comparison, mask, list and size of two sheets with words, and of the
/// same sheets without them.
pub fn other_calls(
    random: &mut Random,
    tally: &mut Tally,
    from: &Model,
    to: &Model,
) -> Result<(), String> {
    let reader = reports::reader_of(random, 0, to);
    let (from, to, reader) = (
        words::often(random, from),
        words::often(random, to),
        words::often(random, &reader),
    );
    report(random, tally, &from, &reader)?;
    comparison(random, tally, &from, &to)?;
    mask(random, tally, &from, &to)?;
    list_and_size(random, tally, &to)
}

fn report(
    random: &mut Random,
    tally: &mut Tally,
    from: &[u8],
    reader: &[u8],
) -> Result<(), String> {
    let call = reports::make(random, 0, from.to_vec(), reader.to_vec());
    let mut wordless = call.clone();
    wordless.source_sheet = words::off(from);
    wordless.reader_sheet = words::off(reader);
    let seen = report_run::both(random, &call)?;
    let again = report_run::both(random, &wordless)?;
    let run = Run {
        form: Form::InPlace,
        source_sheet: from.to_vec(),
        destination_sheet: reader.to_vec(),
        count: call.count,
        handling: CLAMP,
        first: call.log.clone(),
        second: call.background.clone(),
        table: call.table.clone(),
    };
    check(seen == again, "words show in a report", &run)?;
    if !seen.is_done() {
        return Ok(());
    }
    tally.saw("law: words do not show in a report");
    let raised = seen.memory[EXCEPTIONS] > call.memory[EXCEPTIONS];
    if raised && run::both(random, &run)?.answer[0] == 8 {
        tally.saw("law: words do not show in a report, where handling 0 stops by them");
    }
    Ok(())
}

fn comparison(
    random: &mut Random,
    tally: &mut Tally,
    from: &[u8],
    to: &[u8],
) -> Result<(), String> {
    let call = compares::make(random, 0, from.to_vec(), to.to_vec());
    let mut wordless = call.clone();
    wordless.first_sheet = words::off(from);
    wordless.second_sheet = words::off(to);
    let seen = compare_run::both(random, &call)?;
    if seen != compare_run::both(random, &wordless)? {
        let told = compare_run::tell(&call);
        return Err(format!("words show in a comparison\n{told}"));
    }
    if seen.answer[0] == 0 {
        tally.saw("law: words do not show in a comparison");
    }
    Ok(())
}

fn mask(random: &mut Random, tally: &mut Tally, from: &[u8], to: &[u8]) -> Result<(), String> {
    let length = sheet::read(from).map_or(1, |datatype| datatype.size());
    let table = random.words(8192);
    let seen = reaches::ask(random, tally, (from, to), length, &table)?;
    let sheets = (&words::off(from)[..], &words::off(to)[..]);
    let again = reaches::ask(random, tally, sheets, length, &table)?;
    if seen.answer[0] != 0 && seen.answer == again.answer {
        return Ok(());
    }
    if seen != again {
        let (from, to) = (run::show(from), run::show(to));
        return Err(format!("words show in a mask\n{from}\n{to}"));
    }
    tally.saw("law: words do not show in a mask");
    Ok(())
}

fn list_and_size(random: &mut Random, tally: &mut Tally, text: &[u8]) -> Result<(), String> {
    let (room, table) = (random.bytes(2000), random.words(8192));
    let wordless = words::off(text);
    let list = capi::list(random, text, &room, &table)?;
    let size = capi::record_size(random, text, &table)?;
    let same = list == capi::list(random, &wordless, &room, &table)?
        && size == capi::record_size(random, &wordless, &table)?;
    if !same {
        let sheet = run::show(text);
        return Err(format!(
            "words show in a leaf list or a record size\n{sheet}"
        ));
    }
    if list.answer[0] == 0 {
        tally.saw("law: words do not show in a leaf list");
    }
    if size.answer[0] == 0 {
        tally.saw("law: words do not show in a record size");
    }
    Ok(())
}
