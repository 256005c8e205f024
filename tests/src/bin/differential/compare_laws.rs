//! What whole calls that compare two logs promise, held against the library by
//! itself: calls that belong together are compared with each other.

use crate::compare_events::rows;
use crate::compare_run::{CompareRun, both, tell};
use crate::compares::{first, make, models, second};
use crate::convert::with_types;
use crate::model::Model;
use crate::random::Random;
use crate::records::with_other_free_bits;
use crate::run::{self, Form, Run};
use crate::tally::Tally;
use crate::words;
use independent::datatype::Datatype;
use independent::number;
use independent::paths::{Leaf, Match};

/// As many bytes as a list of so many differences can have.
fn most_bytes(differences: u64) -> usize {
    23 + 53 * differences as usize
}

/// Two logs without an error, and what they are about.
struct Setting<'a> {
    run: CompareRun,
    from: &'a Datatype,
    to: &'a Datatype,
    matches: &'a [Match<'a>],
}

pub fn case(random: &mut Random, tally: &mut Tally) -> Result<(), String> {
    refused_case(random, tally)?;
    let (from, to) = models(random, 0);
    let (from, to) = words::texts(random, &from, &to);
    let tested = with_types(&from, &to, |datatype, other, matches| {
        let setting = Setting::new(random, (&from, &to), (datatype, other), matches);
        cutting(random, tally, &setting)?;
        free_bits_do_not_show(random, tally, &setting)?;
        converted_is_the_same(random, tally, &setting)?;
        flipped_bit(random, tally, &setting)
    });
    tested.unwrap_or(Ok(()))?;
    let (model, _) = models(random, 0);
    exchanged(random, tally, &model)
}

impl<'a> Setting<'a> {
    fn new(
        random: &mut Random,
        sheets: (&[u8], &[u8]),
        (from, to): (&'a Datatype, &'a Datatype),
        matches: &'a [Match<'a>],
    ) -> Setting<'a> {
        let most = 1500 / (matches.len() as u64 + 1) + 1;
        let count = random.between(1, most.min(12));
        let first = first(random, from, count, matches);
        let share = *random.pick(&[0, 10, 100]);
        let second = second(random, (from, to), &first, matches, share);
        let words = 8192 + random.below(3) as usize;
        let room = most_bytes(count * matches.len() as u64);
        let run = CompareRun {
            first_sheet: sheets.0.to_vec(),
            second_sheet: sheets.1.to_vec(),
            count,
            first,
            second,
            is_one: false,
            list: random.bytes(room),
            table: random.words(words),
        };
        Setting {
            run,
            from,
            to,
            matches,
        }
    }
}

fn check(holds: bool, what: &str, run: &CompareRun) -> Result<(), String> {
    if holds {
        Ok(())
    } else {
        Err(format!("{what}\n{}", tell(run)))
    }
}

/// The lists of the parts of two logs have the same lines, with other records.
fn cutting(random: &mut Random, tally: &mut Tally, setting: &Setting) -> Result<(), String> {
    let whole = rows(&both(random, &setting.run)?);
    let cut = random.between(0, setting.run.count);
    let mut found = Vec::new();
    for (first, last) in [(0, cut), (cut, setting.run.count)] {
        let part = |bytes: &[u8], size: u64| {
            bytes[(first * size) as usize..(last * size) as usize].to_vec()
        };
        let mut run = setting.run.clone();
        run.count = last - first;
        run.first = part(&setting.run.first, setting.from.size());
        run.second = part(&setting.run.second, setting.to.size());
        let mut part = rows(&both(random, &run)?);
        part.iter_mut().for_each(|row| row[0] += i128::from(first));
        found.extend(part);
    }
    check(found == whole, "a cut shows in the list", &setting.run)?;
    tally.saw("law: a cut shows in the records' numbers alone");
    Ok(())
}

/// Pads, gaps, unmatched members, bytes behind the records and the table.
fn free_bits_do_not_show(
    random: &mut Random,
    tally: &mut Tally,
    setting: &Setting,
) -> Result<(), String> {
    let seen = both(random, &setting.run)?;
    let mut other = setting.run.clone();
    let (size, matches) = (setting.from.size(), setting.matches);
    other.first = with_other_free_bits(random, &setting.run.first, size, matches);
    other.first.extend(random.bytes(3));
    // The same of the second log, whose leaves are the matches' other ones.
    let turned: Vec<Match> = matches.iter().map(turned).collect();
    let size = setting.to.size();
    other.second = with_other_free_bits(random, &setting.run.second, size, &turned);
    other.second.extend(random.bytes(5));
    other.table = random.words(setting.run.table.len());
    let again = both(random, &other)?;
    let length = seen.answer[1] as usize;
    let same = seen.answer == again.answer && seen.written[..length] == again.written[..length];
    check(same, "free bits show in a comparison", &other)?;
    tally.saw("law: free bits do not show in a comparison");
    Ok(())
}

fn turned<'a>(pair: &Match<'a>) -> Match<'a> {
    Match {
        from: pair.to.clone(),
        to: pair.from.clone(),
    }
}

/// "A log and what a run made of it without an exception have no difference."
fn converted_is_the_same(
    random: &mut Random,
    tally: &mut Tally,
    setting: &Setting,
) -> Result<(), String> {
    let run = Run {
        form: Form::Copying,
        source_sheet: setting.run.first_sheet.clone(),
        destination_sheet: setting.run.second_sheet.clone(),
        count: setting.run.count,
        handling: 1,
        first: setting.run.first.clone(),
        second: random.bytes(setting.run.second.len()),
        table: random.words(8192),
    };
    let converted = run::both(random, &run)?;
    if converted.answer[..2] != [0, 0] {
        return Ok(());
    }
    let mut after = setting.run.clone();
    after.second = converted.written;
    let none = rows(&both(random, &after)?).is_empty();
    check(none, "a conversion without an exception differs", &after)?;
    tally.saw("law: a conversion without an exception leaves no difference");
    Ok(())
}

/// One bit of the second log: it shows in its own leaf alone, if it is a bit of a
/// compared number that is the same, or was.
fn flipped_bit(random: &mut Random, tally: &mut Tally, setting: &Setting) -> Result<(), String> {
    let before = rows(&both(random, &setting.run)?);
    let mut run = setting.run.clone();
    let at = random.below(run.second.len() as u64);
    let bit = random.below(8);
    run.second[at as usize] ^= 1 << bit;
    let after = rows(&both(random, &run)?);
    let (record, byte) = (at / setting.to.size(), at % setting.to.size());
    let leaf = setting.matches.iter().map(|pair| &pair.to);
    let own = leaf.into_iter().find(|leaf| has_bit(leaf, byte, bit));
    let others = |rows: &[[i128; 4]]| -> Vec<[i128; 4]> {
        let is_own = |row: &[i128; 4]| {
            row[0] == i128::from(record) && own.is_some_and(|leaf| row[1] == i128::from(leaf.at))
        };
        rows.iter().filter(|row| !is_own(row)).copied().collect()
    };
    let same = others(&before) == others(&after);
    check(same, "a flipped bit shows elsewhere", &run)?;
    let shows = before != after;
    check(own.is_some() || !shows, "a free bit shows", &run)?;
    tally.saw(match shows {
        true => "law: one flipped bit shows",
        false => "law: one flipped bit does not show",
    });
    Ok(())
}

/// Whether a bit of a byte of the record is one of the leaf's number.
fn has_bit(leaf: &Leaf, byte: u64, bit: u64) -> bool {
    let layout = number::layout(leaf.datatype);
    if byte < leaf.at || byte >= leaf.at + layout.size {
        return false;
    }
    let mut bytes = vec![0; layout.size as usize];
    bytes[(byte - leaf.at) as usize] = 1 << bit;
    number::read(layout, &bytes) != 0
}

/// With one sheet for both, the other log first: the same lines, with the
/// numbers exchanged; and nothing where both are one.
fn exchanged(random: &mut Random, tally: &mut Tally, model: &Model) -> Result<(), String> {
    let sheet = words::text(random, model);
    let tested = with_types(&sheet, &sheet, |from, to, matches| {
        let setting = Setting::new(random, (&sheet, &sheet), (from, to), matches);
        let there = rows(&both(random, &setting.run)?);
        let mut run = setting.run.clone();
        std::mem::swap(&mut run.first, &mut run.second);
        let mut back = rows(&both(random, &run)?);
        back.iter_mut().for_each(|row| row.swap(2, 3));
        check(there == back, "exchanged logs differ elsewhere", &run)?;
        tally.saw("law: exchanged logs, exchanged numbers");
        run.second.clone_from(&run.first);
        run.is_one = random.percent(50);
        let none = rows(&both(random, &run)?).is_empty();
        check(none, "a log differs from itself", &run)?;
        tally.saw("law: a log and itself");
        Ok(())
    });
    tested.unwrap_or(Ok(()))
}

/// Where a check before the list's refuses, the logs' bytes do not show.
fn refused_case(random: &mut Random, tally: &mut Tally) -> Result<(), String> {
    let (from, to) = models(random, 20);
    let (from, to) = words::texts(random, &from, &to);
    let run = make(random, 20, from, to);
    let seen = both(random, &run)?;
    let unhurt = seen.answer[0] == 0 || seen.written == run.list;
    check(unhurt, "a refusal changes the list", &run)?;
    let mut whole = run.clone();
    whole.list = vec![0; 1 << 18];
    if both(random, &whole)?.answer[0] == 0 {
        return Ok(());
    }
    let mut other = run.clone();
    other.first = random.bytes(run.first.len());
    other.second = random.bytes(run.second.len());
    other.table = random.words(run.table.len());
    let again = both(random, &other)?;
    let same = seen.answer == again.answer;
    check(same, "data bytes show in a refusal", &other)?;
    tally.saw("law: data bytes do not show in a refusal of a comparison");
    Ok(())
}
