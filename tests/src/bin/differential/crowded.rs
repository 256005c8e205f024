//! Cases of sheets with many rows under short names, which stand in another
//! order on the other side. The library notes a name under a mark; here
//! several names have one. At times a name stands twice, or a member overlaps
//! another.

use crate::convert;
use crate::generate::{all_of_2_bytes, atomic, place};
use crate::model::{Line, Model, Name, Row};
use crate::random::Random;
use crate::run::Run;
use crate::tally::Tally;
use crate::words;
use independent::datatype::Datatype;
use independent::sheet;
use std::collections::BTreeSet;

/// What a whole run must have met.
pub const NEEDED: [&str; 10] = [
    "case: many rows",
    "many rows: two members of one mark",
    "many rows: two symbols of one mark",
    "many rows: a member of each side in another place",
    "many rows: a member that the source lacks",
    "many rows: a member below one that stands earlier",
    "many rows: a member's name twice",
    "many rows: a member's name twice, marked by another name since",
    "many rows: a symbol's name twice",
    "many rows: a member over another",
];

/// What is wrong with one of the two sheets.
#[derive(Clone, Copy, PartialEq)]
enum Fault {
    None,
    Name,
    Overlap,
}

pub fn case(random: &mut Random, tally: &mut Tally) -> Result<(), String> {
    let (mut from, mut to) = if random.percent(70) {
        members(random)
    } else {
        symbols(random)
    };
    let mut fault = Fault::None;
    if random.percent(40) {
        let model = if random.percent(50) {
            &mut from
        } else {
            &mut to
        };
        fault = spoil(random, model);
    }
    let texts = words::texts(random, &from, &to);
    let run = convert::make(random, 1, texts.0, texts.1);
    convert::finish(random, tally, &run)?;
    note(tally, &run, fault, [&from, &to]);
    Ok(())
}

/// Two compounds of ints, most under the same names.
fn members(random: &mut Random) -> (Model, Model) {
    let (mut from, mut to) = (Model::default(), Model::default());
    for _ in 0..random.between(1, 5) {
        from.push(Line::Int(atomic(random, 4)));
        to.push(Line::Int(atomic(random, 4)));
    }
    let count = random.between(20, 220) as usize;
    let names = names(random, count + 30);
    let mut wanted = names[..count].to_vec();
    if random.percent(70) {
        // Some that the source lacks, for some of its own.
        for name in &names[count..] {
            let i = random.below(wanted.len() as u64) as usize;
            wanted[i] = name.clone();
        }
    }
    if random.percent(60) {
        random.shuffle(&mut wanted);
    }
    compound(random, &mut from, &names[..count]);
    compound(random, &mut to, &wanted);
    (from, to)
}

fn compound(random: &mut Random, model: &mut Model, names: &[Name]) {
    let types = model.types.len() as u64;
    let mut members: Vec<Row> = Vec::new();
    for name in names {
        let datatype = random.below(types) as usize;
        let name = name.clone();
        members.push(Row {
            name,
            at: 0,
            datatype,
        });
    }
    let size = place(random, model, &mut members, 4096);
    model.push(Line::Comp { size, members });
}

/// Two enums of many symbols, the second with all of the first's.
fn symbols(random: &mut Random) -> (Model, Model) {
    let (mut from, mut to) = (Model::default(), Model::default());
    let count = random.between(20, 150) as usize;
    let mut names = names(random, count);
    enumeration(random, &mut from, &names);
    if random.percent(70) {
        random.shuffle(&mut names);
    }
    enumeration(random, &mut to, &names);
    (from, to)
}

fn enumeration(random: &mut Random, model: &mut Model, names: &[Name]) {
    let base = model.push(Line::Int(all_of_2_bytes(random)));
    let step = random.between(1, 40) as i128;
    let low = model.range(base).0;
    let value = |(i, name): (usize, &Name)| (name.clone(), low + step * i as i128);
    let mut values: Vec<(Name, i128)> = names.iter().enumerate().map(value).collect();
    random.shuffle(&mut values);
    model.push(Line::Enum { base, values });
}

/// So many names of a few letters, none twice.
fn names(random: &mut Random, count: usize) -> Vec<Name> {
    let mut seen = BTreeSet::new();
    let mut names = Vec::new();
    while names.len() < count {
        let length = random.between(1, 3);
        let letter = |random: &mut Random| *random.pick(b"abcdefghijPQRSTUVWXY0123456789");
        let name: Name = (0..length).map(|_| letter(random)).collect();
        if seen.insert(name.clone()) {
            names.push(name);
        }
    }
    names
}

/// Gives a row the name of an earlier one, or moves a member over another.
fn spoil(random: &mut Random, model: &mut Model) -> Fault {
    let last = model.types.len() - 1;
    let mut line = model.types[last].clone();
    let fault = match &mut line {
        Line::Comp { members, .. } => {
            let (i, j) = pair(random, members.len());
            if random.percent(60) {
                members[j].name = members[i].name.clone();
                Fault::Name
            } else {
                members[j].at = members[i].at;
                Fault::Overlap
            }
        }
        Line::Enum { values, .. } => {
            let (i, j) = pair(random, values.len());
            values[j].0 = values[i].0.clone();
            Fault::Name
        }
        _ => Fault::None,
    };
    model.types[last] = line;
    fault
}

/// Two places below a number, the lower first.
fn pair(random: &mut Random, below: usize) -> (usize, usize) {
    let high = random.between(1, below as u64 - 1);
    (random.below(high) as usize, high as usize)
}

/// The mark under which the library notes a name.
fn mark(name: &[u8]) -> u64 {
    let add = |mark, byte: &u8| (31 * mark + u64::from(*byte)) % 512;
    name.iter().fold(0, add)
}

fn share_a_mark<'a>(names: impl Iterator<Item = &'a Name>) -> bool {
    let mut marks = BTreeSet::new();
    let mut names = names;
    names.any(|name| !marks.insert(mark(name)))
}

fn note(tally: &mut Tally, run: &Run, fault: Fault, models: [&Model; 2]) {
    let (from, to) = (
        sheet::read(&run.source_sheet),
        sheet::read(&run.destination_sheet),
    );
    if let (Ok(from), Ok(to)) = (&from, &to) {
        note_pair(tally, from, to);
        return;
    }
    for model in models {
        match model.types.last() {
            Some(Line::Comp { members, .. }) if fault == Fault::Name => {
                let names: Vec<&Name> = members.iter().map(|row| &row.name).collect();
                note_twice(tally, &names);
            }
            Some(Line::Comp { .. }) if fault == Fault::Overlap => {
                tally.saw("many rows: a member over another");
            }
            Some(Line::Enum { .. }) if fault == Fault::Name => {
                tally.saw("many rows: a symbol's name twice");
            }
            _ => {}
        }
    }
}

fn note_twice(tally: &mut Tally, names: &[&Name]) {
    for (j, name) in names.iter().enumerate() {
        let Some(i) = names[..j].iter().position(|other| other == name) else {
            continue;
        };
        tally.saw("many rows: a member's name twice");
        if names[i + 1..j]
            .iter()
            .any(|other| mark(other) == mark(name))
        {
            tally.saw("many rows: a member's name twice, marked by another name since");
        }
    }
}

fn note_pair(tally: &mut Tally, from: &Datatype, to: &Datatype) {
    match (from, to) {
        (Datatype::Comp { members: from, .. }, Datatype::Comp { members, .. }) => {
            if share_a_mark(from.iter().map(|member| &member.name)) {
                tally.saw("many rows: two members of one mark");
            }
            for (i, member) in members.iter().enumerate() {
                match from.iter().position(|other| other.name == member.name) {
                    None => tally.saw("many rows: a member that the source lacks"),
                    Some(j) if i != j => {
                        tally.saw("many rows: a member of each side in another place");
                    }
                    _ => {}
                }
            }
            if from.windows(2).any(|pair| pair[1].at < pair[0].at) {
                tally.saw("many rows: a member below one that stands earlier");
            }
        }
        (Datatype::Enum { values, .. }, Datatype::Enum { .. }) => {
            if share_a_mark(values.iter().map(|value| &value.name)) {
                tally.saw("many rows: two symbols of one mark");
            }
        }
        _ => {}
    }
}
