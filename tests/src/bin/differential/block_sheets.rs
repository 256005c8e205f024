//! Pairs of sheets for conversions in blocks: short records of a few leaves,
//! arrays that fill the record, members that repeat evenly, and long records.

use crate::generate::{atomic, kept_enums, order, paired, place, unsigned};
use crate::model::{Line, Model, Row};
use crate::random::Random;
use independent::datatype::Atomic;

/// Two sheets with a path, mostly of a few bytes.
pub fn sheets(random: &mut Random) -> (Model, Model) {
    match random.below(20) {
        0..=5 => paired(random, 9, numbers),
        6..=8 => paired(random, 6, leaves),
        9..=10 => even_members(random),
        11..=13 => array(random, leaves),
        14..=16 => array(random, numbers),
        17..=18 => array(random, compounds),
        _ => long(random),
    }
}

/// Any layout, often one of a machine's numbers, which has no pads.
pub fn layout(random: &mut Random) -> Atomic {
    let layout = atomic(random, 8);
    if random.percent(50) {
        return layout;
    }
    let size = *random.pick(&[1, 2, 4, 8, 8]);
    Atomic {
        size,
        offset: 0,
        precision: 8 * size,
        ..layout
    }
}

/// Two ints or two bits, of one layout, of one but for a word, or of any.
pub fn numbers(random: &mut Random, from: &mut Model, to: &mut Model) -> (usize, usize) {
    let (own, new) = (layout(random), layout(random));
    let other = match random.below(10) {
        0 => own,
        1 => Atomic {
            order: new.order,
            ..own
        },
        2 => Atomic {
            signed: !own.signed,
            ..own
        },
        _ => new,
    };
    if random.percent(25) {
        (from.push(unsigned(own)), to.push(unsigned(other)))
    } else {
        (from.push(Line::Int(own)), to.push(Line::Int(other)))
    }
}

/// Two ints, the second mostly of fewer bits, and of at most 32.
pub fn narrowed(random: &mut Random, from: &mut Model, to: &mut Model) -> (usize, usize) {
    let any = layout(random);
    let size = random.between(1, 8);
    let own = Atomic {
        size,
        offset: 0,
        precision: 8 * size,
        ..any
    };
    let own = if random.percent(75) { own } else { any };
    let other = atomic(random, own.size.min(4));
    (from.push(Line::Int(own)), to.push(Line::Int(other)))
}

/// Two leaves of any class.
pub fn leaves(random: &mut Random, from: &mut Model, to: &mut Model) -> (usize, usize) {
    let (first, second) = match random.below(9) {
        0 | 1 => return kept_enums(random, from, to, 1),
        2 => (Line::Real(order(random)), Line::Real(order(random))),
        3 => (Line::Real(order(random)), Line::Int(layout(random))),
        4 => (Line::Int(layout(random)), Line::Real(order(random))),
        _ => return numbers(random, from, to),
    };
    (from.push(first), to.push(second))
}

/// Two compounds of two or three members, without a gap in half of them.
fn compounds(random: &mut Random, from: &mut Model, to: &mut Model) -> (usize, usize) {
    let (mut members, mut others) = (Vec::new(), Vec::new());
    for name in [b"x", b"y", b"z"]
        .iter()
        .take(random.between(2, 3) as usize)
    {
        let (first, second) = match random.percent(75) {
            true => numbers(random, from, to),
            false => leaves(random, from, to),
        };
        members.push(row(*name, first));
        others.push(row(*name, second));
    }
    (
        compound(random, from, members),
        compound(random, to, others),
    )
}

pub fn row(name: &[u8], datatype: usize) -> Row {
    Row {
        name: name.to_vec(),
        at: 0,
        datatype,
    }
}

fn compound(random: &mut Random, model: &mut Model, mut members: Vec<Row>) -> usize {
    let size = place(random, model, &mut members, 40);
    model.push(Line::Comp { size, members })
}

/// Members of one type, or of two in turn, each as far from the one before as
/// that is from its own.
fn even_members(random: &mut Random) -> (Model, Model) {
    let (mut from, mut to) = (Model::default(), Model::default());
    let kinds: Vec<(usize, usize)> = (0..random.between(1, 2))
        .map(|_| match random.percent(85) {
            true => numbers(random, &mut from, &mut to),
            false => leaves(random, &mut from, &mut to),
        })
        .collect();
    let times = random.between(2, if kinds.len() == 1 { 12 } else { 6 });
    let gap = *random.pick(&[0, 0, 0, 1, 3]);
    let place_evenly = |model: &mut Model, kind: fn(&(usize, usize)) -> usize| {
        let mut members = Vec::new();
        let mut at = 0;
        for i in 0..times {
            for (k, pair) in kinds.iter().enumerate() {
                members.push(Row {
                    name: format!("m{i}.{k}").into_bytes(),
                    at,
                    datatype: kind(pair),
                });
                at += model.size(kind(pair)) + gap;
            }
        }
        model.push(Line::Comp { size: at, members });
    };
    place_evenly(&mut from, |pair| pair.0);
    place_evenly(&mut to, |pair| pair.1);
    (from, to)
}

/// An array that fills the record, alone or as the only member.
pub fn array(
    random: &mut Random,
    element: fn(&mut Random, &mut Model, &mut Model) -> (usize, usize),
) -> (Model, Model) {
    let (mut from, mut to) = (Model::default(), Model::default());
    let (first, second) = element(random, &mut from, &mut to);
    let longer = from.size(first).max(to.size(second));
    let elements = match random.below(10) {
        0..=2 => random.between(1, 12),
        3 => *random.pick(&[16, 32, 64]),
        4..=7 => *random.pick(&[255, 256, 257]),
        _ => *random.pick(&[128, 129, 173, 260, 263, 264, 512, 515, 520]),
    }
    .min(4096 / longer);
    let nests = random.below(10);
    for (model, base) in [(&mut from, first), (&mut to, second)] {
        let half = elements % 2 == 0;
        let (base, dimensions) = match nests {
            0..=1 if half => (base, vec![2, elements / 2]),
            2 if half => {
                let inner = model.push(Line::Array {
                    base,
                    dimensions: vec![2],
                });
                (inner, vec![elements / 2])
            }
            _ => (base, vec![elements]),
        };
        let own = model.push(Line::Array { base, dimensions });
        if nests > 7 {
            let size = model.size(own);
            let members = vec![row(b"all", own)];
            model.push(Line::Comp { size, members });
        }
    }
    (from, to)
}

/// A few leaves far apart: of the records at least one has more than 512 bytes.
fn long(random: &mut Random) -> (Model, Model) {
    let (mut from, mut to) = paired(random, 5, numbers);
    let (first, second) = *random.pick(&[(true, true), (true, false), (false, true)]);
    for (model, is_long) in [(&mut from, first), (&mut to, second)] {
        let Some(Line::Comp { size, members }) = model.types.last_mut() else {
            unreachable!("the last type is a compound");
        };
        if is_long {
            let gap = random.between(1, 500);
            let front = if random.percent(50) { gap } else { 0 };
            members.iter_mut().for_each(|member| member.at += front);
            *size += 513 + gap;
        }
    }
    (from, to)
}
