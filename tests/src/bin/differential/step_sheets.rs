//! Three sheets for two steps, of one tree of members.

use crate::block_enums::distinct;
use crate::generate::{atomic, new_name, order, unsigned, wide};
use crate::model::{Line, Model, Name};
use crate::random::Random;
use crate::trees;
use crate::words;
use independent::datatype::{Atomic, Datatype};
use independent::number;
use independent::sheet;
use std::rc::Rc;

/// The places of the three sheets.
pub const A: usize = 0;
pub const B: usize = 1;
pub const C: usize = 2;

/// Three sheets, with the types that they say.
pub struct Sheets {
    pub texts: [Vec<u8>; 3],
    pub types: [Rc<Datatype>; 3],
}

/// Mostly such that the conditions of two steps hold.
pub fn sheets(random: &mut Random) -> Sheets {
    let leaf = match random.percent(75) {
        true => exact_leaf,
        false => any_leaf,
    };
    let stands = match random.percent(75) {
        true => alike,
        false => unlike,
    };
    let models = trees::sheets(random, 3, leaf, stands);
    let text = |model: &Model| words::text(random, model);
    let texts: Vec<Vec<u8>> = models.iter().map(text).collect();
    let read = |text: &Vec<u8>| sheet::read(text).expect("a valid sheet");
    let types: Vec<Rc<Datatype>> = texts.iter().map(read).collect();
    Sheets {
        texts: texts.try_into().expect("three sheets"),
        types: types.try_into().expect("three sheets"),
    }
}

/// In which of the sheets a member may stand if C shares the same names with A
/// and with B.
const ALIKE: [[bool; 3]; 5] = [
    [true, true, true],
    [true, true, false],
    [true, false, false],
    [false, true, false],
    [false, false, true],
];

fn alike(random: &mut Random) -> Vec<bool> {
    match random.percent(75) {
        true => ALIKE[0].to_vec(),
        false => random.pick(&ALIKE).to_vec(),
    }
}

/// And if it need not.
fn unlike(random: &mut Random) -> Vec<bool> {
    match random.below(10) {
        0 => vec![true, false, true],
        1 => vec![false, true, true],
        _ => alike(random),
    }
}

/// A leaf that is no real in any sheet; in B mostly a wide one.
fn exact_leaf(random: &mut Random, models: &mut [Model]) -> Vec<usize> {
    let line = match random.below(10) {
        0..=1 => return enums(random, models),
        2..=3 => unsigned,
        _ => Line::Int,
    };
    let middle = match random.percent(75) {
        true => wide(random),
        false => atomic(random, 8),
    };
    let narrow = *random.pick(&[2, 4, 8]);
    let layouts = [atomic(random, 8), middle, atomic(random, narrow)];
    let pairs = models.iter_mut().zip(layouts);
    pairs
        .map(|(model, layout)| model.push(line(layout)))
        .collect()
}

/// A leaf that may be a real in some of the sheets, where the others have an int,
/// mostly a short one in C.
fn any_leaf(random: &mut Random, models: &mut [Model]) -> Vec<usize> {
    if random.percent(70) {
        return exact_leaf(random, models);
    }
    let layouts = [wide(random), wide(random), atomic(random, 4)];
    let pairs = models.iter_mut().zip(layouts);
    let push = |(model, layout): (&mut Model, Atomic)| match random.percent(50) {
        true => model.push(Line::Real(order(random))),
        false => model.push(Line::Int(layout)),
    };
    pairs.map(push).collect()
}

/// Enums of which each has every symbol of those before, under other numbers.
fn enums(random: &mut Random, models: &mut [Model]) -> Vec<usize> {
    let mut names: Vec<Name> = Vec::new();
    let mut types = Vec::new();
    for model in models {
        for _ in 0..random.between(0, 2) {
            let name = new_name(random, |name| names.iter().any(|other| other == name));
            names.push(name);
        }
        let base = loop {
            let layout = atomic(random, 4);
            let (low, high) = number::range(&layout);
            if high - low >= names.len() as i128 {
                break model.push(Line::Int(layout));
            }
        };
        let mut numbers: Vec<i128> = distinct(random, model.range(base), names.len())
            .into_iter()
            .collect();
        random.shuffle(&mut numbers);
        let mut values: Vec<(Name, i128)> = names.iter().cloned().zip(numbers).collect();
        random.shuffle(&mut values);
        types.push(model.push(Line::Enum { base, values }));
    }
    types
}
