//! Makes a sheet from another one: renamed, added, dropped and moved
//! members, other layouts, other enums, other dimensions.

use crate::generate::{add_value, atomic, new_name, new_number, order, place};
use crate::model::{Line, Model, Row};
use crate::random::Random;
use independent::datatype::Atomic;

/// A valid sheet that mostly has a path from the model.
pub fn derive(random: &mut Random, model: &Model) -> Model {
    let mut derived = model.clone();
    let layouts = model.earlier(model.types.len(), |line, _| {
        matches!(line, Line::Int(_) | Line::Bits(_) | Line::Real(_))
    });
    for _ in 0..random.below(9) {
        let mut chosen = random.below(derived.types.len() as u64) as usize;
        if random.percent(40) && !layouts.is_empty() {
            chosen = *random.pick(&layouts);
        }
        change(random, &mut derived, chosen);
    }
    if random.percent(15) && derived.types.len() < 64 {
        shift(random, &mut derived);
    }
    for i in 0..derived.types.len() {
        mend(random, &mut derived, i);
    }
    derived
}

fn change(random: &mut Random, model: &mut Model, chosen: usize) {
    let rows = model.rows();
    let mut line = model.types[chosen].clone();
    match &mut line {
        Line::Int(layout) => {
            *layout = other_layout(random, layout);
            let used = |line: &Line| matches!(line, Line::Enum { base, .. } if *base == chosen);
            if !model.types.iter().any(used) {
                match random.below(100) {
                    0..=2 => {
                        line = Line::Bits(Atomic {
                            signed: false,
                            ..*layout
                        });
                    }
                    3..=22 => line = Line::Real(order(random)),
                    _ => {}
                }
            }
        }
        Line::Real(own) => match random.below(100) {
            0..=49 => line = Line::Int(atomic(random, 8)),
            50..=51 => {
                line = Line::Bits(Atomic {
                    signed: false,
                    ..atomic(random, 8)
                });
            }
            _ => *own = order(random),
        },
        Line::Bits(layout) => {
            *layout = Atomic {
                signed: false,
                ..other_layout(random, layout)
            };
            if random.percent(3) {
                line = Line::Int(*layout);
            }
        }
        Line::Enum { base, values } => change_enum(random, model.range(*base), rows, values),
        Line::Comp { members, .. } => change_compound(random, chosen, rows, members),
        Line::Array { base, dimensions } => match &model.types[*base] {
            // One array in place of two has no path from them.
            Line::Array {
                base: inner,
                dimensions: others,
            } if random.percent(10) => {
                let all: u64 = dimensions.iter().chain(others).product();
                (*base, *dimensions) = (*inner, vec![all]);
            }
            // Nor have other dimensions, of the same total or not.
            _ if random.percent(30) => reshape(random, dimensions),
            _ => {}
        },
    }
    model.types[chosen] = line;
}

/// Changes one thing of a layout, or all of it.
fn other_layout(random: &mut Random, layout: &Atomic) -> Atomic {
    let new = atomic(random, 8);
    match random.below(6) {
        0 | 1 => new,
        2 => Atomic {
            order: new.order,
            ..*layout
        },
        3 => Atomic {
            lsb: new.lsb,
            msb: new.msb,
            ..*layout
        },
        4 => Atomic {
            signed: new.signed,
            ..*layout
        },
        // The same number in another container.
        _ => {
            let size = random.between(layout.precision.div_ceil(8), 8);
            Atomic {
                size,
                offset: random.between(0, 8 * size - layout.precision),
                ..*layout
            }
        }
    }
}

type Values = Vec<(Vec<u8>, i128)>;

fn change_enum(random: &mut Random, range: (i128, i128), rows: usize, values: &mut Values) {
    match random.below(4) {
        0 if rows < 250 => add_value(random, range, values),
        1 if !values.is_empty() => {
            let dropped = random.below(values.len() as u64) as usize;
            values.remove(dropped);
        }
        2 if values.len() > 1 => {
            // The numbers go to other symbols.
            let mut numbers: Vec<i128> = values.iter().map(|value| value.1).collect();
            random.shuffle(&mut numbers);
            for (value, number) in values.iter_mut().zip(numbers) {
                value.1 = number;
            }
        }
        3 if !values.is_empty() => {
            let name = new_name(random, |name| values.iter().any(|value| value.0 == name));
            let renamed = random.below(values.len() as u64) as usize;
            values[renamed].0 = name;
        }
        _ => random.shuffle(values),
    }
}

fn change_compound(random: &mut Random, own: usize, rows: usize, members: &mut Vec<Row>) {
    let some = !members.is_empty();
    let chosen = random.below(members.len().max(1) as u64) as usize;
    let name = new_name(random, |name| members.iter().any(|row| row.name == name));
    match random.below(8) {
        0 | 1 if own > 0 && rows < 250 => {
            let datatype = random.below(own as u64) as usize;
            members.push(Row {
                name,
                at: 0,
                datatype,
            });
        }
        2 | 3 if some => {
            members.remove(chosen);
        }
        4 if some => members[chosen].name = name,
        5 if some && random.percent(20) => {
            members[chosen].datatype = random.below(own as u64) as usize;
        }
        _ => random.shuffle(members),
    }
}

/// Other dimensions, mostly with the same product.
fn reshape(random: &mut Random, dimensions: &mut Vec<u64>) {
    let mut left: u64 = dimensions.iter().product();
    if random.percent(10) {
        left = left.max(2) - 1;
    }
    dimensions.clear();
    while dimensions.len() < 3 && random.percent(70) {
        let divisors: Vec<u64> = (1..=left).filter(|d| left % d == 0).collect();
        let dimension = *random.pick(&divisors);
        dimensions.push(dimension);
        left /= dimension;
    }
    dimensions.push(left);
}

/// Puts a type in front, so that every type number is another one.
fn shift(random: &mut Random, model: &mut Model) {
    for line in &mut model.types {
        match line {
            Line::Enum { base, .. } | Line::Array { base, .. } => *base += 1,
            Line::Comp { members, .. } => members.iter_mut().for_each(|row| row.datatype += 1),
            _ => {}
        }
    }
    model.types.insert(0, Line::Int(atomic(random, 8)));
}

/// Makes a type valid again after the types under it have changed.
pub fn mend(random: &mut Random, model: &mut Model, own: usize) {
    let mut line = model.types[own].clone();
    match &mut line {
        Line::Enum { base, values } => {
            let (low, high) = model.range(*base);
            let mut kept: Values = Vec::new();
            for (name, number) in values.drain(..) {
                let fits =
                    (low..=high).contains(&number) && kept.iter().all(|value| value.1 != number);
                let number = match fits {
                    true => Some(number),
                    // The symbol stays, if there is a number for it.
                    false => new_number(random, (low, high), &kept),
                };
                kept.extend(number.map(|number| (name, number)));
            }
            *values = kept;
        }
        Line::Comp { size, members } => {
            let taken =
                |members: &[Row]| members.iter().map(|m| model.size(m.datatype)).sum::<u64>();
            while taken(members) > 4096 {
                members.pop();
            }
            *size = place(random, model, members, 4096);
        }
        Line::Array { base, dimensions } => {
            let most = 4096 / model.size(*base);
            if dimensions.iter().product::<u64>() > most {
                *dimensions = vec![most];
            }
        }
        _ => {}
    }
    model.types[own] = line;
}
