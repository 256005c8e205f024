//! Sheets at the limits and one past them.

use crate::generate::{self, Maker, atomic};
use crate::model::{Line, Model, Row};
use crate::random::Random;
use crate::words;

/// A sheet at some limit; half of them are one past it.
pub fn sheet(random: &mut Random) -> Vec<u8> {
    let past = random.percent(40);
    let model = match random.below(7) {
        0 => types(random, if past { 65 } else { 64 }),
        1 => values(random, if past { 257 } else { 256 }),
        2 => wide(random, if past { 257 } else { 256 }),
        3 => return length(random, if past { 16_385 } else { 16_384 }),
        4 => deep(random, 64),
        5 => full(random, if past { 257 } else { 256 }),
        _ => large(random, if past { 4097 } else { 4096 }),
    };
    words::text(random, &model)
}

/// Some valid sheet at the limits of all three kinds, as a model.
pub fn valid(random: &mut Random) -> Model {
    match random.below(6) {
        0 => types(random, 64),
        1 => values(random, 256),
        2 => wide(random, 256),
        3 => deep(random, 64),
        4 => full(random, 256),
        _ => large(random, 4096),
    }
}

/// So many types, all before the last unused or used as it falls.
fn types(random: &mut Random, count: usize) -> Model {
    let mut model = Model::default();
    while model.types.len() < count - 1 {
        let line = match random.below(6) {
            0 => Line::Real(generate::order(random)),
            _ => Line::Int(atomic(random, 8)),
        };
        model.push(line);
    }
    let base = random.below(count as u64 - 1) as usize;
    let dimensions = vec![random.between(1, 9)];
    model.push(Line::Array { base, dimensions });
    model
}

/// An enum with so many values.
fn values(random: &mut Random, count: usize) -> Model {
    let mut model = Model::default();
    let base = model.push(Line::Int(generate::all_of_2_bytes(random)));
    let mut values = Vec::new();
    while values.len() < count {
        generate::add_value(random, model.range(base), &mut values);
    }
    model.push(Line::Enum { base, values });
    model
}

/// A compound with so many members.
fn wide(random: &mut Random, count: usize) -> Model {
    let mut model = generate::sheet(random, 15);
    let count = count.saturating_sub(model.rows());
    let mut members: Vec<Row> = Vec::new();
    while members.len() < count {
        let name = generate::new_name(random, |name| members.iter().any(|m| m.name == name));
        let datatype = random.below(model.types.len() as u64) as usize;
        let at = 0;
        members.push(Row { name, at, datatype });
    }
    let size = generate::place(random, &model, &mut members, 4096);
    model.push(Line::Comp { size, members });
    model
}

/// 64 types and so many rows together.
fn full(random: &mut Random, rows: usize) -> Model {
    let mut model = Model::default();
    let layout = atomic(random, 3);
    let base = model.push(Line::Int(layout));
    let mut values = Vec::new();
    for _ in 0..9 {
        generate::add_value(random, model.range(base), &mut values);
    }
    model.push(Line::Enum { base, values });
    while model.types.len() < 64 {
        let last = model.types.len() == 63;
        let count = if last { rows - model.rows() } else { 4 };
        let small = model.earlier(model.types.len(), |_, size| size <= 15);
        let mut members: Vec<Row> = Vec::new();
        while members.len() < count {
            let name = generate::new_name(random, |name| members.iter().any(|m| m.name == name));
            let datatype = *random.pick(&small);
            members.push(Row {
                name,
                at: 0,
                datatype,
            });
        }
        let size = generate::place(random, &model, &mut members, 4096);
        model.push(Line::Comp { size, members });
    }
    model
}

/// One type inside the other, so many in all.
fn deep(random: &mut Random, count: usize) -> Model {
    let mut maker = Maker {
        random,
        model: Model::default(),
    };
    maker.enumeration(8);
    let Maker { random, mut model } = maker;
    while model.types.len() < count {
        let datatype = model.types.len() - 1;
        let size = model.size(datatype);
        if random.percent(30) {
            let most = if size < 600 { 2 } else { 1 };
            model.push(Line::Array {
                base: datatype,
                dimensions: vec![random.between(1, most)],
            });
            continue;
        }
        let gap = u64::from(random.percent(20));
        let name = random.pick(&[b"a", b"b"]).to_vec();
        let at = random.between(0, gap);
        model.push(Line::Comp {
            size: size + gap,
            members: vec![Row { name, at, datatype }],
        });
    }
    model
}

/// Records of exactly so many bytes, and many leaves.
fn large(random: &mut Random, bytes: u64) -> Model {
    let mut model = Model::default();
    let line = match random.below(4) {
        0 => Line::Real(generate::order(random)),
        _ => Line::Int(atomic(random, 4)),
    };
    let base = model.push(line);
    let most = bytes / model.size(base);
    if random.percent(50) {
        model.push(Line::Array {
            base,
            dimensions: vec![most],
        });
        return model;
    }
    let dimensions = vec![random.between(1, most / 2), 2];
    let datatype = model.push(Line::Array { base, dimensions });
    let at = bytes - model.size(datatype);
    let name = b"tail".to_vec();
    model.push(Line::Comp {
        size: bytes,
        members: vec![Row { name, at, datatype }],
    });
    model
}

/// A sheet of exactly so many bytes, with nothing else wrong: of values alone, or
/// of members with words behind them.
fn length(random: &mut Random, bytes: usize) -> Vec<u8> {
    let members = if random.percent(50) { 54 } else { 0 };
    let tail = worded_members(random, members);
    let (bytes, values) = (bytes - tail.len(), 255 - members);
    let mut text = String::new();
    for _ in 0..60 {
        text.push_str("int\t8\tLE\t0\t64\tkeep\tzero\tunsigned\n");
    }
    text.push_str("enum\t7\n");
    for number in 0..values {
        let long = 18_446_744_073_709_551_615_u64 - number as u64;
        let end = format!("\t{long}\n");
        let left = bytes - text.len();
        let rows_left = values - number;
        // The names shrink where the room for the last rows asks for it.
        let most = left / rows_left - end.len() - 6;
        let width = if rows_left == 1 {
            left - end.len() - 6
        } else {
            most.min(31)
        };
        text.push_str(&format!("value\t{number:x>width$}{end}"));
    }
    text.push_str(&tail);
    if random.percent(20) {
        text = text.replace("keep", "kee");
    }
    text.into_bytes()
}

/// A compound of so many members of 8 bytes each, all with a word; nothing for
/// none.
fn worded_members(random: &mut Random, members: usize) -> String {
    let mut text = String::new();
    if members > 0 {
        text.push_str("comp\t4096\n");
    }
    for number in 0..members {
        let word = random.pick(&["clamp", "stop"]);
        let at = 1024 + 8 * number;
        text.push_str(&format!("member\t{number:m>31}\t{at}\t{number}\t{word}\n"));
    }
    text
}
