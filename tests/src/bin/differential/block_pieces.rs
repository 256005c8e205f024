//! Pairs of sheets, for conversions in blocks, of leaves that stay as they are,
//! and of records that fall into equal parts, or nearly.

use crate::block_sheets::{array, layout, numbers, row};
use crate::generate::{order, unsigned};
use crate::model::{Line, Model, Row};
use crate::random::Random;
use independent::datatype::{Atomic, Order, Pad};

/// Two sheets of which the records stay as they are, or some adjoining members
/// of them.
pub fn staying(random: &mut Random) -> (Model, Model) {
    match random.below(10) {
        0 => array(random, same),
        1..=4 => alike(random),
        5..=6 => turned(random),
        _ => pieces(random),
    }
}

/// An int, bits or a real of whole bytes.
fn whole(random: &mut Random) -> Line {
    let any = layout(random);
    let size = random.between(1, 8);
    let filled = Atomic {
        size,
        offset: 0,
        precision: 8 * size,
        ..any
    };
    match random.below(4) {
        0 => Line::Real(order(random)),
        1 => unsigned(filled),
        _ => Line::Int(filled),
    }
}

/// Two leaves of whole bytes, of one layout.
fn same(random: &mut Random, from: &mut Model, to: &mut Model) -> (usize, usize) {
    let line = whole(random);
    (from.push(line.clone()), to.push(line))
}

/// One sheet twice: without a gap, with one between members or with one behind
/// them.
fn alike(random: &mut Random) -> (Model, Model) {
    let mut model = Model::default();
    let kinds: Vec<usize> = (0..random.between(2, 8))
        .map(|_| {
            let line = whole(random);
            model.push(line)
        })
        .collect();
    let (between, behind) = *random.pick(&[(0, 0), (0, 0), (1, 0), (3, 0), (0, 1), (0, 5), (2, 2)]);
    let gap = random.between(1, kinds.len() as u64 - 1) as usize;
    let mut at = 0;
    let mut members = Vec::new();
    for (i, kind) in kinds.into_iter().enumerate() {
        if i == gap {
            at += between;
        }
        members.push(Row {
            at,
            ..named(i, kind)
        });
        at += model.size(kind);
    }
    let size = at + behind;
    model.push(Line::Comp { size, members });
    (model.clone(), model)
}

fn named(i: usize, datatype: usize) -> Row {
    row(format!("m{i}").as_bytes(), datatype)
}

/// The same members in another order.
fn turned(random: &mut Random) -> (Model, Model) {
    let (mut from, mut to) = (Model::default(), Model::default());
    let mut rows: Vec<Row> = (0..random.between(2, 8) as usize)
        .map(|i| named(i, same(random, &mut from, &mut to).0))
        .collect();
    follow(&mut from, rows.clone(), 0);
    let behind = match random.percent(50) {
        // Those behind the first few adjoin as before.
        true => {
            let moved = random.between(1, rows.len() as u64 - 1) as usize;
            rows.rotate_left(moved);
            0
        }
        false => {
            random.shuffle(&mut rows);
            *random.pick(&[0, 0, 3])
        }
    };
    follow(&mut to, rows, behind);
    (from, to)
}

/// Places members one behind the other.
fn follow(model: &mut Model, mut members: Vec<Row>, behind: u64) {
    let mut at = 0;
    for member in &mut members {
        member.at = at;
        at += model.size(member.datatype);
    }
    let size = at + behind;
    model.push(Line::Comp { size, members });
}

/// Some members that stay as they are, and before or behind them some that
/// change, once or twice.
fn pieces(random: &mut Random) -> (Model, Model) {
    let (mut from, mut to) = (Model::default(), Model::default());
    let (mut own, mut others) = (Vec::new(), Vec::new());
    let stays_first = random.percent(50);
    for turn in 0..random.between(2, 4) {
        let stays = (turn % 2 == 0) == stays_first;
        for _ in 0..random.between(if stays { 2 } else { 1 }, if stays { 5 } else { 2 }) {
            let (first, second) = match stays {
                true => same(random, &mut from, &mut to),
                false => numbers(random, &mut from, &mut to),
            };
            own.push(named(own.len(), first));
            others.push(named(others.len(), second));
        }
    }
    let behind = *random.pick(&[0, 0, 2]);
    follow(&mut from, own, behind);
    follow(&mut to, others, *random.pick(&[0, 0, 1]));
    (from, to)
}

/// Two sheets that say the lines of one part again for each part; in some one
/// line differs in its sign, its order or a pad.
pub fn parts(random: &mut Random) -> (Model, Model) {
    let (mut from, mut to) = (Model::default(), Model::default());
    let kinds = random.between(1, 3);
    for _ in 0..kinds {
        numbers(random, &mut from, &mut to);
    }
    let times = random.between(2, 12 / kinds) as usize;
    let gap = *random.pick(&[0, 0, 0, 1]);
    let (other_source, other_destination) = match random.below(7) {
        0 | 1 => (false, false),
        2 => (true, true),
        3 | 4 => (true, false),
        _ => (false, true),
    };
    let chosen = random.below(kinds * times as u64) as usize;
    for (model, differs) in [(&mut from, other_source), (&mut to, other_destination)] {
        let part = model.types.clone();
        for _ in 1..times {
            model.types.extend(part.iter().cloned());
        }
        if differs {
            change_word(random, &mut model.types[chosen]);
        }
        let mut members = Vec::new();
        let mut at = 0;
        for i in 0..model.types.len() {
            members.push(Row { at, ..named(i, i) });
            at += model.size(i) + gap;
        }
        model.push(Line::Comp { size: at, members });
    }
    (from, to)
}

/// Another sign, order or pad.
fn change_word(random: &mut Random, line: &mut Line) {
    let other = |pad| match pad {
        Pad::Zero => Pad::One,
        Pad::One => Pad::Keep,
        Pad::Keep => Pad::Zero,
    };
    let choice = random.below(3);
    match line {
        Line::Int(layout) if choice == 0 => layout.signed = !layout.signed,
        Line::Int(layout) | Line::Bits(layout) if choice < 2 => {
            layout.order = match layout.order {
                Order::LittleEndian => Order::BigEndian,
                Order::BigEndian => Order::LittleEndian,
            }
        }
        Line::Int(layout) | Line::Bits(layout) => {
            let pad = match random.percent(50) {
                true => &mut layout.lsb,
                false => &mut layout.msb,
            };
            *pad = other(*pad);
        }
        _ => unreachable!("the parts are ints and bits"),
    }
}
