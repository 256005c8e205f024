//! Makes valid sheets: nested compounds, arrays, enums, bits, reals and ints.

use crate::model::{Line, Model, Name, REAL_BYTES, Row};
use crate::random::Random;
use independent::datatype::{Atomic, Order, Pad};

/// Makes types bottom up, so that each is used by later ones only.
pub struct Maker<'a> {
    pub random: &'a mut Random,
    pub model: Model,
}

/// A valid sheet with records of at most `bytes` bytes.
pub fn sheet(random: &mut Random, bytes: u64) -> Model {
    let mut maker = Maker {
        random,
        model: Model::default(),
    };
    if maker.random.percent(20) {
        // Types that nothing uses.
        for _ in 0..maker.random.between(1, 4) {
            maker.datatype(bytes, 1);
        }
    }
    let depth = maker.random.below(5);
    maker.fresh(bytes, depth);
    maker.model
}

impl Maker<'_> {
    /// A new type or one that is there already; its number.
    pub fn datatype(&mut self, bytes: u64, depth: u64) -> usize {
        let there = self
            .model
            .earlier(self.model.types.len(), |_, size| size <= bytes);
        // The places left are for the types that wait for this one.
        let full = self.model.types.len() >= 48 || self.model.rows() >= 200;
        if !there.is_empty() && (full || self.random.percent(25)) {
            return *self.random.pick(&there);
        }
        self.fresh(bytes, if full { 0 } else { depth })
    }

    /// A new type, which is the last one then.
    fn fresh(&mut self, bytes: u64, depth: u64) -> usize {
        let choice = self.random.below(10);
        match choice {
            0 | 1 if depth > 0 => self.array(bytes, depth),
            2..=6 if depth > 0 => self.compound(bytes, depth),
            7 => self.enumeration(bytes),
            _ if bytes >= REAL_BYTES && self.random.percent(35) => {
                let order = order(self.random);
                self.model.push(Line::Real(order))
            }
            8 => {
                let layout = atomic(self.random, bytes);
                self.model.push(Line::Bits(Atomic {
                    signed: false,
                    ..layout
                }))
            }
            _ => {
                let layout = atomic(self.random, bytes);
                self.model.push(Line::Int(layout))
            }
        }
    }

    fn array(&mut self, bytes: u64, depth: u64) -> usize {
        let mut dimensions = Vec::new();
        let mut left = bytes;
        for _ in 0..self.random.between(1, 4) {
            let dimension = self.random.between(1, left.min(6));
            left /= dimension;
            dimensions.push(dimension);
        }
        let base = self.datatype(left, depth - 1);
        self.model.push(Line::Array { base, dimensions })
    }

    pub fn enumeration(&mut self, bytes: u64) -> usize {
        let ints = self.model.earlier(self.model.types.len(), |line, size| {
            matches!(line, Line::Int(_)) && size <= bytes
        });
        let base = if !ints.is_empty() && self.random.percent(50) {
            *self.random.pick(&ints)
        } else {
            let layout = atomic(self.random, bytes);
            self.model.push(Line::Int(layout))
        };
        let mut values = Vec::new();
        for _ in 0..self.random.below(7) {
            add_value(self.random, self.model.range(base), &mut values);
        }
        self.model.push(Line::Enum { base, values })
    }

    fn compound(&mut self, bytes: u64, depth: u64) -> usize {
        let mut members: Vec<Row> = Vec::new();
        let mut left = bytes;
        for _ in 0..self.random.below(8) {
            if left == 0 {
                break;
            }
            let most = left.min(1 << self.random.below(11));
            let datatype = self.datatype(most, depth - 1);
            left -= self.model.size(datatype);
            members.push(Row {
                name: new_name(self.random, |name| {
                    members.iter().any(|row| row.name == name)
                }),
                at: 0,
                datatype,
            });
        }
        let size = place(self.random, &self.model, &mut members, bytes);
        self.model.push(Line::Comp { size, members })
    }
}

/// Two sheets of a few ints and reals under the same names, most of them a real
/// in one of the two.
pub fn reals(random: &mut Random) -> (Model, Model) {
    paired(random, 7, |random, from, to| {
        let (first, second) = match random.below(5) {
            0 | 1 => (Line::Int(wide(random)), Line::Real(order(random))),
            2 | 3 => (Line::Real(order(random)), Line::Int(wide(random))),
            _ => (Line::Real(order(random)), Line::Real(order(random))),
        };
        (from.push(first), to.push(second))
    })
}

/// Two sheets of a few leaves under the same names, of every class and mostly
/// of many bits: each pair has a number that raises an exception, or nearly
/// each.
pub fn unequal(random: &mut Random) -> (Model, Model) {
    paired(random, 7, unequal_leaves)
}

/// Two leaves of one class, or an int and a real.
pub fn unequal_leaves(random: &mut Random, from: &mut Model, to: &mut Model) -> (usize, usize) {
    let (first, second) = match random.below(9) {
        0 | 1 => (Line::Int(widest(random)), Line::Int(atomic(random, 8))),
        2 => (Line::Int(widest(random)), Line::Int(widest(random))),
        3 => (unsigned(widest(random)), unsigned(atomic(random, 8))),
        4 | 5 => return enums(random, from, to),
        6 => (Line::Int(widest(random)), Line::Real(order(random))),
        _ => (Line::Real(order(random)), Line::Int(wide(random))),
    };
    (from.push(first), to.push(second))
}

/// Two sheets of a few leaves under mostly the same names, of every class,
/// where the destination has every symbol of the source's enums.
pub fn showing(random: &mut Random) -> (Model, Model) {
    let (from, mut to) = paired(random, 3, |random, from, to| {
        let (first, second) = match random.below(8) {
            0 => (Line::Int(atomic(random, 8)), Line::Int(atomic(random, 8))),
            1 => (unsigned(atomic(random, 8)), unsigned(atomic(random, 8))),
            2 => (Line::Int(atomic(random, 8)), Line::Real(order(random))),
            3 => (Line::Real(order(random)), Line::Int(atomic(random, 8))),
            4 => (Line::Real(order(random)), Line::Real(order(random))),
            _ => return kept_enums(random, from, to, 0),
        };
        (from.push(first), to.push(second))
    });
    if let Some(Line::Comp { members, .. }) = to.types.last_mut() {
        // What the destination lacks is not matched.
        members.retain(|_| random.percent(85));
    }
    (from, to)
}

/// Two enums, the second with every symbol of the first, if its base has so many
/// numbers.
pub fn kept_enums(
    random: &mut Random,
    from: &mut Model,
    to: &mut Model,
    fewest: u64,
) -> (usize, usize) {
    let base = from.push(Line::Int(atomic(random, 4)));
    let mut values = Vec::new();
    for _ in 0..random.between(fewest, 3) {
        add_value(random, from.range(base), &mut values);
    }
    // One that differs from another in its lowest bit alone.
    let beside = values.last().map(|value| value.1 ^ 1);
    let (least, most) = from.range(base);
    if let Some(number) = beside.filter(|number| (least..=most).contains(number)) {
        add_value(random, (number, number), &mut values);
    }
    let other_base = to.push(Line::Int(wide(random)));
    let (low, high) = to.range(other_base);
    let mut others: Vec<(Name, i128)> = Vec::new();
    for (name, _) in &values {
        let is_new = |number: &i128| others.iter().all(|value| value.1 != *number);
        let chosen = Some(random.number(low, high)).filter(is_new);
        if let Some(number) = chosen.or_else(|| (low..=high).find(is_new)) {
            others.push((name.clone(), number));
        }
    }
    for _ in 0..random.below(3) {
        add_value(random, (low, high), &mut others);
    }
    random.shuffle(&mut others);
    let first = from.push(Line::Enum { base, values });
    let second = to.push(Line::Enum {
        base: other_base,
        values: others,
    });
    (first, second)
}

pub fn unsigned(layout: Atomic) -> Line {
    Line::Bits(Atomic {
        signed: false,
        ..layout
    })
}

/// Two sheets whose enums keep their symbols, have more of them or lose some; in
/// members of their own, nested and in arrays, some of them unmatched.
pub fn symbols(random: &mut Random) -> (Model, Model) {
    let (mut from, mut to) = paired(random, 7, |random, from, to| match random.below(8) {
        0 => {
            let most = *random.pick(&[2, 2, 2, 8]);
            (
                from.push(Line::Int(atomic(random, 2))),
                to.push(Line::Int(atomic(random, most))),
            )
        }
        _ => {
            let pair = enums(random, from, to);
            nested(random, pair, from, to)
        }
    });
    for model in [&mut from, &mut to] {
        if random.percent(30) {
            add_unmatched(random, model);
        }
    }
    if random.percent(6) {
        // A member without a path beside them.
        let member = |datatype| Row {
            name: b"other".to_vec(),
            at: 0,
            datatype,
        };
        let layout = atomic(random, 2);
        let own = from.insert(Line::Int(layout));
        from.add_member(random, member(own));
        let own = to.insert(unsigned(layout));
        to.add_member(random, member(own));
    }
    (from, to)
}

/// An enum in an array, in a compound or by itself, in both sheets alike.
fn nested(
    random: &mut Random,
    pair: (usize, usize),
    from: &mut Model,
    to: &mut Model,
) -> (usize, usize) {
    let choice = random.below(6);
    let dimensions = vec![random.between(1, 2); random.between(1, 2) as usize];
    let mut wrap = |model: &mut Model, datatype: usize| match choice {
        0 => model.push(Line::Array {
            base: datatype,
            dimensions: dimensions.clone(),
        }),
        1 => {
            let mut members = vec![Row {
                name: b"valve".to_vec(),
                at: 0,
                datatype,
            }];
            let size = place(random, model, &mut members, 10);
            model.push(Line::Comp { size, members })
        }
        _ => datatype,
    };
    (wrap(from, pair.0), wrap(to, pair.1))
}

/// One more enum, under a name that the other sheet seldom has.
fn add_unmatched(random: &mut Random, model: &mut Model) {
    let base = model.insert(Line::Int(atomic(random, 2)));
    let mut values = Vec::new();
    for _ in 0..random.between(1, 3) {
        add_value(random, model.range(base), &mut values);
    }
    let datatype = model.insert(Line::Enum { base, values });
    let name = new_name(random, |name| model.has_member(name));
    model.add_member(
        random,
        Row {
            name,
            at: 0,
            datatype,
        },
    );
}

/// Two enums, mostly with other numbers: of the same symbols, of more of them in
/// the destination, or that share some.
fn enums(random: &mut Random, from: &mut Model, to: &mut Model) -> (usize, usize) {
    let base = from.push(Line::Int(widest(random)));
    let mut values = Vec::new();
    for _ in 0..random.below(6) {
        add_value(random, from.range(base), &mut values);
    }
    let other_base = to.push(Line::Int(wide(random)));
    let (low, high) = to.range(other_base);
    let (kept, more) = *random.pick(&[(100, 0), (100, 0), (100, 2), (100, 2), (60, 2)]);
    let mut others: Vec<(Name, i128)> = Vec::new();
    for (name, number) in &values {
        if !random.percent(kept) {
            continue;
        }
        let same = (*number).clamp(low, high);
        let number = match random.percent(30) {
            true => Some(same).filter(|same| others.iter().all(|value| value.1 != *same)),
            false => None,
        };
        let number = number.or_else(|| new_number(random, (low, high), &others));
        others.extend(number.map(|number| (name.clone(), number)));
    }
    if random.percent(50) {
        random.shuffle(&mut others);
    }
    for _ in 0..random.between(0, more) {
        add_value(random, (low, high), &mut others);
    }
    let first = from.push(Line::Enum { base, values });
    let second = to.push(Line::Enum {
        base: other_base,
        values: others,
    });
    (first, second)
}

/// A number of a range that no value has, if one is easily found.
pub fn new_number(
    random: &mut Random,
    (low, high): (i128, i128),
    values: &[(Name, i128)],
) -> Option<i128> {
    let is_new = |number: &i128| values.iter().all(|value| value.1 != *number);
    (0..12).map(|_| random.number(low, high)).find(is_new)
}

/// Two compounds of at most so many members under the same names; `pair` makes
/// the types of a member in both sheets.
pub fn paired(
    random: &mut Random,
    most: u64,
    pair: impl Fn(&mut Random, &mut Model, &mut Model) -> (usize, usize),
) -> (Model, Model) {
    let (mut from, mut to) = (Model::default(), Model::default());
    let (mut members, mut others): (Vec<Row>, Vec<Row>) = (Vec::new(), Vec::new());
    for _ in 0..random.between(1, most) {
        let name = new_name(random, |name| members.iter().any(|row| row.name == name));
        let (first, second) = pair(random, &mut from, &mut to);
        for (rows, datatype) in [(&mut members, first), (&mut others, second)] {
            rows.push(Row {
                name: name.clone(),
                at: 0,
                datatype,
            });
        }
    }
    for (model, mut rows) in [(&mut from, members), (&mut to, others)] {
        let size = place(random, model, &mut rows, 320);
        model.push(Line::Comp {
            size,
            members: rows,
        });
    }
    (from, to)
}

/// Any valid atomic layout, mostly with more bits than a double holds.
pub fn wide(random: &mut Random) -> Atomic {
    let mut layout = atomic(random, 8);
    if random.percent(60) {
        let precision = *random.pick(&[64, 64, 63, 56, 55, 54, 53]);
        layout.size = 8;
        layout.precision = precision;
        layout.offset = random.between(0, 64 - precision);
    }
    layout
}

/// The same, in half of the cases with all 64 bits.
fn widest(random: &mut Random) -> Atomic {
    let layout = wide(random);
    match random.percent(50) {
        true => Atomic {
            size: 8,
            offset: 0,
            precision: 64,
            ..layout
        },
        false => layout,
    }
}

/// Places members in any order, often with gaps; gives a size with room for
/// them, at most `bytes`.
pub fn place(random: &mut Random, model: &Model, members: &mut [Row], bytes: u64) -> u64 {
    let taken: u64 = members.iter().map(|row| model.size(row.datatype)).sum();
    let mut gaps = if random.percent(50) { bytes - taken } else { 0 };
    let mut order: Vec<usize> = (0..members.len()).collect();
    if random.percent(40) {
        random.shuffle(&mut order);
    }
    let mut gap = |random: &mut Random| {
        let gap = gaps.min(*random.pick(&[0, 0, 1, 2, 5]));
        gaps -= gap;
        gap
    };
    let mut at = 0;
    for i in order {
        at += gap(random);
        members[i].at = at;
        at += model.size(members[i].datatype);
    }
    (at + gap(random)).max(1)
}

/// Adds a value with a new name and a new number, if one is easily found.
pub fn add_value(random: &mut Random, range: (i128, i128), values: &mut Vec<(Name, i128)>) {
    let number = random.number(range.0, range.1);
    if values.iter().all(|value| value.1 != number) {
        let name = new_name(random, |name| values.iter().any(|value| value.0 == name));
        values.push((name, number));
    }
}

pub fn order(random: &mut Random) -> Order {
    *random.pick(&[Order::LittleEndian, Order::BigEndian])
}

/// All bits of 2 bytes, in any order, with a sign or without.
pub fn all_of_2_bytes(random: &mut Random) -> Atomic {
    Atomic {
        size: 2,
        offset: 0,
        precision: 16,
        ..atomic(random, 1)
    }
}

/// Any valid atomic layout of at most `bytes` bytes.
pub fn atomic(random: &mut Random, bytes: u64) -> Atomic {
    let size = random.between(1, bytes.min(8));
    let precision = match random.below(4) {
        0 => 8 * size,
        1 => *random.pick(&[1, 8 * size - 1, 2]),
        _ => random.between(1, 8 * size),
    };
    let spare = 8 * size - precision;
    let offset = match random.below(4) {
        0 => 0,
        1 => spare,
        _ => random.between(0, spare),
    };
    Atomic {
        size,
        order: order(random),
        offset,
        precision,
        lsb: *random.pick(&[Pad::Zero, Pad::One, Pad::Keep]),
        msb: *random.pick(&[Pad::Zero, Pad::One, Pad::Keep]),
        signed: random.percent(50),
    }
}

/// A name that is not taken, mostly a short one, so that names meet.
pub fn new_name(random: &mut Random, taken: impl Fn(&[u8]) -> bool) -> Name {
    loop {
        let name = any_name(random);
        if !taken(&name) {
            return name;
        }
    }
}

fn any_name(random: &mut Random) -> Name {
    let short: [&[u8]; 12] = [
        b"a", b"b", b"c", b"d", b"e", b"f", b"p", b"pr", b"pre", b"A", b"!", b"~",
    ];
    match random.below(8) {
        // Names that differ in the last byte alone.
        0 => {
            let mut name = vec![b'n'; *random.pick(&[30, 31]) - 1];
            name.push(*random.pick(b"xyz"));
            name
        }
        1 => (0..random.between(1, 31))
            .map(|_| random.between(33, 126) as u8)
            .collect(),
        _ => random.pick(&short).to_vec(),
    }
}
