//! Sheets grown line by line, each field at or near a bound of its column,
//! up to the first faulty line or some way past it.

use crate::random::Random;
use crate::words;
use independent::datatype::Datatype;
use independent::number;
use independent::sheet;
use std::rc::Rc;

/// The lines so far and the types that they make.
#[derive(Default)]
struct Grown {
    text: Vec<u8>,
    types: Vec<Rc<Datatype>>,
}

pub fn sheet(random: &mut Random) -> Vec<u8> {
    let mut grown = Grown::default();
    for _ in 0..random.between(1, 14) {
        let line = line(random, &grown);
        let mut text = grown.text.clone();
        text.extend(&line);
        let is_row = line.starts_with(b"value") || line.starts_with(b"member");
        // A sheet's type is its last one, and so the one that this line
        // makes or adds to.
        match sheet::read(&text) {
            Ok(datatype) => {
                if is_row {
                    grown.types.pop();
                }
                grown.types.push(datatype);
                grown.text = text;
            }
            Err(_) if random.percent(60) => {}
            Err(_) => return text,
        }
    }
    grown.text
}

fn line(random: &mut Random, grown: &Grown) -> Vec<u8> {
    let mut fields = match (random.below(10), grown.types.last().map(|last| &**last)) {
        (3..=8, Some(Datatype::Enum { .. })) => value(random, grown),
        (3..=8, Some(Datatype::Comp { .. })) => member(random, grown),
        (0, _) => value(random, grown),
        (1, _) => member(random, grown),
        (2 | 3, _) => vec![b"enum".to_vec(), base(random, grown)],
        (4 | 5, _) => vec![
            b"comp".to_vec(),
            near(random, &[1, 2, 8, 20, 20, 4095, 4096]),
        ],
        (6 | 7, _) => array(random, grown),
        _ if random.percent(25) => real(random),
        _ => atomic(random),
    };
    if random.percent(3) {
        fields.push(
            random
                .pick(&["", "0", "zero", "unsigned", "stop", "clamp"])
                .as_bytes()
                .to_vec(),
        );
    }
    if random.percent(3) {
        fields.pop();
    }
    let mut line = fields.join(&9);
    line.push(10);
    line
}

/// A number at a bound or one off it, oddly written at times.
fn near(random: &mut Random, bounds: &[i128]) -> Vec<u8> {
    let number = random.pick(bounds) + random.pick(&[0, 0, 0, 0, 0, 0, 1, -1]);
    let text = number.to_string();
    let odd = match random.below(100) {
        0 => format!("0{text}"),
        1 => format!("-{text}"),
        2 => format!("+{text}"),
        3 => format!("{text} "),
        4 => (number + (1 << 32)).to_string(),
        5 => (number + (1 << 64)).to_string(),
        _ => text,
    };
    odd.into_bytes()
}

fn word(random: &mut Random, words: &[&str]) -> Vec<u8> {
    let word = random.pick(words).to_string();
    if random.percent(1) {
        return word.to_uppercase().into_bytes();
    }
    word.into_bytes()
}

fn atomic(random: &mut Random) -> Vec<Vec<u8>> {
    let size = random.between(1, 8) as i128;
    let precision = random.number(1, 8 * size);
    let spare = 8 * size - precision;
    let bits = random.percent(30);
    let mut fields = vec![
        if bits {
            b"bits".to_vec()
        } else {
            b"int".to_vec()
        },
        near(random, &[size]),
        word(random, &["LE", "BE"]),
        near(random, &[0, spare, spare / 2]),
        near(random, &[precision]),
        word(random, &["zero", "one", "keep"]),
        word(random, &["zero", "one", "keep"]),
    ];
    if bits == random.percent(3) {
        fields.push(word(random, &["signed", "unsigned"]));
    }
    fields
}

fn real(random: &mut Random) -> Vec<Vec<u8>> {
    vec![
        b"real".to_vec(),
        near(random, &[8, 8, 8, 8, 8, 4, 16, 0]),
        word(random, &["LE", "BE"]),
    ]
}

/// A type number, mostly one that may stand here.
fn base(random: &mut Random, grown: &Grown) -> Vec<u8> {
    let count = grown.types.len() as i128;
    let some = random.number(0, (count - 1).max(0));
    near(random, &[some, some, some, count - 1, count])
}

fn array(random: &mut Random, grown: &Grown) -> Vec<Vec<u8>> {
    let mut fields = vec![b"array".to_vec(), base(random, grown)];
    let sizes = [1, 1, 2, 2, 3, 4, 64, 512, 4096];
    let huge = [65_536, 1 << 31, (1 << 32) - 1];
    let many = *random.pick(&[0, 1, 1, 2, 2, 3, 4, 4, 5]);
    let bounds: &[i128] = if random.percent(10) { &huge } else { &sizes };
    for _ in 0..many {
        fields.push(near(random, bounds));
    }
    fields
}

/// A name, at times of a bad length or with a bad byte, often one that is
/// taken already.
fn name(random: &mut Random) -> Vec<u8> {
    let mut name = vec![*random.pick(b"abcdefgh")];
    match random.below(20) {
        0 => name.resize(*random.pick(&[30, 31, 32]), b'q'),
        1 => name.push(*random.pick(&[32, 33, 126, 127, 128, 255, 0, 13])),
        2 => name.clear(),
        _ => {}
    }
    name
}

fn value(random: &mut Random, grown: &Grown) -> Vec<Vec<u8>> {
    let (low, high) = match grown.types.last().map(|last| &**last) {
        Some(Datatype::Enum { base, .. }) => number::range(base),
        _ => (0, 1),
    };
    let some = random.number(low, high);
    let number = match random.below(12) {
        0 => b"-0".to_vec(),
        1 => near(random, &[low, high, high + 1, low + (1 << 64)]),
        _ => near(random, &[low, high, some, some, 0]),
    };
    vec![b"value".to_vec(), name(random), number]
}

fn member(random: &mut Random, grown: &Grown) -> Vec<Vec<u8>> {
    let mut places = vec![0];
    let some = random.below(grown.types.len().max(1) as u64) as usize;
    let own = grown.types.get(some).map_or(1, |datatype| datatype.size());
    if let Some(Datatype::Comp { size, members }) = grown.types.last().map(|last| &**last) {
        places.push(i128::from(*size) - i128::from(own));
        for member in members {
            places.push(i128::from(member.at + member.datatype.size()));
            places.push(i128::from(member.at) - i128::from(own));
        }
    }
    let place = if random.percent(2) {
        b"4294967295".to_vec()
    } else {
        near(random, &places)
    };
    let datatype = near(random, &[some as i128]);
    let mut fields = vec![b"member".to_vec(), name(random), place, datatype];
    if random.percent(40) {
        fields.push(word(random, &["clamp", "stop"]));
    } else if random.percent(20) {
        fields.push(random.pick(&words::WRONG).as_bytes().to_vec());
    }
    fields
}
