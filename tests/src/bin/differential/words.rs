//! Words on the members of a sheet, and a sheet's text without them.

use crate::model::Model;
use crate::random::Random;
use independent::datatype::{Datatype, Word};
use independent::obey;
use independent::paths::Leaf;

/// How many of a hundred members have no word, and how many of the others
/// `stop`.
#[derive(Clone, Copy)]
pub struct Share {
    pub silent: u64,
    pub stop: u64,
}

pub const NONE: Share = Share {
    silent: 100,
    stop: 0,
};

/// What stands in a word's place and is none; some have a field more.
pub const WRONG: [&str; 12] = [
    "",
    "Clamp",
    "STOP",
    "stops",
    "clam",
    "clamp ",
    "stop\r",
    "silent",
    "1",
    "clamp\tstop",
    "stop\t",
    "\tstop",
];

/// On each member or on some, of one sort or of both.
pub fn some(random: &mut Random) -> Share {
    Share {
        silent: *random.pick(&[0, 30, 30, 60, 85]),
        stop: *random.pick(&[0, 50, 50, 50, 100]),
    }
}

/// A model's text, in many of a hundred with words.
pub fn text(random: &mut Random, model: &Model) -> Vec<u8> {
    let share = match random.percent(40) {
        true => some(random),
        false => NONE,
    };
    with(random, model, share)
}

/// A model's text, mostly with words.
pub fn often(random: &mut Random, model: &Model) -> Vec<u8> {
    let share = match random.percent(90) {
        true => some(random),
        false => NONE,
    };
    with(random, model, share)
}

/// The texts of a source's model and of a destination's.
pub fn texts(random: &mut Random, from: &Model, to: &Model) -> (Vec<u8>, Vec<u8>) {
    (text(random, from), text(random, to))
}

pub fn with(random: &mut Random, model: &Model, share: Share) -> Vec<u8> {
    model.worded(|| match random.percent(share.silent) {
        true => None,
        false if random.percent(share.stop) => Some(Word::Stop),
        false => Some(Word::Clamp),
    })
}

/// Whether an exception of a leaf of the destination stops a call, which stops by
/// itself or not.
pub fn stop(destination: &Datatype, leaf: &Leaf, call_stops: bool) -> bool {
    match obey::innermost(destination, &leaf.way) {
        Some(word) => word == Word::Stop,
        None => call_stops,
    }
}

/// The fields of a line.
fn fields(line: &[u8]) -> Vec<&[u8]> {
    line.split(|&byte| byte == 9).collect()
}

/// Whether a line is a member's and says a word.
fn is_worded(fields: &[&[u8]]) -> bool {
    matches!(fields, [b"member", _, _, _, b"clamp" | b"stop"])
}

/// Whether a member of a sheet has a word, in a type that nothing uses too.
pub fn has(text: &[u8]) -> bool {
    let mut lines = text.split(|&byte| byte == 10);
    lines.any(|line| is_worded(&fields(line)))
}

/// The sheet without its words.
pub fn off(text: &[u8]) -> Vec<u8> {
    let line = |line| {
        let fields = fields(line);
        match is_worded(&fields) {
            true => fields[..4].join(&9),
            false => line.to_vec(),
        }
    };
    let lines: Vec<Vec<u8>> = text.split(|&byte| byte == 10).map(line).collect();
    lines.join(&10)
}
