//! Cases of the leaf list and of the setters.

use crate::capi;
use crate::convert;
use crate::damage::damage;
use crate::fields;
use crate::generate::atomic;
use crate::limits;
use crate::lines;
use crate::random::Random;
use crate::run::{self, Seen};
use crate::sizes;
use crate::tally::Tally;
use crate::word_events;
use crate::words;
use independent::datatype::{Order, Pad};
use independent::list;
use independent::setters::{self, Setter, Words};
use independent::sheet;

/// A valid, a damaged or a limit sheet.
fn any_sheet(random: &mut Random) -> Vec<u8> {
    match random.below(12) {
        0 => limits::sheet(random),
        1..=3 => valid(random),
        4..=7 => lines::sheet(random),
        _ => {
            let text = valid(random);
            damage(random, &text)
        }
    }
}

fn valid(random: &mut Random) -> Vec<u8> {
    let model = convert::model(random);
    words::text(random, &model)
}

pub fn list_case(random: &mut Random, tally: &mut Tally) -> Result<(), String> {
    let text = any_sheet(random);
    let datatype = sheet::read(&text);
    let needed = datatype
        .as_ref()
        .map_or(40, |datatype| list::text(datatype).len());
    let length = match random.below(8) {
        0 => random.below(needed as u64) as usize,
        1 => needed - 1,
        2..=4 => needed,
        _ => needed + random.below(40) as usize,
    };
    let words = if random.percent(4) {
        *random.pick(&[0, 1, 8191])
    } else {
        *random.pick(&[8192, 8192, 8193, 8500])
    };
    let (room, table) = (random.bytes(length), random.words(words));
    let expected: Seen = list::leaf_list(&text, &room, &table).into();
    let told = || {
        format!(
            "leaf list, room {length}, table {words}\n{}",
            run::show(&text)
        )
    };
    let seen =
        capi::list(random, &text, &room, &table).map_err(|fault| format!("{fault}\n{}", told()))?;
    if let Some(fault) = run::difference(&seen, &expected) {
        return Err(format!("{fault}\n{}", told()));
    }
    tally.answer("leaf list", seen.answer[0]);
    word_events::note_call(tally, "leaf list", &[&text], seen.answer[0]);
    if seen.answer[0] == 0 && datatype.is_ok_and(|datatype| datatype.size() == 4096) {
        tally.saw("list of 4,096-byte records");
    }
    sizes::of_sheet(random, tally, &text, &table)
}

/// A session of edits of one layout.
pub fn setter_case(random: &mut Random, tally: &mut Tally) -> Result<(), String> {
    let mut layout = valid_layout(random);
    if random.percent(25) {
        let word = random.below(8) as usize;
        layout[word] = odd_word(random, layout);
    }
    for _ in 0..12 {
        let (setter, name) = edit(random, layout);
        let (number, expected) = setters::set(layout, setter);
        let (got, seen) = capi::set(random, layout, setter)?;
        if (got, seen) != (number, expected) {
            return Err(format!(
                "{setter:?} on {layout:?}: library {got} {seen:?}, expected {number} {expected:?}"
            ));
        }
        if !setters::is_valid(&layout) {
            tally.saw("setter on a broken layout");
        } else if !setters::is_valid(&seen) {
            return Err(format!("{setter:?} on {layout:?} broke it: {seen:?}"));
        }
        tally.answer(name, u64::from(got));
        let changed = (0..8).filter(|&i| layout[i] != seen[i]).count();
        if changed > 1 && name != "pads" {
            tally.saw("setter changed another word");
        }
        if let Setter::Field(offset, precision) = setter {
            if got == 0 {
                fields::saw(tally, layout, seen, (offset, precision));
                fields::laws(random, tally, layout, seen, (offset, precision))?;
            } else if offset.checked_add(precision).is_none() {
                tally.saw("field: an end past 2^32");
            }
        }
        layout = seen;
    }
    Ok(())
}

fn valid_layout(random: &mut Random) -> Words {
    let layout = atomic(random, 8);
    let class = random.below(2) as u32;
    let pad = |pad| match pad {
        Pad::Zero => 0,
        Pad::One => 1,
        Pad::Keep => 2,
    };
    [
        class,
        layout.size as u32,
        u32::from(layout.order == Order::BigEndian),
        layout.offset as u32,
        layout.precision as u32,
        pad(layout.lsb),
        pad(layout.msb),
        u32::from(class == 0 && layout.signed),
    ]
}

/// A word near some bound, or near 2^32, or one that looks good in its low
/// bits alone.
pub fn odd_word(random: &mut Random, layout: Words) -> u32 {
    let precision = layout[4];
    let words = [
        0,
        1,
        2,
        3,
        8,
        9,
        63,
        64,
        65,
        256,
        257,
        65_536,
        1 << 29,
        (1 << 29) + 1,
        1 << 31,
        u32::MAX,
        u32::MAX - 7,
        precision.wrapping_neg(),
        precision.wrapping_neg().wrapping_add(1),
        precision.wrapping_neg().wrapping_sub(1),
        (8 * (layout[1] & 15)).wrapping_sub(precision),
        64_u32.wrapping_sub(precision),
        65_u32.wrapping_sub(precision),
    ];
    *random.pick(&words)
}

fn edit(random: &mut Random, layout: Words) -> (Setter, &'static str) {
    let odd = random.percent(35);
    let mut word = |most: u64| {
        if odd {
            odd_word(random, layout)
        } else {
            random.between(0, most) as u32
        }
    };
    let (first, code) = (word(72), word(3));
    match random.below(6) {
        0 => (Setter::Size(if odd { first } else { first % 10 }), "size"),
        1 => (Setter::Order(code), "order"),
        2 | 3 => {
            let (offset, precision) = fields::asked(random, layout, odd);
            (Setter::Field(offset, precision), "field")
        }
        4 => (
            Setter::Pads(code, if odd { first } else { first % 4 }),
            "pads",
        ),
        _ => (Setter::Sign(code), "sign"),
    }
}
