//! Damages a sheet's text: bytes, fields and whole lines.

use crate::random::Random;
use crate::words;

/// What a number may be changed to.
const NUMBERS: [&str; 30] = [
    "-0",
    "-00",
    "-",
    "+1",
    "01",
    "00",
    "",
    " 1",
    "1 ",
    "1\r",
    "--1",
    "0x1",
    "1.0",
    "-1",
    "-2",
    "0",
    "1",
    "2",
    "3",
    "8",
    "9",
    "63",
    "64",
    "65",
    "4095",
    "4096",
    "4097",
    "65536",
    "2147483648",
    "4294967295",
];

/// What no 32-bit, no 64-bit or no 128-bit number holds.
const LARGE: [&str; 14] = [
    "4294967296",
    "4294967297",
    "18446744073709551615",
    "18446744073709551616",
    "18446744073709551617",
    "9223372036854775807",
    "9223372036854775808",
    "-9223372036854775808",
    "-9223372036854775809",
    "36893488147419103233",
    "92233720368547758081",
    "99999999999999999999",
    "340282366920938463463374607431768211456",
    "340282366920938463463374607431768211457",
];

/// Lines that are faulty, or turn on a bound, or stand where they may not.
const LINES: [&str; 46] = [
    "array\t0\t65536\t65536\t65536\t65536",
    "array\t0\t65536\t65536",
    "array\t0\t4294967295\t4294967295\t4294967295\t4294967295",
    "array\t0\t2147483648\t2",
    "array\t0\t2147483648\t2147483648\t4",
    "array\t0\t4294967295",
    "array\t0\t0\t4294967295",
    "array\t0\t1\t1\t1\t1",
    "array\t0\t1\t1\t1\t1\t1",
    "array\t0",
    "array",
    "int\t8\tLE\t4294967295\t1\tzero\tzero\tsigned",
    "int\t8\tLE\t4294967232\t64\tzero\tzero\tsigned",
    "int\t8\tBE\t0\t64\tzero\tzero\tsigned\tsigned",
    "int\t9\tBE\t0\t64\tzero\tzero\tsigned",
    "int\t0\tBE\t0\t0\tzero\tzero\tsigned",
    "int\t8\tBE\t0\t0\tzero\tzero\tsigned",
    "int\t536870912\tBE\t0\t64\tzero\tzero\tsigned",
    "bits\t1\tLE\t0\t8\tzero\tzero\tunsigned",
    "bits\t1\tLE\t0\t8\tzero\tzero",
    "real\t8\tLE",
    "real\t8\tBE",
    "real\t4\tLE",
    "real\t16\tBE",
    "real\t08\tBE",
    "real\t4294967304\tLE",
    "real\t8\tle",
    "real\t8",
    "real",
    "real\t8\tLE\t0",
    "real\t8\tBE\t0\t64\tzero\tzero",
    "comp\t4096",
    "comp\t4097",
    "comp\t0",
    "value\ta\t0",
    "value\ta\t0\tstop",
    "member\ta\t0\t0",
    "member\ta\t0\t0\tclamp",
    "member\ta\t0\t0\tstop",
    "member\ta\t0\t0\t",
    "member\ta\t0\t0\tstops",
    "member\ta\t0\t0\tstop\tstop",
    "member\ta\t0\tstop",
    "member\tb\t4294967295\t0",
    "enum\t0",
    "",
];

const WORDS: [&str; 25] = [
    "int", "bits", "enum", "comp", "array", "value", "member", "LE", "BE", "zero", "one", "keep",
    "signed", "unsigned", "le", "Int", "keep ", "values", "real", "Real", "clamp", "stop", "Clamp",
    "STOP", "stops",
];

/// One damage, at times two. The sheet may still be valid.
pub fn damage(random: &mut Random, text: &[u8]) -> Vec<u8> {
    let mut text = text.to_vec();
    for _ in 0..if random.percent(80) { 1 } else { 2 } {
        text = match random.below(10) {
            0..=2 => damage_bytes(random, text),
            3 | 4 => damage_lines(random, &text),
            5 => damage_whole(random, text),
            6 => damage_word(random, &text),
            _ => damage_fields(random, &text),
        };
    }
    text
}

fn damage_bytes(random: &mut Random, mut text: Vec<u8>) -> Vec<u8> {
    let odd = [0, 9, 10, 13, 31, 32, 33, 45, 48, 49, 126, 127, 128, 255];
    let byte = if random.percent(60) {
        *random.pick(&odd)
    } else {
        random.next() as u8
    };
    let at = random.below(text.len() as u64 + 1) as usize;
    match random.below(3) {
        0 => text.insert(at, byte),
        1 if at < text.len() => text[at] = byte,
        _ if at < text.len() => {
            text.remove(at);
        }
        _ => text.push(byte),
    }
    text
}

fn damage_whole(random: &mut Random, mut text: Vec<u8>) -> Vec<u8> {
    match random.below(6) {
        0 => text.clear(),
        1 | 2 => {
            text.pop();
        }
        3 => text.truncate(random.below(text.len() as u64 + 1) as usize),
        4 => text = text.repeat(2),
        _ => {
            // Over-long, faulty at line 0 whatever it holds.
            let most = 16_380 + random.below(10) as usize;
            text = text.iter().copied().cycle().take(most).collect();
        }
    }
    text
}

/// Puts what is no word behind a member, or a word behind a value.
fn damage_word(random: &mut Random, text: &[u8]) -> Vec<u8> {
    let mut lines: Vec<Vec<u8>> = split(text, 10);
    let is_row = |line: &[u8]| line.starts_with(b"member") || line.starts_with(b"value");
    let rows: Vec<usize> = (0..lines.len()).filter(|&i| is_row(&lines[i])).collect();
    if rows.is_empty() {
        return damage_fields(random, text);
    }
    let chosen = *random.pick(&rows);
    let mut fields = split(&lines[chosen], 9);
    fields.truncate(4);
    let word = match fields[0].starts_with(b"member") {
        true => *random.pick(&words::WRONG),
        false => "stop",
    };
    fields.push(word.as_bytes().to_vec());
    lines[chosen] = fields.join(&9);
    lines.join(&10)
}

fn damage_lines(random: &mut Random, text: &[u8]) -> Vec<u8> {
    let mut lines: Vec<&[u8]> = text.split_inclusive(|&byte| byte == 10).collect();
    if lines.is_empty() {
        return b"\n".to_vec();
    }
    let one = random.below(lines.len() as u64) as usize;
    let other = random.below(lines.len() as u64) as usize;
    match random.below(5) {
        0 => lines.insert(other, lines[one]),
        1 => lines.insert(one, lines[one]),
        2 => lines.swap(one, other),
        3 => {
            lines.remove(one);
        }
        _ => {
            let line = format!("{}\n", random.pick(&LINES));
            lines.insert(one, line.as_bytes());
            return lines.concat();
        }
    }
    lines.concat()
}

/// Changes a field of some line, mostly of one that is no atomic layout.
fn damage_fields(random: &mut Random, text: &[u8]) -> Vec<u8> {
    let mut lines: Vec<Vec<u8>> = split(text, 10);
    let mut chosen = random.below(lines.len() as u64) as usize;
    let atomic = |line: &[u8]| line.starts_with(b"int") || line.starts_with(b"bits");
    let others: Vec<usize> = (0..lines.len()).filter(|&i| !atomic(&lines[i])).collect();
    if random.percent(60) && others.len() > 1 {
        chosen = *random.pick(&others);
    }
    let mut fields = split(&lines[chosen], 9);
    let at = random.below(fields.len() as u64) as usize;
    match random.below(14) {
        0 => fields.insert(at, Vec::new()),
        1 if random.percent(50) => fields.push(fields[at].clone()),
        1 => fields.push(random.pick(&WORDS).as_bytes().to_vec()),
        2 => {
            fields.remove(at);
        }
        3 => fields[at] = random.pick(&WORDS).as_bytes().to_vec(),
        4 => fields[at] = long_field(random, &fields[at]),
        5 => fields[at] = random.pick(&LARGE).as_bytes().to_vec(),
        6 => fields[at].insert(0, *random.pick(b"0--+")),
        7 => fields[at].push(*random.pick(b" \r0/:")),
        8 => fields[at] = random.pick(&NUMBERS).as_bytes().to_vec(),
        9..=11 => borrow(random, &lines, &mut fields, at),
        _ => near(random, &mut fields, at),
    }
    lines[chosen] = fields.join(&9);
    lines.join(&10)
}

fn split(text: &[u8], end: u8) -> Vec<Vec<u8>> {
    text.split(|&byte| byte == end)
        .map(<[u8]>::to_vec)
        .collect()
}

/// Takes a field over from another line of the same sort, so that names,
/// numbers and places come twice.
fn borrow(random: &mut Random, lines: &[Vec<u8>], fields: &mut [Vec<u8>], at: usize) {
    let fits = |other: &Vec<Vec<u8>>| other[0] == fields[0] && other.len() > at;
    let others: Vec<Vec<Vec<u8>>> = lines
        .iter()
        .map(|line| split(line, 9))
        .filter(fits)
        .collect();
    if !others.is_empty() {
        fields[at] = random.pick(&others)[at].clone();
    }
}

/// A name of a length around the bound.
fn long_field(random: &mut Random, field: &[u8]) -> Vec<u8> {
    let length = *random.pick(&[30, 31, 32, 33, 300]);
    let mut longer = field.to_vec();
    longer.resize(length, *random.pick(b"k~!\x7F 019"));
    longer
}

/// Changes a number by one, or past 32 or 64 bits with the same low bits.
fn near(random: &mut Random, fields: &mut [Vec<u8>], at: usize) {
    let number = |field: &[u8]| std::str::from_utf8(field).ok()?.parse::<i128>().ok();
    let at = (at..fields.len()).find(|&i| number(&fields[i]).is_some());
    let Some(at) = at else { return };
    let old = number(&fields[at]).expect("found above");
    let factor = *random.pick(&[1, 1, 2, 3, 5, 10]);
    let new = match random.below(10) {
        0 => old + (factor << 32),
        1 => old + (factor << 64),
        2 => old - (factor << 32),
        3 => old - (factor << 64),
        4..=6 => old + 1,
        _ => old - 1,
    };
    fields[at] = new.to_string().into_bytes();
}
