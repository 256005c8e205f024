//! What a report's memory may hold at entry, and what it may not.

use crate::random::Random;
use independent::report::{
    EXCEPTIONS, LEAF_WORDS, LEAVES, MOST_HELD, MOST_RECORDS, RECORDS, SAMPLES, words,
};

pub const MOST: i64 = MOST_HELD as i64;

/// As many bytes as the output of a memory of so many words can have.
pub fn most_bytes(words: usize) -> usize {
    30 + 76 * (words / LEAF_WORDS)
}

/// Words that may be held when `count` records come: zeros, small ones, or any
/// up to the limits.
pub fn held(random: &mut Random, leaves: usize, count: u64) -> Vec<i64> {
    let style = random.below(4);
    let mut memory: Vec<i64> = (0..words(leaves)).map(|_| word(random, style)).collect();
    for at in counts(&memory) {
        memory[at] = memory[at].abs();
        if at > EXCEPTIONS && random.percent(30) {
            memory[at] = 0;
        }
    }
    let room = MOST_RECORDS as u64 - count.min(MOST_RECORDS as u64);
    memory[RECORDS] = match random.below(4) {
        _ if style == 0 => 0,
        0 => room as i64,
        1 => room.saturating_sub(random.below(3)) as i64,
        _ => random.between(0, room) as i64,
    };
    memory
}

fn word(random: &mut Random, style: u64) -> i64 {
    match style {
        0 => 0,
        1 => random.number(-300, 300) as i64,
        _ => random.number(-i128::from(MOST), i128::from(MOST)) as i64,
    }
}

/// The places of the words that count something.
fn counts(memory: &[i64]) -> Vec<usize> {
    let samples = (LEAVES + SAMPLES..memory.len()).step_by(LEAF_WORDS);
    [RECORDS, EXCEPTIONS].into_iter().chain(samples).collect()
}

/// Puts in one word that makes the report full, or just does not.
pub fn spoil_words(random: &mut Random, memory: &mut [i64], count: u64) {
    match random.below(4) {
        0 => {
            let past = MOST_RECORDS - count.min(MOST_RECORDS as u64) as i64 + 1;
            memory[RECORDS] = *random.pick(&[past, past, past + 1, MOST_RECORDS + 1, MOST]);
        }
        1 => {
            let at = *random.pick(&counts(memory));
            memory[at] = *random.pick(&[-1, -1, -2, -MOST, i64::MIN]);
        }
        _ => {
            let at = random.below(memory.len() as u64) as usize;
            let large = [MOST + 1, -MOST - 1, i64::MAX, i64::MIN, MOST, -MOST];
            memory[at] = *random.pick(&large);
        }
    }
}

/// Just the words that are needed, or more behind them; in so many of a hundred
/// fewer, mostly by one.
pub fn resize(random: &mut Random, spoil: u64, memory: &mut Vec<i64>, needed: usize) {
    if random.percent(spoil) {
        let shorter = [needed - 1, needed - 1, needed / 2, 1, 0];
        memory.truncate(*random.pick(&shorter));
    } else {
        let behind = *random.pick(&[0, 0, 1, 4, 9]);
        memory.extend((0..behind).map(|_| random.next() as i64));
    }
}
