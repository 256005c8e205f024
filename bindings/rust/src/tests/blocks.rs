//! Logs of 300 records, against what their bytes say.
use crate::*;

/// A pressure of 12 bits in the top of two bytes, and a signed byte.
const SHORT: &[u8] = b"int\t2\tBE\t4\t12\tzero\tzero\tunsigned\nint\t1\tLE\t0\t8\tzero\tzero\tsigned\ncomp\t3\nmember\ta\t0\t0\nmember\tb\t2\t1\n";

/// The byte in two, a gap, and the pressure in 10 bits between kept ones.
const LONG: &[u8] = b"int\t2\tLE\t2\t10\tkeep\tkeep\tunsigned\nint\t2\tBE\t0\t16\tzero\tzero\tunsigned\ncomp\t5\nmember\tb\t0\t1\nmember\ta\t3\t0\n";

const RECORDS: usize = 300;

/// Numbers that fit the other record in every record but those that are named.
fn numbers(unfit: &[usize]) -> Vec<(u16, i8)> {
    let mut numbers: Vec<(u16, i8)> = (0..RECORDS)
        .map(|i| ((i * 7 % 1024) as u16, (i % 128) as i8))
        .collect();
    for &record in unfit {
        numbers[record].0 += 2048;
    }
    numbers
}

fn short(numbers: &[(u16, i8)]) -> Vec<u8> {
    let record = |&(a, b): &(u16, i8)| {
        let [high, low] = (a << 4).to_be_bytes();
        [high, low, b as u8]
    };
    numbers.iter().flat_map(record).collect()
}

/// The long records over a background: `a` is clamped.
fn long(numbers: &[(u16, i8)], background: &[u8]) -> Vec<u8> {
    let record = |(&(a, b), under): (&(u16, i8), &[u8])| {
        let kept = u16::from_le_bytes([under[3], under[4]]) & 0xf003;
        let [low, high] = (a.min(1023) << 2 | kept).to_le_bytes();
        [0, b as u8, under[2], low, high]
    };
    let records = numbers.iter().zip(background.chunks(5));
    records.flat_map(record).collect()
}

fn background() -> Vec<u8> {
    (0..5 * RECORDS).map(|at| (at * 37 % 251) as u8).collect()
}

#[test]
fn copying() {
    let numbers = numbers(&[0, 7, 255, 256, 299]);
    let log = short(&numbers);
    let wanted = long(&numbers, &background());
    let mut out = background();
    let count = RECORDS as u64;
    let clamp = Handling::Clamp;
    let done = convert_copying(SHORT, LONG, count, clamp, &log, &mut out);
    assert_eq!((done, out), (Ok(5), wanted));
}

#[test]
fn in_place_growing() {
    let numbers = numbers(&[0, 7, 255, 256, 299]);
    let wanted = long(&numbers, &background());
    let mut buffer = short(&numbers);
    buffer.resize(5 * RECORDS, 0x77);
    let count = RECORDS as u64;
    let clamp = Handling::Clamp;
    let done = convert_in_place(SHORT, LONG, count, clamp, &mut buffer, &background());
    assert_eq!((done, buffer), (Ok(5), wanted));
}

#[test]
fn in_place_shrinking() {
    let numbers = numbers(&[]);
    let mut wanted = short(&numbers);
    wanted.resize(5 * RECORDS, 0);
    let log = long(&numbers, &background());
    let under = [0x55; 3 * RECORDS];
    let count = RECORDS as u64;
    for handling in [Handling::Clamp, Handling::Stop] {
        let mut buffer = log.clone();
        let done = convert_in_place(LONG, SHORT, count, handling, &mut buffer, &under);
        assert_eq!((done, &buffer), (Ok(0), &wanted));
    }
    let mut buffer = log;
    let done = convert_in_place_plain(LONG, SHORT, count, &mut buffer, &under);
    assert_eq!((done, buffer), (Ok(0), wanted));
}

#[test]
fn the_first_that_stops() {
    let count = RECORDS as u64;
    let stop = Handling::Stop;
    for record in [0, 7, 8, 255, 256, 291, 292, 298, 299] {
        let mut unfit = vec![record, 299];
        unfit.dedup();
        let mut log = short(&numbers(&unfit));
        let (mut out, under) = (background(), background());
        let copied = convert_copying(SHORT, LONG, count, stop, &log, &mut out);
        let plain = convert_copying_plain(SHORT, LONG, count, &log, &mut out);
        assert_eq!(out, under);
        log.resize(5 * RECORDS, 0x77);
        let mut buffer = log.clone();
        let placed = convert_in_place(SHORT, LONG, count, stop, &mut buffer, &under);
        let placed_plain = convert_in_place_plain(SHORT, LONG, count, &mut buffer, &under);
        assert_eq!(buffer, log);
        for refused in [copied, plain, placed, placed_plain] {
            let number = (record as i128 * 7) % 1024 + 2048;
            let Err(Error::Stop {
                record: found,
                at,
                given,
                ..
            }) = refused
            else {
                panic!("{refused:?}");
            };
            assert_eq!((found, at), (record as u64, 3));
            assert_eq!(given, Given::Whole(number));
        }
    }
}
