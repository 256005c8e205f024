//! Two logs in files and streams.
use std::fs;
use std::io::{self, Read};
use std::path::{Path, PathBuf};
use yirvagul::{compare, convert_log, Difference, Given, Handling, Input, LogError, WhichLog};

const RIG: &[u8] = include_bytes!("../../../examples/rig.sheet");
const CUSTOMER: &[u8] = include_bytes!("../../../examples/customer.sheet");
const LOG: &[u8] = include_bytes!("../../../examples/rig.log");
const BYTE: &[u8] = b"int\t1\tLE\t0\t8\tzero\tzero\tunsigned\n";

fn path(name: &str) -> PathBuf {
    let folder = Path::new(env!("CARGO_TARGET_TMPDIR")).join("compare");
    fs::create_dir_all(&folder).unwrap();
    folder.join(name)
}

fn all<'a>(
    first: impl Into<Input<'a>>,
    second: impl Into<Input<'a>>,
) -> Result<Vec<Difference>, LogError> {
    compare(RIG, CUSTOMER, first, second)?.collect()
}

#[test]
fn a_log_and_what_was_made_of_it() {
    let (first, second) = (path("rig.log"), path("customer.log"));
    let log = LOG.repeat(3000);
    fs::write(&first, &log).unwrap();
    convert_log(RIG, CUSTOMER, Handling::Stop, &first, &second).unwrap();
    assert_eq!(all(&first, &second).unwrap(), []);
    // a valve of another symbol, in the last record
    let mut changed = fs::read(&second).unwrap();
    let last = changed.len() - 7;
    changed[last] ^= 1;
    let [found] = &all(&first, &changed).unwrap()[..] else {
        panic!("not one")
    };
    assert_eq!((found.record, found.at), (48 * 3000 - 1, 0));
    assert_eq!(found.member.as_deref(), Some("valve"));
    assert_eq!(found.second, Given::Whole(changed[last].into()));
    // pads and the gap of the first log hold anything
    let mut other = log.clone();
    for record in other.chunks_mut(8) {
        for at in [1, 3, 5] {
            record[at] ^= 0x0f;
        }
        record[6] ^= 0xff;
    }
    assert_eq!(all(&other, &second).unwrap(), []);
    // open files, from where they stand
    let mut one = fs::File::open(&first).unwrap();
    let mut other = fs::File::open(&second).unwrap();
    one.read_exact(&mut [0; 80]).unwrap();
    other.read_exact(&mut [0; 70]).unwrap();
    assert_eq!(all(&mut one, &mut other).unwrap(), []);
}

#[test]
fn streams() {
    let zeros = |n| io::repeat(0).take(n);
    let rows = |first, second| {
        let (mut one, mut other) = (zeros(first), zeros(second));
        let found = compare(
            BYTE,
            BYTE,
            Input::Stream(&mut one),
            Input::Stream(&mut other),
        )
        .unwrap();
        assert_eq!(found.records(), None);
        found.collect::<Result<Vec<_>, _>>()
    };
    assert_eq!(rows(100_000, 100_000).unwrap(), []);
    // one that ends in the same part as the other, and one that goes on behind it
    for (first, second, more, text) in [
        (
            100_000,
            100_001,
            false,
            "the first log has 100000 records and the second 100001: ",
        ),
        (
            200_000,
            65_536,
            true,
            "the first log has 131072 records or more and the second 65536: ",
        ),
    ] {
        let error = rows(first, second).unwrap_err();
        assert!(matches!(error, LogError::Uneven { or_more, .. } if or_more == more));
        assert_eq!(
            error.to_string(),
            format!("{text}compare logs of as many records")
        );
    }
    // beside a log whose length is known
    let mut stream = zeros(5);
    let found = compare(BYTE, BYTE, &[0; 9], Input::Stream(&mut stream)).unwrap();
    assert_eq!(found.records(), Some(9));
    let error = found.map(Result::unwrap_err).next().unwrap();
    assert_eq!(
        error.to_string(),
        "the first log has 9 records and the second 5: compare logs of as many records"
    );
}

#[test]
fn a_refusal_ends_it() {
    let mut stream = io::repeat(0).take(8 * 70_000 + 3);
    let log = vec![0; 7 * 70_000];
    let mut found = compare(RIG, CUSTOMER, Input::Stream(&mut stream), &log).unwrap();
    let error = found.find_map(Result::err).unwrap();
    assert!(matches!(
        error,
        LogError::Ragged {
            bytes: 560_003,
            size: 8,
            which: WhichLog::First,
            ..
        }
    ));
    assert!(found.next().is_none());
}

#[test]
fn what_cannot_be_read_is_named() {
    let none = path("none.log");
    let error = compare(BYTE, BYTE, &none, &[]).unwrap_err();
    assert_eq!(
        error.to_string(),
        format!(
            "cannot read {}: No such file or directory (os error 2)",
            none.display()
        )
    );
    struct Broken;
    impl Read for Broken {
        fn read(&mut self, _: &mut [u8]) -> io::Result<usize> {
            Err(io::ErrorKind::ConnectionReset.into())
        }
    }
    let mut broken = Broken;
    let found = compare(BYTE, BYTE, &[1], Input::Stream(&mut broken)).unwrap();
    let error = found.map(Result::unwrap_err).next().unwrap();
    assert!(error
        .to_string()
        .starts_with("cannot read the second log: "));
}

/// Every difference of a log against another in which all numbers are others, in order and once.
#[test]
fn all_different() {
    let first = LOG.repeat(1000);
    let mut second = Vec::new();
    for record in first.chunks(8) {
        let boost = |at: usize| u16::from_be_bytes([record[at], record[at + 1]]) >> 4;
        second.push(9);
        for at in [0, 2, 4] {
            second.extend((boost(at) ^ 1).to_le_bytes());
        }
    }
    let found = all(&first, &second).unwrap();
    assert_eq!(found.len(), 48_000 * 4);
    for (i, found) in found.iter().enumerate() {
        assert_eq!(found.record, i as u64 / 4);
        assert_eq!(found.at, [0, 1, 3, 5][i % 4]);
    }
}
