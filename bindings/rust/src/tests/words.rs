//! The words of members: what a leaf obeys, what a call then answers, and what is said of it.
use super::{BITS, BYTE, PAIR, REAL, WIDE};
use crate::*;

/// What a member line may end in, and what a call may name: the call that names none is a plain form, which stops.
const EACH: [Option<Handling>; 3] = [None, Some(Handling::Clamp), Some(Handling::Stop)];

fn ending(word: Option<Handling>) -> &'static str {
    match word {
        None => "",
        Some(Handling::Clamp) => "\tclamp",
        Some(Handling::Stop) => "\tstop",
    }
}

/// What is left of a call by both forms: its answer, and the converted records where it is done. A refusal leaves both buffers.
#[track_caller]
fn converted(
    from: &[u8],
    to: &[u8],
    count: u64,
    call: Option<Handling>,
    source: &[u8],
) -> Result<(u64, Vec<u8>), Error> {
    let size = record_size(to).unwrap() * count as usize;
    let mut out = vec![0x77; size];
    let room = size.max(source.len());
    let mut buffer = source.to_vec();
    buffer.resize(room, 0x77);
    let (untouched, sent) = (out.clone(), buffer.clone());
    let (copied, placed) = match call {
        Some(handling) => (
            convert_copying(from, to, count, handling, source, &mut out),
            convert_in_place(from, to, count, handling, &mut buffer, &untouched),
        ),
        None => (
            convert_copying_plain(from, to, count, source, &mut out),
            convert_in_place_plain(from, to, count, &mut buffer, &untouched),
        ),
    };
    assert_eq!(copied, placed);
    if copied.is_err() {
        assert_eq!((out, buffer), (untouched, sent));
        return copied.map(|_| unreachable!());
    }
    assert_eq!(out, buffer[..size]);
    copied.map(|exceptions| (exceptions, out))
}

/// The place and the number of a STOP, and the member by whose word it is one.
#[track_caller]
fn stop(result: Result<(u64, Vec<u8>), Error>) -> (u64, u32, i128, Option<String>) {
    match result {
        Err(Error::Stop {
            record,
            at,
            given: Given::Whole(number),
            stopped_by,
            ..
        }) => (record, at, number, stopped_by),
        other => panic!("{other:?}"),
    }
}

/// Two numbers of 16 bits.
const FROM: &[u8] =
    b"int\t2\tBE\t0\t16\tzero\tzero\tunsigned\ncomp\t4\nmember\toil\t0\t0\nmember\tboost\t2\t0\n";

/// A byte each.
fn to(oil: Option<Handling>, boost: Option<Handling>) -> Vec<u8> {
    let (oil, boost) = (ending(oil), ending(boost));
    let members = format!("comp\t2\nmember\toil\t0\t0{oil}\nmember\tboost\t1\t0{boost}\n");
    [BYTE, members.as_bytes()].concat()
}

/// The boost of the first record and the oil of the second do not fit.
const LOG: [u8; 8] = [0, 5, 1, 0, 1, 1, 0, 7];

#[test]
fn a_word_goes_before_the_call() {
    for call in EACH {
        for oil in EACH {
            for boost in EACH {
                let obeys = |word: Option<Handling>| word.or(call).unwrap_or(Handling::Stop);
                let by = |word: Option<Handling>, name: &str| word.map(|_| name.to_string());
                let result = converted(FROM, &to(oil, boost), 2, call, &LOG);
                let what = format!("{call:?} {oil:?} {boost:?}");
                match (obeys(oil), obeys(boost)) {
                    (Handling::Clamp, Handling::Clamp) => {
                        assert_eq!(result, Ok((2, vec![5, 255, 255, 7])), "{what}");
                    }
                    // a leaf that clamps may raise in an earlier record
                    (Handling::Stop, Handling::Clamp) => {
                        assert_eq!(stop(result), (1, 0, 257, by(oil, "oil")), "{what}");
                    }
                    (_, Handling::Stop) => {
                        assert_eq!(stop(result), (0, 1, 256, by(boost, "boost")), "{what}");
                    }
                }
            }
        }
    }
}

#[test]
fn a_leaf_that_clamps_may_raise_at_an_earlier_byte() {
    let to = to(Some(Handling::Clamp), Some(Handling::Stop));
    for call in EACH {
        // both leaves of the second record
        let log = [1, 0, 0, 9, 1, 44, 1, 45, 0, 1, 0, 2];
        let stopped = stop(converted(FROM, &to, 3, call, &log));
        assert_eq!(stopped, (1, 1, 301, Some("boost".into())));
        // every oil, and no boost
        let log = [1, 0, 0, 9, 1, 44, 0, 45, 255, 255, 0, 2];
        let done = converted(FROM, &to, 3, call, &log);
        assert_eq!(done, Ok((3, vec![255, 9, 255, 45, 255, 2])));
    }
}

#[test]
fn numbers_that_fit_have_no_exception_whatever_the_words() {
    for call in EACH {
        for word in EACH {
            let done = converted(FROM, &to(word, word), 2, call, &[0, 1, 0, 2, 0, 3, 0, 255]);
            assert_eq!(done, Ok((0, vec![1, 2, 3, 255])));
        }
    }
}

/// A leaf three members deep, each with its word.
fn nested(base: &[u8], size: u32, words: [Option<Handling>; 3]) -> Vec<u8> {
    let [engine, bank, boost] = words.map(ending);
    let lines = format!(
        "comp\t{size}\nmember\tboost\t0\t0{boost}\ncomp\t{size}\nmember\tbank\t0\t1{bank}\ncomp\t{size}\nmember\tengine\t0\t2{engine}\n"
    );
    [base, lines.as_bytes()].concat()
}

#[test]
fn the_innermost_word_is_obeyed() {
    let from = nested(PAIR, 2, [None; 3]);
    for call in EACH {
        for engine in EACH {
            for bank in EACH {
                for boost in EACH {
                    let to = nested(BYTE, 1, [engine, bank, boost]);
                    let names = ["engine.bank.boost", "engine.bank", "engine"];
                    let mut words = [boost, bank, engine].into_iter().zip(names);
                    let said = words.find_map(|(word, name)| Some((word?, name)));
                    let handling = said.map(|said| said.0).or(call).unwrap_or(Handling::Stop);
                    let result = converted(&from, &to, 2, call, &[0, 7, 1, 44]);
                    match handling {
                        Handling::Clamp => assert_eq!(result, Ok((1, vec![7, 255]))),
                        Handling::Stop => {
                            let by = said.map(|said| said.1.to_string());
                            assert_eq!(stop(result), (1, 0, 300, by));
                        }
                    }
                }
            }
        }
    }
}

/// Three elements of two numbers each.
fn cells(base: &[u8], size: u32, above: &str, a: &str, b: &str) -> Vec<u8> {
    let (pair, whole) = (2 * size, 6 * size);
    let lines = format!(
        "comp\t{pair}\nmember\ta\t0\t0{a}\nmember\tb\t{size}\t0{b}\narray\t1\t3\ncomp\t{whole}\nmember\tcells\t0\t2{above}\n"
    );
    [base, lines.as_bytes()].concat()
}

#[test]
fn a_word_above_an_array_covers_every_element() {
    let from = cells(PAIR, 2, "", "", "");
    let to = cells(BYTE, 1, "\tstop", "", "");
    for call in EACH {
        for element in 0..3 {
            for leaf in 0..2 {
                let mut log = [0; 12];
                log[4 * element + 2 * leaf] = 2;
                let at = (2 * element + leaf) as u32;
                let stopped = stop(converted(&from, &to, 1, call, &log));
                assert_eq!(stopped, (0, at, 512, Some("cells".into())));
            }
        }
        let to = cells(BYTE, 1, "\tclamp", "", "");
        let done = converted(&from, &to, 1, call, &[1; 12]);
        assert_eq!(done, Ok((6, vec![255; 6])));
    }
}

#[test]
fn a_member_of_an_element_goes_before_the_word_above_the_array() {
    let from = cells(PAIR, 2, "", "", "");
    let to = cells(BYTE, 1, "\tstop", "", "\tclamp");
    // b of the first element clamps, a of the last one stops
    let mut log = [0, 1, 1, 0, 0, 2, 0, 3, 0, 4, 0, 5];
    for call in EACH {
        let done = converted(&from, &to, 1, call, &log);
        assert_eq!(done, Ok((1, vec![1, 255, 2, 3, 4, 5])));
    }
    log[8] = 3;
    for call in EACH {
        let stopped = stop(converted(&from, &to, 1, call, &log));
        assert_eq!(stopped, (0, 4, 772, Some("cells".into())));
    }
    let to = cells(BYTE, 1, "\tclamp", "\tstop", "");
    for call in EACH {
        let stopped = stop(converted(&from, &to, 1, call, &log));
        assert_eq!(stopped, (0, 4, 772, Some("cells[2].a".into())));
    }
}

#[test]
fn a_word_is_its_members_and_not_its_types() {
    // both members are of type 1
    let sheet = |base: &[u8], size: u32, left: &str, right: &str| {
        let whole = 2 * size;
        let lines = format!(
            "comp\t{size}\nmember\ta\t0\t0\ncomp\t{whole}\nmember\tleft\t0\t1{left}\nmember\tright\t{size}\t1{right}\n"
        );
        [base, lines.as_bytes()].concat()
    };
    let from = sheet(PAIR, 2, "", "");
    let to = sheet(BYTE, 1, "\tclamp", "\tstop");
    for call in EACH {
        let done = converted(&from, &to, 1, call, &[1, 0, 0, 9]);
        assert_eq!(done, Ok((1, vec![255, 9])));
        let stopped = stop(converted(&from, &to, 1, call, &[1, 0, 1, 9]));
        assert_eq!(stopped, (0, 1, 265, Some("right".into())));
    }
}

#[test]
fn words_of_the_source_have_no_effect() {
    let silent = to(None, None);
    for word in ["clamp", "stop"] {
        let from = [
            PAIR,
            format!("comp\t4\nmember\toil\t0\t0\t{word}\nmember\tboost\t2\t0\t{word}\n").as_bytes(),
        ]
        .concat();
        let clamp = Some(Handling::Clamp);
        let done = converted(&from, &silent, 2, clamp, &LOG);
        assert_eq!(done, Ok((2, vec![5, 255, 255, 7])));
        for call in [None, Some(Handling::Stop)] {
            let stopped = stop(converted(&from, &silent, 2, call, &LOG));
            assert_eq!(stopped, (0, 1, 256, None));
        }
    }
}

#[test]
fn a_member_that_the_source_lacks_stops_nothing() {
    let to = [
        BYTE,
        b"comp\t3\nmember\tnew\t0\t0\tstop\nmember\toil\t1\t0\tclamp\n",
    ]
    .concat();
    for call in EACH {
        let done = converted(FROM, &to, 1, call, &LOG[4..]);
        assert_eq!(done, Ok((1, vec![0x77, 255, 0x77])));
    }
}

/// A record of one member, of the newest of some types, without the end of its last line.
fn record(types: &[u8], newest: u32, size: u32) -> Vec<u8> {
    let member = format!("comp\t{size}\nmember\tx\t0\t{newest}");
    [types, member.as_bytes()].concat()
}

#[test]
fn every_kind_obeys() {
    let valve = record(&[BYTE, b"enum\t0\nvalue\topen\t0\n"].concat(), 1, 1);
    let (byte, bits) = (record(BYTE, 0, 1), record(BITS, 0, 1));
    let (real, wide) = (record(REAL, 0, 8), record(WIDE, 0, 8));
    let flags = record(b"bits\t2\tBE\t0\t16\tzero\tzero\n", 0, 2);
    let bytes = |real: f64| real.to_be_bytes().to_vec();
    let most = bytes(18_446_744_073_709_551_616.0); // 2^64
    for (from, to, log, kind, clamped) in [
        (&valve, &valve, vec![7], Kind::NoSymbol, vec![255]),
        (&real, &byte, bytes(f64::NAN), Kind::NotANumber, vec![0]),
        (&real, &byte, bytes(0.5), Kind::Truncated, vec![0]),
        (&wide, &real, vec![255; 8], Kind::Rounded, most),
        (&flags, &bits, vec![1, 0], Kind::Above, vec![255]),
    ] {
        let from = [from, &b"\n"[..]].concat();
        for call in EACH {
            let to_clamp = [to, &b"\tclamp\n"[..]].concat();
            let done = converted(&from, &to_clamp, 1, call, &log);
            assert_eq!(done, Ok((1, clamped.clone())), "{kind:?}");
            let to_stop = [to, &b"\tstop\n"[..]].concat();
            let refused = converted(&from, &to_stop, 1, call, &log);
            let Err(Error::Stop {
                kind: found,
                stopped_by,
                ..
            }) = refused
            else {
                panic!("{refused:?}");
            };
            assert_eq!((found, stopped_by.as_deref()), (kind, Some("x")));
        }
    }
}

/// Several blocks of records, with the leaf that stops before, between and behind those that clamp.
#[test]
fn the_first_that_stops_of_many_records() {
    let to = to(Some(Handling::Clamp), Some(Handling::Stop));
    for record in [0, 1, 255, 256, 700, 999] {
        let log: Vec<u8> = (0..1000)
            .flat_map(|i| {
                let oil = if i % 3 == 0 { 1 } else { 0 };
                let boost = if i == record || i == 999 { 2 } else { 0 };
                [oil, 5, boost, 9]
            })
            .collect();
        for call in EACH {
            let stopped = stop(converted(FROM, &to, 1000, call, &log));
            assert_eq!(stopped, (record, 1, 521, Some("boost".into())));
            // the records before it
            let done = converted(FROM, &to, record, call, &log[..4 * record as usize]);
            assert_eq!(done.unwrap().0, record.div_ceil(3));
        }
    }
}

#[test]
fn a_report_clamps_whatever_the_words() {
    for oil in EACH {
        for boost in EACH {
            let reader = to(oil, boost);
            let summary = Report::new(&reader).unwrap().add(FROM, &LOG).unwrap();
            assert_eq!(
                summary.text,
                "at\tlowest\thighest\tsum\tsamples\n0\t5\t255\t260\t2\n1\t7\t255\t262\t2\n"
            );
            assert_eq!((summary.records, summary.exceptions), (2, 2));
        }
    }
}

#[test]
fn the_other_calls_do_not_look_at_words() {
    for oil in EACH {
        for boost in EACH {
            let sheet = to(oil, boost);
            assert_eq!(record_size(&sheet), Ok(2));
            let list = "at\tsize\tclass\n0\t1\tint\n1\t1\tint\n";
            assert_eq!(leaf_list(&sheet).as_deref(), Ok(list));
            assert_eq!(reach(FROM, &sheet).unwrap().as_bytes(), [255; 4]);
            assert_eq!(reach(&sheet, FROM).unwrap().as_bytes(), [255; 2]);
            let bits = source_bits(&sheet, FROM).unwrap();
            assert_eq!(bits.leaves()[1].destination, Some(2));
            let mut list = [0; 100];
            let len = Converter::new()
                .compare_into(FROM, &sheet, 2, &LOG, &[5, 255, 1, 7], &mut list)
                .unwrap();
            assert_eq!(
                &list[..len],
                b"record\tat\tfirst\tsecond\n0\t1\t256\t255\n1\t0\t257\t1\n"
            );
        }
    }
}

#[test]
fn a_stop_by_a_word_is_said() {
    let said = |from: &[u8], to: &[u8], call, log: &[u8]| {
        converted(from, to, 1, call, log).unwrap_err().to_string()
    };
    let (clamp, stop) = (Some(Handling::Clamp), Some(Handling::Stop));
    // whatever the call's handling is
    for call in EACH {
        assert_eq!(
            said(FROM, &to(None, stop), call, &LOG),
            "STOP (8): the number 256 for byte 1 of record 0, member `boost`, is above the destination's range, \
             and the destination sheet says stop for `boost`: widen the destination, or write clamp there"
        );
    }
    let (from, to_nested) = (
        nested(PAIR, 2, [None; 3]),
        nested(BYTE, 1, [stop, None, None]),
    );
    assert_eq!(
        said(&from, &to_nested, clamp, &[1, 44]),
        "STOP (8): the number 300 for byte 0 of record 0, member `engine.bank.boost`, is above the destination's range, \
         and the destination sheet says stop for `engine`: widen the destination, or write clamp there"
    );
    assert_eq!(
        said(&cells(PAIR, 2, "", "", ""), &cells(BYTE, 1, "\tstop", "", "\tclamp"), clamp, &[1; 12]),
        "STOP (8): the number 257 for byte 0 of record 0, member `cells[0].a`, is above the destination's range, \
         and the destination sheet says stop for `cells`: widen the destination, or write clamp there"
    );
    // nothing of words where the call stopped it, though another member has one
    assert_eq!(
        said(FROM, &to(clamp, None), stop, &LOG),
        "STOP (8): the number 256 for byte 1 of record 0, member `boost`, is above the destination's range: widen the destination, or clamp"
    );
}

#[test]
fn each_kind_by_a_word_is_said() {
    let sheet = [BYTE, b"comp\t1\nmember\tx\t0\t0\tstop\n"].concat();
    let sheets = sheets(&sheet, &sheet, 1);
    let call = Call::Copying(&sheets, 1, 1);
    let said = |kind: u64, given: u64, magnitude: u64| {
        let answer = [8, 0, 0, 4, 0, kind, given, magnitude];
        let mut table = vec![0; TABLE_WORDS];
        let error = explain::outcome(answer, &call, &mut table).unwrap_err();
        let said = error.to_string();
        let (_, why) = said
            .split_once("for byte 0 of record 4, member `x`, ")
            .unwrap();
        why.replace(", and the destination sheet says stop for `x`: ", " / ")
    };
    let half = 0.5_f64.to_bits();
    for (kind, given, magnitude, why) in [
        (1, 0, 300, "is above the destination's range / widen the destination, or write clamp there"),
        (2, 1, 1, "is below the destination's range / widen the destination, or write clamp there"),
        (3, 0, 7, "has no symbol in the source / give it one in both enums, or write clamp there"),
        (4, 2, u64::MAX, "is not-a-number, which no int holds / make the destination a real, or write clamp there"),
        (5, 2, half, "has a fraction, which no int holds / make the destination a real, or write clamp there"),
        (6, 0, 1, "is no double, only near one / make the destination an int, or write clamp there"),
        (7, 0, 1, "does not fit, for a reason that this version does not know (kind 7) / write clamp there, or use a newer wrapper"),
    ] {
        assert_eq!(said(kind, given, magnitude), why);
    }
}

/// Where the library stops a leaf that obeys clamp by this crate's reading, nothing is said of words.
#[test]
fn a_word_that_is_no_stop_explains_none() {
    let sheet = [BYTE, b"comp\t1\nmember\tx\t0\t0\tclamp\n"].concat();
    let sheets = sheets(&sheet, &sheet, 1);
    let answer = [8, 0, 0, 4, 0, 1, 0, 300];
    let mut table = vec![0; TABLE_WORDS];
    let call = Call::Copying(&sheets, 1, 1);
    let error = explain::outcome(answer, &call, &mut table).unwrap_err();
    assert_eq!(
        error.to_string(),
        "STOP (8): the number 300 for byte 0 of record 4, member `x`, is above the destination's range: widen the destination, or clamp"
    );
}
