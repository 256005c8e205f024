//! Words on members (document 02, 2026-12), worked out by hand.

use crate::call::{Answer, copying, in_place};
use crate::compare::compare;
use crate::exercises::{BYTE, SIGNED_BYTE, TWO_BE, given};
use crate::list::leaf_list;
use crate::reach::reach;
use crate::reals::{REAL_BE, SIGNED_64, UNSIGNED_64};
use crate::report::report;
use crate::sheet;
use crate::size::record_size;

const NO_WORD: &str = "";
const CLAMP: &str = "\tclamp";
const STOP: &str = "\tstop";

/// Every handling, and whether it stops where no word is said.
const CALLS: [(Option<u32>, bool); 3] = [(Some(0), false), (Some(1), true), (None, true)];

/// A compound of members of one byte each, of the type that `leaf` says; each
/// has a name and a word.
fn bytes(leaf: &str, members: &[(&str, &str)]) -> String {
    let row =
        |(at, (name, word)): (usize, &(&str, &str))| format!("member\t{name}\t{at}\t0{word}\n");
    let rows: Vec<String> = members.iter().enumerate().map(row).collect();
    format!("{leaf}comp\t{}\n{}", members.len(), rows.concat())
}

/// The same members, in a source whose bytes go up to 255 and without a word.
fn source(names: &[&str]) -> String {
    let members: Vec<(&str, &str)> = names.iter().map(|name| (*name, NO_WORD)).collect();
    bytes(BYTE, &members)
}

/// What both forms make of some records: the answer, and the converted bytes.
/// STOP leaves every byte.
#[track_caller]
fn converted(
    (from, to): (&str, &str),
    count: u64,
    handling: Option<u32>,
    source: &[u8],
) -> (Answer, Vec<u8>) {
    let size = sheet::read(to.as_bytes()).expect("valid").size();
    let background = vec![0x55; (size * count) as usize];
    let call = given(from, to, count, handling);
    let copied = copying(call, source, &background);
    let mut buffer = source.to_vec();
    buffer.resize(source.len().max(background.len()), 0x77);
    let moved = in_place(call, &buffer, &background);
    assert_eq!(moved.answer, copied.answer);
    if copied.answer.number == 8 {
        assert_eq!(copied.written, background);
        assert_eq!(moved.written, buffer);
    } else {
        assert_eq!(moved.written[..background.len()], copied.written);
    }
    assert_eq!(copied.table, [0; 8192]);
    (copied.answer, copied.written)
}

/// The answer alone.
#[track_caller]
fn answer(sheets: (&str, &str), count: u64, handling: Option<u32>, source: &[u8]) -> Answer {
    converted(sheets, count, handling, source).0
}

/// STOP at a number above the destination's range.
fn above(record: u64, at: u64, magnitude: u64) -> Answer {
    Answer {
        record,
        at,
        kind: 1,
        magnitude,
        ..Answer::refused(8)
    }
}

#[test]
fn the_word_goes_before_the_call() {
    for (word, handling, stops) in [
        (NO_WORD, Some(0), false),
        (NO_WORD, Some(1), true),
        (NO_WORD, None, true),
        (CLAMP, Some(0), false),
        (CLAMP, Some(1), false),
        (CLAMP, None, false),
        (STOP, Some(0), true),
        (STOP, Some(1), true),
        (STOP, None, true),
    ] {
        let (from, to) = (source(&["oil"]), bytes(SIGNED_BYTE, &[("oil", word)]));
        let raised = converted((&from, &to), 1, handling, &[200]);
        let expected = match stops {
            true => (above(0, 0, 200), vec![0x55]),
            false => (Answer::done(1), vec![0x7F]),
        };
        assert_eq!(raised, expected, "{word} {handling:?}");
        // Without an exception no word shows.
        let fits = converted((&from, &to), 1, handling, &[100]);
        assert_eq!(fits, (Answer::done(0), vec![100]), "{word} {handling:?}");
    }
}

#[test]
fn stop_names_the_first_leaf_that_obeys_stop() {
    let from = source(&["oil", "boost"]);
    for (oil, boost, handling) in [
        (CLAMP, STOP, Some(0)),
        (CLAMP, STOP, Some(1)),
        (CLAMP, STOP, None),
        (NO_WORD, STOP, Some(0)),
        (CLAMP, NO_WORD, Some(1)),
        (CLAMP, NO_WORD, None),
    ] {
        let to = bytes(SIGNED_BYTE, &[("oil", oil), ("boost", boost)]);
        let sheets = (&from[..], &to[..]);
        // Oil is clamped in an earlier record, and at a lower byte.
        let log = [200, 1, 201, 202, 2, 203];
        assert_eq!(answer(sheets, 3, handling, &log), above(1, 1, 202));
        let clamped = converted(sheets, 2, handling, &[200, 1, 201, 2]);
        assert_eq!(clamped, (Answer::done(2), vec![127, 1, 127, 2]));
    }
    // Of two that stop the lower one, whichever line is first.
    let to = format!("{SIGNED_BYTE}comp\t3\nmember\tboost\t2\t0{STOP}\nmember\toil\t1\t0{STOP}\n");
    let log = [1, 2, 203, 204];
    assert_eq!(answer((&from, &to), 2, Some(0), &log), above(1, 1, 203));
}

#[test]
fn the_count_takes_all_clamped_leaves_of_all_records() {
    let from = source(&["oil", "boost", "fuel"]);
    let rows = [("oil", CLAMP), ("boost", NO_WORD), ("fuel", CLAMP)];
    let to = bytes(SIGNED_BYTE, &rows);
    let log = [200, 7, 201].repeat(300);
    for handling in [Some(1), None] {
        let (answer, written) = converted((&from, &to), 300, handling, &log);
        assert_eq!(answer, Answer::done(600));
        assert_eq!(written, [127, 7, 127].repeat(300));
    }
    // One that stops hides them.
    let mut late = log.clone();
    late[3 * 299 + 1] = 222;
    assert_eq!(
        answer((&from, &to), 300, Some(1), &late),
        above(299, 1, 222)
    );
    assert_eq!(answer((&from, &to), 300, Some(0), &late), Answer::done(601));
}

/// A leaf under so many compounds, one in the other, with a word at each level,
/// outermost first.
fn nested(leaf: &str, words: &[&str]) -> String {
    let mut text = leaf.to_string();
    for (level, word) in words.iter().rev().enumerate() {
        text.push_str(&format!("comp\t1\nmember\tin\t0\t{level}{word}\n"));
    }
    text
}

#[test]
fn the_innermost_word_decides() {
    for (words, stops) in [
        (vec![STOP, CLAMP], Some(false)),
        (vec![CLAMP, STOP], Some(true)),
        (vec![STOP, NO_WORD], Some(true)),
        (vec![CLAMP, NO_WORD], Some(false)),
        (vec![STOP, NO_WORD, CLAMP], Some(false)),
        (vec![CLAMP, NO_WORD, STOP], Some(true)),
        (vec![STOP, NO_WORD, NO_WORD], Some(true)),
        (vec![CLAMP, NO_WORD, NO_WORD], Some(false)),
        (vec![CLAMP, STOP, NO_WORD], Some(true)),
        (vec![STOP, CLAMP, NO_WORD], Some(false)),
        (vec![NO_WORD, STOP, CLAMP], Some(false)),
        (vec![NO_WORD, NO_WORD, NO_WORD], None),
    ] {
        let from = nested(BYTE, &vec![NO_WORD; words.len()]);
        let to = nested(SIGNED_BYTE, &words);
        for (handling, call) in CALLS {
            let expected = match stops.unwrap_or(call) {
                true => above(0, 0, 200),
                false => Answer::done(1),
            };
            let said = answer((&from, &to), 1, handling, &[200]);
            assert_eq!(said, expected, "{words:?} {handling:?}");
        }
    }
}

#[test]
fn a_word_above_an_array_is_for_every_element() {
    for (array, elements) in [
        ("array\t0\t4\n", 4),
        ("array\t0\t2\t2\n", 4),
        ("array\t0\t3\narray\t1\t2\n", 6),
    ] {
        let outer = array.matches("array").count();
        let sheet = |leaf: &str, word: &str| {
            format!("{leaf}{array}comp\t{elements}\nmember\tlap\t0\t{outer}{word}\n")
        };
        let from = sheet(BYTE, NO_WORD);
        for at in 0..elements {
            let mut log = vec![1; elements];
            log[at] = 200;
            let (stop, clamp) = (sheet(SIGNED_BYTE, STOP), sheet(SIGNED_BYTE, CLAMP));
            let stopped = answer((&from, &stop), 1, Some(0), &log);
            assert_eq!(stopped, above(0, at as u64, 200), "{array}");
            let clamped = answer((&from, &clamp), 1, Some(1), &log);
            assert_eq!(clamped, Answer::done(1), "{array}");
        }
    }
}

#[test]
fn a_word_in_the_element_goes_before_the_one_above_the_array() {
    let sheet = |leaf: &str, above: &str, oil: &str| {
        format!(
            "{leaf}comp\t2\nmember\toil\t0\t0{oil}\nmember\tboost\t1\t0\narray\t1\t3\n\
             comp\t6\nmember\tlap\t0\t2{above}\n"
        )
    };
    let from = sheet(BYTE, NO_WORD, NO_WORD);
    let to = sheet(SIGNED_BYTE, STOP, CLAMP);
    let log = [200, 1, 201, 2, 202, 203];
    for (handling, _) in CALLS {
        assert_eq!(answer((&from, &to), 1, handling, &log), above(0, 5, 203));
        let oil = answer((&from, &to), 1, handling, &[200, 1, 201, 2, 202, 3]);
        assert_eq!(oil, Answer::done(3));
    }
    let to = sheet(SIGNED_BYTE, CLAMP, STOP);
    for (handling, _) in CALLS {
        let log = [1, 200, 201, 2, 3, 4];
        assert_eq!(answer((&from, &to), 1, handling, &log), above(0, 2, 201));
        let boost = answer((&from, &to), 1, handling, &[1, 200, 2, 201, 3, 202]);
        assert_eq!(boost, Answer::done(3));
    }
}

#[test]
fn the_word_is_the_members_and_not_the_types() {
    // One compound is the type of two members.
    let sheet = |leaf: &str, left: &str, right: &str| {
        format!(
            "{leaf}comp\t1\nmember\toil\t0\t0\ncomp\t2\nmember\tleft\t0\t1{left}\n\
             member\tright\t1\t1{right}\n"
        )
    };
    let from = sheet(BYTE, NO_WORD, NO_WORD);
    let log = [200, 201];
    for (left, right, handling, expected) in [
        (CLAMP, STOP, Some(0), above(0, 1, 201)),
        (CLAMP, STOP, Some(1), above(0, 1, 201)),
        (STOP, CLAMP, Some(0), above(0, 0, 200)),
        (CLAMP, NO_WORD, Some(1), above(0, 1, 201)),
        (CLAMP, NO_WORD, Some(0), Answer::done(2)),
        (STOP, NO_WORD, Some(0), above(0, 0, 200)),
        (CLAMP, CLAMP, None, Answer::done(2)),
    ] {
        let to = sheet(SIGNED_BYTE, left, right);
        assert_eq!(answer((&from, &to), 1, handling, &log), expected);
    }
    let to = sheet(SIGNED_BYTE, STOP, CLAMP);
    assert_eq!(answer((&from, &to), 1, Some(1), &[1, 201]), Answer::done(1));
}

#[test]
fn words_where_nothing_is_matched() {
    let from = source(&["oil"]);
    // Not in the source; a compound none of whose members is; one without members.
    let to = format!(
        "{SIGNED_BYTE}comp\t1\ncomp\t1\nmember\tx\t0\t0{STOP}\ncomp\t4\n\
         member\tnew\t0\t0{STOP}\nmember\tnone\t1\t1{STOP}\nmember\tdeep\t2\t2{STOP}\n\
         member\toil\t3\t0\n"
    );
    let log = [200];
    let clamped = converted((&from, &to), 1, Some(0), &log);
    assert_eq!(clamped, (Answer::done(1), vec![0x55, 0x55, 0x55, 127]));
    assert_eq!(answer((&from, &to), 1, Some(1), &log), above(0, 3, 200));
    let from = format!(
        "{BYTE}comp\t1\ncomp\t1\nmember\ty\t0\t0\ncomp\t3\nmember\tnone\t0\t1\n\
         member\tdeep\t1\t2\nmember\toil\t2\t0\n"
    );
    let log = [250, 251, 200];
    assert_eq!(answer((&from, &to), 1, Some(0), &log), Answer::done(1));
}

#[test]
fn words_of_the_source_have_no_effect() {
    for word in [NO_WORD, CLAMP, STOP] {
        let from = bytes(BYTE, &[("oil", word)]);
        for (own, handling, expected) in [
            (NO_WORD, Some(0), Answer::done(1)),
            (NO_WORD, Some(1), above(0, 0, 200)),
            (NO_WORD, None, above(0, 0, 200)),
            (CLAMP, Some(1), Answer::done(1)),
            (CLAMP, None, Answer::done(1)),
            (STOP, Some(0), above(0, 0, 200)),
        ] {
            let to = bytes(SIGNED_BYTE, &[("oil", own)]);
            assert_eq!(answer((&from, &to), 1, handling, &[200]), expected);
        }
    }
}

#[test]
fn a_late_stop_in_place_leaves_growing_and_shrinking_records() {
    // Two bytes become one, and one becomes three.
    let from = format!("{TWO_BE}comp\t2\nmember\toil\t0\t0{CLAMP}\n");
    let to = bytes(SIGNED_BYTE, &[("oil", STOP)]);
    let log = [0, 1, 0, 2, 1, 0];
    assert_eq!(answer((&from, &to), 3, Some(0), &log), above(2, 0, 256));
    let from = source(&["oil"]);
    let to = format!("{SIGNED_BYTE}comp\t3\nmember\toil\t2\t0{STOP}\n");
    assert_eq!(
        answer((&from, &to), 3, Some(0), &[1, 2, 255]),
        above(2, 2, 255)
    );
}

#[test]
fn no_record_raises_nothing() {
    let (from, to) = (source(&["oil"]), bytes(SIGNED_BYTE, &[("oil", STOP)]));
    for (handling, _) in CALLS {
        assert_eq!(answer((&from, &to), 0, handling, &[]), Answer::done(0));
    }
}

#[test]
fn every_kind_obeys() {
    let enumerated = |leaf: &str| format!("{leaf}enum\t0\nvalue\topen\t0\nvalue\tshut\t1\n");
    let bits = |precision: u64| format!("bits\t1\tLE\t0\t{precision}\tzero\tzero\n");
    let number = |hex: u64| hex.to_be_bytes().to_vec();
    for (from, to, log, kind, given, magnitude) in [
        (
            BYTE.to_string(),
            SIGNED_BYTE.to_string(),
            vec![200],
            1,
            0,
            200,
        ),
        (
            SIGNED_BYTE.to_string(),
            BYTE.to_string(),
            vec![0xFB],
            2,
            1,
            5,
        ),
        (bits(8), bits(4), vec![0x10], 1, 0, 16),
        (
            enumerated(SIGNED_BYTE),
            enumerated(BYTE),
            vec![0xFF],
            3,
            1,
            1,
        ),
        (
            REAL_BE.to_string(),
            BYTE.to_string(),
            number(0x7FF8_0000_0000_0001),
            4,
            2,
            0x7FF8_0000_0000_0001,
        ),
        (
            REAL_BE.to_string(),
            BYTE.to_string(),
            number(0x3FE0_0000_0000_0000),
            5,
            2,
            0x3FE0_0000_0000_0000,
        ),
        (
            UNSIGNED_64.to_string(),
            REAL_BE.to_string(),
            number(u64::MAX),
            6,
            0,
            u64::MAX,
        ),
        (
            SIGNED_64.to_string(),
            REAL_BE.to_string(),
            number(0x8000_0000_0000_0001),
            6,
            1,
            (1 << 63) - 1,
        ),
    ] {
        let member = |leaf: &str, word: &str| {
            let types = leaf.lines().filter(|line| !line.starts_with("value"));
            let datatype = types.count() - 1;
            format!("{leaf}comp\t8\nmember\tm\t0\t{datatype}{word}\n")
        };
        let mut record = log.clone();
        record.resize(8, 0);
        let stop = Answer {
            kind,
            given,
            magnitude,
            ..Answer::refused(8)
        };
        let from = member(&from, NO_WORD);
        let stopped = answer((&from, &member(&to, STOP)), 1, Some(0), &record);
        assert_eq!(stopped, stop);
        for handling in [Some(1), None] {
            let clamped = answer((&from, &member(&to, CLAMP)), 1, handling, &record);
            assert_eq!(clamped, Answer::done(1));
        }
    }
}

#[test]
fn the_report_clamps_whatever_the_words_say() {
    let from = source(&["oil", "boost"]);
    let reader = bytes(SIGNED_BYTE, &[("oil", STOP), ("boost", NO_WORD)]);
    let plain = bytes(SIGNED_BYTE, &[("oil", NO_WORD), ("boost", NO_WORD)]);
    let add = |reader: &str| {
        let call = given(&from, reader, 2, None);
        report(call, &[200, 201, 1, 2], &[0x55; 4], &[0; 10], &[0x2E; 100])
    };
    let after = add(&reader);
    assert_eq!(after, add(&plain));
    assert_eq!(after.answer.number, 0);
    assert_eq!(after.log, [127, 127, 1, 2]);
    assert_eq!(after.memory[..2], [2, 2]);
}

#[test]
fn other_calls_do_not_look_at_words() {
    let rows = |words: [&'static str; 2]| [("oil", words[0]), ("boost", words[1])];
    let worded = bytes(SIGNED_BYTE, &rows([STOP, CLAMP]));
    let plain = bytes(SIGNED_BYTE, &rows([NO_WORD, NO_WORD]));
    let from = source(&["boost", "oil"]);
    let table = [7; 8192];
    let calls = |sheet: &str| {
        let there = given(&from, sheet, 1, None);
        let back = given(sheet, &from, 1, None);
        [
            compare(there, &[200, 1], &[1, 2], &[0x2E; 80]),
            compare(back, &[200, 1], &[1, 2], &[0x2E; 80]),
            reach(there, &[0x2E; 8]),
            reach(back, &[0x2E; 8]),
            leaf_list(sheet.as_bytes(), &[0x2E; 40], &table),
            record_size(sheet.as_bytes(), &table),
        ]
    };
    let said = calls(&worded);
    assert!(said.iter().all(|after| after.answer.number == 0));
    assert_eq!(said, calls(&plain));
}

#[test]
fn what_is_no_word() {
    let fault = |row: &str| {
        let text = format!("{BYTE}comp\t4\nmember\ta\t0\t0{row}");
        sheet::read(text.as_bytes()).err()
    };
    for good in ["\n", "\tclamp\n", "\tstop\n", "\tstop\nmember\tb\t1\t0\n"] {
        assert_eq!(fault(good), None, "{good:?}");
    }
    for bad in [
        "\t\n",
        "\tClamp\n",
        "\tSTOP\n",
        "\tstops\n",
        "\tclam\n",
        "\tclamp \n",
        "\tclamp\r\n",
        "\tclamp\t\n",
        "\tclamp\tstop\n",
        "\tstop\tstop\n",
        "\t\tstop\n",
        "\t0\n",
        "\tsilent\n",
        // A last line without byte 10.
        "\tstop",
    ] {
        assert_eq!(fault(bad), Some(3), "{bad:?}");
    }
    for bad in ["comp\t4\tstop\n", "enum\t0\tclamp\n", "array\t0\t2\tstop\n"] {
        let text = format!("{BYTE}{bad}");
        assert_eq!(sheet::read(text.as_bytes()).err(), Some(2), "{bad:?}");
    }
    let value = format!("{BYTE}enum\t0\nvalue\ta\t0\tstop\n");
    assert_eq!(sheet::read(value.as_bytes()).err(), Some(3));
    let without_type = format!("{BYTE}comp\t4\nmember\ta\t0\tstop\n");
    assert_eq!(sheet::read(without_type.as_bytes()).err(), Some(3));
}
