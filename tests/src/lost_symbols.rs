//! Sheets whose enums lose symbols, worked out by hand.

use crate::call::{Answer, Call, copying, in_place};
use crate::compare::compare;
use crate::exercises::{BYTE, SIGNED_BYTE, TWO_BE, given};
use crate::report::report;

/// A sheet of one enum of bytes; the values are named and numbered.
fn states(values: &[(&str, i32)]) -> String {
    let lines: Vec<String> = values
        .iter()
        .map(|(name, number)| format!("value\t{name}\t{number}\n"))
        .collect();
    format!("{BYTE}enum\t0\n{}", lines.concat())
}

/// The number that every form and the report answer. Buffers are long enough
/// for a few records.
#[track_caller]
fn answered(from: &str, to: &str, count: u64) -> u64 {
    let (one, other) = ([0x11; 64], [0x22; 64]);
    let mut numbers = Vec::new();
    for handling in [None, Some(0), Some(1)] {
        let call = given(from, to, count, handling);
        for after in [copying(call, &one, &other), in_place(call, &other, &one)] {
            if after.answer.number == 12 {
                assert_eq!(after.answer, Answer::refused(12));
                assert_eq!(after.written, other);
                assert_eq!(after.table, [0; 8192]);
            }
            // What a record holds is not looked at here.
            numbers.push(if after.answer.number == 8 {
                0
            } else {
                after.answer.number
            });
        }
    }
    let call = given(from, to, count, None);
    let after = report(call, &one, &other, &[0; 10], &[0x2E; 200]);
    if after.answer.number == 12 {
        assert_eq!((after.log, after.memory), (one.to_vec(), vec![0; 10]));
        assert_eq!(after.output, [0x2E; 200]);
    }
    numbers.push(after.answer.number);
    assert!(
        numbers.iter().all(|number| *number == numbers[0]),
        "{numbers:?}"
    );
    numbers[0]
}

#[test]
fn a_symbol_that_the_destination_lacks() {
    let from = format!("{SIGNED_BYTE}enum\t0\nvalue\topen\t0\nvalue\tshut\t-1\nvalue\tajar\t9\n");
    let to = format!("{BYTE}enum\t0\nvalue\topen\t1\nvalue\tshut\t0\nvalue\tlost\t9\n");
    assert_eq!(answered(&from, &to, 1), 12);
    assert_eq!(answered(&to, &from, 1), 12);
    let wider = format!("{to}value\tajar\t7\n");
    assert_eq!(answered(&from, &wider, 1), 0);
    assert_eq!(answered(&wider, &from, 1), 12);
}

#[test]
fn sets_go_by_names_alone() {
    let one = states(&[("open", 0), ("shut", 1)]);
    let other = states(&[("shut", 7), ("open", 3)]);
    assert_eq!(answered(&one, &other, 1), 0);
    assert_eq!(answered(&other, &one, 1), 0);
    // As many, with the same numbers, and one name in another case.
    let large = states(&[("open", 0), ("Shut", 1)]);
    assert_eq!(answered(&one, &large, 1), 12);
    let longer = states(&[("open", 0), ("shut2", 1)]);
    assert_eq!(answered(&one, &longer, 1), 12);
    assert_eq!(answered(&longer, &one, 1), 12);
}

#[test]
fn an_enum_without_values_has_nothing_to_lose() {
    let (none, some) = (states(&[]), states(&[("open", 0)]));
    assert_eq!(answered(&none, &some, 1), 0);
    assert_eq!(answered(&none, &none, 1), 0);
    assert_eq!(answered(&some, &none, 1), 12);
}

#[test]
fn the_types_decide_and_not_the_records() {
    let (from, to) = (states(&[("open", 0), ("shut", 1)]), states(&[("open", 0)]));
    assert_eq!(answered(&from, &to, 0), 12);
    // Before COUNT, and before ROOM.
    assert_eq!(answered(&from, &to, 65_537), 12);
    assert_eq!(answered(&from, &to, 65_536), 12);
    assert_eq!(answered(&to, &from, 65_537), 6);
    assert_eq!(answered(&to, &from, 65_536), 7);
}

#[test]
fn path_is_looked_at_before() {
    let member = |base: &str, states: &str| {
        format!("{states}{base}comp\t4\nmember\tvalve\t0\t1\nmember\tboost\t1\t2\n")
    };
    let (all, few) = (states(&[("open", 0), ("shut", 1)]), states(&[("open", 0)]));
    let bits = "bits\t1\tLE\t0\t8\tzero\tzero\n";
    assert_eq!(answered(&member(TWO_BE, &all), &member(BYTE, &few), 1), 12);
    assert_eq!(answered(&member(bits, &all), &member(BYTE, &few), 1), 5);
}

#[test]
fn every_matched_pair_counts() {
    let member = |first: &str, second: &str| {
        format!("{first}{second}comp\t2\nmember\ta\t0\t1\nmember\tb\t1\t3\n")
    };
    let two = |values: &[(&str, i32)]| states(values).replace("enum\t0", "enum\t2");
    let (some, all) = ([("open", 0)], [("open", 0), ("shut", 1)]);
    let kept = member(&states(&all), &two(&all));
    assert_eq!(answered(&kept, &kept, 1), 0);
    assert_eq!(answered(&kept, &member(&states(&some), &two(&all)), 1), 12);
    assert_eq!(answered(&kept, &member(&states(&all), &two(&some)), 1), 12);
    assert_eq!(answered(&kept, &member(&states(&some), &two(&some)), 1), 12);
}

#[test]
fn deep_pairs_count_and_unmatched_enums_do_not() {
    let engine = |states: &str, name: &str| {
        format!(
            "{states}array\t1\t2\t3\ncomp\t7\nmember\t{name}\t1\t2\narray\t3\t2\n\
             comp\t14\nmember\tengine\t0\t4\n"
        )
    };
    let (all, few) = (states(&[("open", 0), ("shut", 1)]), states(&[("open", 0)]));
    let named = |states: &str| engine(states, "valves");
    assert_eq!(answered(&named(&all), &named(&all), 1), 0);
    assert_eq!(answered(&named(&all), &named(&few), 1), 12);
    assert_eq!(answered(&named(&few), &named(&all), 1), 0);
    // The names differ, so neither is matched.
    assert_eq!(answered(&named(&all), &engine(&few, "taps"), 1), 0);
}

#[test]
fn a_comparison_is_not_affected() {
    let (all, few) = (states(&[("open", 0), ("shut", 1)]), states(&[("open", 0)]));
    let call: Call = given(&all, &few, 2, None);
    let after = compare(call, &[0, 1], &[0, 1], &[0x2E; 100]);
    let list = b"record\tat\tfirst\tsecond\n1\t0\t1\t1\n";
    assert_eq!(after.answer, Answer::done(list.len() as u64));
    assert_eq!(after.written[..list.len()], list[..]);
}
