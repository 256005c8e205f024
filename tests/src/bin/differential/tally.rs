//! What was seen, and what must have been seen for the tests to mean
//! something.

use crate::block_events;
use crate::compare_events;
use crate::crowded;
use crate::fields;
use crate::plain;
use crate::reaches;
use crate::real_events;
use crate::run::{FORMS, NAMING};
use crate::step_events;
use crate::stop_events;
use crate::symbol_events;
use crate::word_events;
use crate::word_laws;
use std::collections::BTreeMap;

#[derive(Default)]
pub struct Tally(BTreeMap<String, u64>);

/// Beside the answers, what a whole run must have met.
const NEEDED: [&str; 98] = [
    "case: conversion",
    "case: conversion with many refusals",
    "case: conversion at the limits",
    "case: conversion of 65,536 records",
    "case: conversion of reals",
    "case: conversion that stops",
    "case: leaf list",
    "case: setters",
    "case: properties",
    "done with an exception",
    "done of 65,536 records",
    "done of no record",
    "STOP past record 0",
    "STOP past byte 0",
    "STOP kind 1",
    "STOP kind 2",
    "STOP kind 3",
    "STOP kind 4",
    "STOP kind 5",
    "STOP kind 6",
    "SOURCE at line 0",
    "DESTINATION at line 0",
    "SOURCE past line 250",
    "1 and 2 at once",
    "1 and 3 at once",
    "2 and 3 at once",
    "3 and 4 at once",
    "4 and 6 at once",
    "5 and 6 at once",
    "5 and 7 at once",
    "6 and 7 at once",
    "arrays of one total and other dimensions",
    "in place, growing, several records",
    "in place, shrinking, several records",
    "list of 4,096-byte records",
    "record size 4,096",
    "record size, 2 and 3 at once",
    "record size, SOURCE at line 0",
    "setter on a broken layout",
    "setter changed another word",
    "property: in place equals from a copy",
    "property: the way back",
    "property: free bytes do not show",
    "property: free bytes do not show under STOP",
    "property: a changed number shows",
    "property: data bytes do not show in a refusal",
    "case: report",
    "case: report with many refusals",
    "case: report at the limits",
    "case: report of 65,536 records",
    "case: report's laws",
    "report: done of no record",
    "report: done of 65,536 records",
    "report: an exception",
    "report: up to 1,048,576 records",
    "report: no int leaf",
    "report: more than 1,000 int leaves",
    "report: an unmatched int leaf",
    "report: a wide leaf that is no int",
    "report: no sample",
    "report: a held lowest without a sample",
    "report: 2^52 held",
    "report: words behind the report's",
    "report: just the words",
    "report: a memory short by one word",
    "report: just the room for the output",
    "report: an output short by one byte",
    "report CHANNEL: one bit too wide",
    "report FULL: one record too many",
    "report FULL: negative records",
    "report FULL: negative exceptions",
    "report FULL: negative samples",
    "report FULL: 2^52 + 1",
    "report FULL: -2^52 - 1",
    "report FULL: -2^63",
    "report FULL: 2^63 - 1",
    "report, 2 and 3 at once",
    "report, 3 and 4 at once",
    "report, 3 and 10 at once",
    "report, 5 and 10 at once",
    "report, 6 and 10 at once",
    "report, 7 and 10 at once",
    "report, 10 and 11 at once",
    "report, 5 and 6 at once",
    "report, 5 and 7 at once",
    "report, 5 and 11 at once",
    "report, 6 and 7 at once",
    "report, 6 and 11 at once",
    "report, 7 and 11 at once",
    "report, 11 and a short output at once",
    "law: a cut does not show",
    "law: a cut within the log does not show",
    "law: a season does not turn on its cuts",
    "law: a season of three logs or more",
    "law: 1,048,576 records from zeros",
    "law: free bytes do not show",
    "law: over one background free bytes do not show in the log",
    "law: data bytes do not show in a refusal of the report",
];

impl Tally {
    pub fn saw(&mut self, what: &str) {
        match self.0.get_mut(what) {
            Some(times) => *times += 1,
            None => {
                self.0.insert(what.to_string(), 1);
            }
        }
    }

    pub fn answer(&mut self, form: &str, number: u64) {
        self.saw(&format!("answer: {form} {number}"));
    }

    pub fn print(&self) {
        for (what, times) in &self.0 {
            println!("{times:>9}  {what}");
        }
    }

    /// What a whole run should have met and did not.
    pub fn missing(&self) -> Vec<String> {
        let lists = [
            &NEEDED[..],
            &real_events::NEEDED,
            &real_events::REPORT_NEEDED,
            &fields::NEEDED,
            &stop_events::NEEDED,
            &compare_events::NEEDED,
            &symbol_events::NEEDED,
            &reaches::NEEDED,
            &crowded::NEEDED,
            &plain::NEEDED,
            &word_laws::NEEDED,
            &step_events::NEEDED,
        ];
        let all = lists.iter().flat_map(|list| list.iter());
        let mut needed: Vec<String> = all.map(|what| what.to_string()).collect();
        needed.extend(answers());
        needed.extend(block_events::needed());
        needed.extend(stop_events::needed());
        needed.extend(word_events::needed());
        needed.retain(|what| !self.0.contains_key(what));
        needed
    }
}

/// Every answer that a form can give.
fn answers() -> Vec<String> {
    let mut answers = Vec::new();
    let mut add = |form: &str, numbers: &[u64]| {
        for number in numbers {
            answers.push(format!("answer: {form} {number}"));
        }
    };
    for form in FORMS {
        add(form.name(), &[0, 2, 3, 4, 5, 6, 7, 8, 12]);
    }
    for form in NAMING {
        add(form.name(), &[1]);
    }
    add("report", &[0, 2, 3, 4, 5, 6, 7, 10, 11, 12]);
    add("compare", &[0, 2, 3, 4, 5, 6, 7]);
    add("reach", &reaches::ANSWERS);
    add("leaf list", &[0, 2, 3, 7]);
    add("record size", &[0, 2, 3]);
    for setter in ["size", "field", "order", "pads", "sign"] {
        add(setter, &[0, 9]);
    }
    answers
}
