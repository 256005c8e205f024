//! Holds the proved library against the independent converter.
//!
//! `differential` runs all cases of the fixed seed, `--seed N` those of
//! another, `--cases M` so many, and `--seed N --case K` one alone.

mod block_enums;
mod block_events;
mod block_piece_events;
mod block_pieces;
mod block_sheets;
mod block_symbol_events;
mod block_words;
mod blocks;
mod capi;
mod compare_events;
mod compare_laws;
mod compare_run;
mod compares;
mod convert;
mod crowded;
mod damage;
mod derive;
mod events;
mod fields;
mod generate;
mod held;
mod lent;
mod limits;
mod lines;
mod model;
mod others;
mod patterns;
mod plain;
mod properties;
mod random;
mod reaches;
mod real_events;
mod records;
mod refusals;
mod report_events;
mod report_laws;
mod report_run;
mod reports;
mod run;
mod sizes;
mod step_events;
mod step_sheets;
mod steps;
mod stop_events;
mod stops;
mod symbol_events;
mod symbols;
mod tally;
mod trees;
mod watch;
mod word_events;
mod word_laws;
mod worded;
mod words;

use random::Random;
use tally::Tally;

const SEED: u64 = 20_260_101;
const CASES: u64 = 85_000;

#[derive(Default)]
pub struct Options {
    seed: Option<u64>,
    case: Option<u64>,
    cases: Option<u64>,
    /// Set in the process that calls the library; the other one watches it.
    watched: bool,
}

fn main() {
    let Some(options) = options() else {
        eprintln!("usage: differential [--seed N] [--case K | --cases M]");
        std::process::exit(2);
    };
    let holds = if options.watched {
        run_cases(&options)
    } else {
        watch::watch(options.seed.unwrap_or(SEED))
    };
    std::process::exit(if holds { 0 } else { 1 });
}

fn options() -> Option<Options> {
    let mut options = Options::default();
    let mut words = std::env::args().skip(1);
    while let Some(word) = words.next() {
        if word == watch::WATCHED {
            options.watched = true;
            continue;
        }
        let number = words.next()?.parse().ok()?;
        match word.as_str() {
            "--seed" => options.seed = Some(number),
            "--case" => options.case = Some(number),
            "--cases" => options.cases = Some(number),
            _ => return None,
        }
    }
    Some(options)
}

/// The command that runs one case alone, from the top of the repository.
pub fn command(seed: u64, case: u64) -> String {
    format!("tests/run --seed {seed} --case {case}")
}

fn run_cases(options: &Options) -> bool {
    let seed = options.seed.unwrap_or(SEED);
    let cases = match options.case {
        Some(case) => case..case + 1,
        None => 0..options.cases.unwrap_or(CASES),
    };
    let mut tally = Tally::default();
    for case in cases.clone() {
        watch::tell_case(case);
        if let Err(fault) = run_case(&mut Random::new(seed, case), &mut tally) {
            println!("case {case} of seed {seed} differs:\n{fault}");
            println!("to run it alone: {}", command(seed, case));
            return false;
        }
    }
    tally.print();
    println!("{} cases of seed {seed} hold", cases.end - cases.start);
    // Fewer cases cannot meet everything.
    let missing = if cases.end - cases.start < CASES {
        Vec::new()
    } else {
        tally.missing()
    };
    for what in &missing {
        println!("never seen: {what}");
    }
    missing.is_empty()
}

/// How a case of some sort is made and run.
type Case = fn(&mut Random, &mut Tally) -> Result<(), String>;

/// The sorts of cases, each with its share of all.
const SORTS: [(u64, &str, Case); 32] = [
    (1, "conversion of 65,536 records", convert::long_case),
    (29, "conversion at the limits", convert::limit_case),
    (320, "conversion", |random, tally| {
        convert::case(random, tally, 4)
    }),
    (200, "conversion with many refusals", |random, tally| {
        convert::case(random, tally, 35)
    }),
    (250, "leaf list", others::list_case),
    (95, "setters", others::setter_case),
    (8, "which bits show", reaches::case),
    (97, "properties", properties::case),
    (
        1,
        "report of 65,536 records",
        |random, tally| match random.percent(70) {
            true => reports::long_case(random, tally),
            false => report_laws::full_season(random, tally),
        },
    ),
    (19, "report at the limits", reports::limit_case),
    (100, "report", |random, tally| {
        reports::case(random, tally, 3)
    }),
    (75, "report with many refusals", |random, tally| {
        reports::case(random, tally, 25)
    }),
    (55, "report's laws", report_laws::case),
    (50, "conversion of reals", convert::real_case),
    (60, "conversion that stops", stops::case),
    (1, "comparison of 65,536 records", compares::long_case),
    (14, "comparison at the limits", compares::limit_case),
    (60, "comparison", |random, tally| {
        compares::case(random, tally, 3)
    }),
    (25, "comparison with many refusals", |random, tally| {
        compares::case(random, tally, 25)
    }),
    (30, "comparison's laws", compare_laws::case),
    (50, "symbols", symbols::case),
    (76, "conversion in blocks", blocks::case),
    (46, "enums in blocks", blocks::enum_case),
    (30, "leaves that stay, in blocks", blocks::staying_case),
    (28, "equal parts in blocks", blocks::part_case),
    (14, "STOP in blocks", blocks::stop_case),
    (16, "report in blocks", blocks::report_case),
    (24, "many rows", crowded::case),
    (20, "plain forms and the report", plain::case),
    (60, "words", worded::case),
    (24, "words in blocks", block_words::case),
    (50, "two steps", steps::case),
];

fn run_case(random: &mut Random, tally: &mut Tally) -> Result<(), String> {
    let all = SORTS.iter().map(|(share, ..)| share).sum();
    let mut choice = random.below(all);
    for (share, sort, case) in SORTS {
        if choice < share {
            tally.saw(&format!("case: {sort}"));
            return case(random, tally).map_err(|fault| format!("({sort}) {fault}"));
        }
        choice -= share;
    }
    unreachable!("the shares are those of all sorts");
}
