//! `yirvagul report`: what it prints, and what it keeps of a season.
mod common;

use common::{Folder, CUSTOMER, LOG, ODD, RIG};
use std::fs;
use yirvagul::Report;

const REPORT: &str = "report customer.sheet rig.sheet";
const HEAD: &str = "at\tlowest\thighest\tsum\tsamples\n";

/// What the example log says, so many times over.
fn example(times: i64) -> Vec<u8> {
    let line = |at, lowest, highest, sum: i64| {
        format!(
            "{at}\t{lowest}\t{highest}\t{}\t{}\n",
            times * sum,
            times * 48
        )
    };
    let lines = [
        line(1, 100, 1250, 32_400),
        line(3, 98, 1271, 32_856),
        line(5, 110, 4095, 104_330),
    ];
    format!("{HEAD}{}", lines.concat()).into_bytes()
}

const CLOSING: &str = "48 records, 0 exceptions\n";

#[test]
fn the_example() {
    let folder = Folder::new("report-example");
    folder
        .run(&format!("{REPORT} rig.log"))
        .wrote(&example(1), CLOSING);
    assert_eq!(folder.read("rig.log"), LOG);
    assert_eq!(folder.others(), [""; 0]);
}

#[test]
fn many_logs_and_parts() {
    let folder = Folder::new("report-many");
    folder
        .run(&format!("{REPORT} rig.log rig.log rig.log"))
        .wrote(&example(3), "144 records, 0 exceptions\n");
    // three parts
    folder.write("long.log", &LOG.repeat(3200));
    let long = folder.run(&format!("{REPORT} rig.log long.log rig.log"));
    long.wrote(&example(3202), "153696 records, 0 exceptions\n");
}

#[test]
fn an_exception_is_counted() {
    let folder = Folder::new("report-exception");
    folder.write("odd.log", ODD);
    let text =
        format!("{HEAD}1\t100\t100\t100\t1\n3\t2000\t2000\t2000\t1\n5\t4095\t4095\t4095\t1\n");
    folder
        .run(&format!("{REPORT} odd.log"))
        .wrote(text.as_bytes(), "1 record, 1 exception\n");
    // a log without the reader's ints
    folder.write(
        "flags.sheet",
        b"bits\t1\tLE\t0\t8\tzero\tzero\ncomp\t1\nmember\tflags\t0\t0\n",
    );
    let none = format!("{HEAD}1\t-\t-\t0\t0\n3\t-\t-\t0\t0\n5\t-\t-\t0\t0\n");
    folder
        .run("report customer.sheet flags.sheet odd.log")
        .wrote(none.as_bytes(), "8 records, 0 exceptions\n");
}

#[test]
fn words_of_the_reader_stop_nothing() {
    let folder = Folder::new("report-words");
    folder.write("two.sheet", b"int\t2\tBE\t0\t16\tzero\tzero\tunsigned\ncomp\t4\nmember\toil\t0\t0\nmember\tboost\t2\t0\n");
    folder.write("bytes.sheet", b"int\t1\tLE\t0\t8\tzero\tzero\tunsigned\ncomp\t2\nmember\toil\t0\t0\tclamp\nmember\tboost\t1\t0\tstop\n");
    folder.write("two.log", &[0, 5, 1, 0, 1, 1, 0, 7]);
    let text = format!("{HEAD}0\t5\t255\t260\t2\n1\t7\t255\t262\t2\n");
    folder
        .run("report bytes.sheet two.sheet two.log")
        .wrote(text.as_bytes(), "2 records, 2 exceptions\n");
}

#[test]
fn standard_input() {
    let folder = Folder::new("report-standard");
    folder
        .run_with(&format!("{REPORT} -"), LOG)
        .wrote(&example(1), CLOSING);
    folder
        .run_with(&format!("{REPORT} rig.log - rig.log"), LOG)
        .wrote(&example(3), "144 records, 0 exceptions\n");
    folder
        .run_with("report - rig.sheet rig.log", CUSTOMER)
        .wrote(&example(1), CLOSING);
    folder
        .run_with("report customer.sheet - rig.log", RIG)
        .wrote(&example(1), CLOSING);
}

#[test]
fn a_season_is_kept_from_run_to_run() {
    let folder = Folder::new("report-season");
    let season = format!("{REPORT} rig.log --season season.report");
    folder.run(&season).wrote(
        &example(1),
        "48 records, 0 exceptions; season: 48 records, 0 exceptions\n",
    );
    folder.run(&season).wrote(
        &example(2),
        "48 records, 0 exceptions; season: 96 records, 0 exceptions\n",
    );
    // logs of another layout
    folder.write("plain.log", &[1, 0, 0, 0, 0, 0, 0]);
    let ran = folder.run("report customer.sheet customer.sheet plain.log --season=season.report");
    assert_eq!(
        ran.error,
        "1 record, 0 exceptions; season: 97 records, 0 exceptions\n"
    );
    assert!(ran
        .out
        .starts_with(format!("{HEAD}1\t0\t1250\t64800\t97\n").as_bytes()));
    assert_eq!(folder.others(), ["plain.log", "season.report"]);
    let kept = Report::from_bytes(&folder.read("season.report")).unwrap();
    assert_eq!(kept.text().as_bytes(), ran.out);
    assert_eq!(kept.reader_sheet(), CUSTOMER);
}

#[test]
fn a_refusal_leaves_the_season() {
    let folder = Folder::new("report-refused");
    folder.run(&format!("{REPORT} rig.log --season s"));
    let before = folder.read("s");
    folder.write("long.log", &LOG.repeat(21_845));
    folder.write("cut.log", &LOG[1..]);
    folder.write(
        "bits.sheet",
        b"bits\t2\tLE\t0\t16\tzero\tzero\narray\t0\t3\ncomp\t6\nmember\tboost\t0\t1\n",
    );
    let more = String::from_utf8_lossy(RIG).replace("value\tshut", "value\tajar\t7\nvalue\tshut");
    folder.write("more.sheet", more.as_bytes());
    for (words, status, said) in [
        (
            "report customer.sheet rig.sheet rig.log long.log --season s",
            3,
            "long.log: FULL (11): the report would have 1048656 records or more, and it takes 1,048,576: begin a new report",
        ),
        (
            "report customer.sheet rig.sheet rig.log cut.log --season s",
            1,
            "cut.log: the log has 383 bytes, which is no multiple of its record's 8: complete the last record or cut its 7 bytes off, or correct the sheet",
        ),
        (
            "report customer.sheet rig.sheet rig.log none.log --season s",
            1,
            "cannot read none.log: No such file or directory (os error 2)",
        ),
        (
            "report customer.sheet bits.sheet rig.log --season s",
            3,
            "bits.sheet to customer.sheet: PATH (5): no path from the source type to the destination type: `boost[0]` is bits in the source and an int in the destination: give both the same class",
        ),
        (
            "report customer.sheet more.sheet rig.log --season s",
            3,
            "more.sheet to customer.sheet: SYMBOLS (12): `valve` has the symbol `ajar` in the source and not in the destination: give the destination's enum that symbol, with a number of its own",
        ),
        (
            "report rig.sheet rig.sheet rig.log --season s",
            3,
            "s: this report is of another sheet than rig.sheet: name the sheet that it began with, or another file",
        ),
        (
            "report customer.sheet rig.sheet rig.log --season rig.log",
            1,
            "rig.log: this is no saved report: name another file, or begin a new report",
        ),
    ] {
        folder.run(words).said(status, &format!("yirvagul: {said}\n"));
        assert!(folder.read("s") == before, "{words}");
    }
    let mut damaged = before.clone();
    damaged[100] ^= 1;
    folder.write("damaged", &damaged);
    folder.run(&format!("{REPORT} rig.log --season damaged")).said(
        1,
        "yirvagul: damaged: this saved report is damaged: take a copy of it, or begin a new report\n",
    );
    assert_eq!(folder.read("damaged"), damaged);
    assert_eq!(folder.read("rig.log"), LOG);
}

#[test]
fn faulty_sheets_are_named() {
    let folder = Folder::new("report-sheets");
    folder.write("faulty", b"comp\t0\n");
    let fault = "line 1 of the sheet is faulty, `comp\\t0`: the size is 0: a compound has 1 to 4,096 bytes\n";
    folder
        .run("report faulty rig.sheet rig.log")
        .said(3, &format!("yirvagul: faulty: SOURCE (3): {fault}"));
    let fault = fault.replace("the sheet", "the source sheet");
    folder
        .run("report customer.sheet faulty rig.log")
        .said(3, &format!("yirvagul: faulty: SOURCE (3): {fault}"));
    folder.write(
        "wide",
        b"int\t8\tLE\t0\t33\tzero\tzero\tsigned\ncomp\t8\nmember\toil\t0\t0\n",
    );
    folder.run("report wide rig.sheet rig.log").said(
        3,
        "yirvagul: wide: CHANNEL (10): `oil` has 33 bits, and a report takes ints of at most 32: narrow it in the reader's sheet, or leave it out\n",
    );
}

#[test]
fn usage() {
    let folder = Folder::new("report-usage");
    let see = "see `yirvagul report --help`\n";
    for (words, n) in [("report", 0), ("report customer.sheet rig.sheet", 2)] {
        folder.run(words).said(
            2,
            &format!("yirvagul: it takes 3 files or more, READER.sheet FROM.sheet LOG.., and {n} are there: {see}"),
        );
    }
    folder.run(&format!("{REPORT} - -")).said(
        2,
        &format!("yirvagul: standard input (-) is there twice: {see}"),
    );
    folder.run(&format!("{REPORT} rig.log --season -")).said(
        2,
        &format!("yirvagul: --season names a file that is kept, not -: {see}"),
    );
    folder
        .run(&format!("{REPORT} rig.log --clamp"))
        .said(2, &format!("yirvagul: there is no option --clamp: {see}"));
    folder
        .run(&format!("{REPORT} rig.log --season"))
        .said(2, &format!("yirvagul: --season has no value: {see}"));
}

#[test]
fn what_the_system_does_leaves_the_season() {
    let folder = Folder::new("report-system");
    folder.run(&format!("{REPORT} rig.log --season s"));
    let before = folder.read("s");
    let season = format!("$y {REPORT} rig.log --season s");
    let full = "No space left on device (os error 28)\n";
    folder.shell(&format!("{season} >/dev/full")).said(
        1,
        &format!("yirvagul: cannot write standard output: {full}"),
    );
    folder
        .shell(&format!(
            "set -o pipefail; (sleep 0.2; exec {season}) | true"
        ))
        .said(
            1,
            "yirvagul: cannot write standard output: Broken pipe (os error 32)\n",
        );
    // the report is printed, and the status says that it was not kept
    let ran = folder.shell(&format!(
        "trap '' XFSZ; ulimit -f 0; {season} | cat; exit $PIPESTATUS"
    ));
    assert_eq!((ran.status, ran.out == example(2)), (1, true));
    assert_eq!(
        ran.error,
        "yirvagul: cannot write s: File too large (os error 27)\n"
    );
    assert!(folder.read("s") == before);
    assert_eq!(folder.others(), ["s"]);
}

#[test]
fn another_run_meanwhile() {
    let folder = Folder::new("report-meanwhile");
    let slow = format!("(sleep 1; cat rig.log) | $y {REPORT} - --season s");
    let quick = format!("$y {REPORT} rig.log --season s");
    folder
        .shell(&format!(
            "{slow} & slow=$!; sleep 0.3; {quick} >out 2>&1; wait $slow"
        ))
        .said(
            1,
            "yirvagul: s: another run has changed this report meanwhile: run again\n",
        );
    let kept = Report::from_bytes(&folder.read("s")).unwrap();
    assert_eq!(kept.text().as_bytes(), example(1));
}

/// A link stays one, and permissions stay.
#[test]
fn a_season_behind_a_link() {
    use std::os::unix::fs::PermissionsExt;
    let folder = Folder::new("report-link");
    let path = |name: &str| folder.path().join(name);
    std::os::unix::fs::symlink("real", path("link")).unwrap();
    folder.run(&format!("{REPORT} rig.log --season link"));
    fs::set_permissions(path("real"), fs::Permissions::from_mode(0o640)).unwrap();
    folder.run(&format!("{REPORT} rig.log --season link"));
    assert!(fs::symlink_metadata(path("link")).unwrap().is_symlink());
    let mode = fs::metadata(path("real")).unwrap().permissions().mode();
    assert_eq!(mode & 0o777, 0o640);
    let kept = Report::from_bytes(&folder.read("real")).unwrap();
    assert_eq!(kept.summary().records, 96);
}

/// A log of 8 MB, in an address space of 24 MB.
#[test]
fn a_large_log_in_little_memory() {
    let folder = Folder::new("report-large");
    folder.write("large.log", &LOG.repeat(21_800));
    for line in ["large.log", "- <large.log"] {
        let ran = folder.shell(&format!("ulimit -v 24000; exec $y {REPORT} {line}"));
        ran.wrote(&example(21_800), "1046400 records, 0 exceptions\n");
    }
    fs::remove_dir_all(folder.path()).unwrap();
}
