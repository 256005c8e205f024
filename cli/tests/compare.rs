//! `yirvagul compare`: what it prints, and its status.
mod common;

use common::{Folder, Ran, CUSTOMER, LOG, ODD, RIG};
use std::fs;

const COMPARE: &str = "compare rig.sheet customer.sheet";
const HEAD: &str = "record\tat\tfirst\tsecond\n";

/// A folder with the example log as the customer has it.
fn folder(name: &str) -> Folder {
    let folder = Folder::new(name);
    folder.run("convert rig.sheet customer.sheet rig.log out.log");
    folder
}

/// It ended with a status, and wrote these lines.
#[track_caller]
fn listed(ran: &Ran, status: i32, lines: &str, error: &str) {
    assert_eq!((ran.status, &ran.error[..]), (status, error));
    assert_eq!(String::from_utf8_lossy(&ran.out), format!("{HEAD}{lines}"),);
}

#[test]
fn nothing_differs() {
    let folder = folder("compare-same");
    let ran = folder.run(&format!("{COMPARE} rig.log out.log"));
    listed(&ran, 0, "", "48 records, 0 differences\n");
    let ran = folder.run("compare rig.sheet rig.sheet rig.log rig.log");
    listed(&ran, 0, "", "48 records, 0 differences\n");
    folder.write("none.log", b"");
    let ran = folder.run(&format!("{COMPARE} none.log none.log"));
    listed(&ran, 0, "", "0 records, 0 differences\n");
    assert_eq!(folder.read("rig.log"), LOG);
    assert_eq!(folder.others(), ["none.log", "out.log"]);
}

#[test]
fn something_differs() {
    let folder = folder("compare-other");
    let mut out = folder.read("out.log");
    // boost[1] of record 3, and the valve of record 47 at a number without a symbol
    out[3 * 7 + 3] ^= 1;
    let boost = u32::from(out[3 * 7 + 3]) + 256 * u32::from(out[3 * 7 + 4]);
    let valve = LOG[47 * 8 + 7];
    out[47 * 7] = 9;
    folder.write("other.log", &out);
    let ran = folder.run(&format!("{COMPARE} rig.log other.log"));
    let lines = format!("3\t3\t{}\t{boost}\n47\t0\t{valve}\t9\n", boost ^ 1);
    listed(&ran, 4, &lines, "48 records, 2 differences\n");
    folder.write("odd.log", ODD);
    folder.write("even.log", &[9, 100, 0, 0xd0, 7, 0xff, 15]);
    let ran = folder.run(&format!("{COMPARE} odd.log even.log"));
    listed(&ran, 4, "0\t0\t7\t9\n", "1 record, 1 difference\n");
}

#[test]
fn many_parts_count_records_from_the_start() {
    let folder = Folder::new("compare-parts");
    let log = LOG.repeat(3200);
    let mut other = log.clone();
    for record in [0, 65_536, 131_071, 153_599] {
        other[8 * record + 7] ^= 1;
    }
    folder.write("long.log", &log);
    folder.write("other.log", &other);
    let ran = folder.run("compare rig.sheet rig.sheet long.log other.log");
    let records: Vec<&str> = std::str::from_utf8(&ran.out)
        .unwrap()
        .lines()
        .map(|line| line.split('\t').next().unwrap())
        .collect();
    assert_eq!(records, ["record", "0", "65536", "131071", "153599"]);
    assert_eq!(
        (ran.status, &ran.error[..]),
        (4, "153600 records, 4 differences\n")
    );
}

#[test]
fn standard_input() {
    let folder = folder("compare-standard");
    let out = folder.read("out.log");
    let done = "48 records, 0 differences\n";
    for (words, input) in [
        ("compare rig.sheet customer.sheet - out.log", LOG),
        ("compare rig.sheet customer.sheet rig.log -", &out),
        ("compare - customer.sheet rig.log out.log", RIG),
        ("compare rig.sheet - rig.log out.log", CUSTOMER),
    ] {
        listed(&folder.run_with(words, input), 0, "", done);
    }
    let ran = folder.shell("$y compare rig.sheet customer.sheet <(cat rig.log) <(cat out.log)");
    listed(&ran, 0, "", done);
}

#[test]
fn lengths_that_do_not_belong_together() {
    let folder = folder("compare-lengths");
    let out = folder.read("out.log");
    folder.write("short.log", &LOG[8..]);
    folder.write("cut.log", &LOG[1..]);
    folder.write("cut-out.log", &out[1..]);
    for (words, said) in [
        (
            "short.log out.log",
            "short.log and out.log: the first log has 47 records and the second 48: compare logs of as many records",
        ),
        (
            "cut.log out.log",
            "cut.log: the first log has 383 bytes, which is no multiple of its record's 8: complete the last record or cut its 7 bytes off, or correct the sheet",
        ),
        (
            "rig.log cut-out.log",
            "cut-out.log: the second log has 335 bytes, which is no multiple of its record's 7: complete the last record or cut its 6 bytes off, or correct the sheet",
        ),
        (
            "rig.log none.log",
            "cannot read none.log: No such file or directory (os error 2)",
        ),
    ] {
        folder
            .run(&format!("{COMPARE} {words}"))
            .said(1, &format!("yirvagul: {said}\n"));
    }
    // a pipe says its length only at its end
    let ran = folder.shell(&format!("head -c 24 rig.log | $y {COMPARE} - out.log"));
    listed(
        &ran,
        1,
        "",
        "yirvagul: standard input and out.log: the first log has 3 records and the second 48: compare logs of as many records\n",
    );
}

#[test]
fn refusals() {
    let folder = folder("compare-refused");
    folder.write("faulty", b"comp\t0\n");
    folder.write(
        "bits.sheet",
        b"bits\t2\tLE\t0\t16\tzero\tzero\narray\t0\t3\ncomp\t6\nmember\tboost\t0\t1\n",
    );
    let fault = "is faulty, `comp\\t0`: the size is 0: a compound has 1 to 4,096 bytes";
    for (words, said) in [
        (
            "compare faulty customer.sheet rig.log out.log",
            format!("faulty: SOURCE (3): line 1 of the first sheet {fault}"),
        ),
        (
            "compare rig.sheet faulty rig.log out.log",
            format!("faulty: DESTINATION (4): line 1 of the second sheet {fault}"),
        ),
        (
            "compare bits.sheet customer.sheet rig.log out.log",
            "bits.sheet and customer.sheet: PATH (5): no path from the first log's type to the second log's type: `boost[0]` is bits in the first sheet and an int in the second: give both the same class".into(),
        ),
    ] {
        folder.run(words).said(3, &format!("yirvagul: {said}\n"));
    }
}

#[test]
fn usage() {
    let folder = Folder::new("compare-usage");
    let see = "see `yirvagul compare --help`\n";
    for (words, n) in [("compare", 0), (COMPARE, 2)] {
        folder.run(words).said(
            2,
            &format!("yirvagul: it takes 4 files, FIRST.sheet SECOND.sheet FIRST SECOND, and {n} are there: {see}"),
        );
    }
    folder.run(&format!("{COMPARE} - -")).said(
        2,
        &format!("yirvagul: standard input (-) is there twice: {see}"),
    );
    folder
        .run(&format!("{COMPARE} rig.log rig.log --clamp"))
        .said(2, &format!("yirvagul: there is no option --clamp: {see}"));
}

#[test]
fn output_that_cannot_be_written() {
    let folder = folder("compare-system");
    let line = format!("$y {COMPARE} rig.log out.log");
    folder.shell(&format!("{line} >/dev/full")).said(
        1,
        "yirvagul: cannot write standard output: No space left on device (os error 28)\n",
    );
    folder
        .shell(&format!("set -o pipefail; (sleep 0.2; exec {line}) | true"))
        .said(
            1,
            "yirvagul: cannot write standard output: Broken pipe (os error 32)\n",
        );
}

/// Logs of 3 MB, all numbers of which differ: a list of 30 MB, in an address space of 24 MB.
#[test]
fn large_logs_in_little_memory() {
    let folder = Folder::new("compare-large");
    let log = LOG.repeat(8_000);
    let other: Vec<u8> = log.iter().map(|byte| byte ^ 0x11).collect();
    folder.write("large.log", &log);
    folder.write("other.log", &other);
    let ran = folder.shell(
        "ulimit -v 24000; $y compare rig.sheet rig.sheet large.log other.log | wc -l; exit $PIPESTATUS",
    );
    assert_eq!(ran.status, 4);
    assert_eq!(ran.out, format!("{}\n", 1 + 4 * 48 * 8_000).as_bytes());
    assert_eq!(ran.error, "384000 records, 1536000 differences\n");
    fs::remove_dir_all(folder.path()).unwrap();
}
