//! What the system does to a program: full disks, closed pipes, little memory, a terminal.
mod common;

use common::{Folder, LOG};
use std::fs;
use std::os::unix::fs::FileTypeExt;

const FULL: &str = "No space left on device (os error 28)\n";

#[test]
fn a_full_device() {
    let folder = Folder::new("full");
    let convert = "$y convert rig.sheet customer.sheet rig.log";
    folder
        .shell(&format!("{convert} /dev/full"))
        .said(1, &format!("yirvagul: cannot write /dev/full: {FULL}"));
    assert!(fs::metadata("/dev/full")
        .unwrap()
        .file_type()
        .is_char_device());
    folder
        .shell(&format!("{convert} - >/dev/full"))
        .said(1, &format!("yirvagul: cannot write the output: {FULL}"));
    for words in [
        "list rig.sheet",
        "size rig.sheet",
        "--help",
        "convert --help",
    ] {
        folder.shell(&format!("$y {words} >/dev/full")).said(
            1,
            &format!("yirvagul: cannot write standard output: {FULL}"),
        );
    }
}

/// A file that may not grow any further stands for a disk that is full.
#[test]
fn a_full_disk_leaves_the_output() {
    let folder = Folder::new("disk");
    folder.write("long.log", &LOG.repeat(2000));
    folder.write("out.log", b"as it was");
    for jobs in ["", "--jobs 3"] {
        folder
            .shell(&format!("trap '' XFSZ; ulimit -f 64; $y convert rig.sheet customer.sheet long.log out.log {jobs}"))
            .said(1, "yirvagul: cannot write out.log: File too large (os error 27)\n");
        assert_eq!(folder.read("out.log"), b"as it was");
    }
    assert_eq!(folder.others(), ["long.log", "out.log"]);
}

#[test]
fn a_full_disk_for_the_temporary_file() {
    let folder = Folder::new("temporary");
    folder.write("long.log", &LOG.repeat(2000));
    fs::create_dir(folder.path().join("tmp")).unwrap();
    let ran = folder.shell("trap '' XFSZ; ulimit -f 64; cat long.log | TMPDIR=tmp $y convert rig.sheet customer.sheet - -");
    ran.said(
        1,
        "yirvagul: cannot write a temporary file in tmp: File too large (os error 27)\n",
    );
    assert_eq!(fs::read_dir(folder.path().join("tmp")).unwrap().count(), 0);
    folder
        .shell("cat rig.log | TMPDIR=none $y convert rig.sheet customer.sheet - -")
        .said(1, "yirvagul: cannot write a temporary file in none: No such file or directory (os error 2)\n");
}

#[test]
fn a_closed_pipe() {
    let folder = Folder::new("closed");
    folder.write("long.log", &LOG.repeat(20_000));
    let broken = "Broken pipe (os error 32)\n";
    for (words, what) in [
        ("convert rig.sheet customer.sheet long.log -", "the output"),
        (
            "convert rig.sheet customer.sheet long.log - --jobs 3",
            "the output",
        ),
        ("list rig.sheet", "standard output"),
        ("size rig.sheet", "standard output"),
        ("--help", "standard output"),
    ] {
        // the reader is gone before the program starts
        folder
            .shell(&format!(
                "set -o pipefail; (sleep 0.2; exec $y {words}) | true"
            ))
            .said(1, &format!("yirvagul: cannot write {what}: {broken}"));
    }
    // one that reads a little
    let ran =
        folder.shell("set -o pipefail; $y convert rig.sheet customer.sheet long.log - | head -c 7");
    assert_eq!((ran.status, ran.out.len()), (1, 7));
}

#[test]
fn closed_streams() {
    let folder = Folder::new("streams");
    let words = "convert rig.sheet customer.sheet rig.log out.log";
    for streams in ["2>&-", "<&- >&- 2>&-"] {
        folder.shell(&format!("$y {words} {streams}")).said(0, "");
    }
    assert_eq!(folder.read("out.log").len(), 48 * 7);
}

/// 48 MB, or as many as YIRVAGUL_TEST_MB says, in an address space of 24 MB on one thread, and of 40 MB on four.
#[test]
fn a_large_log_in_little_memory() {
    let folder = Folder::new("large");
    let megabytes = std::env::var("YIRVAGUL_TEST_MB").map_or(48, |mb| mb.parse().unwrap());
    let records = megabytes * 1_000_000 / LOG.len() * 48;
    let log = fs::File::create(folder.path().join("large.log")).unwrap();
    let mut log = std::io::BufWriter::new(log);
    for _ in 0..records / 48 {
        std::io::Write::write_all(&mut log, LOG).unwrap();
    }
    drop(log);
    let closing = format!("{records} records, 0 exceptions\n");
    let convert = "exec $y convert rig.sheet customer.sheet";
    for line in [
        format!("ulimit -v 24000; {convert} large.log out.log"),
        format!("ulimit -v 24000; {convert} - - <large.log >out.log"),
        format!("ulimit -v 40000; {convert} large.log out.log --jobs 4"),
    ] {
        folder.shell(&line).said(0, &closing);
        assert_eq!(folder.read("out.log").len(), records * 7);
    }
    fs::remove_dir_all(folder.path()).unwrap();
}

/// A terminal of `script` shows progress while more of the log is awaited; the line is wiped at the end.
#[test]
fn progress_on_a_terminal() {
    let folder = Folder::new("terminal");
    folder.write("long.log", &LOG.repeat(1400));
    let slow = "(cat long.log; sleep 0.5; cat long.log; sleep 0.3; cat long.log)";
    let convert = "convert rig.sheet customer.sheet - out.log";
    let ran = folder.shell(&format!("script -qec '{slow} | $y {convert}' /dev/null"));
    assert_eq!(ran.status, 0);
    let shown = String::from_utf8(ran.out).unwrap();
    let lines: Vec<&str> = shown.split("\r\x1b[K").collect();
    assert!(lines.contains(&"converting: 131072 records"), "{shown:?}");
    assert_eq!(lines.last(), Some(&"201600 records, 0 exceptions\r\n"));
    // elsewhere there is none
    folder
        .shell(&format!("{slow} | $y {convert}"))
        .said(0, "201600 records, 0 exceptions\n");
}
