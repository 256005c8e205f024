//! `yirvagul list`, `yirvagul size` and the help.
mod common;

use common::{Folder, RIG};
use std::fs;
use std::path::Path;

#[test]
fn the_list_of_document_01() {
    let folder = Folder::new("list");
    let list = b"at\tsize\tclass\n0\t2\tint\n2\t2\tint\n4\t2\tint\n7\t1\tenum\n";
    folder.run("list rig.sheet").wrote(list, "");
    folder.run_with("list -", RIG).wrote(list, "");
}

#[test]
fn a_refused_list() {
    let folder = Folder::new("refused");
    let ran = folder.run_with("list -", b"int\t1\tLE\t0\t8\tzero\tzero\tsigned\nenum\t1\n");
    assert_eq!((ran.status, &ran.out[..]), (3, &b"refused\t3\t2\n"[..]));
    assert_eq!(
        ran.error,
        "yirvagul: standard input: SOURCE (3): line 2 of the sheet is faulty, `enum\\t1`: there is no type 1 yet: the only type before this line is 0\n"
    );
    folder.write("empty", b"");
    let ran = folder.run("list empty");
    assert_eq!((ran.status, &ran.out[..]), (3, &b"refused\t3\t1\n"[..]));
    // one byte too long, and endless
    folder.write("long", &[b'x'; 16_385]);
    for line in ["$y list long", "yes | $y list -"] {
        let ran = folder.shell(line);
        assert_eq!((ran.status, &ran.out[..]), (3, &b"refused\t3\t0\n"[..]));
        assert!(ran.error.ends_with("sheet is faulty: it is longer than 16,384 bytes: shorten its names, or drop types that nothing uses\n"));
    }
}

/// On the sheets of the proved program `lists`, the output is that program's.
#[test]
fn the_lists_of_the_proved_program() {
    let lists = Path::new(env!("CARGO_MANIFEST_DIR")).join("../crates/lists");
    let wanted = fs::read_to_string(lists.join("stdout")).unwrap();
    let folder = Folder::new("lists");
    for sheet in fs::read_dir(lists.join("data")).unwrap() {
        let sheet = sheet.unwrap();
        let name = sheet.file_name().into_string().unwrap();
        let (_, wanted) = wanted.split_once(&format!("{name}:\n")).expect(&name);
        let ran = folder.run_with("list -", &fs::read(sheet.path()).unwrap());
        let out = String::from_utf8(ran.out).unwrap();
        assert!(!out.is_empty() && wanted.starts_with(&out), "{name}");
        let is_refused = wanted.starts_with("refused");
        assert_eq!(ran.status, if is_refused { 3 } else { 0 }, "{name}");
        assert_eq!(
            out.lines().count() == 1 && ran.error.is_empty(),
            name == "no_leaves"
        );
    }
}

#[test]
fn sizes() {
    let folder = Folder::new("size");
    folder.run("size rig.sheet").wrote(b"8\n", "");
    folder.run("size customer.sheet").wrote(b"7\n", "");
    folder
        .run_with("size -", b"comp\t0\n")
        .said(3, "yirvagul: standard input: SOURCE (3): line 1 of the sheet is faulty, `comp\\t0`: the size is 0: a compound has 1 to 4,096 bytes\n");
}

#[test]
fn usage() {
    let folder = Folder::new("other-usage");
    for command in ["list", "size"] {
        let see = format!("see `yirvagul {command} --help`\n");
        folder.run(command).said(
            2,
            &format!("yirvagul: it takes one file, SHEET, and 0 are there: {see}"),
        );
        folder.run(&format!("{command} rig.sheet rig.sheet")).said(
            2,
            &format!("yirvagul: it takes one file, SHEET, and 2 are there: {see}"),
        );
        folder
            .run(&format!("{command} rig.sheet --jobs 2"))
            .said(2, &format!("yirvagul: there is no option --jobs: {see}"));
        folder.run(&format!("{command} none")).said(
            1,
            "yirvagul: cannot read none: No such file or directory (os error 2)\n",
        );
    }
    folder
        .run("")
        .said(2, "yirvagul: no command: see `yirvagul --help`\n");
    folder.run("convrt").said(
        2,
        "yirvagul: there is no command convrt: see `yirvagul --help`\n",
    );
}

#[test]
fn help_has_an_example() {
    let folder = Folder::new("help");
    for words in [
        "--help",
        "-h",
        "convert --help",
        "compare --help",
        "report --help",
        "bits --help",
        "list --help",
        "size -h",
    ] {
        let ran = folder.run(words);
        let said = String::from_utf8(ran.out).unwrap();
        assert_eq!((ran.status, &ran.error[..]), (0, ""), "{words}");
        let (_, example) = said.split_once("example:\n  ").expect("an example");
        // that runs, in the folder above the examples
        let line = example
            .trim_end()
            .replace("yirvagul ", "$y ")
            .replace("examples/", "");
        assert_eq!(folder.shell(&line).status, 0, "{line}");
    }
    let version = format!("yirvagul {}\n", env!("CARGO_PKG_VERSION"));
    folder.run("--version").wrote(version.as_bytes(), "");
}
