//! `yirvagul convert`: what it writes, and what it leaves when it does not.
mod common;

use common::{Folder, CUSTOMER, LOG, ODD, RIG};
use std::fs;
use yirvagul::{convert_copying, Handling};

const SHEETS: &str = "convert rig.sheet customer.sheet";

/// What one call makes of a log over a background of zeros, for each 65,536 records; and its exceptions.
fn one_call(log: &[u8]) -> (Vec<u8>, u64) {
    let (mut out, mut exceptions) = (Vec::new(), 0);
    for log in log.chunks(8 * 65_536) {
        let records = log.len() / 8;
        let mut part = vec![0; 7 * records];
        exceptions += convert_copying(
            RIG,
            CUSTOMER,
            records as u64,
            Handling::Clamp,
            log,
            &mut part,
        )
        .unwrap();
        out.extend(part);
    }
    (out, exceptions)
}

/// A log of three parts, with odd records at some places.
fn long(odd: &[usize]) -> Vec<u8> {
    let mut log = LOG.repeat(3200);
    for record in odd {
        log[8 * record..8 * record + 8].copy_from_slice(ODD);
    }
    log
}

const STOP: &str =
    "yirvagul: long.log: STOP (8): the number 7 for byte 0 of record 70000, member `valve`, \
    has no symbol in the source: give it one in both enums, or clamp\n";

#[test]
fn the_example() {
    let folder = Folder::new("example");
    folder
        .run(&format!("{SHEETS} rig.log out.log"))
        .said(0, "48 records, 0 exceptions\n");
    let (wanted, _) = one_call(LOG);
    assert_eq!(folder.read("out.log"), wanted);
    // shut, 100, 98, 110
    assert_eq!(wanted[..7], [0, 100, 0, 98, 0, 110, 0]);
    assert_eq!(folder.others(), ["out.log"]);
}

#[test]
fn many_parts_equal_single_calls_on_any_number_of_threads() {
    let folder = Folder::new("parts");
    let log = long(&[5, 70_000]);
    let (wanted, exceptions) = one_call(&log);
    assert_eq!(exceptions, 2);
    folder.write("long.log", &log);
    for jobs in ["", "--jobs 1", "--jobs=2", "--jobs 7"] {
        let ran = folder.run(&format!("{SHEETS} long.log out.log --clamp {jobs}"));
        ran.said(0, "153600 records, 2 exceptions\n");
        assert!(folder.read("out.log") == wanted, "{jobs}");
        fs::remove_file(folder.path().join("out.log")).unwrap();
    }
}

#[test]
fn a_stop_names_the_first_and_leaves_the_output() {
    let folder = Folder::new("stop");
    folder.write("long.log", &long(&[150_000, 70_000, 70_001]));
    folder.write("out.log", b"as it was");
    for words in ["", "--stop", "--jobs 2", "--jobs 5 --stop"] {
        folder
            .run(&format!("{SHEETS} long.log out.log {words}"))
            .said(3, STOP);
        folder
            .run(&format!("{SHEETS} long.log - {words}"))
            .said(3, STOP);
    }
    assert_eq!(folder.read("out.log"), b"as it was");
    folder.run(&format!("{SHEETS} long.log new.log"));
    assert_eq!(folder.others(), ["long.log", "out.log"]);
}

#[test]
fn a_stop_says_the_number() {
    let folder = Folder::new("number");
    folder.write("real.sheet", b"real\t8\tBE\ncomp\t8\nmember\toil\t0\t0\n");
    folder.write(
        "int.sheet",
        b"int\t8\tBE\t0\t64\tzero\tzero\tsigned\ncomp\t8\nmember\toil\t0\t0\n",
    );
    for (sheets, bits, said) in [
        (
            "real.sheet int.sheet",
            0x7ff8_0000_0000_0001,
            "the real NaN (0x7ff8000000000001)",
        ),
        (
            "real.sheet int.sheet",
            (-1.5_f64).to_bits(),
            "the real -1.5",
        ),
        (
            "int.sheet real.sheet",
            (1 << 63) + 1,
            "the number -9223372036854775807",
        ),
    ] {
        folder.write("one.log", &bits.to_be_bytes());
        let ran = folder.run(&format!("convert {sheets} one.log out.log"));
        let start =
            format!("yirvagul: one.log: STOP (8): {said} for byte 0 of record 0, member `oil`, ");
        assert!(ran.status == 3 && ran.error.starts_with(&start), "{ran:?}");
    }
}

#[test]
fn pressures_as_doubles_and_back() {
    let folder = Folder::new("doubles");
    folder.write(
        "doubles.sheet",
        b"real\t8\tLE\narray\t0\t3\ncomp\t24\nmember\tboost\t0\t1\n",
    );
    folder
        .run("convert rig.sheet doubles.sheet rig.log doubles.log")
        .said(0, "48 records, 0 exceptions\n");
    let mut doubles = folder.read("doubles.log");
    let first: Vec<u8> = [100.0, 98.0, 110.0]
        .into_iter()
        .flat_map(f64::to_le_bytes)
        .collect();
    assert_eq!(doubles[..24], first);
    // Record 7 has a sensor whose plug is loose.
    doubles[24 * 7 + 8..24 * 7 + 16].copy_from_slice(&f64::NAN.to_le_bytes());
    folder.write("loose.log", &doubles);
    let back = "convert doubles.sheet customer.sheet loose.log back.log";
    folder.run(back).said(
        3,
        "yirvagul: loose.log: STOP (8): the real NaN (0x7ff8000000000000) for byte 3 of record 7, member `boost[1]`, is not-a-number, which no int holds: make the destination a real, or clamp\n",
    );
    folder
        .run(&format!("{back} --clamp"))
        .said(0, "48 records, 1 exception\n");
    assert_eq!(folder.read("back.log")[7 * 7 + 3..7 * 7 + 5], [0, 0]);
}

/// A pressure of 12 bits in the top of two bytes, and a signed byte.
const SHORT: &[u8] = b"int\t2\tBE\t4\t12\tzero\tzero\tunsigned\nint\t1\tLE\t0\t8\tzero\tzero\tsigned\ncomp\t3\nmember\ta\t0\t0\nmember\tb\t2\t1\n";

/// The byte in two, a gap, and the pressure in 10 bits.
const WIDER: &[u8] = b"int\t2\tLE\t2\t10\tzero\tone\tunsigned\nint\t2\tBE\t0\t16\tzero\tzero\tunsigned\ncomp\t5\nmember\tb\t0\t1\nmember\ta\t3\t0\n";

#[test]
fn three_hundred_records_of_ints() {
    let folder = Folder::new("ints");
    folder.write("short.sheet", SHORT);
    folder.write("wider.sheet", WIDER);
    let mut numbers: Vec<(u16, u8)> = (0..300).map(|i| (i * 7 % 1024, (i % 128) as u8)).collect();
    let short = |numbers: &[(u16, u8)]| -> Vec<u8> {
        let record = |&(a, b): &(u16, u8)| [(a >> 4) as u8, (a << 4) as u8, b];
        numbers.iter().flat_map(record).collect()
    };
    let wider = |numbers: &[(u16, u8)]| -> Vec<u8> {
        let record = |&(a, b): &(u16, u8)| {
            let [low, high] = (a.min(1023) << 2 | 0xf000).to_le_bytes();
            [0, b, 0, low, high]
        };
        numbers.iter().flat_map(record).collect()
    };
    folder.write("short.log", &short(&numbers));
    folder
        .run("convert short.sheet wider.sheet short.log -")
        .wrote(&wider(&numbers), "300 records, 0 exceptions\n");
    folder.write("wider.log", &wider(&numbers));
    folder
        .run("convert wider.sheet short.sheet wider.log -")
        .wrote(&short(&numbers), "300 records, 0 exceptions\n");
    for record in [0, 255, 256, 299] {
        numbers[record].0 += 2048;
    }
    folder.write("short.log", &short(&numbers));
    folder
        .run("convert --clamp short.sheet wider.sheet short.log -")
        .wrote(&wider(&numbers), "300 records, 4 exceptions\n");
}

/// Two numbers of 16 bits.
const TWO: &[u8] =
    b"int\t2\tBE\t0\t16\tzero\tzero\tunsigned\ncomp\t4\nmember\toil\t0\t0\nmember\tboost\t2\t0\n";

/// A byte each, whose member lines end so.
fn bytes(oil: &str, boost: &str) -> Vec<u8> {
    format!("int\t1\tLE\t0\t8\tzero\tzero\tunsigned\ncomp\t2\nmember\toil\t0\t0{oil}\nmember\tboost\t1\t0{boost}\n").into_bytes()
}

/// So many records; the oils and the boosts of the records that are named fit no byte.
fn two(records: usize, oils: &[usize], boosts: &[usize]) -> Vec<u8> {
    let mut log: Vec<u8> = (0..records)
        .flat_map(|i| [0, 5, 0, (i % 251) as u8])
        .collect();
    for record in oils {
        log[4 * record] = 1;
    }
    for record in boosts {
        log[4 * record + 2] = 2;
    }
    log
}

/// What it is converted to by clamping.
fn two_bytes(log: &[u8]) -> Vec<u8> {
    let byte = |number: &[u8]| if number[0] > 0 { 255 } else { number[1] };
    log.chunks(2).map(byte).collect()
}

#[test]
fn a_word_goes_before_the_options() {
    let folder = Folder::new("words");
    folder.write("two.sheet", TWO);
    let words = ["", "\tclamp", "\tstop"];
    let log = two(48, &[7, 8, 40], &[20]);
    folder.write("two.log", &log);
    for option in ["", "--stop", "--clamp"] {
        for oil in words {
            for boost in words {
                folder.write("bytes.sheet", &bytes(oil, boost));
                let ran = folder.run(&format!("convert two.sheet bytes.sheet two.log - {option}"));
                let stops = |word: &str| match word {
                    "" => option != "--clamp",
                    word => word == "\tstop",
                };
                let says = |word: &str, name: &str| {
                    match word {
                    "" => ": widen the destination, or clamp\n".to_string(),
                    _ => format!(", and the destination sheet says stop for `{name}`: widen the destination, or write clamp there\n"),
                }
                };
                let start = "yirvagul: two.log: STOP (8): the number";
                let above = "is above the destination's range";
                if stops(oil) {
                    let end = says(oil, "oil");
                    ran.said(
                        3,
                        &format!("{start} 261 for byte 0 of record 7, member `oil`, {above}{end}"),
                    );
                } else if stops(boost) {
                    let end = says(boost, "boost");
                    ran.said(
                        3,
                        &format!(
                            "{start} 532 for byte 1 of record 20, member `boost`, {above}{end}"
                        ),
                    );
                } else {
                    let by = match option {
                        "--clamp" => "",
                        _ => ", clamped by a word of their members",
                    };
                    ran.wrote(&two_bytes(&log), &format!("48 records, 4 exceptions{by}\n"));
                }
            }
        }
    }
}

#[test]
fn what_words_clamped_is_said() {
    let folder = Folder::new("clamped");
    folder.write("two.sheet", TWO);
    folder.write("bytes.sheet", &bytes("\tclamp", ""));
    for (oils, said) in [
        (&[][..], "48 records, 0 exceptions"),
        (
            &[9],
            "48 records, 1 exception, clamped by a word of its members",
        ),
        (
            &[9, 10, 47],
            "48 records, 3 exceptions, clamped by a word of their members",
        ),
    ] {
        let log = two(48, oils, &[]);
        folder.write("two.log", &log);
        for option in ["", "--stop"] {
            folder
                .run(&format!("convert two.sheet bytes.sheet two.log - {option}"))
                .wrote(&two_bytes(&log), &format!("{said}\n"));
        }
        let (plain, _) = said.split_once(", clamped").unwrap_or((said, ""));
        folder
            .run("convert two.sheet bytes.sheet two.log - --clamp")
            .wrote(&two_bytes(&log), &format!("{plain}\n"));
    }
}

#[test]
fn words_of_the_log_have_no_effect() {
    let folder = Folder::new("source-words");
    let marked = String::from_utf8_lossy(TWO).replace("\t0\n", "\t0\tclamp\n");
    folder.write("two.sheet", marked.as_bytes());
    folder.write("bytes.sheet", &bytes("", ""));
    let log = two(3, &[], &[1]);
    folder.write("two.log", &log);
    folder
        .run("convert two.sheet bytes.sheet two.log -")
        .said(3, "yirvagul: two.log: STOP (8): the number 513 for byte 1 of record 1, member `boost`, is above the destination's range: widen the destination, or clamp\n");
    let marked = marked.replace("clamp", "stop");
    folder.write("two.sheet", marked.as_bytes());
    folder
        .run("convert two.sheet bytes.sheet two.log - --clamp")
        .wrote(&two_bytes(&log), "3 records, 1 exception\n");
}

/// Three parts, in which a third of the oils is clamped, on any number of threads.
#[test]
fn words_in_every_part_of_a_long_log() {
    let folder = Folder::new("long-words");
    folder.write("two.sheet", TWO);
    folder.write("bytes.sheet", &bytes("\tclamp", "\tstop"));
    let oils: Vec<usize> = (0..150_000).step_by(3).collect();
    let fits = two(150_000, &oils, &[]);
    let wanted = two_bytes(&fits);
    folder.write("fits.log", &fits);
    folder.write("long.log", &two(150_000, &oils, &[149_999, 80_001, 80_000]));
    folder.write("out.log", b"as it was");
    let stop = "yirvagul: long.log: STOP (8): the number 694 for byte 1 of record 80000, member `boost`, is above the destination's range, \
        and the destination sheet says stop for `boost`: widen the destination, or write clamp there\n";
    for jobs in ["", "--jobs 2", "--jobs 5"] {
        for option in ["", "--clamp"] {
            for out in ["out.log", "-"] {
                folder
                    .run(&format!(
                        "convert two.sheet bytes.sheet long.log {out} {option} {jobs}"
                    ))
                    .said(3, stop);
            }
            let said = match option {
                "" => "150000 records, 50000 exceptions, clamped by a word of their members\n",
                _ => "150000 records, 50000 exceptions\n",
            };
            folder
                .run(&format!(
                    "convert two.sheet bytes.sheet fits.log - {option} {jobs}"
                ))
                .wrote(&wanted, said);
        }
    }
    assert_eq!(folder.read("out.log"), b"as it was");
    folder
        .run_with(
            "convert two.sheet bytes.sheet - out.log --clamp --jobs 3",
            &fits,
        )
        .said(0, "150000 records, 50000 exceptions\n");
    assert!(folder.read("out.log") == wanted);
}

#[test]
fn the_member_whose_word_stopped_it_is_named() {
    let folder = Folder::new("named");
    let sheet = |base: &str, size: usize, word: &str, inner: &str| {
        let (pair, whole) = (2 * size, 6 * size);
        format!("{base}comp\t{pair}\nmember\ta\t0\t0\nmember\tb\t{size}\t0{inner}\narray\t1\t3\ncomp\t{whole}\nmember\tcells\t0\t2\ncomp\t{whole}\nmember\tbank\t0\t3{word}\n")
    };
    let (pair, byte) = (
        "int\t2\tBE\t0\t16\tzero\tzero\tunsigned\n",
        "int\t1\tLE\t0\t8\tzero\tzero\tunsigned\n",
    );
    folder.write("from.sheet", sheet(pair, 2, "", "").as_bytes());
    folder.write("to.sheet", sheet(byte, 1, "\tstop", "\tclamp").as_bytes());
    // b of each element clamps; a of the last one stops, two members below the word
    folder.write("one.log", &[0, 1, 1, 0, 0, 2, 1, 0, 3, 4, 1, 0]);
    folder
        .run("convert from.sheet to.sheet one.log out.log --clamp")
        .said(3, "yirvagul: one.log: STOP (8): the number 772 for byte 4 of record 0, member `bank.cells[2].a`, is above the destination's range, and the destination sheet says stop for `bank`: widen the destination, or write clamp there\n");
    folder.write("one.log", &[0, 1, 1, 0, 0, 2, 1, 0, 0, 4, 1, 0]);
    folder.run("convert from.sheet to.sheet one.log -").wrote(
        &[1, 255, 2, 255, 4, 255],
        "1 record, 3 exceptions, clamped by a word of their members\n",
    );
}

#[test]
fn a_faulty_word() {
    let folder = Folder::new("faulty-word");
    folder.write("two.sheet", TWO);
    folder.write("two.log", &two(3, &[], &[]));
    folder.write("bytes.sheet", &bytes("", "\tstops"));
    folder
        .run("convert two.sheet bytes.sheet two.log out.log")
        .said(3, "yirvagul: bytes.sheet: DESTINATION (4): line 4 of the destination sheet is faulty, `member\\tboost\\t1\\t0\\tstops`: the last field is `stops`: write clamp or stop, or leave it out\n");
    assert_eq!(folder.others(), ["bytes.sheet", "two.log", "two.sheet"]);
}

#[test]
fn one_exception_is_said_in_the_singular() {
    let folder = Folder::new("singular");
    folder.write("odd.log", ODD);
    let ran = folder.run(&format!("{SHEETS} odd.log - --clamp"));
    ran.wrote(&one_call(ODD).0, "1 record, 1 exception\n");
}

#[test]
fn standard_input_and_output() {
    let folder = Folder::new("standard");
    let (wanted, _) = one_call(LOG);
    let closing = "48 records, 0 exceptions\n";
    // pipes
    folder
        .run(&format!("{SHEETS} rig.log -"))
        .wrote(&wanted, closing);
    folder
        .run_with(&format!("{SHEETS} - -"), LOG)
        .wrote(&wanted, closing);
    folder
        .run_with(&format!("{SHEETS} - out.log"), LOG)
        .said(0, closing);
    assert_eq!(folder.read("out.log"), wanted);
    folder
        .run_with("convert - customer.sheet rig.log -", RIG)
        .wrote(&wanted, closing);
    folder
        .run_with("convert rig.sheet - rig.log -", CUSTOMER)
        .wrote(&wanted, closing);
    // plain files
    folder
        .shell("$y convert rig.sheet customer.sheet - - <rig.log >out2.log")
        .said(0, closing);
    assert_eq!(folder.read("out2.log"), wanted);
    // a pipe by its name
    folder
        .shell("$y convert rig.sheet customer.sheet <(cat rig.log) out3.log")
        .said(0, closing);
    assert_eq!(folder.read("out3.log"), wanted);
    folder
        .shell("$y convert rig.sheet customer.sheet rig.log /dev/stdout | cat")
        .wrote(&wanted, closing);
    // behind what is there already
    folder
        .shell("(printf head; $y convert rig.sheet customer.sheet rig.log -) >out4.log")
        .said(0, closing);
    assert_eq!(folder.read("out4.log"), [b"head", &wanted[..]].concat());
}

#[test]
fn a_long_log_through_pipes() {
    let folder = Folder::new("pipes");
    let log = long(&[]);
    let (wanted, _) = one_call(&log);
    for jobs in ["", "--jobs 3"] {
        folder
            .run_with(&format!("{SHEETS} - - {jobs}"), &log)
            .wrote(&wanted, "153600 records, 0 exceptions\n");
    }
}

#[test]
fn a_log_can_be_its_own_output() {
    let folder = Folder::new("itself");
    folder
        .run(&format!("{SHEETS} rig.log rig.log"))
        .said(0, "48 records, 0 exceptions\n");
    assert_eq!(folder.read("rig.log"), one_call(LOG).0);
}

#[test]
fn an_empty_log() {
    let folder = Folder::new("empty");
    folder.write("empty.log", b"");
    folder
        .run(&format!("{SHEETS} empty.log out.log"))
        .said(0, "0 records, 0 exceptions\n");
    assert_eq!(folder.read("out.log"), b"");
}

#[test]
fn refused_sheets() {
    let folder = Folder::new("sheets");
    folder.write("bad.sheet", b"int\t2\tBE\t4\t13\tzero\tzero\tunsigned\n");
    folder.write("byte.sheet", b"int\t1\tLE\t0\t8\tzero\tzero\tunsigned\n");
    folder.write("out.log", b"as it was");
    let fault = "sheet is faulty, `int\\t2\\tBE\\t4\\t13\\tzero\\tzero\\tunsigned`: offset 4 and precision 13 make 17 bits, above the 16 of 2 bytes: make the size larger, or one of them smaller\n";
    folder
        .run("convert bad.sheet customer.sheet rig.log out.log")
        .said(
            3,
            &format!("yirvagul: bad.sheet: SOURCE (3): line 1 of the source {fault}"),
        );
    folder
        .run("convert rig.sheet bad.sheet rig.log out.log")
        .said(
            3,
            &format!("yirvagul: bad.sheet: DESTINATION (4): line 1 of the destination {fault}"),
        );
    folder
        .run("convert rig.sheet byte.sheet rig.log out.log")
        .said(3, "yirvagul: rig.sheet to byte.sheet: PATH (5): no path from the source type to the destination type: the record is a compound in the source and an int in the destination: give both the same class\n");
    let few = String::from_utf8_lossy(CUSTOMER).replace("value\tshut\t0\n", "");
    folder.write("few.sheet", few.as_bytes());
    folder
        .run("convert rig.sheet few.sheet rig.log out.log --clamp")
        .said(3, "yirvagul: rig.sheet to few.sheet: SYMBOLS (12): `valve` has the symbol `shut` in the source and not in the destination: give the destination's enum that symbol, with a number of its own\n");
    // before the log is looked for
    assert_eq!(
        folder
            .run("convert bad.sheet customer.sheet none out.log")
            .status,
        3
    );
    assert_eq!(folder.read("out.log"), b"as it was");
}

#[test]
fn a_ragged_end() {
    let folder = Folder::new("ragged");
    folder.write("ragged.log", &LOG[..100]);
    folder.write("out.log", b"as it was");
    let said = "the log has 100 bytes, which is no multiple of its record's 8: complete the last record or cut its 4 bytes off, or correct the sheet\n";
    for out in ["out.log", "-"] {
        folder
            .run(&format!("{SHEETS} ragged.log {out}"))
            .said(1, &format!("yirvagul: ragged.log: {said}"));
        folder
            .run_with(&format!("{SHEETS} - {out}"), &LOG[..100])
            .said(1, &format!("yirvagul: standard input: {said}"));
    }
    assert_eq!(folder.read("out.log"), b"as it was");
    assert_eq!(folder.others(), ["out.log", "ragged.log"]);
}

/// The customer's record with a gap, so that a background shows.
const GAP: &[u8] = b"int\t1\tLE\t0\t8\tzero\tzero\tunsigned\nenum\t0\nvalue\tshut\t0\nvalue\topen\t1\ncomp\t3\nmember\tvalve\t1\t1\n";

fn valves(background: impl Fn(usize) -> [u8; 2]) -> Vec<u8> {
    let records = LOG.chunks(8).enumerate();
    records
        .flat_map(|(i, record)| {
            let [before, behind] = background(i);
            [before, 1 - record[7], behind]
        })
        .collect()
}

#[test]
fn backgrounds() {
    let folder = Folder::new("backgrounds");
    folder.write("gap.sheet", GAP);
    folder.write("one", &[7, 8, 9]);
    let each: Vec<u8> = (0..144).collect();
    folder.write("each", &each);
    let closing = "48 records, 0 exceptions\n";
    let words = "convert rig.sheet gap.sheet";
    let over_each = valves(|i| [3 * i as u8, 3 * i as u8 + 2]);
    folder
        .run(&format!("{words} rig.log -"))
        .wrote(&valves(|_| [0, 0]), closing);
    folder
        .run(&format!("{words} rig.log - --background one"))
        .wrote(&valves(|_| [7, 9]), closing);
    folder
        .run(&format!("{words} --background=each rig.log -"))
        .wrote(&over_each, closing);
    folder
        .run_with(&format!("{words} rig.log - --background -"), &each)
        .wrote(&over_each, closing);
    folder
        .run_with(&format!("{words} - out --background each"), LOG)
        .said(0, closing);
    assert_eq!(folder.read("out"), over_each);
}

#[test]
fn a_background_of_another_length() {
    let folder = Folder::new("background");
    folder.write("gap.sheet", GAP);
    folder.write("out.log", b"as it was");
    for length in [0, 2, 4, 141, 147] {
        folder.write("other", &vec![0; length]);
        let ran = folder.run("convert rig.sheet gap.sheet rig.log out.log --background other");
        ran.said(1, &format!("yirvagul: other: the background has {length} bytes: give one destination record, which is 3 bytes, or as many as the log has, which is 48 x 3 bytes\n"));
    }
    assert_eq!(folder.read("out.log"), b"as it was");
}

#[test]
fn files_that_are_not_there() {
    let folder = Folder::new("missing");
    let none = "No such file or directory (os error 2)\n";
    for (words, said) in [
        ("none customer.sheet rig.log out", "cannot read none: "),
        ("rig.sheet none rig.log out", "cannot read none: "),
        ("rig.sheet customer.sheet none out", "cannot read none: "),
        (
            "rig.sheet customer.sheet rig.log out --background none",
            "cannot read none: ",
        ),
        (
            "rig.sheet customer.sheet rig.log none/out",
            "cannot write none/out: ",
        ),
    ] {
        folder
            .run(&format!("convert {words}"))
            .said(1, &format!("yirvagul: {said}{none}"));
    }
    folder
        .run(&format!("{SHEETS} . out"))
        .said(1, "yirvagul: cannot read .: Is a directory (os error 21)\n");
    folder.run(&format!("{SHEETS} rig.log .")).said(
        1,
        "yirvagul: cannot write .: Is a directory (os error 21)\n",
    );
    assert_eq!(folder.others(), [""; 0]);
}

#[test]
fn usage() {
    let folder = Folder::new("usage");
    let see = "see `yirvagul convert --help`\n";
    for (words, said) in [
        (
            "",
            "it takes 4 files, FROM.sheet TO.sheet IN OUT, and 0 are there",
        ),
        (
            "rig.sheet customer.sheet rig.log",
            "it takes 4 files, FROM.sheet TO.sheet IN OUT, and 3 are there",
        ),
        (
            "rig.sheet customer.sheet rig.log out more",
            "it takes 4 files, FROM.sheet TO.sheet IN OUT, and 5 are there",
        ),
        (
            "rig.sheet customer.sheet rig.log out --clmap",
            "there is no option --clmap",
        ),
        (
            "rig.sheet customer.sheet rig.log out -j",
            "there is no option -j",
        ),
        (
            "rig.sheet customer.sheet rig.log out --clamp --stop",
            "--clamp and --stop exclude each other",
        ),
        (
            "rig.sheet customer.sheet rig.log out --clamp=1",
            "there is no option --clamp=1",
        ),
        (
            "rig.sheet customer.sheet rig.log out --jobs",
            "--jobs has no value",
        ),
        (
            "rig.sheet customer.sheet rig.log out --jobs 0",
            "--jobs is 0: give a number from 1 to 64",
        ),
        (
            "rig.sheet customer.sheet rig.log out --jobs 65",
            "--jobs is 65: give a number from 1 to 64",
        ),
        (
            "rig.sheet customer.sheet rig.log out --jobs=x",
            "--jobs is x: give a number from 1 to 64",
        ),
        (
            "rig.sheet customer.sheet rig.log out --jobs 2 --jobs 3",
            "--jobs is there twice",
        ),
        ("- - rig.log out", "standard input (-) is there twice"),
        (
            "rig.sheet customer.sheet - out --background -",
            "standard input (-) is there twice",
        ),
    ] {
        folder
            .run(&format!("convert {words}"))
            .said(2, &format!("yirvagul: {said}: {see}"));
    }
    assert_eq!(folder.others(), [""; 0]);
}

#[test]
fn a_file_whose_name_is_like_an_option() {
    let folder = Folder::new("names");
    folder.write("--clamp", LOG);
    folder
        .run("convert rig.sheet customer.sheet -- --clamp --stop")
        .said(0, "48 records, 0 exceptions\n");
    assert_eq!(folder.read("--stop"), one_call(LOG).0);
}
