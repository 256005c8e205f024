//! Each rule of a sheet's lines: where the library finds the sheet faulty, and what is said of it.
use super::{BITS, BYTE, REAL, SIGNED};
use crate::sheet::{self, Fault};
use crate::*;

/// The library refuses the sheet, in the line and with the rule that are given.
fn breaks(sheet: &[u8], line: u32, rule: &str) {
    let e = leaf_list(sheet).unwrap_err();
    let Error::Source {
        line: found,
        rule: said,
        ..
    } = &e
    else {
        panic!("{e}")
    };
    let shown = sheet::shown(sheet);
    assert_eq!((*found, said.as_deref()), (line, Some(rule)), "{shown}");
    assert!(e.to_string().ends_with(&format!(": {rule}")));
}

/// A first line that is faulty.
fn first(line: &str, rule: &str) {
    breaks(format!("{line}\n").as_bytes(), 1, rule);
}

/// A line that is faulty behind an unsigned byte, which is type 0.
fn second(line: &str, rule: &str) {
    breaks(&[BYTE, line.as_bytes(), b"\n"].concat(), 2, rule);
}

/// A value line that is faulty behind an enum of a signed byte with the value `open`, -3.
fn value(line: &str, rule: &str) {
    let sheet = [
        SIGNED,
        b"enum\t0\nvalue\topen\t-3\n",
        line.as_bytes(),
        b"\n",
    ]
    .concat();
    breaks(&sheet, 4, rule);
}

/// A member line that is faulty behind a compound of 8 bytes with the member `boost` at bytes 2 and 3.
fn member(line: &str, rule: &str) {
    let pair = b"int\t2\tBE\t0\t16\tzero\tzero\tunsigned\ncomp\t8\nmember\tboost\t2\t0\n";
    breaks(&[pair, line.as_bytes(), b"\n"].concat(), 4, rule);
}

#[test]
fn the_whole_sheet() {
    let long = "it is longer than 16,384 bytes: shorten its names, or drop types that nothing uses";
    breaks(&vec![b'x'; 16_385], 0, long);
    let e = leaf_list(&vec![b'x'; 16_385]).unwrap_err();
    assert_eq!(
        e.to_string(),
        format!("SOURCE (3): the sheet is faulty: {long}")
    );
    breaks(b"", 1, "the sheet is empty: it has at least one type");
    breaks(
        &BYTE[..BYTE.len() - 1],
        1,
        "it does not end in byte 10: end the last line with a newline too",
    );
    breaks(
        &BYTE.repeat(65),
        65,
        "it is the 65th type: a sheet has at most 64",
    );
    let mut sheet = [BYTE, b"comp\t4096\n"].concat();
    for i in 0..257 {
        sheet.extend(format!("member\tm{i}\t{i}\t0\n").bytes());
    }
    breaks(
        &sheet,
        259,
        "it is the 257th value or member line: a sheet has at most 256 of them",
    );
}

#[test]
fn a_lines_end_and_fields() {
    first("", "the line is empty: drop it");
    second(
        "comp\t4\r",
        "it ends in a carriage return (byte 13): end each line with byte 10 alone",
    );
    second("comp\t4 ", "it ends in a blank: drop it");
    second(
        "comp\t4\t",
        "it ends in a tab: drop it, or write the field that is missing",
    );
    second(
        "comp\t\t4",
        "two tabs stand together: part fields by one, and leave none empty",
    );
    second(
        "\tcomp\t4",
        "it starts with a tab: start it with its first word",
    );
    second(
        "comp 4",
        "its fields are parted by blanks: part them by one tab each",
    );
    second(
        "Comp\t4",
        "its first word is `Comp`: write it in small letters",
    );
    second(
        "compound\t4",
        "its first word is `compound`: write int, bits, real, enum, value, comp, member or array",
    );
}

#[test]
fn the_number_of_fields() {
    first(
        "int\t1\tLE\t0\t8\tzero\tzero",
        "it has 7 fields, and a line of this sort 8: int, size, order, offset, precision, lsb, msb, sign",
    );
    first(
        "bits\t1\tLE\t0\t8\tzero\tzero\tunsigned",
        "it has 8 fields, and a line of this sort 7: bits, size, order, offset, precision, lsb, msb (bits have no sign)",
    );
    second(
        "enum",
        "it has 1 field, and a line of this sort 2: enum, base",
    );
    second(
        "comp\t4\t4",
        "it has 3 fields, and a line of this sort 2: comp, size",
    );
    value(
        "value\tshut",
        "it has 2 fields, and a line of this sort 3: value, name, number",
    );
    member(
        "member\ta\t0",
        "it has 3 fields, and a line of this sort 4 or 5: member, name, byte offset, type, word (the word is clamp or stop, or left out)",
    );
    member(
        "member\ta\t0\t0\tclamp\tstop",
        "it has 6 fields, and a line of this sort 4 or 5: member, name, byte offset, type, word (the word is clamp or stop, or left out)",
    );
    second(
        "array",
        "it has no base: write the number of a type, then one to four dimensions",
    );
    second("array\t0", "it has no dimension: an array has one to four");
    second(
        "array\t0\t1\t1\t1\t1\t1",
        "it has 5 dimensions: an array has one to four",
    );
}

#[test]
fn numbers() {
    second(
        "comp\t01",
        "the size `01` has a leading zero: write it without",
    );
    second(
        "comp\t00",
        "the size `00` has a leading zero: write it without",
    );
    second(
        "comp\t+1",
        "the size `+1` has a sign: write decimal digits alone",
    );
    second(
        "comp\t-1",
        "the size `-1` has a sign: write decimal digits alone",
    );
    second(
        "comp\t4x",
        "the size `4x` is no number: write decimal digits alone",
    );
    second(
        "comp\t4294967297",
        "the size 4294967297 is above 4,294,967,295, the largest number of a sheet",
    );
    second(
        "array\t0\t2\tx",
        "the dimension 2 `x` is no number: write decimal digits alone",
    );
    second(
        "array\tx\t2",
        "the base `x` is no number: write decimal digits alone",
    );
    member(
        "member\ta\t 0\t0",
        "the byte offset ` 0` is no number: write decimal digits alone",
    );
    member(
        "member\ta\t0\t00",
        "the type `00` has a leading zero: write it without",
    );
    first(
        "int\t1\tLE\tx\t8\tzero\tzero\tsigned",
        "the offset `x` is no number: write decimal digits alone",
    );
    first(
        "int\t1\tLE\t0\t08\tzero\tzero\tsigned",
        "the precision `08` has a leading zero: write it without",
    );
}

#[test]
fn atomic_types() {
    first(
        "int\t0\tLE\t0\t8\tzero\tzero\tsigned",
        "the size is 0: it is 1 to 8 bytes",
    );
    first(
        "bits\t9\tLE\t0\t8\tzero\tzero",
        "the size is 9: it is 1 to 8 bytes",
    );
    first(
        "int\t1\tle\t0\t8\tzero\tzero\tsigned",
        "the order is `le`: write LE or BE",
    );
    first(
        "int\t1\tLE\t0\t0\tzero\tzero\tsigned",
        "the precision is 0: it is 1 to 64 bits",
    );
    first(
        "int\t8\tLE\t0\t65\tzero\tzero\tsigned",
        "the precision is 65: it is 1 to 64 bits",
    );
    first(
        "int\t1\tLE\t1\t8\tzero\tzero\tsigned",
        "offset 1 and precision 8 make 9 bits, above the 8 of 1 byte: make the size larger, or one of them smaller",
    );
    first(
        "int\t2\tLE\t4294967295\t1\tzero\tzero\tsigned",
        "offset 4294967295 and precision 1 make 4294967296 bits, above the 16 of 2 bytes: make the size larger, or one of them smaller",
    );
    first(
        "int\t1\tLE\t0\t8\tnone\tzero\tsigned",
        "the lsb pad is `none`: write zero, one or keep",
    );
    first(
        "bits\t1\tLE\t0\t8\tzero\tZero",
        "the msb pad is `Zero`: write zero, one or keep",
    );
    first(
        "int\t1\tLE\t0\t8\tzero\tzero\tSigned",
        "the sign is `Signed`: write signed or unsigned",
    );
}

#[test]
fn reals() {
    for (line, rule) in [
        ("real", "it has 1 field, and a line of this sort 3: real, size, order"),
        ("real\t8", "it has 2 fields, and a line of this sort 3: real, size, order"),
        (
            "real\t8\tLE\t0\t64\tzero\tzero",
            "it has 7 fields, and a line of this sort 3: real, size, order (a real has no offset, precision, pads or sign)",
        ),
        ("real\t4\tLE", "the size is 4: a real has 8 bytes"),
        ("real\t9\tBE", "the size is 9: a real has 8 bytes"),
        ("real\t08\tBE", "the size `08` has a leading zero: write it without"),
        (
            "real\t4294967304\tBE",
            "the size 4294967304 is above 4,294,967,295, the largest number of a sheet",
        ),
        ("real\t8\tbe", "the order is `be`: write LE or BE"),
        ("Real\t8\tLE", "its first word is `Real`: write it in small letters"),
    ] {
        first(line, rule);
    }
    let real = |line: &[u8], rule: &str| breaks(&[REAL, line].concat(), 2, rule);
    real(b"enum\t0\n", "type 0 is a real: an enum's base is an int");
    real(
        b"value\ta\t0\n",
        "a value line follows an enum or its values, and the type before it is a real",
    );
    real(
        b"array\t0\t513\n",
        "513 elements of 8 bytes pass 4,096 bytes: make a dimension smaller",
    );
}

#[test]
fn types_that_a_line_names() {
    first(
        "enum\t0",
        "there is no type 0: no type stands before this line",
    );
    second(
        "enum\t1",
        "there is no type 1 yet: the only type before this line is 0",
    );
    second(
        "array\t7\t2",
        "there is no type 7 yet: the only type before this line is 0",
    );
    breaks(
        &[BYTE, BITS, b"array\t2\t1\n"].concat(),
        3,
        "there is no type 2 yet: the types before this line are 0 to 1",
    );
    breaks(
        &[BITS, b"enum\t0\n"].concat(),
        2,
        "type 0 is bits: an enum's base is an int",
    );
    breaks(
        &[BYTE, b"enum\t0\nenum\t1\n"].concat(),
        3,
        "type 1 is an enum: an enum's base is an int",
    );
    member(
        "member\ta\t0\t1",
        "type 1 does not stand before the compound, which is type 1: a member's type has a lower number",
    );
    member(
        "member\ta\t0\t9",
        "type 9 does not stand before the compound, which is type 1: a member's type has a lower number",
    );
}

#[test]
fn names() {
    let long = "n".repeat(32);
    value(
        &format!("value\t{long}\t1"),
        &format!("the name `{long}` has 32 bytes: a name has 1 to 31"),
    );
    member(
        "member\ta b\t0\t0",
        "the name `a b` has byte 32: a name's bytes are 33 to 126",
    );
    member(
        "member\t\u{e4}\t0\t0",
        "the name `\\xc3\\xa4` has byte 195: a name's bytes are 33 to 126",
    );
}

#[test]
fn values() {
    first(
        "value\ta\t0",
        "a value line follows an enum or its values, and no type stands before it",
    );
    second(
        "value\ta\t0",
        "a value line follows an enum or its values, and the type before it is an int",
    );
    member(
        "value\ta\t0",
        "a value line follows an enum or its values, and the type before it is a compound",
    );
    value("value\ta\t-0", "the number `-0` has a minus: write 0");
    value(
        "value\ta\t-00",
        "the number `-00` has a leading zero: write it without",
    );
    value(
        "value\ta\t01",
        "the number `01` has a leading zero: write it without",
    );
    value(
        "value\ta\t-",
        "the number `-` is no number: write decimal digits alone",
    );
    value(
        "value\ta\t1x",
        "the number `1x` is no number: write decimal digits alone",
    );
    value(
        "value\ta\t+1",
        "the number `+1` has a plus: write decimal digits, with a minus before them where it is negative",
    );
    for outside in [
        "128",
        "-129",
        "99999999999999999999999999999999999999999999",
    ] {
        value(
            &format!("value\ta\t{outside}"),
            &format!("the number {outside} is outside the range of the enum's base, -128 to 127"),
        );
    }
    value(
        "value\topen\t1",
        "the name `open` stands on line 3 already: give each value of an enum its own",
    );
    value(
        "value\ta\t-3",
        "the number -3 stands on line 3 already, for `open`: give each value of an enum its own",
    );
}

#[test]
fn the_range_of_an_enums_base() {
    let outside = |precision: u32, sign: &str, number: &str, range: &str| {
        let base = format!("int\t8\tLE\t0\t{precision}\tzero\tzero\t{sign}\n");
        breaks(
            format!("{base}enum\t0\nvalue\ta\t{number}\n").as_bytes(),
            3,
            &format!("the number {number} is outside the range of the enum's base, {range}"),
        );
    };
    outside(1, "signed", "1", "-1 to 0");
    outside(64, "unsigned", "-1", "0 to 18446744073709551615");
    outside(
        64,
        "signed",
        "9223372036854775808",
        "-9223372036854775808 to 9223372036854775807",
    );
}

#[test]
fn compounds() {
    second("comp\t0", "the size is 0: a compound has 1 to 4,096 bytes");
    second(
        "comp\t4097",
        "the size is 4097: a compound has 1 to 4,096 bytes",
    );
    first(
        "member\ta\t0\t0",
        "a member line follows a compound or its members, and no type stands before it",
    );
    second(
        "member\ta\t0\t0",
        "a member line follows a compound or its members, and the type before it is an int",
    );
    member(
        "member\ta\t7\t0",
        "it takes bytes 7 to 8, and the compound has 8 bytes: move it, or make the compound larger",
    );
    member(
        "member\ta\t4294967295\t0",
        "it takes bytes 4294967295 to 4294967296, and the compound has 8 bytes: move it, or make the compound larger",
    );
    member(
        "member\tboost\t4\t0",
        "the name `boost` stands on line 3 already: give each member of a compound its own",
    );
    member(
        "member\ta\t1\t0",
        "it takes bytes 1 to 2, and `boost` on line 3 has bytes 2 to 3: members do not overlap",
    );
    breaks(
        &[BYTE, b"comp\t1\nmember\ta\t0\t0\nmember\tb\t0\t0\n"].concat(),
        4,
        "it takes byte 0, and `a` on line 3 has byte 0: members do not overlap",
    );
}

#[test]
fn words_of_members() {
    for word in ["stops", "Clamp", "STOP", "clam", "0", "keep"] {
        member(
            &format!("member\ta\t0\t0\t{word}"),
            &format!("the last field is `{word}`: write clamp or stop, or leave it out"),
        );
    }
    for line in ["member\ta\t0\t0\t", "member\ta\t0\t0\tclamp\t"] {
        member(
            line,
            "it ends in a tab: drop it, or write the field that is missing",
        );
    }
    member("member\ta\t0\t0\tstop ", "it ends in a blank: drop it");
    member(
        "member\ta\t0\t0\t\tstop",
        "two tabs stand together: part fields by one, and leave none empty",
    );
    // no other line has one
    second(
        "comp\t4\tclamp",
        "it has 3 fields, and a line of this sort 2: comp, size",
    );
    // a word mends no other fault of its line
    member(
        "member\tboost\t4\t0\tstop",
        "the name `boost` stands on line 3 already: give each member of a compound its own",
    );
}

#[test]
fn arrays() {
    second("array\t0\t2\t0", "dimension 2 is 0: each is at least 1");
    second(
        "array\t0\t4097",
        "4097 elements of 1 byte pass 4,096 bytes: make a dimension smaller",
    );
    let most = "4294967295";
    second(
        &format!("array\t0\t{most}\t{most}\t{most}\t{most}"),
        &format!(
            "{most} x {most} x {most} x {most} elements of 1 byte pass 4,096 bytes: make a dimension smaller"
        ),
    );
}

#[test]
fn valid_sheets_have_no_fault() {
    let values: String = (0..256).map(|i| format!("value\tv{i}\t{i}\n")).collect();
    let wide = "int\t2\tLE\t0\t9\tzero\tkeep\tunsigned\n";
    let name = "n".repeat(31);
    for sheet in [
        "int\t8\tBE\t63\t1\tone\tkeep\tsigned\nenum\t0\nvalue\t!~\t-1\n".to_string(),
        format!("{wide}comp\t4096\nmember\t{name}\t4094\t0\n"),
        format!("{wide}enum\t0\n{values}"),
        format!("{wide}array\t0\t1\t2\t4\t256\narray\t1\t1\ncomp\t1\n"),
        wide.repeat(64),
        "real\t8\tLE\narray\t0\t512\nreal\t8\tBE\n".to_string(),
        "int\t8\tBE\t0\t64\tone\tone\tunsigned\nenum\t0\nvalue\tall\t18446744073709551615\n"
            .to_string(),
        format!("{wide}enum\t0\narray\t1\t3\ncomp\t2\narray\t3\t3\n"),
        format!(
            "{wide}comp\t6\nmember\ta\t0\t0\tclamp\nmember\tb\t2\t0\nmember\tstop\t4\t0\tstop\n"
        ),
    ] {
        assert_eq!(sheet::read(sheet.as_bytes()).err(), None, "{sheet}");
        assert!(leaf_list(sheet.as_bytes()).is_ok());
    }
}

#[test]
fn a_line_that_is_shown() {
    let text = |sheet: &[u8]| match leaf_list(sheet) {
        Err(Error::Source { text, .. }) => text,
        other => panic!("{other:?}"),
    };
    assert_eq!(text(b"").as_deref(), None);
    assert_eq!(
        text(b"a\tb\x1b\x80\\c").as_deref(),
        Some("a\\tb\\x1b\\x80\\\\c")
    );
    let long = [b"x".repeat(81), b"\n".to_vec()].concat();
    assert_eq!(text(&long), Some("x".repeat(80) + ".."));
}

/// What is read here agrees with the library on sheets that are changed at random: in the faulty line, the size and the leaves.
#[test]
fn damaged_sheets() {
    let sheets: [&[u8]; 5] = [
        b"int\t2\tBE\t4\t12\tzero\tzero\tunsigned\nint\t1\tLE\t0\t8\tzero\tzero\tsigned\nenum\t1\nvalue\topen\t0\nvalue\tshut\t1\narray\t0\t3\ncomp\t8\nmember\tboost\t0\t3\nmember\tvalve\t7\t2\n",
        b"bits\t8\tLE\t0\t64\tone\tkeep\nint\t3\tBE\t23\t1\tkeep\tone\tsigned\nenum\t1\nvalue\ta\t-1\nvalue\tb\t0\n",
        b"int\t1\tLE\t0\t8\tzero\tzero\tunsigned\ncomp\t4\nmember\ta\t0\t0\nmember\tb\t3\t0\narray\t1\t2\t3\t4\t5\ncomp\t4096\nmember\tx\t1\t2\nmember\ty\t0\t0\n",
        b"real\t8\tLE\nint\t1\tLE\t0\t8\tzero\tzero\tunsigned\nreal\t8\tBE\nenum\t1\nvalue\ta\t8\ncomp\t20\nmember\tr\t0\t0\nmember\te\t8\t3\nmember\ts\t9\t2\n",
        b"int\t1\tLE\t0\t8\tzero\tzero\tunsigned\ncomp\t2\nmember\ta\t0\t0\tstop\nmember\tb\t1\t0\narray\t1\t2\ncomp\t6\nmember\tx\t0\t2\tclamp\nmember\ty\t4\t1\tstop\n",
    ];
    let pieces: [&[u8]; 19] = [
        b"\t", b"\n", b"0", b"1", b"9", b"-", b"\r", b" ", b"64", b"int", b"value", b"member",
        b"a", b"LE", b"keep", b"\x80", b"real", b"\tclamp", b"\tstop",
    ];
    let mut state = 1_u64;
    let mut below = |n: usize| {
        // Knuth's multiplier for 64 bits
        state = state
            .wrapping_mul(6_364_136_223_846_793_005)
            .wrapping_add(1);
        (state >> 33) as usize % n
    };
    let (mut faulty, mut good) = (0, 0);
    for _ in 0..20_000 {
        let mut sheet = sheets[below(sheets.len())].to_vec();
        for _ in 0..=below(2) {
            let at = below(sheet.len());
            match below(4) {
                0 => drop(sheet.remove(at)),
                1 => drop(sheet.splice(at..at, pieces[below(pieces.len())].iter().copied())),
                2 => drop(sheet.splice(at..=at, pieces[below(pieces.len())].iter().copied())),
                _ => {
                    // a line twice, or moved
                    let lines: Vec<&[u8]> = sheet.split_inclusive(|&b| b == 10).collect();
                    let mut lines = lines.clone();
                    let line = lines[below(lines.len())];
                    lines.insert(below(lines.len() + 1), line);
                    sheet = lines.concat();
                }
            }
        }
        let shown = sheet::shown(&sheet);
        match (leaf_list(&sheet), sheet::read(&sheet)) {
            (Err(Error::Source { line, rule, .. }), Err(Fault { line: own, .. })) => {
                assert_eq!((line, rule.is_some()), (own, true), "{shown}");
                faulty += 1;
            }
            (Ok(list), Ok(own)) => {
                assert_eq!(record_size(&sheet), Ok(own.size as usize), "{shown}");
                for leaf in list.lines().skip(1) {
                    let at = leaf.split('\t').next().unwrap().parse().unwrap();
                    assert!(sheet::leaf_at(&own, at).is_some(), "{shown}");
                }
                good += 1;
            }
            (library, own) => panic!("{shown}: {library:?}, {own:?}"),
        }
    }
    assert!(faulty > 5_000 && good > 1_000, "{faulty} {good}");
}
