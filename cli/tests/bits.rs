//! `yirvagul bits`: the picture as text and as an SVG.
mod common;

use common::{Folder, RIG};

const OIL: &[u8] = include_bytes!("../../examples/oil.sheet");
const GAUGES: &[u8] = include_bytes!("../../examples/gauges.sheet");

/// A name of 31 bytes, and one of bytes that XML wants escaped.
const LONG: &str = "pressure_of_the_left_turbo_inle";
const ODD: &str = "<&\"'>";

fn folder(name: &str) -> Folder {
    let folder = Folder::new(name);
    folder.write("oil.sheet", OIL);
    folder.write("gauges.sheet", GAUGES);
    folder
}

/// A sheet from lines whose fields are parted by blanks.
fn sheet(lines: &[&str]) -> Vec<u8> {
    let lines = lines.iter().map(|line| line.replace(' ', "\t") + "\n");
    lines.collect::<String>().into_bytes()
}

#[test]
fn every_sort_of_bit_beside_a_record() {
    let picture = "\
byte        0        1        2        3        4        5        6        7
hex        06       43       7d       0c       a3       f6       a7       01
bits 00000110 01000011 01111101 00001100 10100011 11110110 10100111 00000001
     NNNNNNNN NNNNpppp NNNNNNNN NNNNpppp NNNNNNpp ppppNNNN gggggggg uuuuuuuu
leaf boost[0] -------- boost[1] -------- oil -------------          valve --
to   byte 0 ---------- byte 2 ---------- byte 4 ----------

N     34 bits  significant in a matched leaf, can show in the result
p     14 bits  pad of a matched leaf
u      8 bits  in a leaf that is not matched
g      8 bits  gap, in no leaf

leaf  bytes  name      goes to
#1    0-1    boost[0]  boost[0], byte 0
#2    2-3    boost[1]  boost[1], byte 2
#3    4-5    oil       oil, byte 4
#4    7      valve     -
";
    let folder = folder("bits");
    for record in [
        "06437d0ca3f6a701",
        "06437D0CA3F6A701",
        "'06 43 7d 0c a3 f6 a7 01'",
    ] {
        let line = format!("$y bits oil.sheet gauges.sheet --record {record}");
        folder.shell(&line).wrote(picture.as_bytes(), "");
    }
    // without the record
    let lines = picture.lines();
    let bare: Vec<&str> = lines
        .filter(|line| !line.starts_with("hex") && !line.starts_with("bits"))
        .collect();
    let bare = bare.join("\n") + "\n";
    folder
        .run("bits oil.sheet gauges.sheet")
        .wrote(bare.as_bytes(), "");
    folder
        .run_with("bits - gauges.sheet", OIL)
        .wrote(bare.as_bytes(), "");
    folder
        .run_with("bits oil.sheet -", GAUGES)
        .wrote(bare.as_bytes(), "");
}

#[test]
fn rows_of_eight_bytes() {
    let folder = folder("rows");
    let from = [
        "int 1 LE 1 6 zero zero signed",
        "real 8 LE",
        "comp 18",
        &format!("member {LONG} 0 0"),
        &format!("member {ODD} 1 0"),
        "member temperature 4 1",
        "member 12345678 17 0",
    ];
    let to = [
        "int 1 LE 0 8 zero zero signed",
        "comp 4001",
        &format!("member {ODD} 4000 0"),
    ];
    folder.write("from.sheet", &sheet(&from));
    folder.write("to.sheet", &sheet(&to));
    let picture = format!(
        "\
byte        0        1        2        3        4        5        6        7
     uuuuuuuu pNNNNNNp gggggggg gggggggg uuuuuuuu uuuuuuuu uuuuuuuu uuuuuuuu
leaf #1 ----- {ODD} --                   temperature -----------------------
to            4000 ---

byte        8        9       10       11       12       13       14       15
     uuuuuuuu uuuuuuuu uuuuuuuu uuuuuuuu gggggggg gggggggg gggggggg gggggggg
leaf temperature -----------------------
to

byte       16       17
     gggggggg uuuuuuuu
leaf          12345678
to

N      6 bits  significant in a matched leaf, can show in the result
p      2 bits  pad of a matched leaf
u     80 bits  in a leaf that is not matched
g     56 bits  gap, in no leaf

leaf  bytes  name                             goes to
#1    0      {LONG}  -
#2    1      {ODD}                            {ODD}, byte 4000
#3    4-11   temperature                      -
#4    17     12345678                         -
"
    );
    folder
        .run("bits from.sheet to.sheet")
        .wrote(picture.as_bytes(), "");
}

#[test]
fn records_of_one_leaf_and_of_none() {
    let folder = folder("plain");
    let byte = sheet(&["int 1 LE 0 1 zero zero unsigned"]);
    folder.write("bit.sheet", &byte);
    let ran = folder.run("bits bit.sheet bit.sheet --record ff");
    let text = String::from_utf8(ran.out).unwrap();
    let picture = "byte        0\nhex        ff\nbits 11111111\n     pppppppN\nleaf (record)\nto   byte 0 -\n\nN      1 bit ";
    assert!(text.starts_with(picture), "{text}");
    assert!(text.ends_with("#1    0      (record)  (record), byte 0\n"));
    folder.write("none.sheet", b"comp\t2\n");
    let ran = folder.run("bits none.sheet none.sheet");
    let text = String::from_utf8(ran.out).unwrap();
    assert!(text.starts_with("byte        0        1\n     gggggggg gggggggg\n\nN      0 bits"));
    assert!(text.ends_with("g     16 bits  gap, in no leaf\n"), "{text}");
}

#[test]
fn refusals() {
    let folder = folder("refused-bits");
    folder.write("faulty.sheet", b"comp\t0\n");
    let rule = "`comp\\t0`: the size is 0: a compound has 1 to 4,096 bytes";
    folder.run("bits faulty.sheet oil.sheet").said(
        3,
        &format!(
            "yirvagul: faulty.sheet: SOURCE (3): line 1 of the source sheet is faulty, {rule}\n"
        ),
    );
    folder.run("bits oil.sheet faulty.sheet").said(
        3,
        &format!("yirvagul: faulty.sheet: DESTINATION (4): line 1 of the destination sheet is faulty, {rule}\n"),
    );
    folder.write("byte.sheet", &sheet(&["int 1 LE 0 8 zero zero unsigned"]));
    folder.run("bits oil.sheet byte.sheet").said(
        3,
        "yirvagul: oil.sheet to byte.sheet: PATH (5): no path from the source type to the destination type: the record is a compound in the source and an int in the destination: give both the same class\n",
    );
    let valve = ["int 1 LE 0 8 zero zero unsigned", "enum 0", "value open 0"];
    folder.write(
        "open.sheet",
        &sheet(&[&valve[..], &["comp 1", "member valve 0 1"]].concat()),
    );
    folder.run("bits rig.sheet open.sheet --svg out.svg").said(
        3,
        "yirvagul: rig.sheet to open.sheet: SYMBOLS (12): `valve` has the symbol `shut` in the source and not in the destination: give the destination's enum that symbol, with a number of its own\n",
    );
    assert!(!folder.others().contains(&"out.svg".into()));
    folder.run("bits none oil.sheet").said(
        1,
        "yirvagul: cannot read none: No such file or directory (os error 2)\n",
    );
}

#[test]
fn usage() {
    let folder = folder("bits-usage");
    let see = "see `yirvagul bits --help`\n";
    folder.run("bits oil.sheet").said(
        2,
        &format!("yirvagul: it takes 2 files, FROM.sheet TO.sheet, and 1 are there: {see}"),
    );
    folder.run("bits - -").said(
        2,
        &format!("yirvagul: standard input (-) is there twice: {see}"),
    );
    folder
        .run("bits oil.sheet gauges.sheet --colour")
        .said(2, &format!("yirvagul: there is no option --colour: {see}"));
    for (record, said) in [
        ("064", "064"),
        ("zz", "zz"),
        ("'+1'", "+1"),
        ("$'\\n'", "\\n"),
    ] {
        let line = format!("$y bits oil.sheet gauges.sheet --record {record}");
        let wanted = format!("yirvagul: --record is `{said}`: give the bytes of a record, two hex digits each: {see}");
        folder.shell(&line).said(2, &wanted);
    }
    for (record, has) in [
        ("''", "0 bytes"),
        ("06", "1 byte"),
        ("06437d0ca3f6a70100", "9 bytes"),
    ] {
        let line = format!("$y bits oil.sheet gauges.sheet --svg out.svg --record {record}");
        let wanted =
            format!("yirvagul: --record has {has}, and a record of oil.sheet has 8 bytes: {see}");
        folder.shell(&line).said(2, &wanted);
    }
    assert!(!folder.others().contains(&"out.svg".into()));
}

/// A terminal of `script` has colours, unless it or its user wants none.
#[test]
fn colours_on_a_terminal() {
    let folder = folder("colours");
    let shown = |variables: &str| {
        let line = format!(
            "{variables} script -qec \"$y bits oil.sheet gauges.sheet\" /dev/null </dev/null"
        );
        String::from_utf8(folder.shell(&line).out).unwrap()
    };
    let coloured = shown("TERM=xterm NO_COLOR=");
    let pair = "\x1b[1;97;44mNNNN\x1b[0m\x1b[30;43mpppp\x1b[0m";
    assert!(coloured.contains(pair), "{coloured:?}");
    let mut bare = coloured;
    for code in [
        "\x1b[1;97;44m",
        "\x1b[30;43m",
        "\x1b[30;47m",
        "\x1b[2m",
        "\x1b[0m",
    ] {
        assert!(bare.contains(code), "{code:?}");
        bare = bare.replace(code, "");
    }
    let plain = folder.run("bits oil.sheet gauges.sheet").out;
    assert_eq!(bare.replace('\r', "").as_bytes(), plain);
    for variables in ["TERM=xterm NO_COLOR=1", "TERM=dumb"] {
        assert_eq!(shown(variables).replace('\r', "").as_bytes(), plain);
    }
}

/// The value of an attribute of a tag.
fn attribute<'a>(tag: &'a str, name: &str) -> &'a str {
    let (_, value) = tag.split_once(&format!(" {name}=\"")).expect(name);
    value.split_once('"').unwrap().0
}

/// The texts of an SVG, each with its left, top, right and bottom: letters of a fixed width of six tenths of their size.
fn texts(svg: &str) -> Vec<(String, [f64; 4])> {
    let tags = svg.split("<text").skip(1);
    tags.map(|tag| {
        let (head, rest) = tag.split_once('>').unwrap();
        let text = rest.split_once("</text>").unwrap().0;
        let mut letters = text.to_string();
        for (code, letter) in [
            ("lt", "<"),
            ("gt", ">"),
            ("quot", "\""),
            ("apos", "'"),
            ("amp", "&"),
        ] {
            letters = letters.replace(&format!("&{code};"), letter);
        }
        let number = |name| attribute(head, name).parse::<f64>().unwrap();
        let (x, y, size) = (number("x"), number("y"), number("font-size"));
        let width = letters.chars().count() as f64 * size * 0.602;
        let is_middle = head.contains("class=\"m");
        let left = if is_middle { x - width / 2.0 } else { x };
        (
            letters,
            [left, y - 0.75 * size, left + width, y + 0.2 * size],
        )
    })
    .collect()
}

/// No two texts overlap, and none leaves the picture.
#[track_caller]
fn is_readable(svg: &str) {
    let box_ = attribute(svg, "viewBox");
    let numbers: Vec<f64> = box_.split(' ').map(|n| n.parse().unwrap()).collect();
    let texts = texts(svg);
    for (i, (text, [left, top, right, bottom])) in texts.iter().enumerate() {
        let is_inside =
            *left >= 0.0 && *top >= 0.0 && *right <= numbers[2] && *bottom <= numbers[3];
        assert!(is_inside, "{text} is outside");
        for (other, [l, t, r, b]) in &texts[..i] {
            let is_apart = right <= l || r <= left || bottom <= t || b <= top;
            assert!(is_apart, "{text} and {other} overlap");
        }
    }
}

/// A sheet of 64 bytes: long names, an array, a leaf over two rows, a way of many names.
fn large() -> Vec<u8> {
    let mut lines: Vec<String> = [
        "int 1 LE 0 7 zero zero unsigned",
        "real 8 BE",
        "array 0 3 7",
        "comp 1",
    ]
    .map(String::from)
    .into();
    lines.push(format!("member {LONG} 0 0"));
    for inner in 3..7 {
        lines.extend(["comp 1".into(), format!("member {LONG} 0 {inner}")]);
    }
    lines.push("comp 64".into());
    for (name, at, of) in [
        (LONG, 0, 0),
        (ODD, 1, 0),
        ("map", 2, 2),
        ("real", 30, 1),
        ("deep", 40, 7),
        ("x", 63, 0),
    ] {
        lines.push(format!("member {name} {at} {of}"));
    }
    sheet(&lines.iter().map(String::as_str).collect::<Vec<_>>())
}

#[test]
fn an_svg_that_can_be_read() {
    let folder = folder("svg");
    folder.write("large.sheet", &large());
    folder.write("byte.sheet", &sheet(&["int 1 LE 0 8 zero zero unsigned"]));
    let odd_name = format!("{ODD}{}.sheet", "of a long file name ".repeat(9));
    folder.write(&odd_name, RIG);
    let text = folder.run("bits large.sheet large.sheet").out;
    let svg = |words: &str| {
        let ran = folder.shell(&format!("$y bits {words} --svg out.svg"));
        assert_eq!((ran.status, &ran.error[..]), (0, ""), "{words}");
        String::from_utf8(folder.read("out.svg")).unwrap()
    };
    let drawn = svg("large.sheet large.sheet");
    is_readable(&drawn);
    for said in [
        "&lt;&amp;&quot;&apos;&gt;",
        "map[2][6]",
        "\u{2026}#25",
        "\u{2192} byte 63",
    ] {
        assert!(drawn.contains(&format!("{said}</text>")), "{said}");
    }
    // the whole of a name that is cut stands below
    let all: String = texts(&drawn).into_iter().map(|text| text.0).collect();
    assert!(all.contains(&format!(
        "#25 deep.{}, byte 40 \u{2192} byte 40",
        [LONG; 5].join(".")
    )));
    assert_eq!(drawn.matches(">N</text>").count(), 7 * 25 + 64 + 1);
    assert_eq!(drawn.matches(">p</text>").count(), 25 + 1);

    for words in [
        "byte.sheet byte.sheet",
        "byte.sheet byte.sheet --record ff",
        "oil.sheet gauges.sheet",
        "oil.sheet gauges.sheet --record 06437d0ca3f6a701",
        &format!("'{}' customer.sheet", odd_name.replace('\'', "'\\''")),
    ] {
        let drawn = svg(words);
        is_readable(&drawn);
        let is_whole = "python3 -c 'import xml.dom.minidom as m; m.parse(\"out.svg\")'";
        assert_eq!(folder.shell(is_whole).status, 0, "{words}");
    }
    // the text is there as well, or the SVG in its place
    let ran = folder.run("bits large.sheet large.sheet --svg out.svg");
    ran.wrote(&text, "");
    let ran = folder.run("bits large.sheet large.sheet --svg -");
    ran.wrote(&folder.read("out.svg"), "");
    folder
        .run("bits oil.sheet gauges.sheet --svg none/out.svg")
        .said(
            1,
            "yirvagul: cannot write none/out.svg: No such file or directory (os error 2)\n",
        );
    for line in ["--svg /dev/full", ">/dev/full", "--svg - >/dev/full"] {
        let ran = folder.shell(&format!("$y bits oil.sheet gauges.sheet {line}"));
        assert_eq!((ran.status, ran.out.len()), (1, 0), "{line}");
        assert!(ran
            .error
            .ends_with(": No space left on device (os error 28)\n"));
    }
}

/// The record of the largest size.
#[test]
fn four_thousand_leaves() {
    let folder = folder("many");
    folder.write(
        "many.sheet",
        &sheet(&["int 1 LE 0 8 zero zero unsigned", "array 0 4096"]),
    );
    let ran = folder.run("bits many.sheet many.sheet");
    assert_eq!((ran.status, &ran.error[..]), (0, ""));
    let text = String::from_utf8(ran.out).unwrap();
    assert_eq!(text.matches("NNNNNNNN").count(), 4096);
    assert!(text.contains("\nleaf [1000] - [1001] - "));
    assert!(text.contains("\nto   1000 --- 1001 --- "));
    assert!(text.ends_with("#4096  4095   [4095]  [4095], byte 4095\n"));
    assert!(text
        .lines()
        .all(|line| line.len() <= 80 && !line.ends_with(' ')));
}
