//! Which bits of a source record show: the mask, its refusals, and what the other bits are.
use super::{BITS, BYTE, PAIR, REAL, WIDE};
use crate::*;

const RIG: &[u8] = include_bytes!("../../../../examples/rig.sheet");
const CUSTOMER: &[u8] = include_bytes!("../../../../examples/customer.sheet");

/// A sheet from lines whose fields are parted by blanks.
fn sheet(lines: &[&str]) -> Vec<u8> {
    let lines = lines.iter().map(|line| line.replace(' ', "\t") + "\n");
    lines.collect::<String>().into_bytes()
}

/// A letter for each bit of the record, the highest of a byte first.
fn letters(from: &[u8], to: &[u8]) -> String {
    let bits = source_bits(from, to).unwrap();
    let bytes = (0..bits.mask().as_bytes().len()).map(|byte| {
        let bits = (0..8).rev().map(|bit| bits.bit(byte, bit).letter());
        bits.collect::<String>()
    });
    bytes.collect::<Vec<_>>().join(" ")
}

#[test]
fn the_mask_of_a_rig() {
    let mask = reach(RIG, CUSTOMER).unwrap();
    assert_eq!(
        mask.as_bytes(),
        [0xff, 0xf0, 0xff, 0xf0, 0xff, 0xf0, 0, 0xff]
    );
    assert_eq!(mask.count(), 44);
    assert!(mask.has(0, 0) && mask.has(1, 4) && mask.has(7, 7));
    assert!(!mask.has(1, 3) && !mask.has(6, 0));
    // no bit is there behind the record or behind a byte
    assert!(!mask.has(8, 0) && !mask.has(0, 8));
    assert_eq!(mask.as_ref(), Vec::from(mask.clone()));
    assert_eq!(format!("{:?}", reach(BYTE, PAIR).unwrap()), "Mask([ff])");
}

#[test]
fn either_order_and_reals() {
    for (layout, wanted) in [
        ("int 2 LE 2 10 zero zero unsigned", [0xfc, 0x0f]),
        ("int 2 BE 2 10 zero zero unsigned", [0x0f, 0xfc]),
        ("int 2 LE 0 1 zero zero signed", [1, 0]),
        ("int 2 BE 15 1 keep one unsigned", [0x80, 0]),
    ] {
        let mask = reach(&sheet(&[layout]), PAIR).unwrap();
        assert_eq!(mask.as_bytes(), wanted, "{layout}");
    }
    assert_eq!(reach(REAL, BYTE).unwrap().as_bytes(), [0xff; 8]);
    assert_eq!(reach(WIDE, REAL).unwrap().as_bytes(), [0xff; 8]);
    // a byte of 4,096, and one record of nothing
    let long = [BYTE, b"array\t0\t4096\n"].concat();
    assert_eq!(reach(&long, &long).unwrap().as_bytes(), [0xff; MASK_BYTES]);
    assert_eq!(
        reach(b"comp\t3\n", b"comp\t1\n").unwrap().as_bytes(),
        [0; 3]
    );
}

#[test]
fn one_table_serves_many_calls() {
    let mut converter = Converter::with_table(vec![7; TABLE_WORDS + 1]);
    for _ in 0..2 {
        assert_eq!(converter.reach(BYTE, PAIR).unwrap().as_bytes(), [0xff]);
        assert_eq!(converter.reach(RIG, CUSTOMER), reach(RIG, CUSTOMER));
    }
    let mut short = Converter::with_table(vec![0; TABLE_WORDS - 1]);
    assert_eq!(short.reach(BYTE, PAIR), Err(Error::Table));
}

#[test]
fn refusals_say_why() {
    let said = |from: &[u8], to: &[u8]| reach(from, to).unwrap_err().to_string();
    assert_eq!(
        said(b"enum\t0\n", BYTE),
        "SOURCE (3): line 1 of the source sheet is faulty, `enum\\t0`: there is no type 0: no type stands before this line"
    );
    assert_eq!(
        said(BYTE, b""),
        "DESTINATION (4): line 1 of the destination sheet is faulty: the sheet is empty: it has at least one type"
    );
    assert_eq!(
        said(BYTE, BITS),
        "PATH (5): no path from the source type to the destination type: the record is an int in the source and bits in the destination: give both the same class"
    );
    let few = [BYTE, b"enum\t0\nvalue\topen\t0\n"].concat();
    let more = [&few[..], b"value\tshut\t1\n"].concat();
    assert_eq!(
        said(&more, &few),
        "SYMBOLS (12): the record has the symbol `shut` in the source and not in the destination: give the destination's enum that symbol, with a number of its own"
    );
    assert_eq!(reach(&few, &more).unwrap().as_bytes(), [0xff]);
    assert_eq!(source_bits(BYTE, BITS).unwrap_err().number(), 5);
}

#[test]
fn every_sort_of_bit() {
    let from = sheet(&[
        "int 2 BE 4 12 zero zero unsigned",
        "int 2 LE 2 10 zero zero unsigned",
        "bits 1 LE 0 3 zero zero",
        "array 0 2",
        "comp 8",
        "member boost 0 3",
        "member oil 4 1",
        "member flags 7 2",
    ]);
    let to = sheet(&[
        "int 2 LE 0 16 zero zero unsigned",
        "array 0 2",
        "comp 9",
        "member oil 1 0",
        "member boost 5 1",
    ]);
    assert_eq!(
        letters(&from, &to),
        "NNNNNNNN NNNNpppp NNNNNNNN NNNNpppp NNNNNNpp ppppNNNN gggggggg uuuuuuuu"
    );
    let bits = source_bits(&from, &to).unwrap();
    let leaves: Vec<_> = bits.leaves().iter().collect();
    let told = |leaf: &SourceLeaf| (leaf.name.clone(), leaf.at, leaf.size, leaf.destination);
    assert_eq!(
        leaves.into_iter().map(told).collect::<Vec<_>>(),
        [
            ("boost[0]".into(), 0, 2, Some(5)),
            ("boost[1]".into(), 2, 2, Some(7)),
            ("oil".into(), 4, 2, Some(1)),
            ("flags".into(), 7, 1, None),
        ]
    );
    let counts = Bit::ALL.map(|sort| bits.count(sort));
    assert_eq!(counts, [34, 14, 8, 8]);
    assert_eq!(bits.leaf_at(5).map(|leaf| leaf.at), Some(4));
    assert_eq!(bits.leaf_at(6), None);
    assert_eq!(bits.leaf_at(8), None);
}

/// Names are looked up at the same level of the same way.
#[test]
fn names_at_another_level_do_not_match() {
    let inner = [
        "int 1 LE 0 8 zero zero unsigned",
        "comp 2",
        "member a 1 0",
        "array 1 2 2",
    ];
    let from = sheet(&[&inner[..], &["comp 9", "member b 0 2", "member a 8 0"]].concat());
    let to = sheet(&[&inner[..], &["comp 17", "member a 0 0", "member c 9 2"]].concat());
    assert_eq!(
        letters(&from, &from),
        "gggggggg NNNNNNNN ".repeat(4) + "NNNNNNNN"
    );
    assert_eq!(
        letters(&from, &to),
        "gggggggg uuuuuuuu ".repeat(4) + "NNNNNNNN"
    );
    let names: Vec<_> = source_bits(&from, &to)
        .unwrap()
        .leaves()
        .iter()
        .map(|l| l.name.clone())
        .collect();
    assert_eq!(
        names,
        ["b[0][0].a", "b[0][1].a", "b[1][0].a", "b[1][1].a", "a"]
    );
    // members in the order of their bytes, the record itself, and a record without a leaf
    let back = sheet(&[
        "int 1 LE 0 8 zero zero unsigned",
        "comp 2",
        "member z 1 0",
        "member y 0 0",
    ]);
    let names: Vec<_> = source_bits(&back, &back)
        .unwrap()
        .leaves()
        .iter()
        .map(|l| l.name.clone())
        .collect();
    assert_eq!(names, ["y", "z"]);
    assert_eq!(source_bits(BYTE, PAIR).unwrap().leaves()[0].name, "");
    assert_eq!(letters(b"comp\t1\n", b"comp\t1\n"), "gggggggg");
}

/// A mask and a reading of sheets that disagree are a bug.
#[test]
#[cfg(debug_assertions)]
#[should_panic(expected = "bit 7 of byte 1 is in the mask, and in no matched leaf")]
fn a_significant_bit_outside_a_matched_leaf() {
    let from = sheet(&["int 1 LE 0 8 zero zero unsigned", "comp 2", "member a 0 0"]);
    let mut bits = source_bits(&from, &from).unwrap();
    bits.set_mask_byte(1, 0x80);
    assert_eq!(bits.bit(0, 7), Bit::Significant);
    bits.bit(1, 7);
}
