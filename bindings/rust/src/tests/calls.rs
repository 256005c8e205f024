//! Every call, and every number that it answers.
use super::{BITS, BYTE, PAIR, REAL, SIGNED, SIGNED_WIDE, WIDE as WIDE_LINE};
use crate::*;

const WIDE: Layout = Layout {
    class: Class::Int,
    size: 4,
    order: Order::LE,
    offset: 16,
    precision: 16,
    lsb: Pad::Zero,
    msb: Pad::Zero,
    sign: Sign::Unsigned,
};

#[test]
fn copying_clamps_and_counts() {
    let mut out = [0x77; 3];
    assert_eq!(
        convert_copying(BYTE, SIGNED, 2, Handling::Clamp, b"\xff\x05", &mut out),
        Ok(1)
    );
    assert_eq!(out, [0x7f, 0x05, 0x77]);
    assert_eq!(
        convert_copying(SIGNED, PAIR, 1, Handling::Clamp, b"\xff", &mut out),
        Ok(1)
    );
    assert_eq!(out, [0, 0, 0x77]);
}

/// A pressure and a temperature.
const SENT: &[u8] = b"int\t2\tBE\t0\t16\tzero\tzero\tunsigned\nint\t1\tLE\t0\t8\tzero\tzero\tsigned\ncomp\t3\nmember\tboost\t0\t0\nmember\toil\t2\t1\n";

/// The same in a byte each, the temperature first.
const READ: &[u8] =
    b"int\t1\tLE\t0\t8\tzero\tzero\tunsigned\ncomp\t2\nmember\toil\t0\t0\nmember\tboost\t1\t0\n";

#[test]
fn plain_forms_convert_what_fits() {
    let log = [0, 9, 2, 0, 7, 1, 0, 255, 127];
    let mut out = [0x77; 7];
    assert_eq!(convert_copying_plain(SENT, READ, 3, &log, &mut out), Ok(0));
    assert_eq!(out, [2, 9, 1, 7, 127, 255, 0x77]);
    let mut buffer = log;
    let done = convert_in_place_plain(SENT, READ, 3, &mut buffer, &[0; 6]);
    assert_eq!(done, Ok(0));
    assert_eq!(buffer, [2, 9, 1, 7, 127, 255, 0, 0, 0]);
}

#[test]
fn plain_forms_stop_and_the_report_clamps() {
    let check = |log: [u8; 9], stop: (u64, u32, Kind, i128), rows: &str, exceptions: u64| {
        let (mut out, mut buffer, background) = ([0x77; 7], log, [0x55; 6]);
        for refused in [
            convert_copying_plain(SENT, READ, 3, &log, &mut out),
            convert_in_place_plain(SENT, READ, 3, &mut buffer, &background),
        ] {
            let Err(Error::Stop {
                record,
                at,
                kind,
                given: Given::Whole(number),
                ..
            }) = refused
            else {
                panic!("{refused:?}");
            };
            assert_eq!((record, at, kind, number), stop);
        }
        assert_eq!((out, buffer), ([0x77; 7], log));
        let summary = Report::new(READ).unwrap().add(SENT, &log).unwrap();
        let head = "at\tlowest\thighest\tsum\tsamples\n";
        assert_eq!(summary.text, format!("{head}{rows}"));
        assert_eq!((summary.records, summary.exceptions), (3, exceptions));
    };
    // -5 and 300 in the first record, of which the first byte is named
    check(
        [1, 44, 251, 0, 7, 1, 0, 255, 127],
        (0, 0, Kind::Below, -5),
        "0\t0\t127\t128\t3\n1\t7\t255\t517\t3\n",
        2,
    );
    // 256 in the last
    check(
        [0, 9, 2, 0, 7, 1, 1, 0, 127],
        (2, 1, Kind::Above, 256),
        "0\t1\t127\t130\t3\n1\t7\t255\t271\t3\n",
        1,
    );
}

#[test]
fn in_place_grows_and_shrinks() {
    let mut buffer = [0x0a, 0x0b, 0x77, 0x77];
    assert_eq!(
        convert_in_place(BYTE, PAIR, 2, Handling::Stop, &mut buffer, &[0; 4]),
        Ok(0)
    );
    assert_eq!(buffer, [0, 0x0a, 0, 0x0b]);
    assert_eq!(
        convert_in_place_plain(PAIR, BYTE, 2, &mut buffer, &[0; 2]),
        Ok(0)
    );
    assert_eq!(buffer, [0x0a, 0x0b, 0, 0]);
}

#[test]
fn no_records_and_empty_buffers() {
    assert_eq!(convert_copying_plain(BYTE, PAIR, 0, &[], &mut []), Ok(0));
    assert_eq!(leaf_list(&[]).unwrap_err().number(), 3);
}

#[test]
fn a_list() {
    assert_eq!(
        leaf_list(BITS).as_deref(),
        Ok("at\tsize\tclass\n0\t1\tbits\n")
    );
    let mut list = [0x77; 24];
    assert_eq!(Converter::new().leaf_list_into(BITS, &mut list), Ok(23));
    assert_eq!(list[23], 0x77);
    let short = Converter::new().leaf_list_into(BITS, &mut list[..22]);
    assert_eq!(short.unwrap_err().number(), 7);
}

#[test]
fn a_record_size() {
    assert_eq!(record_size(PAIR), Ok(2));
    let gaps = [PAIR, b"comp\t4096\n"].concat();
    assert_eq!(record_size(&gaps), Ok(4096));
    assert_eq!(record_size(b"int\t9\n").unwrap_err().number(), 3);
    let mut short = Converter::with_table(vec![7; TABLE_WORDS - 1]);
    assert_eq!(short.record_size(PAIR), Err(Error::Table));
}

#[test]
fn the_longest_list_has_room() {
    let sheet = [BITS, b"array\t0\t4096\n"].concat();
    assert_eq!(leaf_list(&sheet).map(|l| l.lines().count()), Ok(4097));
}

#[test]
fn each_refusal_leaves_the_destination() {
    let mut out = [0x77; 3];
    let source = b"\x05\xff";
    let mut refused = |from: &[u8], to: &[u8], count, handling| {
        let e = convert_copying(from, to, count, handling, source, &mut out).unwrap_err();
        assert_eq!(out, [0x77; 3]);
        assert!(e
            .to_string()
            .starts_with(&format!("{} ({}): ", e.name(), e.number())));
        (e.number(), e.name(), e)
    };
    let e = refused(b"int\t9\n", BYTE, 1, Handling::Clamp);
    assert!(matches!(e, (3, "SOURCE", Error::Source { line: 1, .. })));
    let e = refused(BYTE, &[BYTE, b"x\n"].concat(), 1, Handling::Clamp);
    assert!(matches!(
        e,
        (4, "DESTINATION", Error::Destination { line: 2, .. })
    ));
    let e = refused(BYTE, BITS, 1, Handling::Clamp);
    assert!(matches!(e, (5, "PATH", Error::Path { .. })));
    let e = refused(BYTE, BYTE, 65_537, Handling::Clamp);
    assert!(matches!(e, (6, "COUNT", Error::Count)));
    let e = refused(BYTE, BYTE, 3, Handling::Clamp);
    assert!(matches!(e, (7, "ROOM", Error::Room { .. })));
    let (8, "STOP", e) = refused(BYTE, SIGNED, 2, Handling::Stop) else {
        panic!("no STOP");
    };
    assert!(matches!(
        e,
        Error::Stop {
            record: 1,
            at: 0,
            kind: Kind::Above,
            given: Given::Whole(255),
            ..
        }
    ));
}

#[test]
fn stop_gives_the_number() {
    let given = |from: &[u8], to: &[u8], source: &[u8]| {
        let stop = |handled: Result<u64, Error>| match handled {
            Err(Error::Stop { given, .. }) => given,
            other => panic!("{other:?}"),
        };
        let mut buffer = [source, &[0x77; 8]].concat();
        let moved = convert_in_place(from, to, 1, Handling::Stop, &mut buffer, &[0; 8]);
        let given = stop(convert_copying(
            from,
            to,
            1,
            Handling::Stop,
            source,
            &mut [0; 8],
        ));
        assert_eq!(stop(moved), given);
        given
    };
    // not the clamped number, at both ends of all numbers
    for number in [i64::MIN, i64::MIN + 1, -1] {
        let source = number.to_be_bytes();
        assert_eq!(
            given(SIGNED_WIDE, WIDE_LINE, &source),
            Given::Whole(number.into())
        );
    }
    for number in [1 << 63, u64::MAX] {
        let source = number.to_be_bytes();
        assert_eq!(
            given(WIDE_LINE, SIGNED_WIDE, &source),
            Given::Whole(number.into())
        );
    }
    // an enum's is the source's
    let from = [
        SIGNED,
        b"enum\t0\nvalue\topen\t0\nvalue\tajar\t9\nvalue\tshut\t-2\n",
    ]
    .concat();
    let to = [
        BYTE,
        b"enum\t0\nvalue\topen\t254\nvalue\tajar\t3\nvalue\tlost\t7\nvalue\tshut\t9\n",
    ]
    .concat();
    for (byte, number) in [(7, 7), (3, 3), (0x80, -128)] {
        assert_eq!(given(&from, &to, &[byte]), Given::Whole(number));
    }
    // a real's are its bits, an int's on the way to a real are none
    for real in [256.0, 0.5, -0.0, f64::INFINITY, f64::NAN, -f64::NAN] {
        let source = real.to_be_bytes();
        assert_eq!(given(REAL, BYTE, &source), Given::Real(real.to_bits()));
    }
    let signalling = 0x7ff0_0000_0000_1234_u64;
    assert_eq!(
        given(REAL, SIGNED_WIDE, &signalling.to_be_bytes()),
        Given::Real(signalling)
    );
    let near = -(1_i64 << 53) - 1;
    assert_eq!(
        given(SIGNED_WIDE, REAL, &near.to_be_bytes()),
        Given::Whole(near.into())
    );
}

#[test]
fn kinds_of_stop() {
    let kind = |from: &[u8], to: &[u8], number: u8| match convert_copying(
        from,
        to,
        1,
        Handling::Stop,
        &[number],
        &mut [0],
    ) {
        Err(Error::Stop { kind, .. }) => kind,
        other => panic!("{other:?}"),
    };
    let symbols = [BYTE, b"enum\t0\nvalue\topen\t0\n"].concat();
    let below = kind(SIGNED, BYTE, 0xff);
    assert_eq!((below, below.number()), (Kind::Below, 2));
    let above = kind(BYTE, SIGNED, 0xff);
    assert_eq!((above, above.number()), (Kind::Above, 1));
    let none = kind(&symbols, &symbols, 7);
    assert_eq!((none, none.number()), (Kind::NoSymbol, 3));
}

#[test]
fn kinds_of_reals() {
    let kind = |from: &[u8], to: &[u8], bits: u64| {
        let source = bits.to_be_bytes();
        match convert_copying(from, to, 1, Handling::Stop, &source, &mut [0; 8]) {
            Err(Error::Stop { kind, .. }) => kind,
            other => panic!("{other:?}"),
        }
    };
    let to_byte = |real: f64| kind(REAL, BYTE, real.to_bits());
    let none = to_byte(f64::NAN);
    assert_eq!((none, none.number()), (Kind::NotANumber, 4));
    for real in [0.5, -0.5, 255.5, -0.0, f64::MIN_POSITIVE] {
        let lost = to_byte(real);
        assert_eq!((lost, lost.number()), (Kind::Truncated, 5));
    }
    for real in [256.0, 256.5, f64::INFINITY] {
        assert_eq!(to_byte(real), Kind::Above);
    }
    for real in [-1.0, f64::NEG_INFINITY] {
        assert_eq!(to_byte(real), Kind::Below);
    }
    let near = kind(WIDE_LINE, REAL, u64::MAX);
    assert_eq!((near, near.number()), (Kind::Rounded, 6));
}

#[test]
fn reals_are_doubles() {
    let reals = |from: &[u8], source: &[u8], count: usize| {
        let mut out = vec![0; 8 * count];
        let clamp = Handling::Clamp;
        let exceptions =
            convert_copying(from, REAL, count as u64, clamp, source, &mut out).unwrap();
        let real = |bytes: &[u8]| f64::from_be_bytes(bytes.try_into().unwrap());
        let reals: Vec<f64> = out.chunks(8).map(real).collect();
        (reals, exceptions)
    };
    assert_eq!(reals(SIGNED, &[0, 5, 0x80], 3), (vec![0.0, 5.0, -128.0], 0));
    assert_eq!(reals(WIDE_LINE, &[0xff; 8], 1), (vec![u64::MAX as f64], 1));
    let mut out = [7; 4];
    let source: Vec<u8> = [255.5, -0.5, f64::NAN, -3e9]
        .into_iter()
        .flat_map(f64::to_be_bytes)
        .collect();
    assert_eq!(
        convert_copying(REAL, BYTE, 4, Handling::Clamp, &source, &mut out),
        Ok(4)
    );
    assert_eq!(out, [255, 0, 0, 0]);
    // All 64 bits, those of a signalling not-a-number too.
    let (mut bits, turned) = ([0x7f, 0xf0, 0, 0, 0, 0, 0x12, 0x34], b"real\t8\tLE\n");
    assert_eq!(
        convert_in_place(REAL, turned, 1, Handling::Stop, &mut bits, &[0; 8]),
        Ok(0)
    );
    assert_eq!(bits, [0x34, 0x12, 0, 0, 0, 0, 0xf0, 0x7f]);
    assert_eq!(
        leaf_list(REAL).as_deref(),
        Ok("at\tsize\tclass\n0\t8\treal\n")
    );
}

#[test]
fn a_short_table_and_an_unknown_handling() {
    let mut short = Converter::with_table(vec![7; TABLE_WORDS - 1]);
    let e = short.leaf_list(BITS).unwrap_err();
    assert_eq!((e.number(), e.name(), e), (2, "TABLE", Error::Table));
    let sheets = sheets(BYTE, BYTE, 1);
    let answer = raw::convert_copying(&sheets, 2, &[5], &mut [0], &mut [0; TABLE_WORDS]);
    let e = Error::from_answer(answer);
    assert_eq!((e.number(), e.name(), e), (1, "HANDLING", Error::Handling));
}

#[test]
fn setters_change_a_layout() {
    let mut l = WIDE;
    l.set_size(3).unwrap();
    assert_eq!((l.size, l.offset, l.precision), (3, 8, 16));
    l.set_field(4, 20).unwrap();
    assert_eq!((l.size, l.offset, l.precision), (3, 4, 20));
    l.set_field(20, 20).unwrap();
    assert_eq!((l.size, l.offset, l.precision), (5, 20, 20));
    l.set_field(0, 8).unwrap();
    assert_eq!((l.size, l.offset, l.precision), (5, 0, 8));
    l.set_order(Order::BE).unwrap();
    l.set_pads(Pad::One, Pad::Keep).unwrap();
    l.set_sign(Sign::Signed).unwrap();
    assert_eq!((l.order, l.sign), (Order::BE, Sign::Signed));
    assert_eq!((l.lsb, l.msb), (Pad::One, Pad::Keep));
}

#[test]
fn refused_setters_leave_a_layout() {
    let mut l = WIDE;
    assert_eq!(l.set_size(9), Err(Error::Range));
    assert_eq!(l.set_field(0, 0), Err(Error::Range));
    assert_eq!(l.set_field(0, 65), Err(Error::Range));
    assert_eq!(l.set_field(49, 16), Err(Error::Range));
    assert_eq!(l.set_field(u32::MAX, 1), Err(Error::Range));
    assert_eq!(l, WIDE);
    l.class = Class::Bits;
    let bits = l;
    assert_eq!(l.set_sign(Sign::Signed), Err(Error::Range));
    assert_eq!(l, bits);
    l.set_field(0, 40).unwrap();
    assert_eq!((l.size, l.offset, l.precision), (5, 0, 40));
    l.offset = 17;
    assert_eq!(l.set_order(Order::BE), Err(Error::Range));
    assert_eq!(l.set_field(0, 8), Err(Error::Range));
    assert_eq!(l.set_pads(Pad::One, Pad::One), Err(Error::Range));
    assert_eq!((Error::Range.number(), Error::Range.name()), (9, "RANGE"));
}

const HEADER: &str = include_str!("../../../../include/yirvagul.h");

#[test]
fn the_header_has_these_numbers() {
    for (name, value) in [
        ("TABLE_WORDS", TABLE_WORDS),
        ("STACK_BYTES", STACK_BYTES),
        ("SMALL_STACK_BYTES", SMALL_STACK_BYTES),
        ("COMPARE_HEADER_BYTES", COMPARE_HEADER_BYTES),
        ("COMPARE_LINE_BYTES", COMPARE_LINE_BYTES),
    ] {
        let line = format!("\n#define YIRVAGUL_{name} {value}\n");
        assert!(HEADER.contains(&line), "{line}");
    }
}

#[test]
fn the_header_has_these_names() {
    let said = |number: u64| {
        let e = Error::from_answer([number, 0, 0, 0, 0, 0, 0, 0]);
        (e.name(), e.number())
    };
    for number in 1..=12 {
        let (name, number) = said(number);
        let line = format!(" YIRVAGUL_{name} = {number}");
        assert!(HEADER.contains(&line), "{line}");
    }
    assert!(!HEADER.contains(" = 13"));
}

#[test]
fn the_header_has_these_codes_of_a_given_number() {
    for line in [
        "_ANSWER_GIVEN = 6,",
        "_ANSWER_MAGNITUDE = 7 ",
        "_GIVEN_PLUS = 0,",
        "_GIVEN_MINUS = 1,",
        "_GIVEN_REAL = 2 ",
    ] {
        assert!(HEADER.contains(&format!(" YIRVAGUL{line}")), "{line}");
    }
}

#[test]
fn the_header_has_this_version() {
    let number = |part: &str| part.parse::<u32>().unwrap();
    let version = number(env!("CARGO_PKG_VERSION_MAJOR")) * 10_000
        + number(env!("CARGO_PKG_VERSION_MINOR")) * 100
        + number(env!("CARGO_PKG_VERSION_PATCH"));
    assert!(HEADER.contains(&format!("#define YIRVAGUL_VERSION {version}\n")));
}
