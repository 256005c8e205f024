"""Refusals: their fields, their words, and their way through pickles, copies and pools."""

import copy
import math
import multiprocessing
import pickle
import struct
import unittest

import yirvagul
from common import BITS, BYTE, CUSTOMER, PAIR, REAL, RIG, SIGNED
from yirvagul import Class, Handling, Kind, Layout, Number, Order, Pad, Refusal, Report, Short, Sign, _explain, _library

WIDE = "int\t8\tLE\t0\t33\tzero\tzero\tsigned\narray\t0\t2\ncomp\t16\nmember\toil\t0\t1\n"
LONG = "int\t8\tBE\t0\t64\tzero\tzero\tunsigned\n"
SIGNED_LONG = "int\t8\tBE\t0\t64\tzero\tzero\tsigned\n"
LOG = bytes.fromhex("06 40 7d 00 ff f0 00 00  00 00 00 10 00 20 00 07")


def _bits(real):
    """The 64 bits of a double."""
    return struct.unpack("<Q", struct.pack("<d", real))[0]


def _double(bits):
    return struct.unpack("<d", struct.pack("<Q", bits))[0]


def _raw(handling, words):
    """The C call itself, with arguments that the module's own calls never pass."""
    sheet, data = BYTE.encode(), bytearray(1)
    table, answer = _library.Table(), _library.Answer()
    with yirvagul.calls.Held("destination", data, written=True) as out:
        lent = (sheet, len(sheet), sheet, len(sheet), 1, handling, b"\x05", 1, out.address, 1)
        _library.convert_copying(*lent, table, words, answer)
    raise _explain.refusal(tuple(answer), sheet, sheet)


def refuse(number):
    """Raises the refusal of that number, each as the library gives it."""
    out = bytearray(14)
    if number == Number.HANDLING:
        _raw(2, 8192)
    elif number == Number.TABLE:
        _raw(0, 8191)
    elif number == Number.SOURCE:
        yirvagul.convert_copying("int\t9\n", BYTE, 1, Handling.STOP, LOG, out)
    elif number == Number.DESTINATION:
        yirvagul.convert_in_place(BYTE, BYTE + "value\ta\t1\n", 1, Handling.STOP, out, LOG)
    elif number == Number.PATH:
        yirvagul.convert_copying(RIG, CUSTOMER.replace("array\t0\t3", "array\t0\t2"), 1, Handling.STOP, LOG, out)
    elif number == Number.COUNT:
        yirvagul.convert_copying(RIG, CUSTOMER, 65537, Handling.STOP, LOG, out)
    elif number == Number.ROOM:
        yirvagul.convert_copying(RIG, CUSTOMER, 3, Handling.STOP, LOG, out)
    elif number == Number.STOP:
        yirvagul.convert_copying(RIG, CUSTOMER, 2, Handling.STOP, LOG, out)
    elif number == Number.RANGE:
        Layout(Class.INT, 2, Order.BE, 4, 12, Pad.ZERO, Pad.ZERO, Sign.UNSIGNED).set_field(53, 12)
    elif number == Number.CHANNEL:
        Report(WIDE)
    elif number == Number.SYMBOLS:
        yirvagul.convert_copying(RIG, CUSTOMER.replace("shut", "off"), 0, Handling.CLAMP, LOG, out)
    elif number == Number.FULL:
        Report(BYTE).add(BYTE, bytes(Report.MOST_RECORDS + 1))


def refusal(number):
    try:
        refuse(number)
    except Refusal as refused:
        return refused
    raise AssertionError(f"{number} was not refused")


NUMBERS = [number for number in Number if number != Number.DONE]

WORDS = {
    Number.HANDLING: "HANDLING (1): handling is neither Handling.CLAMP nor Handling.STOP: pass one of them",
    Number.TABLE: "TABLE (2): the library wants a longer working table than this version of yirvagul lends: build both from one repository",
    Number.SOURCE: "SOURCE (3): line 1 of the source sheet is faulty, `int\\t9`: "
    "it has 2 fields, and int has 8, parted by one tab: int, size, order, offset, precision, lsb, msb, sign",
    Number.DESTINATION: "DESTINATION (4): line 2 of the destination sheet is faulty, `value\\ta\\t1`: "
    "value follows an enum or another value of it, and the type before it is an int",
    Number.PATH: "PATH (5): no path from the source type to the destination type at `boost`: "
    "the source has an array of 3, the destination one of 2: give both the same dimensions",
    Number.COUNT: "COUNT (6): 65,537 records, more than 65,536, in one call: convert them with convert_log, or in parts",
    Number.ROOM: "ROOM (7): the source is too short: it holds 16 bytes and needs 24; "
    "the destination is too short: it holds 14 bytes and needs 21: lend longer ones",
    Number.STOP: "STOP (8): the number 7 for byte 0 of record 1, member `valve`, "
    "has no symbol in the source: give it one in both enums, or clamp",
    Number.CHANNEL: "CHANNEL (10): `oil[0]` has 33 bits, and a report takes ints of at most 32: narrow it in the reader's sheet, or leave it out",
    Number.FULL: "FULL (11): the report would have 1,048,577 records or more, and it takes 1,048,576: begin a new report",
    Number.SYMBOLS: "SYMBOLS (12): `valve` has the symbol `shut` in the source and not in the destination: "
    "give the destination's enum that symbol, with a number of its own",
    Number.RANGE: "RANGE (9): offset 53 and precision 12 do not fit 8 bytes: keep the offset within 0 to 52",
}

FIELDS = ("number", "name", "sheet", "line", "text", "rule", "member", "count", "short")
FIELDS += ("record", "at", "kind", "given", "given_bits", "stopped_by", "precision", "symbol", "answer", "args")


def fields(refused):
    return {name: getattr(refused, name) for name in FIELDS}


class Messages(unittest.TestCase):
    def test_each_number(self):
        for number in NUMBERS:
            refused = refusal(number)
            self.assertEqual((refused.number, refused.name), (number, number.name))
            self.assertEqual(str(refused), WORDS[number])

    def test_fields(self):
        told = {
            Number.HANDLING: {},
            Number.TABLE: {},
            Number.SOURCE: {"line": 1, "text": "int\t9"},
            Number.DESTINATION: {"line": 2, "text": "value\ta\t1"},
            Number.PATH: {"member": "boost"},
            Number.COUNT: {"count": 65537},
            Number.ROOM: {"short": (Short("source", 16, 24), Short("destination", 14, 21))},
            Number.STOP: {"record": 1, "at": 0, "kind": Kind.NO_SYMBOL, "given": 7, "member": "valve"},
            Number.RANGE: {},
            Number.CHANNEL: {"member": "oil[0]", "precision": 33},
            Number.FULL: {"count": 1048577},
            Number.SYMBOLS: {"member": "valve", "symbol": "shut"},
        }
        for number in NUMBERS:
            has = fields(refusal(number))
            for name in ("line", "text", "member", "count", "record", "at", "kind", "given", "given_bits", "stopped_by", "precision", "symbol"):
                self.assertEqual(has[name], told[number].get(name), (number, name))
            self.assertEqual(has["short"], told[number].get("short", ()))

    def test_room_names_the_short_buffer(self):
        def short(call, *arguments, **more):
            with self.assertRaises(Refusal) as caught:
                call(*arguments, **more)
            return caught.exception

        copying, in_place = yirvagul.convert_copying, yirvagul.convert_in_place
        for refused, buffer, holds, needs in (
            (short(copying, BYTE, PAIR, 3, Handling.STOP, bytes(2), bytearray(6)), "source", 2, 3),
            (short(copying, BYTE, PAIR, 3, Handling.STOP, bytes(3), bytearray(5)), "destination", 5, 6),
            (short(in_place, BYTE, PAIR, 3, Handling.STOP, bytearray(5), bytes(6)), "buffer", 5, 6),
            (short(in_place, PAIR, BYTE, 3, Handling.STOP, bytearray(5), bytes(3)), "buffer", 5, 6),
            (short(in_place, PAIR, BYTE, 3, Handling.STOP, bytearray(6), bytes(2)), "background", 2, 3),
            (short(yirvagul.leaf_list, BITS, room=22), "list", 22, 23),
        ):
            self.assertEqual(refused.short, ((buffer, holds, needs),))
            self.assertEqual(
                str(refused), f"ROOM (7): the {buffer} is too short: it holds {holds} bytes and needs {needs}: lend a longer one"
            )

    def stopped(self, source, destination, count, data):
        with self.assertRaises(Refusal) as caught:
            yirvagul.convert_copying(source, destination, count, Handling.STOP, data, bytearray(8 * count))
        return caught.exception

    def test_each_kind(self):
        narrow = "int\t1\tLE\t0\t4\tzero\tzero\tsigned\n"
        for data, kind, given, words in (
            (b"\x07\x08", Kind.ABOVE, 8, "the number 8 for byte 0 of record 1 is above"),
            (b"\xf8\xf7", Kind.BELOW, -9, "the number -9 for byte 0 of record 1 is below"),
        ):
            refused = self.stopped(SIGNED, narrow, 2, data)
            self.assertEqual((refused.record, refused.kind, refused.given, refused.given_bits), (1, kind, given, None))
            self.assertEqual(str(refused), f"STOP (8): {words} the destination's range: widen the destination, or clamp")

    def test_given_numbers(self):
        """Both ends of all numbers, and those of enums, which are the source's."""
        valve = SIGNED + "enum\t0\nvalue\topen\t0\nvalue\tajar\t9\nvalue\tshut\t-2\n"
        other = BYTE + "enum\t0\nvalue\topen\t254\nvalue\tajar\t3\nvalue\tlost\t7\nvalue\tshut\t9\n"
        for source, destination, data, given in (
            (SIGNED_LONG, LONG, (-(1 << 63)).to_bytes(8, "big", signed=True), -(1 << 63)),
            (SIGNED_LONG, LONG, b"\xff" * 8, -1),
            (LONG, SIGNED_LONG, b"\xff" * 8, (1 << 64) - 1),
            (LONG, SIGNED_LONG, (1 << 63).to_bytes(8, "big"), 1 << 63),
            (valve, other, b"\x07", 7),
            (valve, other, b"\x03", 3),
            (valve, other, b"\x80", -128),
        ):
            refused = self.stopped(source, destination, 1, data)
            self.assertEqual((refused.given, refused.given_bits), (given, None))
            self.assertIs(type(refused.given), int)
            self.assertTrue(str(refused).startswith(f"STOP (8): the number {given} for byte 0 of record 0 "), refused)

    def test_given_reals(self):
        none = "is not-a-number, which no int holds: make the destination a real, or clamp"
        lost = "has a fraction, which no int holds: make the destination a real, or clamp"
        zero = "is a negative zero, which no int holds: make the destination a real, or clamp"
        above = "is above the destination's range: widen the destination, or clamp"
        below = "is below the destination's range: widen the destination, or clamp"
        for bits, shown, kind, words in (
            (0x7FF8000000000000, "NaN (0x7ff8000000000000)", Kind.NOT_A_NUMBER, none),
            (0xFFF0000000000001, "NaN (0xfff0000000000001)", Kind.NOT_A_NUMBER, none),
            (_bits(255.5), "255.5", Kind.TRUNCATED, lost),
            (_bits(-0.5), "-0.5", Kind.TRUNCATED, lost),
            (1, "5e-324", Kind.TRUNCATED, lost),
            (_bits(-0.0), "-0.0", Kind.TRUNCATED, zero),
            (_bits(256.5), "256.5", Kind.ABOVE, above),
            (_bits(256.0), "256.0", Kind.ABOVE, above),
            (_bits(math.inf), "+infinity", Kind.ABOVE, above),
            (_bits(-math.inf), "-infinity", Kind.BELOW, below),
        ):
            refused = self.stopped(REAL, BYTE, 1, bits.to_bytes(8, "big"))
            self.assertEqual((refused.kind, refused.given_bits), (kind, bits))
            self.assertIs(type(refused.given), float)
            self.assertEqual(repr(refused.given), repr(_double(bits)))
            self.assertEqual(str(refused), f"STOP (8): the real {shown} for byte 0 of record 0 {words}")

    def test_given_ints_on_the_way_to_reals(self):
        near = "is no double, only near one: make the destination an int, or clamp"
        for source, given in ((LONG, (1 << 53) + 1), (LONG, (1 << 64) - 1), (SIGNED_LONG, -(1 << 63) + 1)):
            refused = self.stopped(source, REAL, 1, (given % (1 << 64)).to_bytes(8, "big"))
            self.assertEqual((refused.kind, refused.given, refused.given_bits), (Kind.ROUNDED, given, None))
            self.assertEqual(str(refused), f"STOP (8): the number {given} for byte 0 of record 0 {near}")

    def test_what_nobody_could_tell(self):
        """With nothing but the library's words."""
        for refused, words in (
            (Refusal(3, line=4), "SOURCE (3): line 4 of the source sheet is faulty: correct it by the rules of sheets and the lines before it"),
            (Refusal(4, line=0), "DESTINATION (4): the destination sheet is faulty: it is too long: shorten it"),
            (
                Refusal(5),
                "PATH (5): no path from the source type to the destination type: "
                "give members of one name the same class, or an int and a real, and arrays the same dimensions",
            ),
            (Refusal(6), "COUNT (6): more than 65,536 records in one call: convert them with convert_log, or in parts"),
            (Refusal(7), "ROOM (7): a buffer is too short for that many records, or for the list: lend a longer one"),
            (
                Refusal(9),
                "RANGE (9): the argument or the layout breaks the rules of a layout: size 1 to 8 bytes, precision 1 to 64 bits, "
                "offset + precision within the size, no sign on bits",
            ),
            (Refusal(10), "CHANNEL (10): an int of the reader's sheet has more than 32 bits: narrow it, or leave it out"),
            (Refusal(11), "FULL (11): the report is full, or its memory holds what no report's does: begin a new report"),
            (
                Refusal(12),
                "SYMBOLS (12): an enum has a symbol in the source and not in the destination: "
                "give the destination's enum that symbol, with a number of its own",
            ),
        ):
            self.assertEqual(str(refused), words)

    def test_a_place_that_only_the_library_knows(self):
        """Sheets that this version cannot read explain nothing, and hide nothing."""
        new = b"time\t8\tLE\n"
        refused = _explain.refusal((8, 0, 0, 3, 8, 1, 1, 5), new, new)
        self.assertEqual((refused.record, refused.at, refused.kind, refused.given, refused.member), (3, 8, Kind.ABOVE, -5, None))
        self.assertEqual(_explain.refusal((5, 0, 0, 0, 0, 0, 0, 0), new, new).rule, None)
        self.assertEqual(str(_explain.refusal((10, 0, 0, 0, 0, 0, 0, 0), new, new)), str(Refusal(10)))
        self.assertEqual(str(_explain.refusal((12, 0, 0, 0, 0, 0, 0, 0), new, new)), str(Refusal(12)))
        same = BYTE.encode()
        self.assertEqual(str(_explain.refusal((12, 0, 0, 0, 0, 0, 0, 0), same, same)), str(Refusal(12)))
        self.assertEqual(str(_explain.refusal((5, 0, 0, 0, 0, 0, 0, 0), same, same)), str(Refusal(5)))


class Symbols(unittest.TestCase):
    """A symbol that the destination lacks, in each call."""

    FEWER = CUSTOMER.replace("value\tshut\t0\n", "")

    def refused(self, call, *arguments):
        with self.assertRaises(Refusal) as caught:
            call(*arguments)
        refused = caught.exception
        self.assertEqual(refused.answer, (int(refused.number), 0, 0, 0, 0, 0, 0, 0))
        return refused.number, refused.member, refused.symbol

    def test_each_form(self):
        lost = (Number.SYMBOLS, "valve", "shut")
        for count in (0, 1, 65537, 1 << 63):
            out, log = bytearray(b"x" * 8), bytearray(LOG)
            self.assertEqual(self.refused(yirvagul.convert_copying, RIG, self.FEWER, count, Handling.STOP, LOG, out), lost)
            self.assertEqual(self.refused(yirvagul.convert_copying_plain, RIG, self.FEWER, count, LOG, out), lost)
            self.assertEqual(self.refused(yirvagul.convert_in_place, RIG, self.FEWER, count, Handling.CLAMP, log, LOG), lost)
            self.assertEqual(self.refused(yirvagul.convert_in_place_plain, RIG, self.FEWER, count, log, LOG), lost)
            self.assertEqual((out, log), (b"x" * 8, LOG))

    def test_the_way_back_of_more_symbols(self):
        out = bytearray(8)
        self.assertEqual(yirvagul.convert_copying(self.FEWER, RIG, 1, Handling.STOP, b"\x01" + bytes(6), out), 0)
        self.assertEqual(self.refused(yirvagul.convert_copying, RIG, self.FEWER, 1, Handling.STOP, out, bytearray(7))[0], Number.SYMBOLS)

    def test_between_path_and_count(self):
        other = self.FEWER.replace("array\t0\t3", "array\t0\t2")
        self.assertEqual(self.refused(yirvagul.convert_copying_plain, RIG, other, 65537, LOG, bytearray(7))[0], Number.PATH)
        self.assertEqual(self.refused(yirvagul.convert_copying_plain, self.FEWER, RIG, 65537, LOG, bytearray(7))[0], Number.COUNT)

    def test_the_report(self):
        report = Report(self.FEWER)
        report.add(self.FEWER, b"\x01" + bytes(6))
        before = report.to_bytes()
        for log in (b"", LOG):
            self.assertEqual(self.refused(report.add, RIG, log), (Number.SYMBOLS, "valve", "shut"))
        self.assertEqual(report.to_bytes(), before)

    def test_a_comparison_is_not_refused(self):
        valves = BYTE + "enum\t0\nvalue\topen\t0\nvalue\tshut\t1\n"
        found = yirvagul.compare(valves, valves.replace("value\tshut\t1\n", ""), b"\0\1\1", b"\0\1\0")
        self.assertEqual([difference.record for difference in found], [1, 2])


class FromANewerLibrary(unittest.TestCase):
    def test_numbers(self):
        for number in (16, 255, 1 << 32):
            answer = (number, 0, 7, 0, 0, 0, 0, 0)
            refused = _explain.refusal(answer, BYTE.encode(), BYTE.encode(), count=1)
            self.assertEqual((refused.number, refused.name, refused.answer), (number, "UNKNOWN", answer))
            self.assertEqual(
                str(refused),
                f"UNKNOWN ({number}): the library refused with a number that this version of yirvagul does not know "
                f"(its answer is {number} 0 7 0 0 0 0 0): take the version of the library",
            )
            self.assertEqual(fields(pickle.loads(pickle.dumps(refused))), fields(refused))

    def test_kinds(self):
        for kind in (0, 7, 99):
            refused = _explain.refusal((8, 0, 0, 1, 2, kind, 0, 0), RIG.encode(), RIG.encode())
            self.assertEqual((refused.name, refused.kind, refused.member), ("STOP", kind, "boost[1]"))
            self.assertEqual(
                str(refused),
                f"STOP (8): the number 0 for byte 2 of record 1, member `boost[1]`, does not fit, of kind {kind}, "
                "which this version of yirvagul does not know: clamp, or take the version of the library",
            )
            self.assertEqual(fields(pickle.loads(pickle.dumps(refused))), fields(refused))


    def test_given(self):
        """A number of a sort that is not known is not told, and stands in the answer."""
        answer = (8, 0, 0, 1, 2, 1, 3, 99)
        refused = _explain.refusal(answer, RIG.encode(), RIG.encode())
        self.assertEqual((refused.given, refused.given_bits, refused.answer), (None, None, answer))
        self.assertEqual(
            str(refused),
            "STOP (8): the number for byte 2 of record 1, member `boost[1]`, is above the destination's range: widen the destination, or clamp",
        )
        refused = _explain.refusal((8, 0, 0, 1, 2, 5, 3, 99), RIG.encode(), RIG.encode())
        self.assertIn(" has a fraction, or is a negative zero, which no int holds: ", str(refused))


class Copies(unittest.TestCase):
    def test_pickles_and_copies(self):
        for number in NUMBERS:
            refused = refusal(number)
            refused.own = "kept"
            for protocol in range(pickle.HIGHEST_PROTOCOL + 1):
                self.same(refused, pickle.loads(pickle.dumps(refused, protocol)))
            self.same(refused, copy.copy(refused))
            self.same(refused, copy.deepcopy(refused))

    def test_a_real(self):
        """The bits pass where a float would lose them: not-a-numbers, and zeros with a sign."""
        for bits in (0x7FF0000000001234, 0xFFF8000000000000, 1 << 63, _bits(0.1)):
            refused = _explain.refusal((8, 0, 0, 0, 0, 4, 2, bits), REAL.encode(), BYTE.encode())
            copies = [pickle.loads(pickle.dumps(refused, protocol)) for protocol in range(pickle.HIGHEST_PROTOCOL + 1)]
            for made in [*copies, copy.copy(refused), copy.deepcopy(refused)]:
                self.assertEqual((made.given_bits, repr(made.given), str(made)), (bits, repr(_double(bits)), str(refused)))

    def same(self, refused, made):
        self.assertIsNot(made, refused)
        self.assertIs(type(made), Refusal)
        self.assertEqual(fields(made), fields(refused))
        self.assertEqual((str(made), repr(made), made.own), (str(refused), repr(refused), "kept"))

    def test_through_pools(self):
        """A worker that is refused, by each number, and after it one that is not."""
        for method in ("fork", "spawn"):
            with multiprocessing.get_context(method).Pool(2) as pool:
                asked = [(number, pool.apply_async(refuse, (number,))) for number in NUMBERS]
                for number, result in asked:
                    with self.assertRaises(Refusal) as caught:
                        result.get(timeout=60)
                    self.assertEqual(fields(caught.exception), fields(refusal(number)))
                self.assertEqual(pool.apply_async(yirvagul.record_size, (RIG,)).get(timeout=60), 8)


if __name__ == "__main__":
    unittest.main()
