"""Sheets, dtypes and arrays. Skipped where numpy is not installed, but for the test that this is said."""

import io
import random
import sys
import unittest
from unittest import mock

import yirvagul
from common import BITS, BYTE, CUSTOMER, PAIR, RIG, SIGNED, random_sheet
from yirvagul import Handling, Kind, Number, Refusal, convert_copying, convert_in_place, convert_log, convert_to_array, dtype_of
from yirvagul import record_size, sheet_of, sheets

try:
    import numpy as np
except ImportError:
    np = None

LOG = bytes.fromhex("06 40 7d 00 ff f0 00 00  00 00 00 10 00 20 00 07")


class WithoutNumpy(unittest.TestCase):
    def test_what_is_said(self):
        with mock.patch.dict(sys.modules, {"numpy": None}):
            for call in (
                lambda: dtype_of(BYTE),
                lambda: sheet_of("u1"),
                lambda: convert_to_array(BYTE, BYTE, Handling.STOP, b"\x05"),
            ):
                with self.assertRaisesRegex(ImportError, "need numpy: run `pip install numpy`$"):
                    call()


@unittest.skipIf(np is None, "numpy is not installed")
class Dtypes(unittest.TestCase):
    def test_numbers(self):
        for code in ("u1", "i1", "<u2", ">u2", "<i4", ">i4", "<u8", ">i8"):
            dtype = np.dtype(code)
            order = "BE" if code[0] == ">" else "LE"
            sign = "signed" if dtype.kind == "i" else "unsigned"
            size = dtype.itemsize
            sheet = f"int\t{size}\t{order}\t0\t{8 * size}\tzero\tzero\t{sign}\n"
            self.assertEqual(sheet_of(dtype), sheet)
            self.assertEqual(dtype_of(sheet), dtype)
        native = "LE" if sys.byteorder == "little" else "BE"
        self.assertEqual(sheet_of(np.uint16), f"int\t2\t{native}\t0\t16\tzero\tzero\tunsigned\n")
        self.assertEqual(dtype_of(BITS), np.dtype("u1"))

    def test_reals(self):
        for code, order in (("<f8", "LE"), (">f8", "BE")):
            sheet = f"real\t8\t{order}\n"
            self.assertEqual(sheet_of(code), sheet)
            self.assertEqual(dtype_of(sheet), np.dtype(code))
        native = "LE" if sys.byteorder == "little" else "BE"
        self.assertEqual(sheet_of(np.float64), f"real\t8\t{native}\n")
        self.assertEqual(sheet_of(float), f"real\t8\t{native}\n")
        dtype = np.dtype([("valve", "u1"), ("boost", ">f8", (3,)), ("oil", "<f8")])
        sheet = sheet_of(dtype)
        self.assertEqual(dtype_of(sheet), dtype)
        self.assertEqual(
            sheet,
            "int\t1\tLE\t0\t8\tzero\tzero\tunsigned\nreal\t8\tBE\narray\t1\t3\nreal\t8\tLE\n"
            "comp\t33\nmember\tvalve\t0\t0\nmember\tboost\t1\t2\nmember\toil\t25\t3\n",
        )
        with self.assertRaisesRegex(ValueError, "its base, type 0, is a real: an enum's base is an int$"):
            sheet_of(np.dtype("<f8", metadata={"enum": {"a": 1}}))

    def test_records(self):
        dtype = np.dtype([("boost", "<u2", (3,)), ("map", ">i4", (2, 5)), ("at", [("x", "u1"), ("y", "u1")])], align=True)
        sheet = sheet_of(dtype)
        self.assertEqual(dtype_of(sheet), dtype)
        self.assertEqual(record_size(sheet), dtype.itemsize)
        self.assertEqual(
            sheet,
            "int\t2\tLE\t0\t16\tzero\tzero\tunsigned\narray\t0\t3\nint\t4\tBE\t0\t32\tzero\tzero\tsigned\narray\t2\t2\t5\n"
            "int\t1\tLE\t0\t8\tzero\tzero\tunsigned\ncomp\t2\nmember\tx\t0\t4\nmember\ty\t1\t4\n"
            f"comp\t{dtype.itemsize}\nmember\tboost\t0\t1\nmember\tmap\t{dtype.fields['map'][1]}\t3\n"
            f"member\tat\t{dtype.fields['at'][1]}\t5\n",
        )

    def test_enums_keep_their_symbols(self):
        dtype = dtype_of(CUSTOMER)
        self.assertEqual(dtype.names, ("valve", "boost"))
        self.assertEqual(dtype["valve"].metadata["enum"], {"shut": 0, "open": 1})
        exceptions = convert_copying(RIG, sheet_of(dtype), 1, Handling.STOP, LOG, bytearray(7))
        self.assertEqual(exceptions, 0)
        empty = BYTE + "enum\t0\n"
        self.assertEqual(sheet_of(dtype_of(empty)), empty)

    def test_round_trips(self):
        """Of random sheets that have a dtype: the sheet that it gives is of the same type, with bits as ints and without words."""
        rng, seen = random.Random(4), 0
        for _ in range(4000):
            sheet = random_sheet(rng)
            try:
                dtype = dtype_of(sheet)
            except ValueError as error:
                self.assertRegex(str(error), "^no dtype for this sheet: .+ has .+ bits at offset .+ of .+ bytes, ")
                continue
            seen += 1
            self.assertEqual(dtype.itemsize, record_size(sheet))
            self.assertEqual(sheets.read(sheet_of(dtype)), self.plain(sheets.read(sheet)))
        self.assertGreater(seen, 50)

    def plain(self, type_):
        """A type with bits as ints, members without words, and pads as `sheet_of` writes them."""
        if isinstance(type_, sheets.Compound):
            return type_._replace(members=tuple(m._replace(type=self.plain(m.type), word=None) for m in type_.members))
        if isinstance(type_, sheets.Array):
            return type_._replace(base=self.plain(type_.base))
        if isinstance(type_, sheets.Enum):
            return type_._replace(base=self.plain(type_.base))
        if isinstance(type_, sheets.Real):
            return type_
        order = type_.order if type_.size > 1 else yirvagul.Order.LE
        return type_._replace(class_=yirvagul.Class.INT, order=order, lsb=yirvagul.Pad.ZERO, msb=yirvagul.Pad.ZERO)

    def test_words_are_left_out(self):
        """A dtype has no place for them; a conversion into the sheet's array obeys them."""
        silent = BYTE + "comp\t2\nmember\toil\t0\t0\nmember\tboost\t1\t0\n"
        worded = silent.replace("oil\t0\t0", "oil\t0\t0\tclamp").replace("boost\t1\t0", "boost\t1\t0\tstop")
        self.assertEqual(dtype_of(worded), np.dtype([("oil", "u1"), ("boost", "u1")]))
        self.assertEqual(sheet_of(dtype_of(worded)), silent)
        source = PAIR + "comp\t4\nmember\toil\t0\t0\nmember\tboost\t2\t0\n"
        array, exceptions = convert_to_array(source, worded, Handling.STOP, bytes((1, 0, 0, 7)))
        self.assertEqual((array.tolist(), exceptions), ([(255, 7)], 1))
        with self.assertRaises(Refusal) as caught:
            convert_to_array(source, worded, Handling.CLAMP, bytes((1, 0, 1, 7)))
        self.assertEqual((caught.exception.number, caught.exception.stopped_by), (Number.STOP, "boost"))
        array, exceptions = convert_to_array(source, dtype_of(worded), Handling.CLAMP, bytes((1, 0, 1, 7)))
        self.assertEqual((array.tolist(), exceptions), ([(255, 255)], 2))

    def test_sheets_without_a_dtype(self):
        why = "and numpy's whole numbers fill 1, 2, 4 or 8 bytes: convert to a sheet with such numbers"
        for sheet, what in (
            (RIG, "`boost[]` has 12 bits at offset 4 of 2 bytes"),
            ("int\t3\tLE\t0\t24\tzero\tzero\tsigned\n", "the record has 24 bits at offset 0 of 3 bytes"),
            ("bits\t2\tLE\t0\t8\tzero\tzero\n", "the record has 8 bits at offset 0 of 2 bytes"),
        ):
            with self.assertRaises(ValueError) as caught:
                dtype_of(sheet)
            self.assertEqual(str(caught.exception), f"no dtype for this sheet: {what}, {why}")
        with self.assertRaises(Refusal) as caught:
            dtype_of("x\n")
        self.assertEqual(caught.exception.number, Number.SOURCE)
        with mock.patch.object(sheets, "read", side_effect=sheets.Fault(1, "")):
            with self.assertRaisesRegex(ValueError, "this version of yirvagul does not know its line 1$"):
                dtype_of(BYTE)

    def test_dtypes_without_a_sheet(self):
        overlapping = np.dtype({"names": ["a", "b"], "formats": ["<u2", "<u2"], "offsets": [0, 1], "itemsize": 3})
        for dtype, words in (
            ("f4", "the record is float32, and sheets have whole numbers and float64 alone"),
            ([("a", [("b", "?")])], "`a.b` is bool, and sheets have whole numbers and float64 alone"),
            ([("a", "S3", (2,))], r"`a\[\]` is \|S3, and sheets have whole numbers and float64 alone"),
            ("V4", r"the record is \|V4, and sheets have whole numbers and float64 alone"),
            ("M8[s]", r"the record is datetime64\[s\], and sheets have whole numbers and float64 alone"),
            ("O", "the record is object, and sheets have whole numbers and float64 alone"),
            ([("oil temp", "u1")], "`oil temp`: its name, `oil temp`, has byte 32: a name's bytes are 33 to 126, with no blank"),
            ([("a\t0\t0\nmember\tb", "u1")], "has byte 9: a name's bytes are 33 to 126, with no blank"),
            ([("n" * 32, "u1")], "has 32 bytes: a name has 1 to 31"),
            ([("a", "u1", (5000,))], "at `array.t0.t5000`: it has 5,000 bytes: an array has at most 4,096"),
            (("u1", (1, 1, 1, 1, 1)), "it has 5 dimensions: an array has a base and one to four dimensions"),
            (overlapping, "at `member.tb.t1.t0`: its bytes, 1 to 2, overlap those of a, 0 to 1"),
            (np.dtype("u1", metadata={"enum": {"a": 256}}), "its number, `256`, is outside the base's range, 0 to 255"),
            (np.dtype("u1", metadata={"enum": {"a b": 1}}), "`a b`: its name, `a b`, has byte 32"),
        ):
            with self.assertRaisesRegex(ValueError, "^no sheet for this dtype.*" + words.replace("(", r"\(")):
                sheet_of(dtype)


@unittest.skipIf(np is None, "numpy is not installed")
class Arrays(unittest.TestCase):
    def test_converting_into_an_array(self):
        for destination in (CUSTOMER, CUSTOMER.encode(), dtype_of(CUSTOMER)):
            for source in (LOG, io.BytesIO(LOG), np.frombuffer(LOG, "u1")):
                array, exceptions = convert_to_array(RIG, destination, Handling.CLAMP, source)
                self.assertEqual((array.shape, exceptions), ((2,), 1))
                self.assertEqual(array["boost"].tolist(), [[100, 2000, 4095], [0, 1, 2]])
                self.assertEqual(array["valve"].tolist(), [1, 255])
                array["valve"] = 0  # it is its owner's

    def test_refused(self):
        with self.assertRaises(Refusal) as caught:
            convert_to_array(RIG, CUSTOMER, Handling.STOP, LOG)
        self.assertEqual((caught.exception.record, caught.exception.member, caught.exception.kind), (1, "valve", Kind.NO_SYMBOL))
        with self.assertRaisesRegex(ValueError, "no multiple"):
            convert_to_array(RIG, CUSTOMER, Handling.STOP, LOG[:-1])
        with self.assertRaisesRegex(ValueError, "^no dtype for this sheet"):
            convert_to_array(CUSTOMER, RIG, Handling.STOP, b"")

    def test_shapes(self):
        self.assertEqual(convert_to_array(BYTE, PAIR, Handling.STOP, b"")[0].shape, (0,))
        array, _ = convert_to_array(BYTE, PAIR, Handling.STOP, b"\x01\x02")
        self.assertEqual((array.dtype, array.tolist()), (np.dtype(">u2"), [1, 2]))
        rows = BYTE + "array\t0\t3\n"
        self.assertEqual(convert_to_array(rows, rows, Handling.STOP, bytes(range(6)))[0].tolist(), [[0, 1, 2], [3, 4, 5]])
        many, _ = convert_to_array(BYTE, PAIR, Handling.STOP, bytes(200000))
        self.assertEqual(many.shape, (200000,))

    def test_arrays_as_buffers(self):
        customer = np.zeros(3, dtype_of(CUSTOMER))
        self.assertEqual(convert_copying(RIG, CUSTOMER, 2, Handling.CLAMP, np.frombuffer(LOG, "<u4"), customer), 1)
        self.assertEqual(customer["boost"].tolist(), [[100, 2000, 4095], [0, 1, 2], [0, 0, 0]])
        back = np.zeros(16, "u1")
        self.assertEqual(convert_copying(CUSTOMER, RIG, 2, Handling.CLAMP, customer, back), 1)
        self.assertEqual(back.tobytes()[:8], LOG[:8])
        log = np.zeros(2, dtype_of(CUSTOMER))
        self.assertEqual(convert_log(RIG, CUSTOMER, Handling.CLAMP, LOG, log), 1)
        self.assertEqual(log["valve"].tolist(), [1, 255])
        pressures = np.array([1, 2, 300], "<u2")
        convert_in_place(sheet_of("<u2"), BYTE, 3, Handling.CLAMP, pressures, bytes(3))
        self.assertEqual(pressures.tobytes(), b"\x01\x02\xff\x00\x00\x00")

    def test_pressures_as_doubles(self):
        dtype = np.dtype([("boost", "<f8", (3,))])
        array, exceptions = convert_to_array(RIG, dtype, Handling.STOP, LOG)
        self.assertEqual(exceptions, 0)
        self.assertEqual(array["boost"].tolist(), [[100.0, 2000.0, 4095.0], [0.0, 1.0, 2.0]])
        back = bytearray(16)
        self.assertEqual(convert_copying(sheet_of(dtype), RIG, 2, Handling.STOP, array, back), 0)
        self.assertEqual(bytes(back), bytes.fromhex("06 40 7d 00 ff f0 00 00  00 00 00 10 00 20 00 00"))
        doubles = np.array([-0.5, 255.5, 256.5, np.nan, -np.inf, -0.0, 7.0])
        numbers, exceptions = convert_to_array(sheet_of(doubles.dtype), BYTE, Handling.CLAMP, doubles)
        self.assertEqual((numbers.tolist(), exceptions), ([0, 255, 255, 0, 0, 0, 7], 6))
        turned, exceptions = convert_to_array(sheet_of(doubles.dtype), np.dtype(">f8"), Handling.STOP, doubles)
        self.assertEqual((turned.tobytes(), exceptions), (doubles.byteswap().tobytes(), 0))

    def test_arrays_that_are_no_buffers(self):
        column = np.zeros((4, 4), "u1")[:, 1]
        fixed = np.zeros(4, "u1")
        fixed.flags.writeable = False
        for destination, error, words in (
            (column, BufferError, "^the destination is not contiguous"),
            (np.asfortranarray(np.zeros((2, 2), "u1")), BufferError, "^the destination is not contiguous"),
            (fixed, TypeError, "^the destination is written, so it is .* not a read-only ndarray$"),
        ):
            with self.assertRaisesRegex(error, words):
                convert_copying(BYTE, BYTE, 4, Handling.STOP, b"\x01\x02\x03\x04", destination)
        with self.assertRaisesRegex(BufferError, "^the source is not contiguous"):
            convert_copying(BYTE, BYTE, 4, Handling.STOP, column, bytearray(4))
        whole = np.zeros(8, "u1")
        with self.assertRaisesRegex(ValueError, "overlap"):
            convert_copying(BYTE, BYTE, 4, Handling.STOP, whole[:5], whole[4:])
        self.assertEqual(convert_copying(BYTE, BYTE, 4, Handling.STOP, whole[:4], whole[4:]), 0)

    def test_a_record_of_the_array_is_its_sheets(self):
        """Each number of a converted array is the one that the record's bytes have by the sheet."""
        source = SIGNED + "comp\t3\nmember\ta\t0\t0\nmember\tb\t2\t0\n"
        dtype = np.dtype([("b", ">i8"), ("a", "<i2")])
        array, _ = convert_to_array(source, dtype, Handling.STOP, bytes((255, 0, 1, 2, 0, 128)))
        self.assertEqual(array.tolist(), [(1, -1), (-128, 2)])


if __name__ == "__main__":
    unittest.main()
