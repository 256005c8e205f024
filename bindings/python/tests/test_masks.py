"""Which bits of a source record show: the mask, and its refusals."""

import random
import unittest

import yirvagul
from common import BITS, BYTE, CUSTOMER, PAIR, REAL, RIG, random_sheet
from yirvagul import Handling, Refusal, convert_copying, reach, record_size, sheets
from yirvagul.layout import Order


def refused(*arguments):
    try:
        reach(*arguments)
    except Refusal as refusal:
        return refusal
    raise AssertionError("not refused")


def leaves(type_, at=0):
    """The leaves of a type by its names and places, each with its first byte and its type."""
    if isinstance(type_, sheets.Compound):
        return {(m.name, *way): leaf for m in type_.members for way, leaf in leaves(m.type, at + m.at).items()}
    if isinstance(type_, sheets.Array):
        elements = range(type_.size // type_.base.size)
        return {(i, *way): leaf for i in elements for way, leaf in leaves(type_.base, at + i * type_.base.size).items()}
    return {(): (at, type_)}


def by_hand(source, destination):
    """The mask, from the package's own reading of sheets."""
    source, destination = sheets.read(source), sheets.read(destination)
    mask = bytearray(source.size)
    matched = leaves(destination)
    for way, (at, leaf) in leaves(source).items():
        if way not in matched:
            continue
        layout = leaf.base if isinstance(leaf, sheets.Enum) else leaf
        first, bits = (0, 64) if isinstance(layout, sheets.Real) else (layout.offset, layout.precision)
        for bit in range(first, first + bits):
            byte = bit // 8 if layout.order == Order.LE else leaf.size - 1 - bit // 8
            mask[at + byte] |= 1 << bit % 8
    return bytes(mask)


class Masks(unittest.TestCase):
    def test_a_rig(self):
        self.assertEqual(reach(RIG, CUSTOMER), bytes.fromhex("ff f0 ff f0 ff f0 00 ff"))
        self.assertEqual(reach(CUSTOMER, RIG), b"\xff" * 7)
        self.assertEqual(reach(RIG, "comp\t1\n"), bytes(8))

    def test_either_order_and_reals(self):
        for order, mask in (("LE", "fc 0f"), ("BE", "0f fc")):
            self.assertEqual(reach(f"int\t2\t{order}\t2\t10\tzero\tzero\tunsigned\n", PAIR), bytes.fromhex(mask))
        self.assertEqual(reach(REAL, BYTE), b"\xff" * 8)

    def test_the_largest(self):
        self.assertEqual(reach(BYTE + "array\t0\t4096\n", BYTE + "array\t0\t4096\n"), b"\xff" * yirvagul.MASK_BYTES)

    def test_sheets_are_text_or_bytes(self):
        for sheet in (RIG, RIG.encode(), bytearray(RIG.encode()), memoryview(RIG.encode())):
            self.assertEqual(reach(sheet, sheet), reach(RIG, RIG))
        with self.assertRaisesRegex(TypeError, "^the destination sheet is text or bytes, not NoneType$"):
            reach(RIG, None)

    def test_random_sheets(self):
        rng, done = random.Random(19), 0
        for _ in range(300):
            source = random_sheet(rng)
            for destination in (source, random_sheet(rng)):
                try:
                    mask = reach(source, destination)
                except Refusal as refusal:
                    self.assertIn(refusal.number, (5, 12))
                    continue
                done += 1
                self.assertEqual(mask, by_hand(source, destination))
        self.assertGreater(done, 300)

    def test_a_flip_that_shows_is_in_the_mask(self):
        record, unflipped = bytearray(range(8)), bytearray(7)
        mask = reach(RIG, CUSTOMER)
        count = convert_copying(RIG, CUSTOMER, 1, Handling.CLAMP, record, unflipped)
        for bit in range(64):
            flipped, out = bytearray(record), bytearray(7)
            flipped[bit // 8] ^= 1 << bit % 8
            shows = (convert_copying(RIG, CUSTOMER, 1, Handling.CLAMP, flipped, out), out) != (count, unflipped)
            self.assertLessEqual(shows, mask[bit // 8] >> bit % 8 & 1, bit)


class Refusals(unittest.TestCase):
    def test_sheets(self):
        refusal = refused("comp\t0\n", BYTE)
        self.assertEqual((refusal.name, refusal.line, refusal.sheet), ("SOURCE", 1, "source sheet"))
        refusal = refused(BYTE, BYTE + "enum\t1\n")
        self.assertEqual((refusal.name, refusal.line, refusal.sheet), ("DESTINATION", 2, "destination sheet"))
        self.assertEqual(refused(BYTE + " " * 20000, BYTE).line, 0)

    def test_path(self):
        refusal = refused(RIG, RIG.replace("array\t0\t3", "array\t0\t2"))
        self.assertEqual((refusal.name, refusal.member), ("PATH", "boost"))
        self.assertEqual(refused(BYTE, BITS).number, 5)

    def test_symbols(self):
        few = BYTE + "enum\t0\nvalue\topen\t0\n"
        more = few + "value\tshut\t1\n"
        refusal = refused(more, few)
        self.assertEqual((refusal.name, refusal.symbol, refusal.member), ("SYMBOLS", "shut", None))
        self.assertEqual(reach(few, more), b"\xff")
        # an enum that is not matched does not count
        inside = "comp\t1\nmember\t{}\t0\t1\n"
        self.assertEqual(reach(more + inside.format("a"), few + inside.format("b")), b"\x00")

    def test_the_size_is_the_sources(self):
        for sheet in (BYTE, PAIR, RIG, CUSTOMER):
            self.assertEqual(len(reach(sheet, sheet)), record_size(sheet))


if __name__ == "__main__":
    unittest.main()
