"""Setters, and the rules that a refused one names."""

import dataclasses
import pickle
import unittest
from unittest import mock

from yirvagul import Class, Layout, Number, Order, Pad, Refusal, Sign, _library


def wide(**changes):
    return dataclasses.replace(Layout(Class.INT, 4, Order.LE, 16, 16, Pad.ZERO, Pad.ZERO, Sign.UNSIGNED), **changes)


class Setters(unittest.TestCase):
    def test_changes(self):
        layout = wide()
        layout.set_size(3)
        self.assertEqual((layout.size, layout.offset, layout.precision), (3, 8, 16))
        layout.set_field(4, 20)
        self.assertEqual((layout.size, layout.offset, layout.precision), (3, 4, 20))
        layout.set_field(offset=20, precision=20)
        self.assertEqual((layout.size, layout.offset, layout.precision), (5, 20, 20))
        layout.set_order(Order.BE)
        layout.set_pads(Pad.ONE, Pad.KEEP)
        layout.set_sign(Sign.SIGNED)
        self.assertEqual(layout, Layout(Class.INT, 5, Order.BE, 20, 20, Pad.ONE, Pad.KEEP, Sign.SIGNED))
        self.assertIs(type(layout.lsb), Pad)
        self.assertEqual(pickle.loads(pickle.dumps(layout)), layout)

    def test_refusals(self):
        for layout, setter, values, rule in (
            (wide(), "size", (0,), "the size is 0 bytes: 1 to 8 are allowed"),
            (wide(), "size", (9,), "the size is 9 bytes: 1 to 8 are allowed"),
            (wide(), "size", (-1,), "the size is -1 bytes: 1 to 8 are allowed"),
            (wide(), "size", ((1 << 32) + 1,), "the size is 4294967297 bytes: 1 to 8 are allowed"),
            (wide(), "order", (2,), "order is 2: Order.LE or Order.BE is allowed"),
            (wide(), "field", (0, 0), "the precision is 0 bits: 1 to 64 are allowed"),
            (wide(), "field", (0, 65), "the precision is 65 bits: 1 to 64 are allowed"),
            (wide(), "field", (49, 16), "offset 49 and precision 16 do not fit 8 bytes: keep the offset within 0 to 48"),
            (wide(), "field", (-1, 20), "offset -1 and precision 20 do not fit 8 bytes: keep the offset within 0 to 44"),
            (wide(), "field", ((1 << 32) - 1, 1), "offset 4294967295 and precision 1 do not fit 8 bytes: keep the offset within 0 to 63"),
            (wide(), "field", (1 << 32, 1), "offset 4294967296 and precision 1 do not fit 8 bytes: keep the offset within 0 to 63"),
            (
                wide(offset=17),
                "field",
                (0, 8),
                "the layout's offset 17 and precision 16 need 33 bits, and its 4 bytes have 32",
            ),
            (wide(), "pads", (0, 3), "msb is 3: Pad.ZERO or Pad.ONE or Pad.KEEP is allowed"),
            (wide(), "pads", (3, 0), "lsb is 3: Pad.ZERO or Pad.ONE or Pad.KEEP is allowed"),
            (wide(), "sign", (2,), "sign is 2: Sign.UNSIGNED or Sign.SIGNED is allowed"),
            (wide(class_=Class.BITS), "sign", (Sign.SIGNED,), "bits have no sign"),
            (wide(class_=Class.BITS), "sign", (Sign.UNSIGNED,), "bits have no sign"),
            (wide(class_=2), "size", (4,), "class is 2: Class.INT or Class.BITS is allowed"),
            (wide(order=7), "size", (4,), "order is 7: Order.LE or Order.BE is allowed"),
            (wide(size=9), "size", (4,), "the layout's size is 9 bytes: 1 to 8 are allowed"),
            (wide(precision=0), "size", (4,), "the layout's precision is 0 bits: 1 to 64 are allowed"),
            (wide(offset=-1), "size", (4,), "the layout's offset is -1: it is 0 or more"),
            (
                wide(offset=17),
                "order",
                (Order.BE,),
                "the layout's offset 17 and precision 16 need 33 bits, and its 4 bytes have 32",
            ),
            (wide(class_=Class.BITS, sign=Sign.SIGNED), "size", (4,), "the layout is a signed bits: bits have no sign"),
        ):
            before = dataclasses.replace(layout)
            with self.subTest(rule), self.assertRaises(Refusal) as caught:
                getattr(layout, "set_" + setter)(*values)
            self.assertEqual((caught.exception.number, caught.exception.rule), (Number.RANGE, rule))
            self.assertEqual(str(caught.exception), f"RANGE (9): {rule}")
            self.assertEqual(layout, before)

    def test_what_only_the_library_knows(self):
        """A refusal that breaks no rule of this version is not explained by one; a new number is shown as it is."""
        for number, words in ((9, "RANGE (9): the argument or the layout breaks the rules of a layout"), (16, "UNKNOWN (16): ")):
            with mock.patch.object(_library, "set_size", return_value=number), self.assertRaises(Refusal) as caught:
                wide().set_size(4)
            self.assertEqual((caught.exception.number, caught.exception.rule), (number, None))
            self.assertTrue(str(caught.exception).startswith(words), caught.exception)

    def test_types(self):
        for value in ("4", 4.0, None):
            with self.assertRaisesRegex(TypeError, f"^size is a whole number, not {type(value).__name__}$"):
                wide().set_size(value)
            with self.assertRaisesRegex(TypeError, "^class is a whole number, not str$"):
                wide(class_="int").set_size(4)


if __name__ == "__main__":
    unittest.main()
