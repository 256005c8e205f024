"""The words of members: what a leaf obeys, what a call then answers, and what is said of it."""

import copy
import io
import itertools
import math
import pathlib
import pickle
import struct
import tempfile
import unittest

import yirvagul
from common import BITS, BYTE, PAIR, REAL
from yirvagul import Handling, Kind, Number, Refusal, Report, _explain, convert_log, convert_log_parts

CLAMP, STOP = Handling.CLAMP, Handling.STOP

# What a member line may end in, and what a call may name: the call that names none is a plain form, which stops.
EACH = (None, CLAMP, STOP)
WORDS = {None: "", CLAMP: "\tclamp", STOP: "\tstop"}

# Two numbers of 16 bits, of which the boost of the first record and the oil of the second do not fit a byte.
FROM = PAIR + "comp\t4\nmember\toil\t0\t0\nmember\tboost\t2\t0\n"
LOG = bytes((0, 5, 1, 0, 1, 1, 0, 7))


def bytes_of(oil, boost):
    """A byte each, whose members have these words."""
    return f"{BYTE}comp\t2\nmember\toil\t0\t0{WORDS[oil]}\nmember\tboost\t1\t0{WORDS[boost]}\n"


def nested(base, size, engine=None, bank=None, boost=None):
    """A leaf three members deep."""
    lines = f"comp\t{size}\nmember\tboost\t0\t0{WORDS[boost]}\ncomp\t{size}\nmember\tbank\t0\t1{WORDS[bank]}\n"
    return f"{base}{lines}comp\t{size}\nmember\tengine\t0\t2{WORDS[engine]}\n"


def cells(base, size, above=None, a=None, b=None):
    """Three elements of two numbers each."""
    lines = f"comp\t{2 * size}\nmember\ta\t0\t0{WORDS[a]}\nmember\tb\t{size}\t0{WORDS[b]}\narray\t1\t3\n"
    return f"{base}{lines}comp\t{6 * size}\nmember\tcells\t0\t2{WORDS[above]}\n"


def obeyed(*named):
    """The first that is named; a plain form stops."""
    return next((handling for handling in named if handling is not None), STOP)


class Case(unittest.TestCase):
    def converted(self, source_sheet, destination_sheet, count, call, log):
        """The count and the converted records of both forms, or their refusal, which leaves every buffer."""
        size = count * yirvagul.record_size(destination_sheet)
        out, buffer, background = bytearray(b"\x77" * size), bytearray(log) + b"\x77" * max(0, size - len(log)), b"\x77" * size
        before, answers = bytes(buffer), []
        for convert, plain, lent in (
            (yirvagul.convert_copying, yirvagul.convert_copying_plain, (log, out)),
            (yirvagul.convert_in_place, yirvagul.convert_in_place_plain, (buffer, background)),
        ):
            try:
                if call is None:
                    answers.append(plain(source_sheet, destination_sheet, count, *lent))
                else:
                    answers.append(convert(source_sheet, destination_sheet, count, call, *lent))
            except Refusal as refusal:
                answers.append(refusal)
        copied, placed = answers
        if isinstance(copied, Refusal):
            self.assertEqual((str(copied), copied.answer), (str(placed), placed.answer))
            self.assertEqual((out, buffer), (background, before))
            return copied
        self.assertEqual((copied, out), (placed, buffer[:size]))
        return copied, bytes(out)

    def done(self, result, count, *wanted):
        self.assertEqual(result, (count, bytes(wanted)))

    def stopped(self, result, record, at, given, by):
        self.assertIsInstance(result, Refusal)
        self.assertEqual(result.number, Number.STOP)
        self.assertEqual((result.record, result.at, result.kind, result.given, result.stopped_by), (record, at, Kind.ABOVE, given, by))


class Obeyed(Case):
    def test_a_word_goes_before_the_call(self):
        for call, oil, boost in itertools.product(EACH, EACH, EACH):
            with self.subTest(call=call, oil=oil, boost=boost):
                result = self.converted(FROM, bytes_of(oil, boost), 2, call, LOG)
                if obeyed(boost, call) == STOP:
                    self.stopped(result, 0, 1, 256, None if boost is None else "boost")
                elif obeyed(oil, call) == STOP:
                    # the leaf that clamps raises in an earlier record
                    self.stopped(result, 1, 0, 257, None if oil is None else "oil")
                else:
                    self.done(result, 2, 5, 255, 255, 7)
                self.done(self.converted(FROM, bytes_of(oil, boost), 2, call, bytes((0, 1, 0, 2, 0, 3, 0, 255))), 0, 1, 2, 3, 255)

    def test_a_leaf_that_clamps_may_raise_at_an_earlier_byte(self):
        sheet = bytes_of(CLAMP, STOP)
        for call in EACH:
            log = bytes((1, 0, 0, 9, 1, 44, 1, 45, 0, 1, 0, 2))
            self.stopped(self.converted(FROM, sheet, 3, call, log), 1, 1, 301, "boost")
            log = bytes((1, 0, 0, 9, 1, 44, 0, 45, 255, 255, 0, 2))
            self.done(self.converted(FROM, sheet, 3, call, log), 3, 255, 9, 255, 45, 255, 2)

    def test_the_innermost_word(self):
        source = nested(PAIR, 2)
        for call, engine, bank, boost in itertools.product(EACH, EACH, EACH, EACH):
            with self.subTest(call=call, engine=engine, bank=bank, boost=boost):
                words = ((boost, "engine.bank.boost"), (bank, "engine.bank"), (engine, "engine"))
                result = self.converted(source, nested(BYTE, 1, engine, bank, boost), 2, call, bytes((0, 7, 1, 44)))
                if obeyed(boost, bank, engine, call) == STOP:
                    self.stopped(result, 1, 0, 300, next((by for word, by in words if word is not None), None))
                else:
                    self.done(result, 1, 7, 255)

    def test_a_word_above_an_array(self):
        source = cells(PAIR, 2)
        for call, leaf in itertools.product(EACH, range(6)):
            log = bytearray(12)
            log[2 * leaf] = 2
            self.stopped(self.converted(source, cells(BYTE, 1, STOP), 1, call, bytes(log)), 0, leaf, 512, "cells")
            self.done(self.converted(source, cells(BYTE, 1, CLAMP), 1, call, bytes(log)), 1, *(255 * (at == leaf) for at in range(6)))

    def test_a_word_in_an_element(self):
        source = cells(PAIR, 2)
        clamped = bytes((0, 1, 1, 0, 0, 2, 0, 3, 0, 4, 0, 5))
        stopped = bytes((0, 1, 1, 0, 0, 2, 0, 3, 3, 4, 0, 5))
        for call in EACH:
            self.done(self.converted(source, cells(BYTE, 1, STOP, b=CLAMP), 1, call, clamped), 1, 1, 255, 2, 3, 4, 5)
            self.stopped(self.converted(source, cells(BYTE, 1, STOP, b=CLAMP), 1, call, stopped), 0, 4, 772, "cells")
            self.stopped(self.converted(source, cells(BYTE, 1, CLAMP, a=STOP), 1, call, stopped), 0, 4, 772, "cells[2].a")

    def test_a_word_is_its_members_and_not_its_types(self):
        """Both members are of one type."""
        sheet = "{}comp\t{}\nmember\ta\t0\t0\ncomp\t{}\nmember\tleft\t0\t1{}\nmember\tright\t{}\t1{}\n".format
        source, destination = sheet(PAIR, 2, 4, "", 2, ""), sheet(BYTE, 1, 2, "\tclamp", 1, "\tstop")
        for call in EACH:
            self.done(self.converted(source, destination, 1, call, bytes((1, 0, 0, 9))), 1, 255, 9)
            self.stopped(self.converted(source, destination, 1, call, bytes((1, 0, 1, 9))), 0, 1, 265, "right")

    def test_words_of_the_source_have_no_effect(self):
        for word in ("clamp", "stop"):
            source = f"{PAIR}comp\t4\nmember\toil\t0\t0\t{word}\nmember\tboost\t2\t0\t{word}\n"
            self.done(self.converted(source, bytes_of(None, None), 2, CLAMP, LOG), 2, 5, 255, 255, 7)
            for call in (None, STOP):
                self.stopped(self.converted(source, bytes_of(None, None), 2, call, LOG), 0, 1, 256, None)

    def test_a_member_that_the_source_lacks(self):
        sheet = BYTE + "comp\t3\nmember\tnew\t0\t0\tstop\nmember\toil\t1\t0\tclamp\n"
        for call in EACH:
            self.done(self.converted(FROM, sheet, 1, call, LOG[4:]), 1, 0x77, 255, 0x77)

    def test_every_kind(self):
        valve = BYTE + "enum\t0\nvalue\topen\t0\n"
        long, pair = "int\t8\tBE\t0\t64\tzero\tzero\tunsigned\n", "bits\t2\tBE\t0\t16\tzero\tzero\n"
        for source, destination, number, size, data, kind, clamped in (
            (valve, valve, 1, 1, b"\x07", Kind.NO_SYMBOL, b"\xff"),
            (REAL, BYTE, 0, 1, struct.pack(">d", math.nan), Kind.NOT_A_NUMBER, b"\0"),
            (REAL, BYTE, 0, 1, struct.pack(">d", 0.5), Kind.TRUNCATED, b"\0"),
            (long, REAL, 0, 8, b"\xff" * 8, Kind.ROUNDED, struct.pack(">d", 2.0**64)),
            (pair, BITS, 0, 1, b"\x01\x00", Kind.ABOVE, b"\xff"),
        ):
            source += f"comp\t{len(data)}\nmember\tx\t0\t{number}\n"
            for call in EACH:
                member = f"{destination}comp\t{size}\nmember\tx\t0\t{number}"
                self.done(self.converted(source, member + "\tclamp\n", 1, call, data), 1, *clamped)
                refusal = self.converted(source, member + "\tstop\n", 1, call, data)
                self.assertEqual((refusal.number, refusal.kind, refusal.stopped_by), (Number.STOP, kind, "x"))


class Others(Case):
    """What does not look at words."""

    def test_the_report_clamps(self):
        for oil, boost in itertools.product(EACH, EACH):
            summary = Report(bytes_of(oil, boost)).add(FROM, LOG)
            self.assertEqual((summary.records, summary.exceptions), (2, 2))
            self.assertEqual(summary.rows, ((0, "oil", 5, 255, 260, 2), (1, "boost", 7, 255, 262, 2)))

    def test_the_other_calls(self):
        for oil, boost in itertools.product(EACH, EACH):
            sheet = bytes_of(oil, boost)
            self.assertEqual(yirvagul.record_size(sheet), 2)
            self.assertEqual(yirvagul.leaf_list(sheet), "at\tsize\tclass\n0\t1\tint\n1\t1\tint\n")
            self.assertEqual((yirvagul.reach(FROM, sheet), yirvagul.reach(sheet, FROM)), (b"\xff" * 4, b"\xff" * 2))
            found = yirvagul.compare(FROM, sheet, LOG, bytes((5, 255, 1, 7)))
            self.assertEqual([difference.line for difference in found], ["0\t1\t256\t255", "1\t0\t257\t1"])


class Said(Case):
    WIDEN = "is above the destination's range, and the destination sheet says stop for {}: widen the destination, or write clamp there"

    def said(self, source, destination, call, log):
        return str(self.converted(source, destination, 1, call, bytes(log)))

    def test_the_member_with_the_word(self):
        for call in EACH:
            self.assertEqual(
                self.said(FROM, bytes_of(None, STOP), call, LOG),
                "STOP (8): the number 256 for byte 1 of record 0, member `boost`, " + self.WIDEN.format("`boost`"),
            )
        self.assertEqual(
            self.said(nested(PAIR, 2), nested(BYTE, 1, engine=STOP), CLAMP, (1, 44)),
            "STOP (8): the number 300 for byte 0 of record 0, member `engine.bank.boost`, " + self.WIDEN.format("`engine`"),
        )
        self.assertEqual(
            self.said(cells(PAIR, 2), cells(BYTE, 1, STOP, b=CLAMP), CLAMP, (1,) * 12),
            "STOP (8): the number 257 for byte 0 of record 0, member `cells[0].a`, " + self.WIDEN.format("`cells`"),
        )

    def test_nothing_of_words_where_the_call_stopped_it(self):
        """Though another member has one."""
        for call in (None, STOP):
            self.assertEqual(
                self.said(FROM, bytes_of(CLAMP, None), call, LOG),
                "STOP (8): the number 256 for byte 1 of record 0, member `boost`, is above the destination's range: widen the destination, or clamp",
            )

    def test_each_kind(self):
        sheet = (BYTE + "comp\t1\nmember\tx\t0\t0\tstop\n").encode()
        half = struct.unpack("<Q", struct.pack("<d", 0.5))[0]
        for kind, given, wrong, remedy in (
            (1, (0, 300), "is above the destination's range", "widen the destination, or write clamp there"),
            (2, (1, 1), "is below the destination's range", "widen the destination, or write clamp there"),
            (3, (0, 7), "has no symbol in the source", "give it one in both enums, or write clamp there"),
            (4, (2, (1 << 64) - 1), "is not-a-number, which no int holds", "make the destination a real, or write clamp there"),
            (5, (2, half), "has a fraction, which no int holds", "make the destination a real, or write clamp there"),
            (6, (0, 1), "is no double, only near one", "make the destination an int, or write clamp there"),
            (
                *(7, (0, 1), "does not fit, of kind 7, which this version of yirvagul does not know"),
                "write clamp there, or take the version of the library",
            ),
        ):
            refusal = _explain.refusal((8, 0, 0, 4, 0, kind, *given), sheet, sheet)
            self.assertTrue(str(refusal).endswith(f", member `x`, {wrong}, and the destination sheet says stop for `x`: {remedy}"), refusal)

    def test_a_word_that_is_no_stop_explains_none(self):
        """Where the library stops a leaf that obeys clamp by the reading in Python."""
        sheet = (BYTE + "comp\t1\nmember\tx\t0\t0\tclamp\n").encode()
        refusal = _explain.refusal((8, 0, 0, 4, 0, 1, 0, 300), sheet, sheet)
        self.assertIsNone(refusal.stopped_by)
        self.assertTrue(str(refusal).endswith("is above the destination's range: widen the destination, or clamp"), refusal)

    def test_pickles_and_copies(self):
        refusal = self.converted(FROM, bytes_of(None, STOP), 1, CLAMP, LOG)
        for made in (pickle.loads(pickle.dumps(refusal)), copy.copy(refusal), copy.deepcopy(refusal)):
            self.assertEqual((made.stopped_by, str(made)), ("boost", str(refusal)))


class Logs(Case):
    """Logs of three parts, of which every third oil is clamped."""

    RECORDS = 150_000

    def log(self, *unfit):
        """The boost does not fit in the records that are named."""
        data = bytearray(b"".join(bytes((i % 3 == 0, 5, 0, i % 251)) for i in range(self.RECORDS)))
        for record in unfit:
            data[4 * record + 2] = 2
        return bytes(data)

    def test_words_in_every_part(self):
        log, sheet = self.log(), bytes_of(CLAMP, STOP)
        wanted = b"".join(bytes((255 if i % 3 == 0 else 5, i % 251)) for i in range(self.RECORDS))
        for handling in (CLAMP, STOP):
            out, file = bytearray(2 * self.RECORDS), io.BytesIO()
            self.assertEqual(convert_log(FROM, sheet, handling, log, out), 50_000)
            self.assertEqual(convert_log(FROM, sheet, handling, io.BytesIO(log), file), 50_000)
            self.assertTrue(out == wanted and file.getvalue() == wanted)

    def test_the_first_stop_of_the_whole_log(self):
        log, sheet = self.log(149_999, 80_001, 80_002), bytes_of(CLAMP, STOP)
        given = 512 + 80_001 % 251
        with tempfile.TemporaryDirectory() as folder:
            path = pathlib.Path(folder) / "out"
            path.write_bytes(b"as it was")
            for handling in (CLAMP, STOP):
                out, file = bytearray(b"\x77" * (2 * self.RECORDS)), io.BytesIO()
                for source, destination in itertools.product((log, io.BytesIO(log)), (out, file, path)):
                    if source is not log:
                        source.seek(0)
                    with self.assertRaises(Refusal) as caught:
                        convert_log(FROM, sheet, handling, source, destination)
                    self.stopped(caught.exception, 80_001, 1, given, "boost")
                self.assertEqual((out, file.getvalue()), (b"\x77" * (2 * self.RECORDS), b""))
            self.assertEqual([(file.name, file.read_bytes()) for file in pathlib.Path(folder).iterdir()], [("out", b"as it was")])

    def test_parts_as_they_come(self):
        log, sheet = self.log(80_001), bytes_of(CLAMP, STOP)
        for handling in (CLAMP, STOP):
            parts = convert_log_parts(FROM, sheet, handling, log)
            part = next(parts)
            # records 0, 3, 6 .. 65,535
            self.assertEqual((part.first, part.records, part.exceptions), (0, 65_536, 21_846))
            with self.assertRaises(Refusal) as caught:
                next(parts)
            self.assertEqual(caught.exception.record, 80_001)


if __name__ == "__main__":
    unittest.main()
