"""Reports: what they say, what they refuse, how they are kept, and threads and processes that share them."""

import array
import concurrent.futures
import copy
import io
import math
import multiprocessing
import pathlib
import pickle
import random
import struct
import tempfile
import threading
import unittest
import zlib

import yirvagul
from common import BITS, BYTE, CUSTOMER, PAIR, REAL, RIG, SIGNED, random_sheet, wordless
from yirvagul import Handling, Number, Refusal, Report, Row, Summary, sheets

REPOSITORY = pathlib.Path(__file__).resolve().parents[3]
LOG = (REPOSITORY / "examples/rig.log").read_bytes()
KEPT = (REPOSITORY / "bindings/season.report").read_bytes()
HEAD = "at\tlowest\thighest\tsum\tsamples\n"
BOTH = SIGNED + PAIR + "comp\t3\nmember\ta\t0\t0\nmember\tb\t1\t1\n"


def example():
    report = Report(CUSTOMER)
    report.add(RIG, LOG)
    return report


def resummed(data):
    """Saved bytes with the right check sum."""
    return data[:-4] + zlib.crc32(data[:-4]).to_bytes(4, "little")


class Results(unittest.TestCase):
    def test_a_new_one(self):
        report = Report(BOTH)
        text = HEAD + "0\t-\t-\t0\t0\n1\t-\t-\t0\t0\n"
        rows = (Row(0, "a", None, None, 0, 0), Row(1, "b", None, None, 0, 0))
        self.assertEqual(report.summary, Summary(0, 0, rows, text))
        self.assertEqual((report.records, report.exceptions, report.rows, report.text), report.summary)
        self.assertEqual(report.reader_sheet, BOTH.encode())
        self.assertEqual(Report(BITS).summary, Summary(0, 0, (), HEAD))
        self.assertEqual(len(Report(BYTE + "array\t0\t4096\n").rows), 4096)

    def test_logs_of_several_sheets(self):
        report = Report(BOTH)
        other = PAIR + "comp\t2\nmember\ta\t0\t0\n"
        # 200 is clamped to 127, and is a sample
        summary = report.add(other, bytes((0, 5, 0, 200)))
        self.assertEqual(summary.text, HEAD + "0\t5\t127\t132\t2\n1\t-\t-\t0\t0\n")
        self.assertEqual((summary.records, summary.exceptions), (2, 1))
        summary = report.add(BOTH, b"\xff\xff\xff")
        self.assertEqual(summary.rows, (Row(0, "a", -1, 127, 131, 3), Row(1, "b", 65535, 65535, 65535, 1)))
        self.assertEqual(report.summary, summary)
        self.assertEqual(report.add(BOTH, b""), summary)
        self.assertEqual(repr(report), "<Report: records 3, exceptions 1>")

    def test_reals(self):
        """A real of the reader's sheet has no row, and its exceptions count; a real of the log gives an int samples."""
        report = Report(BYTE + REAL + "comp\t9\nmember\ta\t0\t0\nmember\tb\t1\t1\n")
        self.assertEqual(report.rows, (Row(0, "a", None, None, 0, 0),))
        wide = "int\t8\tBE\t0\t64\tzero\tzero\tunsigned\n"
        log = struct.pack(">dQdQ", 2.5, 5, math.nan, (1 << 64) - 1)
        summary = report.add(REAL + wide + "comp\t16\nmember\ta\t0\t0\nmember\tb\t8\t1\n", log)
        # the fraction, the not-a-number, whose 0 is a sample, and 2^64 - 1, which is no double
        self.assertEqual((summary.records, summary.exceptions), (2, 3))
        self.assertEqual(summary.rows, (Row(0, "a", 0, 2, 2, 2),))

    def test_a_leaf_without_a_name(self):
        report = Report(PAIR)
        self.assertEqual(report.add(BYTE, b"\x07").rows, (Row(0, None, 7, 7, 7, 1),))

    def test_logs_from_everything(self):
        with tempfile.TemporaryDirectory() as folder:
            path = pathlib.Path(folder) / "rig.log"
            path.write_bytes(LOG)
            for log in (LOG, bytearray(LOG), memoryview(LOG), array.array("B", LOG), path, str(path), io.BytesIO(LOG)):
                report = Report(CUSTOMER)
                report.add(RIG, log)
                self.assertEqual(report, example())
            with open(path, "rb", buffering=0) as file:
                file.seek(8)
                report = Report(CUSTOMER)
                self.assertEqual(report.add(RIG, file).records, 47)
            self.assertEqual(path.read_bytes(), LOG)

    def test_the_callers_bytes_stay(self):
        log = bytearray(LOG)
        Report(CUSTOMER).add(RIG, log)
        self.assertEqual(log, LOG)

    def test_many_parts(self):
        log = bytes(range(256)) * 800
        report, pieces = Report(PAIR), Report(PAIR)
        self.assertEqual(report.add(BYTE, log).rows[0], Row(0, None, 0, 255, sum(log), len(log)))
        for at in range(0, len(log), 70001):
            pieces.add(BYTE, log[at : at + 70001])
        self.assertEqual(pieces, report)

    def test_against_single_conversions(self):
        """The numbers that a conversion writes, record by record, on random sheets."""
        rng = random.Random(7)
        tried = 0
        while tried < 60:
            reader, source = random_sheet(rng), random_sheet(rng)
            try:
                report = Report(reader)
                size, wanted = yirvagul.record_size(source), {row.at: [] for row in report.rows}
                records = [rng.randbytes(size) for _ in range(5)]
                expected, exceptions = sheets.read(reader), 0
                matched = {}
                for record in records:
                    # a leaf is matched where the conversion does not leave it to the background
                    out, other = bytearray(yirvagul.record_size(reader)), bytearray(b"\xff" * yirvagul.record_size(reader))
                    # the report clamps whatever the words
                    exceptions += yirvagul.convert_copying(source, wordless(reader), 1, Handling.CLAMP, record, out)
                    yirvagul.convert_copying(source, wordless(reader), 1, Handling.CLAMP, record, other)
                    for at in wanted:
                        wanted[at].append(number(expected, out, at))
                        matched[at] = number(expected, out, at) == number(expected, other, at)
                summary = report.add(source, b"".join(records))
            except Refusal as refused:
                self.assertIn(refused.number, (Number.CHANNEL, Number.PATH, Number.SYMBOLS))
                continue
            tried += 1
            self.assertEqual((summary.records, summary.exceptions), (5, exceptions))
            for row in summary.rows:
                numbers = wanted[row.at]
                if matched[row.at]:
                    self.assertEqual(row[2:], (min(numbers), max(numbers), sum(numbers), 5))
                else:
                    self.assertEqual(row[2:], (None, None, 0, 0))


def number(type_, record, at):
    """The number of the int leaf at a byte of a record."""
    leaf, start = type_, at
    while not isinstance(leaf, sheets.Atomic):
        if isinstance(leaf, sheets.Compound):
            member = next(member for member in leaf.members if member.at <= start < member.at + member.type.size)
            leaf, start = member.type, start - member.at
        else:
            leaf, start = leaf.base, start % leaf.base.size
    order = "little" if leaf.order == yirvagul.Order.LE else "big"
    found = int.from_bytes(record[at : at + leaf.size], order) >> leaf.offset & (1 << leaf.precision) - 1
    return found - (1 << leaf.precision) if found > leaf.range[1] else found


class Refused(unittest.TestCase):
    def test_a_refusal_leaves_the_report(self):
        report = Report(BYTE)
        report.add(BYTE, b"\x05")
        before = report.to_bytes()
        for source, log, error, words in (
            ("comp\t0\n", b"", Refusal, "^SOURCE \\(3\\): line 1 of the source sheet is faulty"),
            (BITS, b"\x05", Refusal, "^PATH \\(5\\)"),
            (PAIR, b"\x05", ValueError, "^the source has 1 bytes, no multiple of the 2 of its record"),
            (BYTE, "none.log", FileNotFoundError, "none.log"),
            (BYTE, 7, TypeError, "^the source is a path, a binary file or a buffer, not int$"),
            # in its seventeenth part
            (BYTE, bytes(1048576), Refusal, "^FULL \\(11\\): the report would have 1,048,577 records or more"),
        ):
            with self.assertRaisesRegex(error, words):
                report.add(source, log)
            self.assertEqual(report.to_bytes(), before)
        self.assertEqual(report.add(BYTE, bytes(1048575)).records, Report.MOST_RECORDS)
        self.assertEqual(report.add(BYTE, b"").records, Report.MOST_RECORDS)

    def test_sheets(self):
        for sheet, words in (
            ("comp\t0\n", "^SOURCE \\(3\\): line 1 of the sheet is faulty"),
            ("int\t8\tLE\t0\t64\tzero\tzero\tsigned\n", "^CHANNEL \\(10\\): the record has 64 bits"),
        ):
            with self.assertRaisesRegex(Refusal, words):
                Report(sheet)
        with self.assertRaisesRegex(TypeError, "^the reader's sheet is text or bytes, not NoneType$"):
            Report(None)

    def test_the_first_wide_int(self):
        wide, wider = (f"int\t8\tLE\t0\t{bits}\tzero\tzero\tsigned\n" for bits in (33, 64))
        members = "array\t0\t2\t2\ncomp\t64\nmember\tlate\t40\t1\nmember\tearly\t8\t2\n"
        with self.assertRaises(Refusal) as caught:
            Report(wide + wider + members)
        self.assertEqual((caught.exception.member, caught.exception.precision), ("early[0][0]", 33))
        # neither an enum's base nor bits nor a type that nothing uses is an int leaf
        fine = wide + "enum\t0\nbits\t8\tLE\t0\t64\tzero\tzero\n" + BYTE + "comp\t17\nmember\ta\t0\t1\nmember\tb\t8\t2\nmember\tc\t16\t3\n"
        self.assertEqual([row.member for row in Report(fine).rows], ["c"])


class Kept(unittest.TestCase):
    def test_as_bytes(self):
        """The same bytes as Rust's, which keeps the same file in its tests."""
        self.assertEqual(example().to_bytes(), KEPT)
        for data in (KEPT, bytearray(KEPT), memoryview(KEPT)):
            report = Report.from_bytes(data)
            self.assertEqual(report, example())
            self.assertEqual(report.summary, example().summary)
        self.assertEqual(report.add(CUSTOMER, bytes(7)).records, 49)

    def test_damaged(self):
        for at in range(len(KEPT)):
            for data in (KEPT[:at] + bytes((KEPT[at] ^ 0x10,)) + KEPT[at + 1 :], KEPT[:at]):
                with self.assertRaisesRegex(ValueError, "^this (is no saved report|report was saved in version|saved report is damaged)"):
                    Report.from_bytes(data)
        with self.assertRaisesRegex(ValueError, "^this saved report is damaged"):
            Report.from_bytes(KEPT + b"\0")
        with self.assertRaises(TypeError):
            Report.from_bytes("text")

    def test_what_no_report_holds(self):
        start = len(KEPT) - 4 - 14 * 8
        for at, word in ((0, -1), (1, -1), (5, -1), (2, 1 << 53), (4, -(1 << 63)), (0, 1048577)):
            data = bytearray(KEPT)
            data[start + 8 * at : start + 8 * at + 8] = word.to_bytes(8, "little", signed=True)
            with self.assertRaisesRegex(ValueError, "^this saved report holds what no report does: FULL \\(11\\)"):
                Report.from_bytes(resummed(bytes(data)))
        data = bytearray(KEPT)
        data[28:31] = b"mem"  # the sheet's first word
        with self.assertRaisesRegex(ValueError, "^this saved report holds what no report does: SOURCE \\(3\\)"):
            Report.from_bytes(resummed(bytes(data)))
        fewer = KEPT[:24] + (13).to_bytes(4, "little") + KEPT[28:-12] + KEPT[-4:]
        with self.assertRaisesRegex(ValueError, "^this saved report is damaged"):
            Report.from_bytes(resummed(fewer))

    def test_pickles_and_copies(self):
        class Own(Report):
            pass

        report = example()
        made = [pickle.loads(pickle.dumps(report, protocol)) for protocol in range(pickle.HIGHEST_PROTOCOL + 1)]
        for other in (*made, copy.copy(report), copy.deepcopy(report)):
            self.assertIsNot(other, report)
            self.assertEqual(other, report)
            other.add(CUSTOMER, bytes(7))
            self.assertNotEqual(other, report)
        self.assertIs(type(copy.copy(Own(BYTE))), Own)
        self.assertNotEqual(Report(BYTE), Report(PAIR))
        self.assertNotEqual(Report(BYTE), BYTE)
        with self.assertRaises(TypeError):
            hash(report)


class Shared(unittest.TestCase):
    def test_threads(self):
        """Logs from many threads all count, and what is read meanwhile is that of whole logs."""
        report, over, seen = Report(CUSTOMER), threading.Event(), set()

        def watch():
            while not over.is_set():
                summary = report.summary
                seen.add((summary.records % 48, summary.rows[0].samples - summary.records))

        watcher = threading.Thread(target=watch)
        watcher.start()
        with concurrent.futures.ThreadPoolExecutor(8) as pool:
            for done in [pool.submit(report.add, RIG, LOG) for _ in range(64)]:
                done.result()
        over.set()
        watcher.join()
        self.assertEqual(seen, {(0, 0)})
        alone = Report(CUSTOMER)
        alone.add(RIG, LOG * 64)
        self.assertEqual(report, alone)

    def test_a_refused_thread_lets_the_others_go_on(self):
        report = Report(BYTE)
        with self.assertRaises(Refusal):
            report.add(BITS, b"\x05")
        self.assertEqual(report.add(BYTE, b"\x05").records, 1)

    def test_pools(self):
        for method in ("fork", "spawn"):
            with multiprocessing.get_context(method).Pool(2) as pool:
                report = pool.apply_async(example).get(timeout=60)
                self.assertEqual(report, example())
                summary = pool.apply_async(report.add, (RIG, LOG)).get(timeout=60)
                self.assertEqual(summary.records, 96)
                self.assertEqual(report.records, 48)


if __name__ == "__main__":
    unittest.main()
