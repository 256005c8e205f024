"""The calls on records and sheets: what they give, and what they take."""

import array
import ctypes
import itertools
import mmap
import tempfile
import threading
import unittest
from unittest import mock

import yirvagul
from common import BITS, BYTE, CUSTOMER, PAIR, RIG, SIGNED
from yirvagul import Handling, Kind, Number, Refusal, Report, _library

CLAMP, STOP = Handling.CLAMP, Handling.STOP


class Results(unittest.TestCase):
    def test_copying(self):
        out = bytearray(b"\x77\x77\x77")
        self.assertEqual(yirvagul.convert_copying(BYTE, SIGNED, 2, CLAMP, b"\xff\x05", out), 1)
        self.assertEqual(out, b"\x7f\x05\x77")
        self.assertEqual(yirvagul.convert_copying(SIGNED, PAIR, 1, CLAMP, b"\xff", out), 1)
        self.assertEqual(out, b"\x00\x00\x77")

    def test_in_place(self):
        buffer = bytearray(b"\x0a\x0b\x77\x77")
        self.assertEqual(yirvagul.convert_in_place(BYTE, PAIR, 2, STOP, buffer, bytes(4)), 0)
        self.assertEqual(buffer, b"\x00\x0a\x00\x0b")
        self.assertEqual(yirvagul.convert_in_place_plain(PAIR, BYTE, 2, buffer, bytes(2)), 0)
        self.assertEqual(buffer, b"\x0a\x0b\x00\x00")

    def test_background(self):
        keep = "int\t1\tLE\t2\t4\tkeep\tkeep\tunsigned\n"
        out = bytearray(b"\xc3")
        yirvagul.convert_copying(BYTE, keep, 1, STOP, b"\x05", out)
        self.assertEqual(out, b"\xd7")
        buffer = bytearray(b"\x05")
        yirvagul.convert_in_place(BYTE, keep, 1, STOP, buffer, b"\xc3")
        self.assertEqual(buffer, b"\xd7")

    def test_no_records_and_empty_buffers(self):
        for empty in (b"", bytearray(), memoryview(b""), array.array("B")):
            self.assertEqual(yirvagul.convert_copying(BYTE, PAIR, 0, STOP, empty, bytearray()), 0)
            self.assertEqual(yirvagul.convert_in_place(BYTE, PAIR, 0, STOP, bytearray(), empty), 0)

    def test_list(self):
        self.assertEqual(yirvagul.leaf_list(BITS), "at\tsize\tclass\n0\t1\tbits\n")
        self.assertEqual(yirvagul.leaf_list(BITS, room=23), yirvagul.leaf_list(BITS))
        self.assertEqual(len(yirvagul.leaf_list(BITS + "array\t0\t4096\n").splitlines()), 4097)

    def test_record_size(self):
        for sheet, size in ((BYTE, 1), (PAIR, 2), (RIG, 8), (CUSTOMER, 7), (BYTE + "array\t0\t4\t5\n", 20)):
            self.assertEqual(yirvagul.record_size(sheet), size)

    def test_sheets_are_text_or_bytes(self):
        for sheet in (RIG, RIG.encode(), bytearray(RIG.encode()), memoryview(RIG.encode())):
            self.assertEqual(yirvagul.record_size(sheet), 8)
        with self.assertRaisesRegex(TypeError, "^the sheet is text or bytes, not int$"):
            yirvagul.record_size(8)
        with self.assertRaisesRegex(TypeError, "^the destination sheet is text or bytes, not NoneType$"):
            yirvagul.convert_copying(RIG, None, 0, STOP, b"", bytearray())
        for long in (bytearray(20000), "x" * 20000, "\ud800" * 6000):
            with self.assertRaises(Refusal) as caught:
                yirvagul.record_size(long)
            self.assertEqual((caught.exception.number, caught.exception.line), (Number.SOURCE, 0))


class Blocks(unittest.TestCase):
    """Logs of 300 records, against what their bytes say."""

    # a pressure of 12 bits in the top of two bytes, and a signed byte
    SHORT = "int\t2\tBE\t4\t12\tzero\tzero\tunsigned\n" + SIGNED + "comp\t3\nmember\ta\t0\t0\nmember\tb\t2\t1\n"
    # the byte in two, a gap, and the pressure in 10 bits between kept ones
    LONG = "int\t2\tLE\t2\t10\tkeep\tkeep\tunsigned\n" + PAIR + "comp\t5\nmember\tb\t0\t1\nmember\ta\t3\t0\n"
    RECORDS = 300
    BACKGROUND = bytes(at * 37 % 251 for at in range(5 * 300))

    def numbers(self, *unfit):
        """Those that fit the long record, but for some records."""
        return [(i * 7 % 1024 + (2048 if i in unfit else 0), i % 128) for i in range(self.RECORDS)]

    def short(self, numbers):
        return b"".join((a << 4).to_bytes(2, "big") + bytes((b,)) for a, b in numbers)

    def long(self, numbers):
        """The long records over the background, clamped."""
        out = bytearray()
        for i, (a, b) in enumerate(numbers):
            under = self.BACKGROUND[5 * i : 5 * i + 5]
            kept = int.from_bytes(under[3:], "little") & 0xF003
            out += bytes((0, b, under[2])) + (min(a, 1023) << 2 | kept).to_bytes(2, "little")
        return bytes(out)

    def test_copying(self):
        numbers = self.numbers(0, 7, 255, 256, 299)
        out = bytearray(self.BACKGROUND)
        self.assertEqual(yirvagul.convert_copying(self.SHORT, self.LONG, 300, CLAMP, self.short(numbers), out), 5)
        self.assertEqual(out, self.long(numbers))

    def test_in_place(self):
        numbers = self.numbers(0, 7, 255, 256, 299)
        buffer = bytearray(self.short(numbers) + b"\x77" * 600)
        self.assertEqual(yirvagul.convert_in_place(self.SHORT, self.LONG, 300, CLAMP, buffer, self.BACKGROUND), 5)
        self.assertEqual(buffer, self.long(numbers))

    def test_shrinking(self):
        log, wanted = self.long(self.numbers()), self.short(self.numbers()) + bytes(600)
        buffer, plain = bytearray(log), bytearray(log)
        self.assertEqual(yirvagul.convert_in_place(self.LONG, self.SHORT, 300, STOP, buffer, b"\x55" * 900), 0)
        self.assertEqual(yirvagul.convert_in_place_plain(self.LONG, self.SHORT, 300, plain, b"\x55" * 900), 0)
        self.assertEqual((buffer, plain), (wanted, wanted))

    def test_stop(self):
        for record in (0, 7, 8, 255, 256, 291, 292, 298, 299):
            log = self.short(self.numbers(record, 299))
            out, buffer = bytearray(self.BACKGROUND), bytearray(log + b"\x77" * 600)
            for convert, given in (
                (yirvagul.convert_copying, (STOP, log, out)),
                (yirvagul.convert_copying_plain, (log, out)),
                (yirvagul.convert_in_place, (STOP, buffer, self.BACKGROUND)),
                (yirvagul.convert_in_place_plain, (buffer, self.BACKGROUND)),
            ):
                with self.assertRaises(Refusal) as caught:
                    convert(self.SHORT, self.LONG, 300, *given)
                refusal = caught.exception
                self.assertEqual((refusal.number, refusal.record, refusal.at), (Number.STOP, record, 3))
                self.assertEqual(refusal.given, record * 7 % 1024 + 2048)
            self.assertEqual((out, buffer), (self.BACKGROUND, log + b"\x77" * 600))


class Plain(unittest.TestCase):
    """The forms that name no handling: they stop."""

    # a pressure and a temperature; the same in a byte each, the temperature first
    SENT = PAIR + SIGNED + "comp\t3\nmember\tboost\t0\t0\nmember\toil\t2\t1\n"
    READ = BYTE + "comp\t2\nmember\toil\t0\t0\nmember\tboost\t1\t0\n"

    def test_what_fits(self):
        log = bytes((0, 9, 2, 0, 7, 1, 0, 255, 127))
        out, buffer = bytearray(b"\x77" * 7), bytearray(log)
        self.assertEqual(yirvagul.convert_copying_plain(self.SENT, self.READ, 3, log, out), 0)
        self.assertEqual(out, bytes((2, 9, 1, 7, 127, 255, 0x77)))
        self.assertEqual(yirvagul.convert_in_place_plain(self.SENT, self.READ, 3, buffer, bytes(6)), 0)
        self.assertEqual(buffer, bytes((2, 9, 1, 7, 127, 255, 0, 0, 0)))

    def test_what_does_not(self):
        """In the first record and in the last; the report clamps the same records."""
        for log, stop, rows, exceptions in (
            # -5 and 300, of which the first byte is named
            ((1, 44, 251, 0, 7, 1, 0, 255, 127), (0, 0, Kind.BELOW, -5), ((0, "oil", 0, 127, 128, 3), (1, "boost", 7, 255, 517, 3)), 2),
            ((0, 9, 2, 0, 7, 1, 1, 0, 127), (2, 1, Kind.ABOVE, 256), ((0, "oil", 1, 127, 130, 3), (1, "boost", 7, 255, 271, 3)), 1),
        ):
            out, buffer, background = bytearray(b"\x77" * 7), bytearray(log), bytearray(b"\x55" * 6)
            for convert, lent in (
                (yirvagul.convert_copying_plain, (bytes(log), out)),
                (yirvagul.convert_in_place_plain, (buffer, background)),
            ):
                with self.assertRaises(Refusal) as caught:
                    convert(self.SENT, self.READ, 3, *lent)
                refusal = caught.exception
                self.assertEqual(refusal.number, Number.STOP)
                self.assertEqual((refusal.record, refusal.at, refusal.kind, refusal.given), stop)
            self.assertEqual((out, buffer, background), (b"\x77" * 7, bytes(log), b"\x55" * 6))
            summary = Report(self.READ).add(self.SENT, bytes(log))
            self.assertEqual((summary.records, summary.exceptions, summary.rows), (3, exceptions, rows))


class Counts(unittest.TestCase):
    def call(self, count):
        return yirvagul.convert_copying(BYTE, BYTE, count, STOP, b"\x05", bytearray(1))

    def test_any_whole_number(self):
        self.assertEqual(self.call(True), 0)
        self.assertEqual(self.call(ctypes.c_int(1).value), 0)

    def test_too_many_are_refused_by_the_library(self):
        for count in (65537, 1 << 32, (1 << 32) + 1, (1 << 64) - 1, 1 << 64, (1 << 64) + 1, 10**30):
            with self.assertRaises(Refusal) as caught:
                self.call(count)
            self.assertEqual((caught.exception.number, caught.exception.count), (Number.COUNT, count))

    def test_what_is_no_number_of_records(self):
        with self.assertRaisesRegex(ValueError, "^count is -1: it is 0 or more$"):
            self.call(-1)
        for count in (1.0, "1", None):
            with self.assertRaisesRegex(TypeError, f"^count is a whole number, not {type(count).__name__}$"):
                self.call(count)
        with self.assertRaisesRegex(ValueError, "^room is -1: it is 0 or more$"):
            yirvagul.leaf_list(BYTE, room=-1)


class NamedHandling(unittest.TestCase):
    def test_only_the_enum_is_taken(self):
        for handling in (0, 1, 2, True, None, "STOP"):
            with self.assertRaisesRegex(TypeError, r"^handling is Handling\.CLAMP or Handling\.STOP, not "):
                yirvagul.convert_copying(BYTE, BYTE, 1, handling, b"\x05", bytearray(1))
            with self.assertRaisesRegex(TypeError, r"^handling is Handling\.CLAMP or Handling\.STOP, not "):
                yirvagul.convert_in_place(BYTE, BYTE, 1, handling, bytearray(1), b"\x05")

    def test_no_table(self):
        with self.assertRaises(TypeError):
            yirvagul.convert_copying(BYTE, BYTE, 1, STOP, b"\x05", bytearray(1), table=bytes(8192))


class Buffers(unittest.TestCase):
    """Every sort of buffer, for what is read and for what is written."""

    def setUp(self):
        self.file = tempfile.TemporaryFile()
        self.addCleanup(self.file.close)
        self.file.write(bytes(mmap.PAGESIZE))
        self.file.flush()

    def mapped(self, **how):
        mapping = mmap.mmap(self.file.fileno(), 0, **how)
        self.addCleanup(mapping.close)
        return mapping

    def test_read(self):
        self.file.seek(0)
        self.file.write(b"\x01\x02\x03")
        self.file.flush()
        data = b"\x01\x02\x03"
        whole = memoryview(b"\x00" + data + b"\x00")
        for source in (
            data,
            bytearray(data),
            memoryview(data),
            whole[1:4],
            memoryview(bytearray(data)),
            array.array("B", data),
            (ctypes.c_uint8 * 3)(*data),
            self.mapped(access=mmap.ACCESS_READ),
            self.mapped(access=mmap.ACCESS_COPY),
        ):
            out, buffer = bytearray(3), bytearray(3)
            yirvagul.convert_copying(BYTE, BYTE, 3, STOP, source, out)
            self.assertEqual(out, data)
            keep = "comp\t1\n"
            yirvagul.convert_in_place(keep, keep, 3, STOP, buffer, source)
            self.assertEqual(buffer, data)

    def test_written(self):
        for written in (bytearray(4), array.array("B", bytes(4)), array.array("H", (0, 0)), (ctypes.c_uint8 * 4)(), self.mapped()):
            view = memoryview(written)
            part = view.cast("B")[1:]
            yirvagul.convert_copying(BYTE, BYTE, 2, STOP, b"\x05\x06", written)
            self.assertEqual(view.tobytes()[:4], b"\x05\x06\x00\x00")
            yirvagul.convert_copying(BYTE, BYTE, 2, STOP, b"\x07\x08", part)
            self.assertEqual(view.tobytes()[:4], b"\x05\x07\x08\x00")
            yirvagul.convert_in_place(BYTE, PAIR, 1, STOP, part, bytes(2))
            self.assertEqual(view.tobytes()[:4], b"\x05\x00\x07\x00")
            part.release()
            view.release()

    def test_read_only_is_not_written(self):
        read_only = (b"\x05", memoryview(b"\x05"), memoryview(bytearray(b"\x05")).toreadonly(), self.mapped(access=mmap.ACCESS_READ))
        for written in read_only:
            text = f"is a writable buffer .*, not a read-only {type(written).__name__}$"
            with self.assertRaisesRegex(TypeError, f"^the destination is written, so it {text}"):
                yirvagul.convert_copying(BYTE, BYTE, 1, STOP, b"\x07", written)
            with self.assertRaisesRegex(TypeError, f"^the buffer is written, so it {text}"):
                yirvagul.convert_in_place(BYTE, BYTE, 1, STOP, written, b"\x07")

    def test_parts_of_a_row_are_refused(self):
        strided = memoryview(bytearray(8))[::2]
        for call in (
            lambda: yirvagul.convert_copying(BYTE, BYTE, 1, STOP, strided, bytearray(8)),
            lambda: yirvagul.convert_copying(BYTE, BYTE, 1, STOP, bytes(8), strided),
            lambda: yirvagul.convert_in_place(BYTE, BYTE, 1, STOP, strided, bytes(8)),
            lambda: yirvagul.convert_in_place(BYTE, BYTE, 1, STOP, bytearray(8), strided),
        ):
            with self.assertRaisesRegex(BufferError, "is not contiguous: pass a copy"):
                call()

    def test_no_buffer(self):
        for some in ("text", 5, None, [1, 2], 1.5):
            with self.assertRaisesRegex(TypeError, f"^the source is bytes, or a buffer of bytes, not {type(some).__name__}"):
                yirvagul.convert_copying(BYTE, BYTE, 1, STOP, some, bytearray(1))
            with self.assertRaisesRegex(TypeError, rf"^the destination is a writable buffer .*, not {type(some).__name__}"):
                yirvagul.convert_copying(BYTE, BYTE, 1, STOP, b"\x05", some)
        with self.assertRaisesRegex(TypeError, "text is no record data"):
            yirvagul.convert_copying(BYTE, BYTE, 1, STOP, "\x05", bytearray(1))

    def test_overlap_is_refused(self):
        """Two parts of one buffer, for every pair of spans: refused exactly if they have a byte in common."""
        spans = [(i, j) for i in range(5) for j in range(i, 5)]
        for (a, b), (c, d) in itertools.product(spans, spans):
            whole = bytearray(b"\x01\x02\x03\x04")
            one, other = memoryview(whole)[a:b], memoryview(whole)[c:d]
            calls = (
                lambda: yirvagul.convert_copying(BYTE, BYTE, 0, STOP, one, other),
                lambda: yirvagul.convert_copying_plain(BYTE, BYTE, 0, one.toreadonly(), other),
                lambda: yirvagul.convert_in_place(BYTE, BYTE, 0, STOP, one, other),
                lambda: yirvagul.convert_in_place_plain(BYTE, BYTE, 0, one, other.toreadonly()),
            )
            for call in calls:
                if set(range(a, b)) & set(range(c, d)):
                    with self.assertRaisesRegex(ValueError, "^the .+ and the .+ overlap: pass a copy of one of them$"):
                        call()
                else:
                    self.assertEqual(call(), 0)
            self.assertEqual(whole, b"\x01\x02\x03\x04")

    def test_one_buffer_for_both_is_refused(self):
        for both in (bytearray(b"\x01\x02"), array.array("B", b"\x01\x02"), self.mapped()):
            with self.assertRaisesRegex(ValueError, "^the source and the destination overlap"):
                yirvagul.convert_copying(BYTE, BYTE, 2, STOP, both, both)
            with self.assertRaisesRegex(ValueError, "^the buffer and the background overlap"):
                yirvagul.convert_in_place(BYTE, BYTE, 2, STOP, both, both)

    def test_a_sheet_in_the_written_buffer_is_read_first(self):
        buffer = bytearray(BYTE.encode())
        self.assertEqual(yirvagul.convert_copying(buffer, BYTE, 2, STOP, b"\x01\x02", buffer), 0)
        self.assertEqual(buffer[:3], b"\x01\x02t")

    def test_a_buffer_is_held_during_the_call(self):
        source, out = bytearray(b"\x05"), bytearray(1)
        tried = []

        def call(*arguments):
            for buffer in (source, out):
                with self.assertRaises(BufferError):
                    buffer.append(0)
                tried.append(buffer)
            return _library_call(*arguments)

        _library_call = _library.convert_copying
        with mock.patch.object(_library, "convert_copying", call):
            yirvagul.convert_copying(BYTE, BYTE, 1, STOP, source, out)
        self.assertEqual((len(tried), out), (2, b"\x05"))
        source.append(0)
        out.append(0)

    def test_a_buffer_is_free_after_a_refusal(self):
        source, out = bytearray(b"\xff"), bytearray(1)
        with self.assertRaises(Refusal) as caught:
            yirvagul.convert_copying(BYTE, SIGNED, 1, STOP, source, out)
        source.append(0)
        out.append(0)
        self.assertIsNotNone(caught.exception)


class Threads(unittest.TestCase):
    def test_many_at_once(self):
        """Twelve threads, each with layouts of its own; the library runs outside of Python's lock, so calls overlap."""
        jobs = []
        for i in range(12):
            precision = 5 + i
            sheet = f"int\t4\tBE\t{i}\t{precision}\tone\tzero\tsigned\ncomp\t{5 + i}\nmember\tm{i}\t1\t0\n"
            wide = f"int\t8\tLE\t0\t64\tzero\tzero\tsigned\ncomp\t8\nmember\tm{i}\t0\t0\n"
            records = bytes((7 * k + i) % 251 for k in range(20000 * (5 + i)))
            once = bytearray(8 * 20000)
            yirvagul.convert_copying(sheet, wide, 20000, STOP, records, once)
            jobs.append((sheet, wide, records, once))
        self.assertEqual(len({bytes(once) for *_, once in jobs}), 12)
        wrong, start = [], threading.Barrier(12)

        def work(sheet, wide, records, once):
            start.wait()
            for _ in range(5):
                out = bytearray(len(once))
                yirvagul.convert_copying(sheet, wide, 20000, STOP, records, out)
                if out != once or yirvagul.record_size(sheet) * 20000 != len(records):
                    wrong.append(sheet)

        threads = [threading.Thread(target=work, args=job) for job in jobs]
        for thread in threads:
            thread.start()
        for thread in threads:
            thread.join()
        self.assertEqual(wrong, [])

    def test_the_lock_is_free_during_a_call(self):
        """While one thread converts for long, another one gets on; tried again where the machine had no time for it."""
        sheet = "int\t8\tLE\t3\t55\tzero\tzero\tsigned\narray\t0\t512\n"
        wide = "int\t8\tBE\t0\t60\tzero\tzero\tsigned\narray\t0\t512\n"
        source, out = bytes(4096 * 2000), bytearray(4096 * 2000)

        def steps():
            done, steps = threading.Event(), 0

            def work():
                yirvagul.convert_copying(sheet, wide, 2000, STOP, source, out)
                done.set()

            thread = threading.Thread(target=work)
            thread.start()
            while not done.is_set():
                steps += 1
            thread.join()
            return steps

        self.assertTrue(any(steps() > 100 for _ in range(5)))


if __name__ == "__main__":
    unittest.main()
