"""Logs of any length: every sort of source into every sort of destination, refused ones, and what is held in memory."""

import array
import gzip
import io
import mmap
import os
import pathlib
import stat
import tempfile
import threading
import tracemalloc
import unittest
from unittest import mock

import yirvagul
from common import BITS, BYTE, CUSTOMER, PAIR, RIG, SIGNED
from yirvagul import Handling, Kind, Number, Refusal, convert_log, convert_log_parts, log

CLAMP, STOP = Handling.CLAMP, Handling.STOP


def rig_log(records, bad=()):
    """Records of the rig; the valve of a bad one has a number without a symbol."""
    data = bytearray()
    for i in range(records):
        data += bytes((i >> 4 & 255, i << 4 & 240, 125, 0, 255, 240, 0, 7 if i in bad else i & 1))
    return bytes(data)


def expected(data, handling=CLAMP):
    """The same by one call for each record."""
    out, exceptions = bytearray(), 0
    for at in range(0, len(data), 8):
        record = bytearray(7)
        exceptions += yirvagul.convert_copying(RIG, CUSTOMER, 1, handling, data[at : at + 8], record)
        out += record
    return bytes(out), exceptions


class Pipe(io.RawIOBase):
    """A stream that is read once, in small and uneven pieces."""

    def __init__(self, data):
        self.left, self.turn = data, 0

    def readable(self):
        return True

    def readinto(self, buffer):
        self.turn += 1
        piece = self.left[: min(len(buffer), 1 + self.turn % 7)]
        self.left = self.left[len(piece) :]
        buffer[: len(piece)] = piece
        return len(piece)


class Trickle(io.RawIOBase):
    """A raw file that takes a few bytes at a time."""

    def __init__(self):
        self.data = b""

    def writable(self):
        return True

    def write(self, data):
        self.data += bytes(data[:5])
        return len(data[:5])


class SmallParts(unittest.TestCase):
    def setUp(self):
        folder = tempfile.TemporaryDirectory()
        self.addCleanup(folder.cleanup)
        self.folder = pathlib.Path(folder.name)
        # Parts of three records, so that small logs have many.
        patch = mock.patch.object(log, "PART_RECORDS", 3)
        patch.start()
        self.addCleanup(patch.stop)

    def sources(self, data):
        """A log as each sort of source."""
        path = self.folder / "source.log"
        path.write_bytes(data)
        yield "path", path
        yield "name", str(path)
        yield "bytes", data
        yield "bytearray", bytearray(data)
        yield "part of a buffer", memoryview(b"xx" + data + b"x")[2:-1]
        with path.open("rb") as file:
            yield "file", file
        with path.open("rb", buffering=0) as file:
            yield "raw file", file
        if data:
            with path.open("rb") as file, mmap.mmap(file.fileno(), 0, access=mmap.ACCESS_READ) as mapped:
                yield "mmap", mapped
        yield "BytesIO", io.BytesIO(data)
        yield "pipe", Pipe(data)
        yield "buffered pipe", io.BufferedReader(Pipe(data))
        packed = gzip.compress(data)
        with gzip.open(io.BytesIO(packed)) as file:
            yield "gzip", file
        ahead = io.BytesIO(b"header" + data)
        ahead.seek(6)
        yield "file behind a header", ahead
        read, write = os.pipe()
        os.write(write, data)
        os.close(write)
        with os.fdopen(read, "rb") as file:
            yield "os.pipe", file

    def destination(self, name, size):
        """A destination with room for so many bytes: itself, what it holds (None: there is no file), and where in that the records come."""
        path = self.folder / "out"
        path.unlink(missing_ok=True)
        if name == "new path":
            return path, lambda: path.read_bytes() if path.exists() else None, slice(None)
        if name == "old path":
            path.write_bytes(b"something longer than what comes, or shorter")
            return str(path), path.read_bytes, slice(None)
        if name == "buffer":
            buffer = bytearray(b"x" * size)
            return buffer, lambda: bytes(buffer), slice(None)
        if name == "longer buffer":
            longer = array.array("B", b"x" * (size + 3))
            return memoryview(longer), longer.tobytes, slice(size)
        if name == "file":
            file = io.BytesIO(b"head")
            file.seek(4)
            return file, file.getvalue, slice(4, None)
        trickle = Trickle()
        return trickle, lambda: trickle.data, slice(None)

    def each(self, data, size, run):
        """Runs with each sort of source and each sort of destination."""
        for name in ("new path", "old path", "buffer", "longer buffer", "file", "raw file"):
            for kind, source in self.sources(data):
                with self.subTest(source=kind, destination=name):
                    run(source, *self.destination(name, size))

    def each_refused(self, source_sheet, destination_sheet, handling, data, check):
        """Checks the error of each of them, which leaves the destination as it was, and no file beside it."""

        def run(source, out, content, where):
            before = content()
            with self.assertRaises((Refusal, ValueError)) as caught:
                convert_log(source_sheet, destination_sheet, handling, source, out)
            self.assertEqual(content(), before)
            self.assertLessEqual({file.name for file in self.folder.iterdir()}, {"source.log", "out"})
            check(caught.exception)

        self.each(data, 200, run)

    def stopped(self, error, record):
        self.assertEqual((error.number, error.record, error.at, error.kind, error.given), (Number.STOP, record, 0, Kind.NO_SYMBOL, 7))
        self.assertTrue(str(error).startswith(f"STOP (8): the number 7 for byte 0 of record {record}, member `valve`, "), error)

    def uneven(self, error, extra):
        self.assertIs(type(error), ValueError)
        self.assertEqual(
            str(error),
            f"the source has {56 + extra} bytes, no multiple of the 8 of its record: {extra} are left over behind 7 records. "
            "Pass whole records, or correct the source sheet",
        )


class Logs(SmallParts):
    """The form that gives all or nothing."""

    def test_every_source_into_every_destination(self):
        for records in (0, 1, 2, 3, 4, 6, 10):
            data = rig_log(records, bad=(1, 5, 9))
            want, exceptions = expected(data)

            def run(source, out, content, where):
                self.assertEqual(convert_log(RIG, CUSTOMER, CLAMP, source, out), exceptions)
                self.assertEqual(content()[where], want)

            self.each(data, len(want), run)

    def test_a_refusal_leaves_every_destination(self):
        """STOP in the first part, in a later one, and at the very end; it names the record of the whole log."""
        for bad in (0, 4, 9):
            self.each_refused(RIG, CUSTOMER, STOP, rig_log(10, bad=(bad, 9)), lambda error: self.stopped(error, bad))

    def test_a_length_that_is_no_multiple(self):
        for extra in (1, 7):
            self.each_refused(RIG, CUSTOMER, CLAMP, rig_log(7) + bytes(extra), lambda error: self.uneven(error, extra))

    def test_refusals_of_the_sheets(self):
        for number, source_sheet, destination_sheet in (
            (Number.SOURCE, "x\n", BYTE),
            (Number.DESTINATION, BYTE, "x\n"),
            (Number.PATH, BYTE, BITS),
            (Number.SYMBOLS, BYTE + "enum\t0\nvalue\topen\t1\n", BYTE + "enum\t0\nvalue\tshut\t1\n"),
        ):
            for data in (b"", b"\x01\x02\x03\x04"):
                check = lambda error: self.assertEqual(error.number, number)
                self.each_refused(source_sheet, destination_sheet, STOP, data, check)
            with self.assertRaises(Refusal) as caught:
                convert_log_parts(source_sheet, destination_sheet, STOP, b"")
            self.assertEqual(caught.exception.number, number)

    def test_a_known_length_is_judged_before_anything_is_read(self):
        path = self.folder / "source.log"
        path.write_bytes(rig_log(5) + b"x")
        with mock.patch.object(log, "_read", side_effect=AssertionError("it was read")), path.open("rb") as file:
            for source in (path, file, path.read_bytes()):
                for call in (convert_log_parts, lambda *arguments: convert_log(*arguments, self.folder / "out")):
                    with self.assertRaisesRegex(ValueError, "no multiple"):
                        call(RIG, CUSTOMER, CLAMP, source)

    def test_room(self):
        data = rig_log(10)
        for kind, source in self.sources(data):
            out = bytearray(b"x" * 69)
            with self.subTest(kind), self.assertRaises(Refusal) as caught:
                convert_log(RIG, CUSTOMER, STOP, source, out)
            self.assertEqual(caught.exception.short, (("destination", 69, 70),))
            self.assertEqual(out, b"x" * 69)

    def test_background(self):
        """Of a buffer its own bytes, else zeros."""
        source, wider = BYTE + "comp\t1\nmember\ta\t0\t0\n", BYTE + "comp\t2\nmember\ta\t0\t0\n"
        out = bytearray(b"\xaa\xbb" * 4)
        convert_log(source, wider, STOP, b"\x01\x02\x03\x04", out)
        self.assertEqual(out, b"\x01\xbb\x02\xbb\x03\xbb\x04\xbb")
        file = io.BytesIO(b"\xaa\xbb" * 4)
        convert_log(source, wider, STOP, b"\x01\x02\x03\x04", file)
        self.assertEqual(file.getvalue(), b"\x01\x00\x02\x00\x03\x00\x04\x00")

    def test_the_bytes_behind_the_records_stay(self):
        out = bytearray(b"x" * 9)
        convert_log(BYTE, BYTE, STOP, b"\x01\x02\x03\x04\x05", out)
        self.assertEqual(out, b"\x01\x02\x03\x04\x05xxxx")

    def test_overlap(self):
        both = bytearray(8)
        for source, destination in ((both, both), (memoryview(both)[:5], memoryview(both)[4:])):
            with self.assertRaisesRegex(ValueError, "^the destination and the source overlap"):
                convert_log(BYTE, BYTE, STOP, source, destination)
        convert_log(BYTE, BYTE, STOP, memoryview(both)[:4], memoryview(both)[4:])

    def test_one_path_for_both(self):
        path = self.folder / "log"
        path.write_bytes(b"\x01\x02\x03\x04\x05")
        self.assertEqual(convert_log(BYTE, PAIR, STOP, path, path), 0)
        self.assertEqual(path.read_bytes(), b"\x00\x01\x00\x02\x00\x03\x00\x04\x00\x05")
        with path.open("rb") as file:
            convert_log(PAIR, BYTE, STOP, file, path)
        self.assertEqual(path.read_bytes(), b"\x01\x02\x03\x04\x05")

    def test_one_open_file_for_both(self):
        path = self.folder / "log"
        path.write_bytes(b"\x01\x02\x03\x04\x05")
        with path.open("r+b") as file, path.open("rb") as other:
            for source in (file, other, path):
                with self.assertRaisesRegex(ValueError, "are one file: name its path as the destination"):
                    convert_log(BYTE, PAIR, STOP, source, file)
        self.assertEqual(path.read_bytes(), b"\x01\x02\x03\x04\x05")

    def test_paths_keep_what_they_are(self):
        """Mode and links of an old file stay; a new one has the mode that any new file gets."""
        old, link, plain = self.folder / "old", self.folder / "link", self.folder / "plain"
        old.write_bytes(b"old")
        old.chmod(0o640)
        link.symlink_to(old)
        convert_log(BYTE, BYTE, STOP, b"\x05", link)
        self.assertTrue(link.is_symlink())
        self.assertEqual((old.read_bytes(), stat.S_IMODE(old.stat().st_mode)), (b"\x05", 0o640))
        plain.touch()
        convert_log(BYTE, BYTE, STOP, b"\x05", self.folder / "new")
        self.assertEqual((self.folder / "new").stat().st_mode, plain.stat().st_mode)

    def test_a_file_that_may_not_be_written(self):
        path = self.folder / "kept"
        path.write_bytes(b"kept")
        with mock.patch.object(os, "access", return_value=False), self.assertRaisesRegex(PermissionError, "may not be written: '.*kept'"):
            convert_log(BYTE, BYTE, STOP, b"\x05", path)
        self.assertEqual(path.read_bytes(), b"kept")

    def test_paths_that_are_no_files(self):
        self.assertEqual(convert_log(BYTE, BYTE, STOP, b"\x05" * 5, "/dev/null"), 0)
        self.assertTrue(stat.S_ISCHR(os.stat("/dev/null").st_mode))
        with self.assertRaises(IsADirectoryError):
            convert_log(BYTE, BYTE, STOP, b"\x05", self.folder)
        with self.assertRaisesRegex(FileNotFoundError, "for a new file beside the destination: '.*none/out'"):
            convert_log(BYTE, BYTE, STOP, b"\x05", self.folder / "none" / "out")
        with self.assertRaises(FileNotFoundError):
            convert_log(BYTE, BYTE, STOP, self.folder / "none", bytearray())
        fifo = self.folder / "fifo"
        os.mkfifo(fifo)
        got = []
        reader = threading.Thread(target=lambda: got.append(fifo.read_bytes()))
        reader.start()
        convert_log(BYTE, PAIR, STOP, b"\x01\x02\x03\x04", fifo)
        reader.join()
        self.assertEqual(got, [b"\x00\x01\x00\x02\x00\x03\x00\x04"])
        self.assertTrue(stat.S_ISFIFO(fifo.stat().st_mode))

    def test_an_interrupt_leaves_the_path(self):
        path = self.folder / "out"
        path.write_bytes(b"as it was")
        with mock.patch.object(log, "_write", side_effect=KeyboardInterrupt), self.assertRaises(KeyboardInterrupt):
            convert_log(BYTE, BYTE, STOP, b"\x05", path)
        self.assertEqual([file.name for file in self.folder.iterdir()], ["out"])
        self.assertEqual(path.read_bytes(), b"as it was")

    def test_a_log_that_grows_or_shrinks_meanwhile(self):
        """The records that were there at first are converted; a log that lost some is told."""
        for change, size in ((lambda file: file.write(b"\x06\x07\x08"), 5), (lambda file: file.truncate(4), None)):
            path = self.folder / "live"
            path.write_bytes(b"\x01\x02\x03\x04\x05")
            rewind = log._Stream.rewind

            def changed(stream):
                with path.open("r+b") as file:
                    file.seek(0, os.SEEK_END)
                    change(file)
                rewind(stream)

            with mock.patch.object(log._Stream, "rewind", changed):
                out = bytearray(5)
                if size is None:
                    with self.assertRaisesRegex(ValueError, "became shorter while it was converted"):
                        convert_log(BYTE, BYTE, STOP, path, out)
                else:
                    convert_log(BYTE, BYTE, STOP, path, out)
                    self.assertEqual(out, b"\x01\x02\x03\x04\x05")

    def test_types(self):
        text = self.folder / "text"
        text.write_text("text")
        with text.open() as file:
            for source, words in (
                (file, "^the source is a file opened as text: open it in binary mode$"),
                (io.StringIO("x"), "^the source is a file opened as text"),
                (5, "^the source is a path, a binary file or a buffer, not int$"),
                (None, "^the source is a path, a binary file or a buffer, not NoneType$"),
                (mock.Mock(spec=["read"], read=lambda size: "text"), "^the source is a file that reads str: open it in binary mode$"),
            ):
                with self.assertRaisesRegex(TypeError, words):
                    convert_log(BYTE, BYTE, STOP, source, bytearray(9))
                with self.assertRaisesRegex(TypeError, words):
                    list(convert_log_parts(BYTE, BYTE, STOP, source))
        for destination, words in (
            (io.StringIO(), "^the destination is a file opened as text"),
            (5, "^the destination is a path, a binary file or a buffer, not int$"),
            (b"xxxxx", "^the destination is written, so it is a writable buffer .* not a read-only bytes$"),
        ):
            with self.assertRaisesRegex(TypeError, words):
                convert_log(BYTE, BYTE, STOP, b"\x05", destination)
        for handling in (0, 1, None):
            with self.assertRaisesRegex(TypeError, "^handling is "):
                convert_log(BYTE, BYTE, handling, b"\x05", bytearray(1))
            with self.assertRaisesRegex(TypeError, "^handling is "):
                convert_log_parts(BYTE, BYTE, handling, b"\x05")

    def test_files_that_do_not_wait(self):
        read, write = os.pipe()
        os.set_blocking(read, False)
        with os.fdopen(read, "rb", buffering=0) as file, os.fdopen(write, "wb"):
            with self.assertRaisesRegex(BlockingIOError, "does not wait for its data"):
                convert_log(BYTE, BYTE, STOP, file, bytearray(9))
        full = mock.Mock(spec=io.RawIOBase, write=lambda data: None)
        with self.assertRaisesRegex(BlockingIOError, "does not wait"):
            convert_log(BYTE, BYTE, STOP, b"\x05", full)
        silent = mock.Mock(spec=["write"], write=lambda data: None)
        self.assertEqual(convert_log(BYTE, BYTE, STOP, b"\x05", silent), 0)


class Parts(SmallParts):
    """The form that hands out parts as they come."""

    def test_every_source(self):
        for records in (0, 1, 3, 10):
            data = rig_log(records, bad=(1, 5, 9))
            want, exceptions = expected(data)
            for kind, source in self.sources(data):
                with self.subTest(records=records, source=kind):
                    parts = list(convert_log_parts(RIG, CUSTOMER, CLAMP, source))
                    self.assertEqual([part.first for part in parts], list(range(0, records, 3)))
                    self.assertEqual([part.records for part in parts], [min(3, records - at) for at in range(0, records, 3)])
                    self.assertEqual(sum(part.exceptions for part in parts), exceptions)
                    self.assertEqual(b"".join(part.data for part in parts), want)

    def test_a_refusal(self):
        """Earlier parts have been handed out; the record is that of the whole log."""
        for kind, source in self.sources(rig_log(10, bad=(7, 9))):
            with self.subTest(kind):
                got = []
                with self.assertRaises(Refusal) as caught:
                    for part in convert_log_parts(RIG, CUSTOMER, STOP, source):
                        got.append(part.first)
                self.stopped(caught.exception, 7)
                self.assertEqual(got, [0, 3])

    def test_a_length_that_is_no_multiple(self):
        for kind, source in self.sources(rig_log(7) + b"x"):
            got = []
            with self.subTest(kind), self.assertRaises(ValueError) as caught:
                for part in convert_log_parts(RIG, CUSTOMER, CLAMP, source):
                    got.append(part.first)
            self.uneven(caught.exception, 1)
            known = kind not in ("pipe", "buffered pipe", "gzip", "os.pipe")
            self.assertEqual(got, [] if known else [0, 3])

    def test_a_part_is_its_takers(self):
        parts = list(convert_log_parts(BYTE, BYTE, STOP, b"\x01\x02\x03\x04"))
        parts[0].data[0] = 9
        self.assertEqual([part.data for part in parts], [b"\x09\x02\x03", b"\x04"])

    def test_a_buffer_is_held_from_the_first_part_to_the_last(self):
        source = bytearray(b"\x01\x02\x03\x04")
        parts = convert_log_parts(BYTE, BYTE, STOP, source)
        source.append(5)
        next(parts)
        with self.assertRaises(BufferError):
            source.append(6)
        parts.close()
        source.append(6)
        unused = convert_log_parts(BYTE, BYTE, STOP, source)
        del unused
        source.append(7)


class Sizes(unittest.TestCase):
    """Parts as they are."""

    def test_no_part_is_above_its_limits(self):
        wide = BYTE + "array\t0\t4096\n"
        for sheet, data, want in ((BYTE, bytes(200000), [65536, 65536, 65536, 3392]), (wide, bytes(4096 * 600), [256, 256, 88])):
            parts = list(convert_log_parts(sheet, sheet, STOP, data))
            self.assertEqual([part.records for part in parts], want)
        parts = list(convert_log_parts(BYTE + "comp\t1\nmember\ta\t0\t0\n", BYTE + "comp\t4096\nmember\ta\t0\t0\n", STOP, bytes(600)))
        self.assertEqual([part.records for part in parts], [256, 256, 88])

    def test_exceptions_and_records_of_a_long_log(self):
        data = bytearray(300000)
        for at in (70000, 140000, 299999):
            data[at] = 200
        out = bytearray(len(data))
        self.assertEqual(convert_log(BYTE, SIGNED, CLAMP, data, out), 3)
        self.assertEqual([out[at] for at in (69999, 70000, 140000, 299999)], [0, 127, 127, 127])
        with self.assertRaises(Refusal) as caught:
            convert_log(BYTE, SIGNED, STOP, data, out)
        self.assertEqual(caught.exception.record, 70000)

    def test_a_few_megabytes_are_held(self):
        """A log of 48 MB by every way that does not lend memory for all of it."""

        class Zeros(io.RawIOBase):
            left = 48 << 20

            def readable(self):
                return True

            def readinto(self, buffer):
                some = min(len(buffer), self.left)
                self.left -= some
                buffer[:some] = bytes(some)
                return some

        sheet = "int\t8\tLE\t0\t64\tzero\tzero\tunsigned\narray\t0\t64\n"
        with tempfile.TemporaryDirectory() as folder:
            path = os.path.join(folder, "out")
            source = os.path.join(folder, "in")
            with open(source, "wb") as file:
                file.truncate(48 << 20)

            def parts():
                for part in convert_log_parts(sheet, sheet, STOP, Zeros()):
                    self.assertLessEqual(len(part.data), 1 << 20)

            def to_file():
                with open(path, "wb") as file:
                    convert_log(sheet, sheet, STOP, Zeros(), file)

            for run in (parts, to_file, lambda: convert_log(sheet, sheet, STOP, source, path)):
                tracemalloc.start()
                run()
                peak = tracemalloc.get_traced_memory()[1]
                tracemalloc.stop()
                self.assertLess(peak, 6 << 20)
            self.assertEqual(os.path.getsize(path), 48 << 20)


if __name__ == "__main__":
    unittest.main()
