"""Two logs compared: what differs, what is refused, logs of any length, and threads and processes that compare."""

import array
import concurrent.futures
import copy
import io
import itertools
import math
import mmap
import multiprocessing
import os
import pathlib
import pickle
import random
import struct
import tempfile
import threading
import tracemalloc
import unittest

import yirvagul
from common import BITS, BYTE, CUSTOMER, PAIR, REAL, RIG, SIGNED, random_sheet, wordless
from yirvagul import Difference, Handling, Number, Refusal, compare, convert_copying, differences, record_size, sheets

REPOSITORY = pathlib.Path(__file__).resolve().parents[3]
LOG = (REPOSITORY / "examples/rig.log").read_bytes()
WIDE = "int\t8\tBE\t0\t64\tzero\tzero\tunsigned\n"
SIGNED_WIDE = "int\t8\tBE\t0\t64\tzero\tzero\tsigned\n"


def converted(log=LOG):
    out = bytearray(len(log) // 8 * 7)
    convert_copying(RIG, CUSTOMER, len(log) // 8, Handling.STOP, log, out)
    return out


def lines(first_sheet, second_sheet, first, second):
    return [found.line for found in compare(first_sheet, second_sheet, first, second)]


class Results(unittest.TestCase):
    def test_numbers(self):
        self.assertEqual(compare(BYTE, PAIR, bytes((200, 7)), bytes((0, 200, 0, 7))), [])
        self.assertEqual(compare(BYTE, SIGNED, b"\x05\xff", b"\x05\xff"), [Difference(1, 0, None, 255, -1)])
        self.assertEqual(
            lines(WIDE, SIGNED_WIDE, b"\xff" * 8, b"\x80" + bytes(7)), ["0\t0\t18446744073709551615\t-9223372036854775808"]
        )
        self.assertEqual(compare(BYTE, PAIR, b"", b""), [])

    def test_enums(self):
        first = BYTE + "enum\t0\nvalue\topen\t0\nvalue\tshut\t1\n"
        second = BYTE + "enum\t0\nvalue\topen\t1\nvalue\tshut\t0\n"
        self.assertEqual(compare(first, second, bytes((0, 1, 9)), bytes((1, 0, 9))), [])
        found = lines(first, second, bytes((0, 1, 9, 1)), bytes((0, 1, 8, 9)))
        self.assertEqual(found, ["0\t0\t0\t0", "1\t0\t1\t1", "2\t0\t9\t8", "3\t0\t1\t9"])

    def test_reals(self):
        def same(real, number):
            one, other = struct.pack(">d", real), struct.pack(">q", number)
            there = compare(REAL, SIGNED_WIDE, one, other) == []
            self.assertEqual(compare(SIGNED_WIDE, REAL, other, one) == [], there)
            return there

        self.assertTrue(same(-0.0, 0))
        self.assertTrue(same(2.0**53, 2**53))
        self.assertFalse(same(2.0**53, 2**53 + 1))
        self.assertFalse(same(0.5, 0))
        self.assertTrue(same(-(2.0**63), -(2**63)))
        for real in (math.inf, -math.inf, math.nan):
            self.assertFalse(same(real, 0))
            self.assertEqual(compare(REAL, REAL, struct.pack(">d", real), struct.pack(">d", real)), [])
        (found,) = compare(REAL, REAL, struct.pack(">d", -0.0), bytes(8))
        self.assertEqual((found.first_bits, found.second_bits), (1 << 63, 0))
        self.assertEqual(math.copysign(1, found.first), -1)

    def test_the_worth_of_any_real(self):
        """As Python compares a float with an int, which is by worth."""
        rng = random.Random(6)
        for _ in range(300):
            number = rng.choice((rng.getrandbits(64), 1 << rng.randrange(64), (1 << rng.randrange(54, 64)) + rng.choice((-1, 1, 2048))))
            number = min(number, (1 << 64) - 1)
            real = rng.choice((float(number), number + 0.5, float(rng.getrandbits(60)), math.nextafter(number, math.inf) if hasattr(math, "nextafter") else 0.0))
            found = compare(REAL, WIDE, struct.pack(">d", real), number.to_bytes(8, "big"))
            self.assertEqual(found == [], real == number, (real, number))

    def test_a_row(self):
        first = REAL + WIDE + "comp\t16\nmember\ta\t0\t0\nmember\tb\t8\t1\n"
        second = BYTE + REAL + "comp\t11\nmember\ta\t10\t0\nmember\tb\t1\t1\n"
        one = struct.pack(">dQ", 255.5, (1 << 64) - 1)
        other = b"\x77" + struct.pack(">d", 2.0**64) + b"\x77\xff"
        b, a = compare(first, second, one, other)
        self.assertEqual(b, (0, 1, "b", (1 << 64) - 1, 2.0**64, None, 0x43F0000000000000))
        self.assertEqual(a, (0, 10, "a", 255.5, 255, 0x406FF00000000000, None))
        self.assertEqual(a.line, f"0\t10\t{0x406FF00000000000}\t255")
        rest = "array\t0\t2\t3\ncomp\t7\nmember\tcells\t1\t1\narray\t2\t2\ncomp\t16\nmember\tmap\t2\t3\n"
        (found,) = compare(BYTE + rest, SIGNED + rest, bytes(16), bytes(15) + b"\xc8")
        self.assertEqual((found.member, found.second), ("map[1].cells[1][2]", -56))

    def test_only_matched_leaves(self):
        first = BYTE + "comp\t3\nmember\ta\t0\t0\nmember\tb\t1\t0\n"
        second = PAIR + "comp\t4\nmember\tc\t0\t0\nmember\tb\t2\t0\n"
        self.assertEqual(compare(first, second, bytes((1, 7, 2, 3, 8, 4)), bytes((9, 9, 0, 7, 9, 9, 0, 8))), [])

    def test_random_sheets(self):
        """A log and what was made of it without an exception are the same; with a bit flipped they are not, where it is a number's."""
        rng = random.Random(2606)
        done = 0
        for _ in range(400):
            sheet = random_sheet(rng)
            size = record_size(sheet)
            log = rng.randbytes(3 * size)
            self.assertEqual(compare(sheet, sheet, log, bytes(log)), [])
            out = bytearray(rng.randbytes(3 * size))
            try:
                convert_copying(sheet, wordless(sheet), 3, Handling.STOP, log, out)
            except Refusal:
                continue
            self.assertEqual(compare(sheet, sheet, log, out), [])
            done += 1
            at = rng.randrange(len(out))
            out[at] ^= 1 << rng.randrange(8)
            found = compare(sheet, sheet, log, out)
            again = bytearray(out)
            stopped = None
            try:
                convert_copying(sheet, wordless(sheet), 3, Handling.STOP, out, again)
            except Refusal as refusal:
                stopped = refusal
            if found:
                (one,) = found
                self.assertEqual(one.record, at // size)
                self.assertTrue(one.at <= at % size < one.at + 8)
                self.assertEqual(one.member, sheets.leaf_name(sheets.read(sheet), one.at))
            else:
                self.assertIsNone(stopped)
        self.assertGreater(done, 100)


class Refused(unittest.TestCase):
    def refusal(self, *arguments):
        with self.assertRaises(Refusal) as caught:
            compare(*arguments)
        return caught.exception

    def test_sheets(self):
        fault = "is faulty, `comp\\t0`: its size is 0 bytes: "
        refused = self.refusal("comp\t0\n", BYTE, b"", b"")
        self.assertEqual((refused.number, refused.sheet, refused.line), (Number.SOURCE, "first sheet", 1))
        self.assertIn(f"SOURCE (3): line 1 of the first sheet {fault}", str(refused))
        refused = self.refusal(BYTE, "comp\t0\n", b"", b"")
        self.assertIn(f"DESTINATION (4): line 1 of the second sheet {fault}", str(refused))

    def test_paths(self):
        record = "comp\t1\nmember\tboost\t0\t0\n"
        refused = self.refusal(BYTE + record, BITS + record, b"", b"")
        self.assertEqual((refused.number, refused.member, refused.compared), (Number.PATH, "boost", True))
        self.assertEqual(
            str(refused),
            "PATH (5): no path from the first log's type to the second log's at `boost`: "
            "the first sheet has an int, the second a bits: give both the same class",
        )
        refused = self.refusal(BYTE + "array\t0\t2\t3\n", BYTE + "array\t0\t6\n", b"", b"")
        self.assertEqual(
            str(refused),
            "PATH (5): no path from the first log's type to the second log's: "
            "the first sheet has an array of 2 by 3, the second one of 6: give both the same dimensions",
        )
        self.assertEqual(str(pickle.loads(pickle.dumps(refused))), str(refused))

    def test_lengths(self):
        for arguments, said in (
            ((BYTE, PAIR, bytes(3), bytes(5)), "the second log has 5 bytes, no multiple of the 2 of its record: 1 are left over behind 2 records. "
             "Pass whole records, or correct the second sheet"),
            ((PAIR, BYTE, bytes(3), bytes(1)), "the first log has 3 bytes, no multiple of the 2 of its record: 1 are left over behind 1 records. "
             "Pass whole records, or correct the first sheet"),
            ((BYTE, PAIR, bytes(3), bytes(4)), "the first log has 3 records and the second 2: compare logs of as many records"),
            ((BYTE, BYTE, bytes(1000), bytes(999)), "the first log has 1,000 records and the second 999: compare logs of as many records"),
        ):
            for call in (compare, differences):  # the iterator too, before its first difference
                with self.assertRaises(ValueError) as caught:
                    call(*arguments)
                self.assertEqual(str(caught.exception), said)

    def test_wrong_types(self):
        for arguments, error, said in (
            ((None, BYTE, b"", b""), TypeError, "the first sheet is text or bytes, not NoneType"),
            ((BYTE, 7, b"", b""), TypeError, "the second sheet is text or bytes, not int"),
            ((BYTE, BYTE, 7, b""), TypeError, "the first log is a path, a binary file or a buffer, not int"),
            ((BYTE, BYTE, b"", None), TypeError, "the second log is a path, a binary file or a buffer, not NoneType"),
            ((BYTE, BYTE, io.StringIO("x"), b"x"), TypeError, "the first log is a file opened as text: open it in binary mode"),
            ((BYTE, BYTE, memoryview(bytes(4))[::2], bytes(2)), BufferError, "the first log is not contiguous"),
            ((BYTE, BYTE, b"x", "no such log"), FileNotFoundError, "no such log"),
        ):
            for call in (compare, differences):
                with self.assertRaisesRegex(error, said):
                    call(*arguments)

    def test_one_open_file(self):
        said = "^the first log and the second are one open file: name its path, or open it twice$"
        with tempfile.TemporaryFile() as file:
            file.write(bytes(8))
            file.seek(0)
            with self.assertRaisesRegex(ValueError, said):
                compare(BYTE, BYTE, file, file)
            with open(file.fileno(), "rb", closefd=False) as again, self.assertRaisesRegex(ValueError, said):
                compare(BYTE, BYTE, file, again)
            self.assertEqual(file.tell(), 0)
        stream = io.BytesIO(bytes(8))
        with self.assertRaisesRegex(ValueError, said):
            compare(BYTE, BYTE, stream, stream)


class Broken(io.RawIOBase):
    """A stream that fails."""

    def readable(self):
        return True

    def readinto(self, _):
        raise OSError("the rig is gone")


class Stream(io.RawIOBase):
    """Bytes that can be read once, in small pieces."""

    def __init__(self, data):
        self.left = data

    def readable(self):
        return True

    def readinto(self, buffer):
        n = min(len(buffer), 1000, len(self.left))
        buffer[:n] = self.left[:n]
        self.left = self.left[n:]
        return n


class Logs(unittest.TestCase):
    def setUp(self):
        folder = tempfile.TemporaryDirectory()
        self.addCleanup(folder.cleanup)
        self.folder = pathlib.Path(folder.name)

    def path(self, name, data):
        path = self.folder / name
        path.write_bytes(data)
        return path

    def test_every_source(self):
        other = converted()
        other[47 * 7] ^= 1
        wanted = compare(RIG, CUSTOMER, LOG, other)
        self.assertEqual([(found.record, found.member) for found in wanted], [(47, "valve")])
        first, second = self.path("first", LOG), self.path("second", bytes(other))
        with open(first, "rb") as one, open(second, "rb", buffering=0) as two, open(second, "r+b") as three, mmap.mmap(three.fileno(), 0) as mapped:
            for one_, other_ in (
                (first, second),
                (str(first), str(second)),
                (one, two),
                (array.array("B", LOG), memoryview(other)),
                (bytearray(LOG), mapped),
                (io.BytesIO(LOG), Stream(bytes(other))),
                (Stream(LOG), second),
            ):
                self.assertEqual(compare(RIG, CUSTOMER, one_, other_), wanted)
        self.assertEqual((first.read_bytes(), second.read_bytes()), (LOG, bytes(other)))
        # from where it stands
        with open(first, "rb") as one, open(second, "rb") as two:
            one.seek(8 * 40)
            two.seek(7 * 40)
            self.assertEqual([found.record for found in compare(RIG, CUSTOMER, one, two)], [7])

    def test_many_parts(self):
        first = bytes(i % 256 for i in range(200_000))
        second = bytearray(itertools.chain.from_iterable((0, byte) for byte in first))
        places = (0, 65_535, 65_536, 131_072, 199_999)
        for record in places:
            second[2 * record] = 1
        for one, other in ((first, second), (Stream(first), Stream(bytes(second)))):
            found = compare(BYTE, PAIR, one, other)
            self.assertEqual([(row.record, row.second - row.first) for row in found], [(record, 256) for record in places])

    def test_many_differences(self):
        """More than any list of one call has room for, each once and in order."""
        records = 60_000
        sheet = BYTE + "array\t0\t4\n"
        found = differences(sheet, sheet, bytes(4 * records), b"\xff" * (4 * records))
        self.assertEqual(next(found), Difference(0, 0, "[0]", 0, 255))
        places = [(row.record, row.at) for row in found]
        self.assertEqual(places, [divmod(place, 4) for place in range(1, 4 * records)])
        large = BYTE + "array\t0\t4096\n"
        found = compare(large, large, bytes(3 * 4096), b"\xff" * (3 * 4096))
        self.assertEqual([row.at for row in found], [*range(4096)] * 3)

    def test_little_memory(self):
        """Two streams of 4 MB, all numbers of which differ."""
        sheet = WIDE + "array\t0\t64\n"

        class Same(io.RawIOBase):
            def __init__(self, byte, length):
                self.byte, self.left = byte, length

            def readable(self):
                return True

            def readinto(self, buffer):
                n = min(len(buffer), self.left)
                buffer[:n] = bytes((self.byte,)) * n
                self.left -= n
                return n

        length = 4 << 20
        tracemalloc.start()
        try:
            count = sum(1 for _ in differences(sheet, sheet, Same(0, length), Same(255, length)))
            most = tracemalloc.get_traced_memory()[1]
        finally:
            tracemalloc.stop()
        self.assertEqual(count, length // 8)
        self.assertLess(most, 12 << 20)

    def test_streams_of_other_lengths(self):
        for first, second, said in (
            (bytes(100_000), bytes(100_001), "the first log has 100,000 records and the second 100,001: compare logs of as many records"),
            (bytes(200_000), bytes(65_536), "the first log has 131,072 or more records and the second 65,536: compare logs of as many records"),
        ):
            with self.assertRaises(ValueError) as caught:
                compare(BYTE, BYTE, Stream(first), Stream(second))
            self.assertEqual(str(caught.exception), said)
        with self.assertRaisesRegex(ValueError, "^the first log has 9 records and the second 5: "):
            compare(BYTE, BYTE, bytes(9), Stream(bytes(5)))
        # what was found before comes first
        found = differences(PAIR, PAIR, Stream(b"\1" + bytes(200_000)), Stream(bytes(200_001)))
        self.assertEqual(next(found).record, 0)
        with self.assertRaisesRegex(ValueError, "^the first log has 200,001 bytes, no multiple of the 2 of its record: "):
            next(found)
        with self.assertRaises(StopIteration):
            next(found)

    def test_a_broken_stream(self):
        found = differences(BYTE, BYTE, b"x", Broken())
        with self.assertRaisesRegex(OSError, "the rig is gone"):
            next(found)

    def test_what_is_held_is_let_go(self):
        first, second = bytearray(b"\1\2"), bytearray(b"\3\4")
        found = differences(BYTE, BYTE, first, second)
        self.assertEqual(next(found).record, 0)
        with self.assertRaises(BufferError):
            first.append(1)
        found.close()
        first.append(1)
        second.append(1)
        path = self.path("log", b"\1\2")
        before = len(os.listdir("/proc/self/fd"))
        found = differences(BYTE, BYTE, path, path)
        self.assertEqual(len(os.listdir("/proc/self/fd")), before + 2)
        found.close()
        self.assertEqual(len(os.listdir("/proc/self/fd")), before)


class Shared(unittest.TestCase):
    def test_rows_pass_through_pickles(self):
        rows = compare(RIG, CUSTOMER, LOG[:8], bytes(7))
        self.assertEqual(pickle.loads(pickle.dumps(rows)), rows)
        self.assertEqual(copy.deepcopy(rows), rows)

    def test_threads(self):
        other = converted()
        other[7 * 20] ^= 1
        with concurrent.futures.ThreadPoolExecutor(8) as pool:
            found = [pool.submit(compare, RIG, CUSTOMER, LOG, other) for _ in range(64)]
            rows = {tuple(done.result()) for done in found}
        self.assertEqual([[row.record for row in only] for only in rows], [[20]])

    def test_threads_on_one_iterator(self):
        """Each difference comes to one of them, or Python refuses the second; none is lost or comes twice."""
        found, seen, lock = differences(BYTE, BYTE, bytes(20_000), b"\1" * 20_000), [], threading.Lock()

        def work():
            while True:
                try:
                    row = next(found)
                except StopIteration:
                    return
                except ValueError as error:
                    assert "generator already executing" in str(error)
                    continue
                with lock:
                    seen.append(row.record)

        threads = [threading.Thread(target=work) for _ in range(4)]
        for thread in threads:
            thread.start()
        for thread in threads:
            thread.join()
        self.assertEqual(sorted(seen), [*range(20_000)])

    def test_pools(self):
        other = bytes(converted()[:-1] + b"\1")
        for method in ("fork", "spawn"):
            with multiprocessing.get_context(method).Pool(2) as pool:
                rows = pool.apply_async(compare, (RIG, CUSTOMER, LOG, other)).get(timeout=60)
                self.assertEqual(rows, compare(RIG, CUSTOMER, LOG, other))
        with self.assertRaises(TypeError):
            pickle.dumps(differences(BYTE, BYTE, b"", b""))

    def test_a_small_stack(self):
        seen = []
        threading.stack_size(yirvagul.STACK_BYTES + 131072)
        try:
            thread = threading.Thread(target=lambda: seen.append(compare(BYTE, PAIR, b"\1", b"\0\2")))
            thread.start()
            thread.join()
        finally:
            threading.stack_size(0)
        self.assertEqual(seen, [[Difference(0, 0, None, 1, 2)]])


if __name__ == "__main__":
    unittest.main()
