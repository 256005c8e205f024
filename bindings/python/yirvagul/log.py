"""Logs of any length: a path, an open file or a buffer, converted in parts of at most a megabyte."""

from __future__ import annotations

import contextlib
import errno
import io
import os
import secrets
import stat
import tempfile
from typing import IO, Any, Iterator, NamedTuple, Optional, Union

from . import _explain, _library
from ._buffers import Held, ReadableBuffer, Sheet, WriteableBuffer, sheet_bytes
from .calls import Handling, named, record_size
from .errors import Number, Refusal, Short

Path = Union[str, os.PathLike[str]]

LogSource = Union[Path, IO[bytes], ReadableBuffer]
"""A log that is read: a path, a binary file or a buffer."""

PART_BYTES = 1 << 20
"""The most bytes of records that a part has, before or after conversion."""

PART_RECORDS = 65536
"""The most records of a part, as of one call."""


class Part(NamedTuple):
    """A part of a converted log: the number of its first record in the log, its records, how many leaves raised an exception, and its bytes."""

    first: int
    records: int
    exceptions: int
    data: bytearray


def convert_log(
    source_sheet: Sheet,
    destination_sheet: Sheet,
    handling: Handling,
    source: LogSource,
    destination: Union[Path, IO[bytes], WriteableBuffer],
) -> int:
    """Converts all records of a log, however many. Gives how many leaves raised an exception.

    The source is a path, a binary file, read from where it stands to its end, or a buffer. Its length is a multiple of the record's size; another
    one raises ValueError. The destination is a path, a binary file or a writable buffer. Records in a path or a file are made over a background of
    zeros; a buffer's own bytes are its background. No more than a few megabytes are held in memory.

    A refusal, in whatever part, leaves the destination as it was, and STOP names the first record of the whole log. A path gets its new file at the
    end, by a rename. Before a file or a buffer is written, all parts are gone over; a source that cannot be read twice goes through a temporary
    file. The source must not change meanwhile.
    """
    job = Job(source_sheet, destination_sheet, handling)
    with opened(source) as log:
        job.check_length(log.length)
        if isinstance(destination, (str, os.PathLike)):
            return _into_path(job, log, destination)
        if _is_buffer(destination):
            with Held("destination", destination, written=True) as out:
                return _into_buffer(job, log, out)
        return _into_file(job, log, _binary("destination", destination, "write"))


def convert_log_parts(
    source_sheet: Sheet,
    destination_sheet: Sheet,
    handling: Handling,
    source: LogSource,
) -> Iterator[Part]:
    """Converts a log and hands out its parts as they come, for a progress bar, or to send them on.

    A refusal in a later part comes when the earlier ones have been handed out; so does a length that is no multiple of the record's size, where the
    source is a stream. Whoever wants all or nothing takes `convert_log`. Sheets and handling are judged at once, before the first part.

        for part in convert_log_parts(rig, customer, Handling.CLAMP, "rig.log"):
            out.write(part.data)
            print(part.first + part.records, "records")
    """
    job = Job(source_sheet, destination_sheet, handling)
    with opened(source) as log:
        job.check_length(log.length)
    return _handed_out(job, source)


def _handed_out(job: Job, source: Any) -> Iterator[Part]:
    with opened(source) as log:
        for first, count, where in job.parts(log):
            data = bytearray(count * job.destination_size)
            exceptions = job.convert_into(data, first, count, where)
            yield Part(first, count, exceptions, data)


# ---- the source


class Where(NamedTuple):
    """Some bytes of memory."""

    address: int
    length: int


class _Memory:
    """A log in a buffer."""

    def __init__(self, held: Held) -> None:
        self.held = held
        self.length: Optional[int] = held.length

    def chunks(self, size: int) -> Iterator[Where]:
        """The log's bytes, each chunk but the last one of that size."""
        for at in range(0, self.held.length, size):
            yield Where(self.held.address + at, min(size, self.held.length - at))

    def keep(self) -> None:
        """Nothing: memory can be read twice."""

    def rewind(self) -> None:
        """Nothing: `chunks` starts at the start."""


class _Stream:
    """A log in an open file, from where it stands to its end; what it is called."""

    def __init__(self, file: IO[bytes], what: str) -> None:
        self.file = self.reading = file
        self.what = what
        seekable = getattr(file, "seekable", None)
        self.start = file.tell() if seekable is not None and seekable() else None
        self.length = self._length()
        self.kept: Optional[IO[bytes]] = None

    def _length(self) -> Optional[int]:
        """The bytes to come, of a file that tells it without being read."""
        if self.start is None or not isinstance(getattr(self.file, "raw", self.file), (io.FileIO, io.BytesIO)):
            return None
        end = self.file.seek(0, os.SEEK_END)
        self.file.seek(self.start)
        return max(0, end - self.start)

    def chunks(self, size: int) -> Iterator[Where]:
        """The log's bytes, each chunk but the last one of that size."""
        while True:
            chunk = _read(self.reading, size, self.what)
            if self.kept is not None and self.reading is self.file:
                self.kept.write(chunk)
            if chunk:
                with Held(self.what, chunk) as held:
                    yield Where(held.address, held.length)
            if len(chunk) < size:
                return

    def keep(self) -> None:
        """Before the first of two readings: what cannot be read twice is kept in a temporary file."""
        if self.start is None:
            self.kept = tempfile.TemporaryFile()

    def rewind(self) -> None:
        """Before the second."""
        if self.kept is not None:
            self.reading = self.kept
        self.reading.seek(self.start or 0)

    def close(self) -> None:
        if self.kept is not None:
            self.kept.close()


Log = Union[_Memory, _Stream]


@contextlib.contextmanager
def opened(source: Any, what: str = "source") -> Iterator[Log]:
    """A path, a file or a buffer, for the time that it is read; what it is called."""
    if isinstance(source, (str, os.PathLike)):
        with open(source, "rb") as file, contextlib.closing(_Stream(file, what)) as log:
            yield log
    elif _is_buffer(source):
        with Held(what, source) as held:
            yield _Memory(held)
    else:
        with contextlib.closing(_Stream(_binary(what, source, "read"), what)) as log:
            yield log


def _is_buffer(some: Any) -> bool:
    try:
        memoryview(some).release()
    except TypeError:
        return False
    return True


def _binary(what: str, file: Any, method: str) -> IO[bytes]:
    if isinstance(file, io.TextIOBase):
        raise TypeError(f"the {what} is a file opened as text: open it in binary mode")
    if not callable(getattr(file, method, None)):
        raise TypeError(f"the {what} is a path, a binary file or a buffer, not {type(file).__name__}")
    return file  # type: ignore[no-any-return]


def _read(file: IO[bytes], size: int, what: str) -> bytes:
    """The next bytes of a file, fewer only at its end; what it is called."""
    pieces, missing = [], size
    while missing:
        piece = file.read(missing)
        if piece is None:
            raise BlockingIOError(f"the {what} is a file that does not wait for its data: open it as a blocking one")
        if not isinstance(piece, (bytes, bytearray, memoryview)):
            raise TypeError(f"the {what} is a file that reads {type(piece).__name__}: open it in binary mode")
        if not piece:
            break
        pieces.append(piece)
        missing -= len(piece)
    return pieces[0] if len(pieces) == 1 else b"".join(pieces)


# ---- the parts


def whole_records(what: str, sheet: str, length: int, size: int) -> int:
    """The records of so many bytes. A log that ends within one is refused."""
    records, rest = divmod(length, size)
    if rest:
        raise ValueError(
            f"the {what} has {length:,} bytes, no multiple of the {size:,} of its record: {rest:,} are left over behind "
            f"{records:,} records. Pass whole records, or correct the {sheet}"
        )
    return records


class Job:
    """What all parts of a log have in common."""

    def __init__(self, source_sheet: Sheet, destination_sheet: Sheet, handling: Handling) -> None:
        self.source_sheet = sheet_bytes("source sheet", source_sheet)
        self.destination_sheet = sheet_bytes("destination sheet", destination_sheet)
        self.handling = named(handling)
        self.convert_into(bytearray(), 0, 0, None)  # the library judges sheets and paths on no records
        self.source_size, self.destination_size = record_size(self.source_sheet), record_size(self.destination_sheet)
        self.records = min(PART_RECORDS, PART_BYTES // max(self.source_size, self.destination_size))

    def check_length(self, length: Optional[int]) -> None:
        """Refuses a log of a known length that ends within a record."""
        if length is not None:
            whole_records("source", "source sheet", length, self.source_size)

    def check_room(self, records: int, out: Held) -> None:
        needs = records * self.destination_size
        if out.length < needs:
            raise Refusal(Number.ROOM, short=[Short(out.what, out.length, needs)])

    def parts(self, log: Log, records: Optional[int] = None) -> Iterator[tuple[int, int, Where]]:
        """Each part's first record, its number of records, and where they lie; at most so many records of the log, if that is said."""
        first = 0
        for where in log.chunks(self.records * self.source_size):
            count = where.length // self.source_size
            if records is None:
                self.check_length(first * self.source_size + where.length)
            else:
                count = min(count, records - first)
            yield first, count, where
            first += count
            if first == records:
                return
        if records is not None and first < records:
            raise ValueError("the source became shorter while it was converted, so the destination has only its first records")

    def go_over(self, log: Log) -> int:
        """Converts all parts for the refusals alone. Gives the number of records of the log, which can then be read again."""
        log.keep()
        records, out = 0, bytearray(self.records * self.destination_size)
        for first, count, where in self.parts(log):
            self.convert_into(out, first, count, where)
            records = first + count
        log.rewind()
        return records

    def write(self, log: Log, file: IO[bytes], records: Optional[int] = None) -> int:
        """Writes the converted parts to a file. Gives how many leaves raised an exception."""
        exceptions = 0
        for first, count, where in self.parts(log, records):
            data = bytearray(count * self.destination_size)
            exceptions += self.convert_into(data, first, count, where)
            _write(file, data)
        return exceptions

    def convert_into(self, data: bytearray, first: int, count: int, where: Optional[Where]) -> int:
        with Held("destination", data, written=True) as out:
            return self.convert(first, count, where or Where(out.address, 0), Where(out.address, out.length))

    def convert(self, first: int, count: int, source: Where, destination: Where) -> int:
        """Converts the records of one part. A refusal names the record's number in the log."""
        answer = _library.run(
            _library.convert_copying,
            *(self.source_sheet, len(self.source_sheet), self.destination_sheet, len(self.destination_sheet)),
            *(count, self.handling, *source, *destination),
        )
        if answer[0] != Number.DONE:
            raise _explain.refusal(answer, self.source_sheet, self.destination_sheet, first=first)
        return answer[_explain.COUNT]


# ---- the destination


def _into_path(job: Job, log: Log, path: Path) -> int:
    """Into a new file beside the path, which then takes its name. What is no regular file, such as a device or a pipe, is written as a file."""
    target = os.path.realpath(path)
    mode = os.stat(target).st_mode if os.path.exists(target) else None
    if mode is not None and not stat.S_ISREG(mode):
        records = job.go_over(log)
        with open(target, "wb") as file:
            return job.write(log, file, records)
    if mode is not None and not os.access(target, os.W_OK):
        raise PermissionError(errno.EACCES, "the destination may not be written", target)
    beside = os.path.join(os.path.dirname(target), f".yirvagul-{secrets.token_hex(8)}")
    try:
        new = open(beside, "xb")
    except OSError as error:
        raise OSError(error.errno, f"{error.strerror}, for a new file beside the destination", target) from None
    with new:
        try:
            exceptions = job.write(log, new)
            new.flush()
            os.fsync(new.fileno())
            if mode is not None:
                os.chmod(beside, stat.S_IMODE(mode))
            os.replace(beside, target)
        except BaseException:
            with contextlib.suppress(FileNotFoundError):
                os.unlink(beside)
            raise
    return exceptions


def _into_file(job: Job, log: Log, file: IO[bytes]) -> int:
    if isinstance(log, _Stream) and _same_file(log.file, file):
        raise ValueError("the source and the destination are one file: name its path as the destination, or another file")
    return job.write(log, file, job.go_over(log))


def _into_buffer(job: Job, log: Log, out: Held) -> int:
    if isinstance(log, _Memory):
        out.apart(log.held)
    if log.length is not None:
        job.check_room(log.length // job.source_size, out)
    records = job.go_over(log)
    job.check_room(records, out)
    exceptions = 0
    for first, count, where in job.parts(log, records):
        at = first * job.destination_size
        exceptions += job.convert(first, count, where, Where(out.address + at, out.length - at))
    return exceptions


def _same_file(one: Any, other: Any) -> bool:
    try:
        stats = os.fstat(one.fileno()), os.fstat(other.fileno())
    except (AttributeError, OSError, ValueError):  # a file without a descriptor
        return False
    return stat.S_ISREG(stats[0].st_mode) and os.path.samestat(*stats)


def _write(file: IO[bytes], data: bytearray) -> None:
    """Writes all of data, to a raw file too."""
    left = memoryview(data)
    while left:
        done = file.write(left)
        if done is None:
            if isinstance(file, io.RawIOBase):
                raise BlockingIOError("the destination is a file that does not wait: open it as a blocking one")
            return
        left = left[done:]
