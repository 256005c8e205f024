"""A report over a season of logs."""

from __future__ import annotations

import ctypes
import struct
import threading
import zlib
from typing import Any, NamedTuple, Optional, Sequence, Union

from . import _explain, _library, sheets
from ._buffers import Held, ReadableBuffer, Sheet, WriteableBuffer, sheet_bytes
from .calls import Handling, record_size
from .errors import Number, Refusal
from .log import Job, LogSource, opened

# A report's words: the records of all logs, their exceptions, then four for each int leaf.
_RECORDS, _EXCEPTIONS, _LEAVES, _LEAF_WORDS = 0, 1, 2, 4

_MOST_LEAVES = 4096
"""An int leaf has a byte at least, and a record 4,096 at most."""

# The most bytes of the output: its header, and a line for each leaf.
_HEADER_BYTES, _LINE_BYTES = 30, 76


class Row(NamedTuple):
    """What a report says of one int of its reader's sheet.

    Its first byte in the reader's record; its name, such as boost[1], or None if it has none; its lowest and highest sample, or None if there is no
    sample; the sum of the samples; how many they are.
    """

    at: int
    member: Optional[str]
    lowest: Optional[int]
    highest: Optional[int]
    sum: int
    samples: int


class Summary(NamedTuple):
    """What a report says: the records of all logs, how many leaves in them raised an exception, a row for each int, and these rows as text."""

    records: int
    exceptions: int
    rows: tuple[Row, ...]
    text: str


class _Said(NamedTuple):
    """A report's memory, and what it says. It is never changed, only replaced."""

    words: tuple[int, ...]
    text: str


class Report:
    """The lowest, the highest, the sum and the number of samples of each int of a reader's sheet, over any number of logs.

    It holds the reader's sheet, so that the numbers of one sheet never meet those of another; each log may have a sheet of its own. A log is
    converted to the reader's layout by clamping, whatever the words of its members say: a number that was clamped is a sample and counts as an
    exception. An int that a log does not have gets no sample from it. Ints have at most 32 bits, and a report at most `Report.MOST_RECORDS` records.

        report = Report(reader)
        for log in logs:
            report.add(rig, log)
        print(report.text)

    Threads may share a report: logs are added one after the other, and what it says is that of whole logs. It passes through pickles and copies.
    """

    MOST_RECORDS = 1048576

    def __init__(self, reader_sheet: Sheet) -> None:
        sheet = sheet_bytes("reader's sheet", reader_sheet)
        record_size(sheet)  # a faulty sheet is refused as the only one
        text = _read(sheet, (0,) * (_LEAVES + _LEAF_WORDS * _MOST_LEAVES))
        self._sheet, self._said, self._lock = sheet, _Said((0,) * _needed(text), text), threading.Lock()

    def add(self, source_sheet: Sheet, log: LogSource) -> Summary:
        """Adds a log of any length, whose records are of its own sheet, and gives what the report then says.

        The log is a path, a binary file, read from where it stands to its end, or a buffer, which is only read. Its length is a multiple of the
        record's size; another one raises ValueError. A refusal, in whatever part, leaves the report as it was before the log.
        """
        with self._lock:
            self._said = self._with(source_sheet, log, self._said)
            return self.summary

    def _with(self, source_sheet: Sheet, log: Any, said: _Said) -> _Said:
        """What the report says with a log more, which is gone over in parts."""
        job = Job(source_sheet, self._sheet, Handling.CLAMP)
        call, text = _Call(job.source_sheet, self._sheet, said.words), said.text
        with opened(log) as source:
            job.check_length(source.length)
            for _, count, where in job.parts(source):
                part = bytearray(count * max(job.source_size, job.destination_size))
                with Held("log", part, written=True) as held:
                    ctypes.memmove(held.address, where.address, count * job.source_size)
                text = call.run(count, part, bytes(count * job.destination_size))
        return _Said(tuple(call.memory), text)

    @property
    def summary(self) -> Summary:
        """What the report says."""
        words, text = self._said
        return Summary(words[_RECORDS], words[_EXCEPTIONS], _rows(self._sheet, text), text)

    @property
    def records(self) -> int:
        """The records of all logs."""
        return self._said.words[_RECORDS]

    @property
    def exceptions(self) -> int:
        """How many leaves in them raised an exception, of every class."""
        return self._said.words[_EXCEPTIONS]

    @property
    def rows(self) -> tuple[Row, ...]:
        """A row for each int of the reader's sheet, in byte order."""
        return self.summary.rows

    @property
    def text(self) -> str:
        """The rows as text: a header, then a line for each, in byte order, with `-` for lowest and highest where there is no sample."""
        return self._said.text

    @property
    def reader_sheet(self) -> bytes:
        """The sheet that it was made with."""
        return self._sheet

    def to_bytes(self) -> bytes:
        """The report as bytes, to be kept: its sheet, its numbers and a check sum. The file of `yirvagul report --season` has the same."""
        words = self._said.words
        data = _FIRST_LINE + _LENGTHS.pack(_VERSION, len(self._sheet), len(words)) + self._sheet + struct.pack(f"<{len(words)}q", *words)
        return data + _SUM.pack(zlib.crc32(data))

    @classmethod
    def from_bytes(cls, data: ReadableBuffer) -> Report:
        """The report that `to_bytes` gave. Bytes that were changed or cut raise ValueError."""
        with memoryview(data) as view:
            sheet, words = _unpacked(view.tobytes())
        try:
            report = cls(sheet)
            if len(words) != len(report._said.words):
                raise ValueError(_DAMAGED)
            report._said = _Said(words, _read(sheet, words))
        except Refusal as refused:
            raise ValueError(f"this saved report holds what no report does: {refused}") from refused
        return report

    def __reduce__(self) -> tuple[Any, ...]:
        return type(self).from_bytes, (self.to_bytes(),)

    def __eq__(self, other: object) -> bool:
        if not isinstance(other, Report):
            return NotImplemented
        return (self._sheet, self._said) == (other._sheet, other._said)

    __hash__ = None  # type: ignore[assignment]

    def __repr__(self) -> str:
        return f"<Report: records {self.records:,}, exceptions {self.exceptions:,}>"


class _Call:
    """The library's call, with a memory and an output of its own."""

    def __init__(self, source_sheet: bytes, reader_sheet: bytes, words: Sequence[int]) -> None:
        self.sheets = source_sheet, reader_sheet
        self.memory = (ctypes.c_int64 * len(words))(*words)
        self.output = bytearray(_HEADER_BYTES + _LINE_BYTES * (len(words) // _LEAF_WORDS))

    def run(self, count: int, log: WriteableBuffer, background: ReadableBuffer) -> str:
        """Adds count records, and gives what the report then says."""
        source, reader = self.sheets
        records = self.memory[_RECORDS] + count
        with Held("log", log, written=True) as part, Held("background", background) as ground, Held("output", self.output, written=True) as out:
            answer = _library.run(
                _library.report,
                *(source, len(source), reader, len(reader), count, part.address, part.length, ground.address, ground.length),
                *(self.memory, len(self.memory), out.address, out.length),
            )
        if answer[0] != Number.DONE:
            raise _explain.refusal(answer, source, reader, count=records if records > Report.MOST_RECORDS else None)
        return self.output[: answer[_explain.COUNT]].decode("ascii")


def _read(sheet: bytes, words: Sequence[int]) -> str:
    """What a memory says, by adding no record of the reader's own sheet."""
    return _Call(sheet, sheet, words).run(0, bytearray(), b"")


def _needed(text: str) -> int:
    """The words that a memory needs: the text has a header, and a line for each int."""
    return _LEAVES + _LEAF_WORDS * (text.count("\n") - 1)


def _rows(sheet: bytes, text: str) -> tuple[Row, ...]:
    """The lines of the text, as numbers."""
    record = _explain.tree(sheet)
    rows = []
    for line in text.splitlines()[1:]:
        at, lowest, highest, total, samples = (None if field == "-" else int(field) for field in line.split("\t"))
        assert at is not None and total is not None and samples is not None
        rows.append(Row(at, record and sheets.leaf_name(record, at), lowest, highest, total, samples))
    return tuple(rows)


# ---- as bytes: a first line that says what they are, the version, the lengths of sheet and memory, these two, and a check sum, all little-endian

_FIRST_LINE = b"yirvagul report\n"
_VERSION = 1
_LENGTHS = struct.Struct("<III")
_SUM = struct.Struct("<I")

_DAMAGED = "this saved report is damaged: take a copy of it, or begin a new report"


def _unpacked(data: bytes) -> tuple[bytes, tuple[int, ...]]:
    """The sheet and the memory of a saved report."""
    if not data.startswith(_FIRST_LINE):
        raise ValueError("this is no saved report: name another file, or begin a new report")
    try:
        version, sheet, words = _LENGTHS.unpack_from(data, len(_FIRST_LINE))
        if version != _VERSION:
            raise ValueError(
                f"this report was saved in version {version} of the format, and version {_VERSION} is known here: use a newer yirvagul"
            )
        start = len(_FIRST_LINE) + _LENGTHS.size
        end = start + sheet + 8 * words
        if len(data) != end + _SUM.size or _SUM.unpack_from(data, end) != (zlib.crc32(data[:end]),):
            raise ValueError(_DAMAGED)
        return data[start : start + sheet], struct.unpack_from(f"<{words}q", data, start + sheet)
    except struct.error:
        raise ValueError(_DAMAGED) from None
