"""Two logs of any length, compared in parts."""

from __future__ import annotations

from typing import Any, Iterator, NamedTuple, Optional, Union

from . import _explain, _library, sheets
from ._buffers import Held, Sheet, sheet_bytes
from .calls import record_size
from .errors import Number, double
from .log import PART_BYTES, PART_RECORDS, Log, LogSource, Where, opened, whole_records

# The room for the list of one call, at first and at most. The latter holds a line for each leaf of a record, of which there are at most 4,096.
_LIST_BYTES, _MOST_LIST_BYTES = 1 << 16, 1 << 20

_NAMES = ("first", "second")

_NOTHING = Where(0, 0)
"""No bytes, at no place: the library looks at none."""


class Difference(NamedTuple):
    """A leaf where two logs differ.

    The record, from 0, counted from the logs' start; the leaf's first byte in the second log's record; its name there, such as boost[1], or None if it
    has none; and the numbers of the first and of the second log: an int, or of a real a float, with its 64 bits in `first_bits` or `second_bits`, which
    tell not-a-numbers apart.
    """

    record: int
    at: int
    member: Optional[str]
    first: Union[int, float]
    second: Union[int, float]
    first_bits: Optional[int] = None
    second_bits: Optional[int] = None

    @property
    def line(self) -> str:
        """The line of the list: record, byte and both numbers, parted by tabs, a real's as its 64 bits."""
        numbers = ((self.first, self.first_bits), (self.second, self.second_bits))
        return "\t".join(map(str, (self.record, self.at, *(number if bits is None else bits for number, bits in numbers))))


def compare(
    first_sheet: Sheet,
    second_sheet: Sheet,
    first: LogSource,
    second: LogSource,
) -> list[Difference]:
    """Each leaf where two logs of as many records differ, by record and then by byte.

    Compared are the leaves of the second sheet that the first one matches: ints and bits by their numbers, whatever their layouts; enums by symbol, where
    a number without a symbol equals only the same number without one; a real and a real by their 64 bits; a real and an int by exact worth, so that -0.0 is
    0, and a not-a-number differs from every int. Pads, gaps and members that only one log has are not looked at.

    A log is a path, a binary file, read from where it stands to its end, or a buffer; both may be one buffer. Neither is written. A log whose length is no
    multiple of its record's size, and logs of different numbers of records, raise ValueError.

        for found in compare(rig, customer, "rig.log", "customer.log"):
            print(found.record, found.member, found.first, found.second)
    """
    return list(differences(first_sheet, second_sheet, first, second))


def differences(
    first_sheet: Sheet,
    second_sheet: Sheet,
    first: LogSource,
    second: LogSource,
) -> Iterator[Difference]:
    """The same one after the other, as they are found: a few megabytes are held, however long the logs are and however many differences they have.

    Sheets are judged at once, and so are the logs' lengths where they are known. What is wrong with a stream comes when the differences before it have been
    handed out.
    """
    pair = _Pair(first_sheet, second_sheet)
    _two_files(first, second)
    found = pair.found(first, second)
    next(found)
    return found


def _two_files(first: Any, second: Any) -> None:
    """Refuses one open file in both places: what one log reads of it, the other misses."""
    if not callable(getattr(first, "read", None)) or not callable(getattr(second, "read", None)):
        return
    try:
        shared = first is second or first.fileno() == second.fileno()
    except (AttributeError, OSError, ValueError):  # a file without a descriptor
        shared = False
    if shared:
        raise ValueError("the first log and the second are one open file: name its path, or open it twice")


class _Pair:
    """Two sheets that were found good, and what the calls have in common."""

    def __init__(self, first_sheet: Sheet, second_sheet: Sheet) -> None:
        self.sheets = sheet_bytes("first sheet", first_sheet), sheet_bytes("second sheet", second_sheet)
        self.list = bytearray(_LIST_BYTES)
        self.listed(0, _NOTHING, _NOTHING)  # the library judges sheets and paths on no records
        self.sizes = record_size(self.sheets[0]), record_size(self.sheets[1])
        self.records = min(PART_RECORDS, PART_BYTES // max(self.sizes))
        self.types = _explain.tree(self.sheets[0]), _explain.tree(self.sheets[1])
        self.leaves: dict[int, tuple[Optional[str], tuple[bool, bool]]] = {}

    def found(self, first: Any, second: Any) -> Iterator[Any]:
        """None as soon as the logs are open and their lengths, where they are known, are judged; then the differences."""
        with opened(first, "first log") as one, opened(second, "second log") as other:
            logs = one, other
            known = [None if log.length is None else self.whole(i, log.length) for i, log in enumerate(logs)]
            if None not in known and known[0] != known[1]:
                raise _uneven(*(f"{records:,}" for records in known))
            yield None
            parts = [log.chunks(self.records * size) for log, size in zip(logs, self.sizes)]
            before, step = 0, self.records
            while True:
                here = [next(part, _NOTHING) for part in parts]
                counts = [self.whole(i, before * self.sizes[i] + where.length) - before for i, where in enumerate(here)]
                if counts[0] != counts[1]:
                    raise self.uneven(logs, before, counts)
                if not counts[0]:
                    return
                at = 0
                while at < counts[0]:
                    count = min(step, counts[0] - at)
                    text = self.listed(count, *(Where(where.address + at * size, count * size) for where, size in zip(here, self.sizes)))
                    if text is None:
                        step = count // 2
                        continue
                    yield from self.rows(text, before + at)
                    at += count
                    if 4 * len(text) < len(self.list):
                        step = min(2 * step, self.records)
                before += counts[0]

    def whole(self, which: int, length: int) -> int:
        """The records of so many bytes of a log."""
        return whole_records(f"{_NAMES[which]} log", f"{_NAMES[which]} sheet", length, self.sizes[which])

    def uneven(self, logs: tuple[Log, Log], before: int, counts: list[int]) -> ValueError:
        """Of logs of which one ends before the other; a stream is read no further."""
        said = []
        for i, log in enumerate(logs):
            if log.length is not None:
                said.append(f"{log.length // self.sizes[i]:,}")
            else:
                more = " or more" if counts[i] == self.records else ""
                said.append(f"{before + counts[i]:,}{more}")
        return _uneven(*said)

    def listed(self, count: int, first: Where, second: Where) -> Optional[str]:
        """The list of one call; None where it is longer than the longest room. The records are there, so only the list can be too short."""
        while True:
            with Held("list", self.list, written=True) as out:
                answer = _library.run(
                    _library.compare,
                    *(self.sheets[0], len(self.sheets[0]), self.sheets[1], len(self.sheets[1]), count, *first, *second),
                    *(out.address, out.length),
                )
            if answer[0] == Number.DONE:
                return self.list[: answer[_explain.COUNT]].decode("ascii")
            if answer[0] != Number.ROOM or (count < 2 and len(self.list) == _MOST_LIST_BYTES):
                raise _explain.refusal(answer, *self.sheets, compared=True)
            if len(self.list) == _MOST_LIST_BYTES:
                return None
            self.list = bytearray(min(8 * len(self.list), _MOST_LIST_BYTES))

    def rows(self, text: str, base: int) -> Iterator[Difference]:
        """The lines of a list, whose first record is this one of the logs."""
        for line in text.splitlines()[1:]:
            record, at, one, other = map(int, line.split("\t"))
            member, (first_real, second_real) = self.leaf(at)
            yield Difference(
                base + record,
                at,
                member,
                double(one) if first_real else one,
                double(other) if second_real else other,
                one if first_real else None,
                other if second_real else None,
            )

    def leaf(self, at: int) -> tuple[Optional[str], tuple[bool, bool]]:
        """A leaf's name, and whether it is a real in the first log and in the second."""
        if at not in self.leaves:
            first, second = self.types
            reals = sheets.are_reals(first, second, at) if first and second else None
            self.leaves[at] = second and sheets.leaf_name(second, at), reals or (False, False)
        return self.leaves[at]


def _uneven(first: str, second: str) -> ValueError:
    return ValueError(f"the first log has {first} records and the second {second}: compare logs of as many records")
