"""The library's calls on records and sheets."""

from __future__ import annotations

import enum
import operator
from typing import Any

from . import _explain, _library
from ._buffers import Held, ReadableBuffer, Sheet, WriteableBuffer, sheet_bytes
from .errors import Number, Short

LIST_BYTES = 14 + 4096 * 12
"""A buffer of this many bytes holds the leaf list of any sheet."""


class Handling(enum.IntEnum):
    """What to do with numbers that do not fit, where the destination sheet does not say it: write the nearest that fits and count it, or refuse
    before anything is written. The plain forms, which name no handling, refuse.

    A `member` line may end in one more field, `clamp` or `stop`. A leaf obeys the innermost member on its way in the destination that has such a word,
    and the call where none has. So `CLAMP` can be refused with STOP, and `STOP` can be done with exceptions. A source sheet may have words without
    effect, and a `Report` clamps whatever they say.
    """

    CLAMP = 0
    STOP = 1


def convert_copying(
    source_sheet: Sheet,
    destination_sheet: Sheet,
    count: int,
    handling: Handling,
    source: ReadableBuffer,
    destination: WriteableBuffer,
) -> int:
    """Converts count records of source into destination, a writable buffer whose own bytes are the background.

    Bits that no matched leaf fixes stay, and so do pads that are `keep` and the bytes behind the records. Gives how many leaves raised an exception.
    """
    with Held("source", source) as read, Held("destination", destination, written=True) as written:
        return _convert(_library.convert_copying, source_sheet, destination_sheet, count, read, written, named(handling))


def convert_copying_plain(
    source_sheet: Sheet, destination_sheet: Sheet, count: int, source: ReadableBuffer, destination: WriteableBuffer
) -> int:
    """The same with `Handling.STOP`.

    At a STOP nothing was written, and the refusal names the record, the byte, the kind and the number: correct the sheet or the log there, or name
    `Handling.CLAMP` in `convert_copying`.
    """
    with Held("source", source) as read, Held("destination", destination, written=True) as written:
        return _convert(_library.convert_copying_plain, source_sheet, destination_sheet, count, read, written)


def convert_in_place(
    source_sheet: Sheet,
    destination_sheet: Sheet,
    count: int,
    handling: Handling,
    buffer: WriteableBuffer,
    background: ReadableBuffer,
) -> int:
    """Converts count records where they lie, in a writable buffer.

    If destination records are smaller, the bytes behind them become zero, up to where the source records ended. The background, as long as the
    destination records, gives the bits that no matched leaf fixes. Gives how many leaves raised an exception.
    """
    with Held("buffer", buffer, written=True) as written, Held("background", background) as read:
        return _convert(_library.convert_in_place, source_sheet, destination_sheet, count, written, read, named(handling))


def convert_in_place_plain(
    source_sheet: Sheet, destination_sheet: Sheet, count: int, buffer: WriteableBuffer, background: ReadableBuffer
) -> int:
    """The same with `Handling.STOP`.

    At a STOP nothing was written, and the refusal names the record, the byte, the kind and the number: correct the sheet or the log there, or name
    `Handling.CLAMP` in `convert_in_place`.
    """
    with Held("buffer", buffer, written=True) as written, Held("background", background) as read:
        return _convert(_library.convert_in_place_plain, source_sheet, destination_sheet, count, written, read)


def record_size(sheet: Sheet) -> int:
    """The bytes of one record of the sheet's type."""
    text = sheet_bytes("sheet", sheet)
    answer = _library.run(_library.record_size, text, len(text))
    if answer[0] != Number.DONE:
        raise _explain.refusal(answer, text)
    return answer[_explain.COUNT]


def leaf_list(sheet: Sheet, *, room: int = LIST_BYTES) -> str:
    """The leaf list of a sheet: a header, then a line for each leaf in byte order, with `at`, `size` and `class` parted by tabs."""
    text, out = sheet_bytes("sheet", sheet), bytearray(_natural("room", room))
    with Held("list", out, written=True) as held:
        answer = _library.run(_library.leaf_list, text, len(text), held.address, held.length)
    if answer[0] != Number.DONE:
        short = [Short("list", len(out), len(leaf_list(text)))] if answer[0] == Number.ROOM else []
        raise _explain.refusal(answer, text, short=short)
    return out[: answer[_explain.COUNT]].decode("ascii")


def named(handling: Handling) -> Handling:
    """Handling is named: a bare number or a truth says nothing to a reader of the call."""
    if not isinstance(handling, Handling):
        raise TypeError(f"handling is Handling.CLAMP or Handling.STOP, not {handling!r}")
    return handling


def _convert(
    call: Any, source_sheet: Sheet, destination_sheet: Sheet, count: int, first: Held, second: Held, *handling: Handling
) -> int:
    first.apart(second)
    source, destination = sheet_bytes("source sheet", source_sheet), sheet_bytes("destination sheet", destination_sheet)
    records = _natural("count", count)
    answer = _library.run(
        call,
        *(source, len(source), destination, len(destination)),
        min(records, (1 << 64) - 1),  # of more than 65,536 the library only says that they are too many
        *handling,
        *(first.address, first.length, second.address, second.length),
    )
    if answer[0] != Number.DONE:
        short = _short(source, destination, records, first, second) if answer[0] == Number.ROOM else []
        raise _explain.refusal(answer, source, destination, count=records, short=short)
    return answer[_explain.COUNT]


def _short(source_sheet: bytes, destination_sheet: bytes, count: int, *lent: Held) -> list[Short]:
    """The lent buffers that are too short for count records."""
    source, destination = count * record_size(source_sheet), count * record_size(destination_sheet)
    needs = {"source": source, "destination": destination, "background": destination, "buffer": max(source, destination)}
    return [Short(held.what, held.length, needs[held.what]) for held in lent if held.length < needs[held.what]]


def _natural(what: str, value: int) -> int:
    try:
        number = operator.index(value)
    except TypeError:
        raise TypeError(f"{what} is a whole number, not {type(value).__name__}") from None
    if number < 0:
        raise ValueError(f"{what} is {number}: it is 0 or more")
    return number
