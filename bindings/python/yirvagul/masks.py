"""Which bits of a source record a conversion can turn on."""

from __future__ import annotations

from . import _explain, _library
from ._buffers import Held, Sheet, sheet_bytes
from .errors import Number

MASK_BYTES = 4096
"""A mask of this many bytes serves any two sheets."""


def reach(source_sheet: Sheet, destination_sheet: Sheet) -> bytes:
    """The bits of a source record that a conversion between two sheets can turn on: the significant bits of the matched source leaves, and no others.

    A byte for each byte of the record: `mask[j] >> q & 1` is 1 if bit q of byte j is one of them, where bit 0 is the lowest of the byte. Pad bits, leaves
    that are not matched, and gaps are 0.

    Two sources with the same bits there, in every record, convert alike. And, where no word makes a matched leaf obey stop, each of these bits shows: some
    two sources that differ in it alone convert otherwise by clamping, in the count or in the converted bytes. (Not those of an enum without a value, where
    each number raises alike: where such a leaf obeys stop, it shows in the number that STOP carries.) The mask is the same whatever the words are.

    It takes at most 49,152 bytes of its thread's stack.
    """
    source, destination = sheet_bytes("source sheet", source_sheet), sheet_bytes("destination sheet", destination_sheet)
    out = bytearray(MASK_BYTES)
    with Held("mask", out, written=True) as held:
        answer = _library.run(_library.reach, source, len(source), destination, len(destination), held.address, held.length)
    if answer[0] != Number.DONE:
        raise _explain.refusal(answer, source, destination)
    return bytes(out[: answer[_explain.COUNT]])
