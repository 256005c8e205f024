"""Turns an answer into a refusal that tells what a second reading of the sheets can tell; where that finds nothing, what the library said."""

from __future__ import annotations

from typing import Optional, Sequence

from . import sheets
from .errors import Number, Refusal, Short

# The answer's words, and the codes of the one that says what the last is.
COUNT, LINE, RECORD, AT, KIND, GIVEN, MAGNITUDE = 1, 2, 3, 4, 5, 6, 7
PLUS, MINUS, REAL = 0, 1, 2


def refusal(
    answer: Sequence[int],
    source_sheet: bytes,
    destination_sheet: Optional[bytes] = None,
    *,
    count: Optional[int] = None,
    first: int = 0,
    short: Sequence[Short] = (),
    compared: bool = False,
) -> Refusal:
    """The refusal that an answer is, to a call with one or two sheets, for count records, the first of which is number `first` of its log.

    For FULL, count is what the report would have. Where two logs are compared, the source's sheet is the first log's, the destination's the second's.
    """
    number = answer[0]
    names = ("first sheet", "second sheet") if compared else ("source sheet", "destination sheet")
    if number == Number.SOURCE:
        return _faulty(answer, names[0] if destination_sheet is not None else "sheet", source_sheet)
    if number == Number.DESTINATION and destination_sheet is not None:
        return _faulty(answer, names[1], destination_sheet)
    if number == Number.PATH and destination_sheet is not None:
        source, destination = tree(source_sheet), tree(destination_sheet)
        named = ("first sheet", "second") if compared else ("source", "destination")
        found = sheets.no_path(source, destination, names=named) if source and destination else None
        return Refusal(number, member=found and found.member, rule=found and found.rule, compared=compared, answer=answer)
    if number == Number.COUNT:
        return Refusal(number, count=count, answer=answer)
    if number == Number.ROOM:
        return Refusal(number, short=short, answer=answer)
    if number == Number.STOP and destination_sheet is not None:
        destination = tree(destination_sheet)
        leaf = sheets.leaf_at(destination, answer[AT]) if destination else None
        sign = {PLUS: 1, MINUS: -1}.get(answer[GIVEN])
        return Refusal(
            number,
            record=first + answer[RECORD],
            at=answer[AT],
            kind=answer[KIND],
            given=None if sign is None else sign * answer[MAGNITUDE],
            given_bits=answer[MAGNITUDE] if answer[GIVEN] == REAL else None,
            member=leaf and leaf.name,
            stopped_by=leaf and leaf.stopped_by,
            answer=answer,
        )
    if number == Number.CHANNEL and destination_sheet is not None:
        destination = tree(destination_sheet)
        wide = sheets.wide_int(destination) if destination else None
        return Refusal(number, member=wide and wide.member, precision=wide and wide.precision, answer=answer)
    if number == Number.SYMBOLS and destination_sheet is not None:
        source, destination = tree(source_sheet), tree(destination_sheet)
        lost = sheets.lost_symbol(source, destination) if source and destination else None
        return Refusal(number, member=lost and lost.member, symbol=lost and lost.symbol, answer=answer)
    if number == Number.FULL:
        return Refusal(number, count=count, answer=answer)
    return Refusal(number, answer=answer)


def tree(sheet: bytes) -> Optional[sheets.Type]:
    """The sheet's type; None of a sheet that only the library can read."""
    try:
        return sheets.read(sheet)
    except sheets.Fault:
        return None


def _faulty(answer: Sequence[int], which: str, sheet: bytes) -> Refusal:
    line = answer[LINE]
    lines = sheet.split(b"\n")
    text = lines[line - 1].decode("latin-1") if sheet and 1 <= line <= len(lines) else None
    rule = None
    try:
        sheets.read(sheet)
    except sheets.Fault as fault:
        rule = fault.rule if fault.line == line else None
    return Refusal(answer[0], sheet=which, line=line, text=text, rule=rule, answer=answer)
