"""Refusals: the library's numbers, names and place fields, in words that say what is wrong, where, and what to do."""

from __future__ import annotations

import copyreg
import enum
import math
import struct
from typing import Any, Callable, NamedTuple, Optional, Sequence, TypeVar, Union


class Number(enum.IntEnum):
    """What a call answers: done, or the first check that fails."""

    DONE = 0
    HANDLING = 1
    TABLE = 2
    SOURCE = 3
    DESTINATION = 4
    PATH = 5
    COUNT = 6
    ROOM = 7
    STOP = 8
    RANGE = 9
    CHANNEL = 10
    FULL = 11
    SYMBOLS = 12


class Kind(enum.IntEnum):
    """Why a number does not fit its destination leaf."""

    ABOVE = 1
    BELOW = 2
    NO_SYMBOL = 3
    NOT_A_NUMBER = 4
    TRUNCATED = 5
    ROUNDED = 6


class Short(NamedTuple):
    """A buffer that is too short: its name, the bytes that it holds, and those that it needs."""

    buffer: str
    holds: int
    needs: int


_Code = TypeVar("_Code", bound=enum.IntEnum)


def _known(codes: type[_Code], number: int) -> Union[_Code, int]:
    """The number's name; of a number from a newer library, the number itself."""
    try:
        return codes(number)
    except ValueError:
        return number


class Refusal(Exception):
    """A refused call. It left data buffers, layouts, logs and reports as they were.

    Every refusal has `number` and `name`. Of the others, those that the number does not name, or that could not be told, are None (`short`: empty):

    - SOURCE, DESTINATION: `line`, counted from 1, or 0 where the sheet is too long; its `text`; the `rule` that it breaks
    - PATH: the `member` that has none, and the `rule` that it breaks; `compared` is true where two logs were compared
    - COUNT: `count`, the number of records
    - ROOM: `short`, each buffer that is too short
    - STOP: `record`, from 0; `at`, the first byte of the leaf in its destination record; `kind`; the `member`, such as `boost[1]`;
      `given`, the number that did not fit, as it stood in the source: an int, or of a real a float, with its 64 bits in `given_bits`; `stopped_by`,
      the member whose word in the destination sheet is stop, such as `boost`, or None where the call's handling stopped it
    - RANGE: the `rule` that an argument or the layout breaks
    - CHANNEL: the `member` that is too wide for a report, and its `precision`, in bits
    - FULL: `count`, the number of records that the report would have
    - SYMBOLS: the `symbol` that the destination's enum lacks, and the `member` whose enum it is

    A number or a kind that this version does not know is kept as it came: the name is then UNKNOWN, and `answer` has all words of the answer.
    A given number of a sort that it does not know is None, and stands there too.
    """

    def __init__(
        self,
        number: int,
        *,
        sheet: Optional[str] = None,
        line: Optional[int] = None,
        text: Optional[str] = None,
        rule: Optional[str] = None,
        member: Optional[str] = None,
        count: Optional[int] = None,
        short: Sequence[Short] = (),
        record: Optional[int] = None,
        at: Optional[int] = None,
        kind: Optional[int] = None,
        given: Optional[int] = None,
        given_bits: Optional[int] = None,
        stopped_by: Optional[str] = None,
        precision: Optional[int] = None,
        symbol: Optional[str] = None,
        compared: bool = False,
        answer: Sequence[int] = (),
    ) -> None:
        self.number = _known(Number, number)
        self.name: str = self.number.name if isinstance(self.number, Number) else "UNKNOWN"
        self.sheet, self.line, self.text, self.rule, self.member = sheet, line, text, rule, member
        self.count, self.short = count, tuple(short)
        self.record, self.at = record, at
        self.kind = None if kind is None else _known(Kind, kind)
        self.given_bits = given_bits
        self.given: Union[int, float, None] = given if given_bits is None else double(given_bits)
        self.stopped_by = stopped_by
        self.precision = precision
        self.symbol = symbol
        self.compared = compared
        self.answer = tuple(answer)
        said = _MESSAGES.get(int(number), _unknown)(self)
        super().__init__(f"{self.name} ({int(number)}): {said}")

    def __reduce__(self) -> tuple[Any, ...]:
        # Made again from its message and its fields: the default would hand the message to __init__ as a number.
        return copyreg.__newobj__, (type(self), *self.args), self.__dict__.copy()  # type: ignore[attr-defined]


# ---- the messages


def quoted(text: str) -> str:
    """A text of a sheet in quotes: tabs and other bytes that do not show are escaped, and a long one is cut."""
    shown = ascii(text[:80])[1:-1]
    return f"`{shown}`" if len(text) <= 80 else f"`{shown}..`"


def _faulty(refused: Refusal) -> str:
    which = refused.sheet or ("source sheet" if refused.number == Number.SOURCE else "destination sheet")
    if refused.line == 0:
        return f"the {which} is faulty: {refused.rule or 'it is too long: shorten it'}"
    text = f", {quoted(refused.text)}" if refused.text else ""
    rule = refused.rule or "correct it by the rules of sheets and the lines before it"
    return f"line {refused.line} of the {which} is faulty{text}: {rule}"


def _path(refused: Refusal) -> str:
    rule = refused.rule or "give members of one name the same class, or an int and a real, and arrays the same dimensions"
    place = "" if refused.member is None else f" at {quoted(refused.member)}"
    which = "first log's type to the second log's" if refused.compared else "source type to the destination type"
    return f"no path from the {which}{place}: {rule}"


def _count(refused: Refusal) -> str:
    records = "more than 65,536 records" if refused.count is None else f"{refused.count:,} records, more than 65,536,"
    return f"{records} in one call: convert them with convert_log, or in parts"


def _room(refused: Refusal) -> str:
    if not refused.short:
        return "a buffer is too short for that many records, or for the list: lend a longer one"
    said = "; ".join(f"the {name} is too short: it holds {holds} bytes and needs {needs}" for name, holds, needs in refused.short)
    return f"{said}: lend {'a longer one' if len(refused.short) == 1 else 'longer ones'}"


def double(bits: int) -> float:
    """The double of 64 bits."""
    number: float = struct.unpack("<d", struct.pack("<Q", bits))[0]
    return number


# What is wrong with a number, and what to do about it but to clamp.
_WHY = {
    Kind.ABOVE: ("is above the destination's range", "widen the destination"),
    Kind.BELOW: ("is below the destination's range", "widen the destination"),
    Kind.NO_SYMBOL: ("has no symbol in the source", "give it one in both enums"),
    Kind.NOT_A_NUMBER: ("is not-a-number, which no int holds", "make the destination a real"),
    Kind.TRUNCATED: ("has a fraction, or is a negative zero, which no int holds", "make the destination a real"),
    Kind.ROUNDED: ("is no double, only near one", "make the destination an int"),
}


def _given(refused: Refusal) -> str:
    """The number as a person reads it: `the number 4095`, `the real 255.5`, `the real NaN (0x7ff8000000000000)`."""
    given, bits = refused.given, refused.given_bits
    if given is None:
        return "the number"
    if bits is None:
        return f"the number {given}"
    if math.isnan(given):
        return f"the real NaN (0x{bits:016x})"
    if math.isinf(given):
        return f"the real {'+' if given > 0 else '-'}infinity"
    return f"the real {given!r}"


def _stop(refused: Refusal) -> str:
    place = f"byte {refused.at} of record {refused.record}"
    if refused.member is not None:
        place += f", member {quoted(refused.member)},"
    says, clamp = "", "clamp"
    if refused.stopped_by is not None:
        says, clamp = f", and the destination sheet says stop for {quoted(refused.stopped_by)}", "write clamp there"
    if isinstance(refused.kind, Kind):
        wrong, remedy = _WHY[refused.kind]
        if refused.kind == Kind.TRUNCATED and refused.given is not None:
            wrong = f"{'has a fraction' if refused.given else 'is a negative zero'}, which no int holds"
        why = f"{wrong}{says}: {remedy}, or {clamp}"
    else:
        wrong = f"does not fit, of kind {refused.kind}, which this version of yirvagul does not know"
        why = f"{wrong}{says}: {clamp}, or take the version of the library"
    return f"{_given(refused)} for {place} {why}"


def _range(refused: Refusal) -> str:
    return refused.rule or (
        "the argument or the layout breaks the rules of a layout: size 1 to 8 bytes, precision 1 to 64 bits, "
        "offset + precision within the size, no sign on bits"
    )


def _channel(refused: Refusal) -> str:
    if refused.precision is None:
        return "an int of the reader's sheet has more than 32 bits: narrow it, or leave it out"
    which = "the record" if refused.member is None else quoted(refused.member)
    return f"{which} has {refused.precision} bits, and a report takes ints of at most 32: narrow it in the reader's sheet, or leave it out"


def _full(refused: Refusal) -> str:
    if refused.count is None:
        return "the report is full, or its memory holds what no report's does: begin a new report"
    return f"the report would have {refused.count:,} records or more, and it takes 1,048,576: begin a new report"


def _symbols(refused: Refusal) -> str:
    remedy = "give the destination's enum that symbol, with a number of its own"
    if refused.symbol is None:
        return f"an enum has a symbol in the source and not in the destination: {remedy}"
    which = "the record" if refused.member is None else quoted(refused.member)
    return f"{which} has the symbol {quoted(refused.symbol)} in the source and not in the destination: {remedy}"


def _unknown(refused: Refusal) -> str:
    words = f" (its answer is {' '.join(map(str, refused.answer))})" if refused.answer else ""
    return f"the library refused with a number that this version of yirvagul does not know{words}: take the version of the library"


_MESSAGES: dict[int, Callable[[Refusal], str]] = {
    Number.HANDLING: lambda _: "handling is neither Handling.CLAMP nor Handling.STOP: pass one of them",
    Number.TABLE: lambda _: "the library wants a longer working table than this version of yirvagul lends: build both from one repository",
    Number.SOURCE: _faulty,
    Number.DESTINATION: _faulty,
    Number.PATH: _path,
    Number.COUNT: _count,
    Number.ROOM: _room,
    Number.STOP: _stop,
    Number.RANGE: _range,
    Number.CHANNEL: _channel,
    Number.FULL: _full,
    Number.SYMBOLS: _symbols,
}
