"""A reading of sheets in Python, for explanations: which rule a line breaks, which members have no path, which symbol a destination lacks, whose byte a
leaf's first byte is and whose word it obeys, which int is too wide for a report, which of two compared leaves is a real.

It explains and never decides: what counts is the library's answer. Which numbers of two compared logs are a real's is found here, since the library's
list does not say it.
"""

from __future__ import annotations

import functools
import math
from typing import NamedTuple, Optional, Sequence, TypeVar, Union

from ._buffers import SHEET_BYTES, Sheet, sheet_bytes
from .errors import quoted
from .layout import Class, Order, Pad, Sign

# ---- types


class Atomic(NamedTuple):
    """An int or bits type, with a layout's fields."""

    class_: Class
    size: int
    order: Order
    offset: int
    precision: int
    lsb: Pad
    msb: Pad
    sign: Sign

    @property
    def range(self) -> tuple[int, int]:
        """The smallest and the largest number that it holds."""
        if self.sign == Sign.SIGNED:
            return -(1 << self.precision - 1), (1 << self.precision - 1) - 1
        return 0, (1 << self.precision) - 1


class Real(NamedTuple):
    """A real type: an IEEE 754 binary64, all of whose bits are the number's."""

    order: Order

    @property
    def size(self) -> int:
        return 8


class Value(NamedTuple):
    """A symbol of an enum and its number."""

    name: str
    number: int


class Enum(NamedTuple):
    """An enum type, with its values in the order of their lines."""

    base: Atomic
    values: tuple[Value, ...]

    @property
    def size(self) -> int:
        return self.base.size


class Member(NamedTuple):
    """A member of a compound, `at` bytes from its start. Its word is `clamp` or `stop`, or None where its line has none."""

    name: str
    at: int
    type: Type
    word: Optional[str] = None


class Compound(NamedTuple):
    """A compound type, with its members in the order of their lines."""

    size: int
    members: tuple[Member, ...]


class Array(NamedTuple):
    """An array type."""

    base: Type
    dimensions: tuple[int, ...]

    @property
    def size(self) -> int:
        return math.prod(self.dimensions) * self.base.size


Type = Union[Atomic, Real, Enum, Compound, Array]


def class_name(type_: Type) -> str:
    """The class of a type in words, with its article."""
    if isinstance(type_, Atomic):
        return "an int" if type_.class_ == Class.INT else "a bits"
    return {Real: "a real", Enum: "an enum", Compound: "a compound", Array: "an array"}[type(type_)]


# ---- reading


class Fault(ValueError):
    """The first faulty line of a sheet, counted from 1 (0: the sheet is too long), and the rule that it breaks."""

    def __init__(self, line: int, rule: str) -> None:
        super().__init__(line, rule)
        self.line, self.rule = line, rule

    def __str__(self) -> str:
        return f"line {self.line}: {self.rule}"


def read(sheet: Sheet) -> Type:
    """The sheet's type, or Fault."""
    return _read(sheet_bytes("sheet", sheet))


@functools.lru_cache(maxsize=32)
def _read(sheet: bytes) -> Type:
    if len(sheet) > SHEET_BYTES:
        raise Fault(0, f"it is longer than {SHEET_BYTES:,} bytes: shorten it")
    if not sheet:
        raise Fault(1, "the sheet is empty: it has at least one line with a type")
    *lines, rest = sheet.decode("latin-1").split("\n")
    reading = _Reading()
    for number, line in enumerate(lines, 1):
        try:
            reading.take(line)
        except _Broken as broken:
            raise Fault(number, str(broken)) from None
    if rest:
        raise Fault(len(lines) + 1, "it is the last line and has no line end: end it with byte 10")
    return reading.types[-1]


class _Broken(Exception):
    """The rule that a line breaks."""


_FIELDS = {
    "int": ("size", "order", "offset", "precision", "lsb", "msb", "sign"),
    "bits": ("size", "order", "offset", "precision", "lsb", "msb"),
    "real": ("size", "order"),
    "enum": ("base",),
    "value": ("name", "number"),
    "comp": ("size",),
    "member": ("name", "byte offset", "type", "word (clamp or stop, or left out)"),
}
_WORDS = (*_FIELDS, "array")


class _Reading:
    """What the lines so far have said."""

    def __init__(self) -> None:
        self.types: list[Type] = []
        self.rows = 0

    def take(self, line: str) -> None:
        """Takes the next line in."""
        if line.endswith("\r"):
            raise _Broken("it ends in a carriage return, byte 13: end lines with byte 10 alone")
        if not line:
            raise _Broken("it is empty: leave it out")
        word, *fields = line.split("\t")
        if word not in _WORDS:
            raise _Broken(_no_word(word))
        if fields and not fields[-1]:
            raise _Broken("it ends in a tab: write the field that is missing, or leave the tab out")
        if word in _FIELDS:
            _check_fields(word, fields)
        if word in ("value", "member"):
            self.take_row(word, fields)
        else:
            self.take_type(word, fields)

    def take_type(self, word: str, fields: list[str]) -> None:
        made: Type
        if word in ("int", "bits"):
            made = _atomic(*fields)
        elif word == "real":
            made = _real(*fields)
        elif word == "enum":
            made = self.enum_of(fields[0])
        elif word == "comp":
            made = _compound(fields[0])
        else:
            made = self.array_of(fields)
        if len(self.types) == 64:
            raise _Broken("it is the 65th type: a sheet has at most 64")
        self.types.append(made)

    def enum_of(self, field: str) -> Enum:
        number, base = self.earlier("base", field, len(self.types))
        if not isinstance(base, Atomic) or base.class_ != Class.INT:
            raise _Broken(f"its base, type {number}, is {class_name(base)}: an enum's base is an int")
        return Enum(base, ())

    def array_of(self, fields: list[str]) -> Array:
        if not 2 <= len(fields) <= 5:
            has = _many(len(fields) - 1, "dimension") if len(fields) > 1 else "no dimension"
            raise _Broken(f"it has {has}: an array has a base and one to four dimensions")
        _, base = self.earlier("base", fields[0], len(self.types))
        made = Array(base, tuple(_natural(f"dimension {i}", field) for i, field in enumerate(fields[1:], 1)))
        if 0 in made.dimensions:
            raise _Broken(f"its dimension {made.dimensions.index(0) + 1} is 0: each is at least 1")
        if made.size > 4096:
            raise _Broken(f"it has {made.size:,} bytes: an array has at most 4,096")
        return made

    def take_row(self, word: str, fields: list[str]) -> None:
        """A value or a member, which goes into the last type."""
        last = self.types[-1] if self.types else None
        made: Type
        if word == "value":
            if not isinstance(last, Enum):
                raise _Broken(f"value follows an enum or another value of it, and {_before(last)}")
            made = _with_value(last, *fields)
        else:
            if not isinstance(last, Compound):
                raise _Broken(f"member follows a comp or another member of it, and {_before(last)}")
            made = self.with_member(last, *fields)
        if self.rows == 256:
            raise _Broken("it is the 257th value or member: a sheet has at most 256")
        self.rows += 1
        self.types[-1] = made

    def with_member(self, last: Compound, name: str, offset: str, field: str, word: Optional[str] = None) -> Compound:
        _check_name(name, [member.name for member in last.members])
        at = _natural("byte offset", offset)
        _, made = self.earlier("type", field, len(self.types) - 1)
        if word is not None and word not in ("clamp", "stop"):
            raise _Broken(f"its last field is {quoted(word)}: write clamp or stop, or leave it out")
        end = at + made.size
        if end > last.size:
            room = _many(last.size, "byte")
            raise _Broken(f"its bytes, {_span(at, made)}, end behind the compound, which has {room}, from byte 0")
        for other in last.members:
            if at < other.at + other.type.size and other.at < end:
                theirs = _span(other.at, other.type)
                raise _Broken(f"its bytes, {_span(at, made)}, overlap those of {other.name}, {theirs}")
        return last._replace(members=(*last.members, Member(name, at, made, word)))

    def earlier(self, what: str, field: str, below: int) -> tuple[int, Type]:
        """A type with a number lower than that of the type which it is used in."""
        number = _natural(what, field)
        if number >= below:
            there = f"are types 0 to {below - 1}" if below > 1 else "is only type 0" if below else "is none"
            raise _Broken(f"its {what} is type {number:,}, and before the type that uses it there {there}")
        return number, self.types[number]


def _atomic(size: str, order: str, offset: str, precision: str, lsb: str, msb: str, sign: Optional[str] = None) -> Atomic:
    made = Atomic(
        Class.BITS if sign is None else Class.INT,
        _natural("size", size),
        _code("order", order, _ORDERS),
        _natural("offset", offset),
        _natural("precision", precision),
        _code("lsb pad", lsb, _PADS),
        _code("msb pad", msb, _PADS),
        Sign.UNSIGNED if sign is None else _code("sign", sign, {"signed": Sign.SIGNED, "unsigned": Sign.UNSIGNED}),
    )
    if not 1 <= made.size <= 8:
        raise _Broken(f"its size is {made.size:,} bytes: 1 to 8 are allowed")
    if not 1 <= made.precision <= 64:
        raise _Broken(f"its precision is {made.precision:,} bits: 1 to 64 are allowed")
    bits = made.offset + made.precision
    if bits > 8 * made.size:
        raise _Broken(
            f"its offset {made.offset:,} and precision {made.precision} need {bits:,} bits, "
            f"and its size has {8 * made.size}: enlarge the size, or move or narrow the number"
        )
    return made


def _real(size: str, order: str) -> Real:
    bytes_, made = _natural("size", size), Real(_code("order", order, _ORDERS))
    if bytes_ != made.size:
        raise _Broken(f"its size is {_many(bytes_, 'byte')}: a real has 8")
    return made


def _compound(field: str) -> Compound:
    made = Compound(_natural("size", field), ())
    if not 1 <= made.size <= 4096:
        raise _Broken(f"its size is {made.size:,} bytes: a compound has 1 to 4,096")
    return made


def _with_value(last: Enum, name: str, field: str) -> Enum:
    _check_name(name, [value.name for value in last.values])
    number = _whole("number", field)
    smallest, largest = last.base.range
    if not smallest <= number <= largest:
        raise _Broken(f"its number, {quoted(field)}, is outside the base's range, {smallest} to {largest}")
    for other in last.values:
        if other.number == number:
            raise _Broken(f"its number, {number}, is that of {other.name}: numbers in one enum are unique")
    return last._replace(values=(*last.values, Value(name, number)))


# ---- fields

_ORDERS = {"LE": Order.LE, "BE": Order.BE}
_PADS = {"zero": Pad.ZERO, "one": Pad.ONE, "keep": Pad.KEEP}
_T = TypeVar("_T")


def _check_fields(word: str, fields: Sequence[str]) -> None:
    """A member may leave out its word, and no other line anything."""
    most = 1 + len(_FIELDS[word])
    least = most - 1 if word == "member" else most
    if not least <= 1 + len(fields) <= most:
        has, wanted = _many(1 + len(fields), "field"), ", ".join((word, *_FIELDS[word]))
        raise _Broken(f"it has {has}, and {word} has {most if least == most else f'{least} or {most}'}, parted by one tab: {wanted}")


def _no_word(word: str) -> str:
    wanted = ", ".join(_WORDS)
    if not word:
        return f"it starts with a tab: a line starts with one of {wanted}"
    if word.split(" ")[0] in _WORDS:
        return "its fields are parted by blanks: part them by one tab"
    if word.lower() in _WORDS:
        return f"it starts with {quoted(word)}: write {word.lower()}"
    return f"it starts with {quoted(word)}: a line starts with one of {wanted}"


def _code(what: str, field: str, codes: dict[str, _T]) -> _T:
    if field not in codes:
        raise _Broken(f"its {what} is {quoted(field)}: write {' or '.join(codes)}")
    return codes[field]


def _natural(what: str, field: str) -> int:
    """A number from 0 to 4,294,967,295."""
    if field.startswith("-"):
        raise _Broken(f"its {what} is {quoted(field)}: only an enum's number may have a minus")
    number = _digits(what, field, field)
    if number > 0xFFFFFFFF:
        raise _Broken(f"its {what} is {quoted(field)}: a number is at most 4,294,967,295")
    return number


def _whole(what: str, field: str) -> int:
    """A number that may have a minus."""
    if not field.startswith("-"):
        return _digits(what, field, field)
    if field == "-0":
        raise _Broken(f"its {what} is `-0`: write 0")
    return -_digits(what, field, field[1:])


def _digits(what: str, field: str, digits: str) -> int:
    if not field:
        raise _Broken(f"its {what} is empty: write a decimal number")
    if not digits:
        raise _Broken(f"its {what} is `-`: write a decimal number behind the minus")
    if " " in field:
        raise _Broken(f"its {what} is {quoted(field)}: leave the blank out")
    if "+" in field:
        raise _Broken(f"its {what} is {quoted(field)}: leave the plus out")
    if not (digits.isascii() and digits.isdigit()):
        raise _Broken(f"its {what} is {quoted(field)}: write a decimal number")
    if digits.startswith("0") and digits != "0":
        raise _Broken(f"its {what} is {quoted(field)}: leave leading zeros out")
    return int(digits) if len(digits) <= 20 else 10**20  # which no range holds


def name_fault(name: str) -> Optional[str]:
    """The rule that a name breaks."""
    if not name:
        return "its name is empty: a name has 1 to 31 bytes"
    for byte in map(ord, name):
        if not 33 <= byte <= 126:
            return f"its name, {quoted(name)}, has byte {byte}: a name's bytes are 33 to 126, with no blank"
    if len(name) > 31:
        return f"its name, {quoted(name)}, has {len(name):,} bytes: a name has 1 to 31"
    return None


def _check_name(name: str, taken: Sequence[str]) -> None:
    fault = name_fault(name)
    if fault:
        raise _Broken(fault)
    if name in taken:
        raise _Broken(f"its name, {name}, is taken: names in one enum or compound are unique")


def _before(last: Optional[Type]) -> str:
    return "no type is before it" if last is None else f"the type before it is {class_name(last)}"


def _many(number: int, what: str) -> str:
    return f"{number:,} {what}{'' if number == 1 else 's'}"


def _span(at: int, type_: Type) -> str:
    return f"{at:,} to {at + type_.size - 1:,}"


# ---- explanations


class Leaf(NamedTuple):
    """A leaf: its name, and the member by whose word it obeys stop, which is the innermost one on its way with a word; each None if there is none."""

    name: Optional[str]
    stopped_by: Optional[str]


def leaf_at(type_: Type, at: int) -> Leaf:
    """The leaf whose first byte is `at` bytes into a record."""
    way, word, member_with_it = "", None, ""
    while not isinstance(type_, (Atomic, Real, Enum)):
        if isinstance(type_, Compound):
            inside = [member for member in type_.members if member.at <= at < member.at + member.type.size]
            if not inside:
                return Leaf(None, None)
            way += f".{inside[0].name}" if way else inside[0].name
            if inside[0].word:
                word, member_with_it = inside[0].word, way
            at, type_ = at - inside[0].at, inside[0].type
        else:
            place, at = divmod(at, type_.base.size)
            way += _index(place, type_.dimensions)
            type_ = type_.base
    if at or not way:
        return Leaf(None, None)
    return Leaf(way, member_with_it if word == "stop" else None)


def leaf_name(type_: Type, at: int) -> Optional[str]:
    """The way to the leaf whose first byte is `at` bytes into a record: names and places in arrays, such as boost[1]. None if it has no names."""
    return leaf_at(type_, at).name


def _index(place: int, dimensions: tuple[int, ...]) -> str:
    """A row-major place as one index for each dimension."""
    indices: list[int] = []
    for dimension in reversed(dimensions):
        place, index = divmod(place, dimension)
        indices.insert(0, index)
    return "".join(f"[{index}]" for index in indices)


def are_reals(first: Type, second: Type, at: int) -> Optional[tuple[bool, bool]]:
    """Whether the leaf on the way of the second type's leaf at a byte is a real in the first type, and in the second; None if no such leaf starts there."""
    while True:
        if isinstance(first, Compound) and isinstance(second, Compound):
            member = next((member for member in second.members if member.at <= at < member.at + member.type.size), None)
            other = next((other for other in first.members if member and other.name == member.name), None)
            if member is None or other is None:
                return None
            first, second, at = other.type, member.type, at - member.at
        elif isinstance(first, Array) and isinstance(second, Array):
            first, second, at = first.base, second.base, at % second.base.size
        else:
            return None if at else (isinstance(first, Real), isinstance(second, Real))


class Wide(NamedTuple):
    """An int leaf that is too wide for a report: its name, as of `leaf_name`, and its bits."""

    member: Optional[str]
    precision: int


def wide_int(type_: Type) -> Optional[Wide]:
    """The first int leaf, in byte order, of more than 32 bits."""
    found = _wide_int(type_, 0)
    return None if found is None else Wide(leaf_name(type_, found[0]), found[1])


def _wide_int(type_: Type, at: int) -> Optional[tuple[int, int]]:
    """Its first byte and its bits, in a type that starts at a byte. The elements of an array are all alike."""
    if isinstance(type_, Atomic):
        return (at, type_.precision) if type_.class_ == Class.INT and type_.precision > 32 else None
    if isinstance(type_, Array):
        return _wide_int(type_.base, at)
    if isinstance(type_, Compound):
        for member in _in_byte_order(type_):
            found = _wide_int(member.type, at + member.at)
            if found:
                return found
    return None


def _in_byte_order(compound: Compound) -> list[Member]:
    return sorted(compound.members, key=lambda member: member.at)


class LostSymbol(NamedTuple):
    """A symbol that a destination lacks, and the destination's member; None if it is the sheet's type itself."""

    member: Optional[str]
    symbol: str


def lost_symbol(source: Type, destination: Type, way: str = "") -> Optional[LostSymbol]:
    """The first one, in the order of the destination's bytes and then of the source's values. The elements of an array are all alike."""
    if isinstance(source, Enum) and isinstance(destination, Enum):
        names = {value.name for value in destination.values}
        lost = next((value.name for value in source.values if value.name not in names), None)
        return None if lost is None else LostSymbol(way or None, lost)
    if isinstance(source, Array) and isinstance(destination, Array):
        return lost_symbol(source.base, destination.base, f"{way}[]")
    if isinstance(source, Compound) and isinstance(destination, Compound):
        others = {other.name: other.type for other in source.members}
        for member in _in_byte_order(destination):
            if member.name in others:
                found = lost_symbol(others[member.name], member.type, f"{way}.{member.name}" if way else member.name)
                if found:
                    return found
    return None


class NoPath(NamedTuple):
    """Why there is no path, and the destination's member where; None if it is the sheet's type itself."""

    member: Optional[str]
    rule: str


def no_path(
    source: Type, destination: Type, way: str = "", names: tuple[str, str] = ("source", "destination")
) -> Optional[NoPath]:
    """The first place without a path, in the order of the destination's lines. The sheets have these names."""
    if isinstance(source, Compound) and isinstance(destination, Compound):
        for member in destination.members:
            for other in source.members:
                if other.name == member.name:
                    found = no_path(other.type, member.type, f"{way}.{member.name}" if way else member.name, names)
                    if found:
                        return found
        return None
    if isinstance(source, Array) and isinstance(destination, Array):
        if source.dimensions == destination.dimensions:
            return no_path(source.base, destination.base, f"{way}[]", names)
        ours, theirs = (" by ".join(map(str, array.dimensions)) for array in (source, destination))
        return NoPath(way or None, f"the {names[0]} has an array of {ours}, the {names[1]} one of {theirs}: give both the same dimensions")
    ours, theirs = class_name(source), class_name(destination)
    if ours == theirs or {ours, theirs} == {"an int", "a real"}:
        return None
    return NoPath(way or None, f"the {names[0]} has {ours}, the {names[1]} {theirs}: give both the same class")
