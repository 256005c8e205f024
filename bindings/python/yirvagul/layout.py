"""Layouts of ints and bits, and the setters that edit them."""

from __future__ import annotations

import ctypes
import enum
import operator
from dataclasses import dataclass
from typing import Any, Optional

from . import _library
from .errors import Number, Refusal


class Class(enum.IntEnum):
    """The class of an atomic type."""

    INT = 0
    BITS = 1


class Order(enum.IntEnum):
    """Which end of a container its lowest byte is at: the lowest address (LE) or the highest (BE)."""

    LE = 0
    BE = 1


class Pad(enum.IntEnum):
    """What a write puts beside the significant bits: zeros, ones, or the background's own bits."""

    ZERO = 0
    ONE = 1
    KEEP = 2


class Sign(enum.IntEnum):
    """Whether a number's top significant bit is its sign."""

    UNSIGNED = 0
    SIGNED = 1


@dataclass
class Layout:
    """A layout of an int or bits type: size in bytes, offset and precision in bits.

    A setter edits the layout. One that is refused raises RANGE and changes nothing.
    """

    class_: Class
    size: int
    order: Order
    offset: int
    precision: int
    lsb: Pad
    msb: Pad
    sign: Sign

    def set_size(self, size: int) -> None:
        """1 to 8 bytes. Precision and offset shrink to what the size holds."""
        self._edit(_library.set_size, size=size)

    def set_order(self, order: Order) -> None:
        """Another byte order."""
        self._edit(_library.set_order, order=order)

    def set_field(self, offset: int, precision: int) -> None:
        """Exactly this offset, and this precision of 1 to 64 bits. Where they end past the size, it grows to the least that holds them; refused if it would
        pass 8 bytes."""
        self._edit(_library.set_field, offset=offset, precision=precision)

    def set_pads(self, lsb: Pad, msb: Pad) -> None:
        """The pads of the lower bits and of the higher ones."""
        self._edit(_library.set_pads, lsb=lsb, msb=msb)

    def set_sign(self, sign: Sign) -> None:
        """Signed or unsigned; refused on a bits layout."""
        self._edit(_library.set_sign, sign=sign)

    def _edit(self, setter: Any, **values: int) -> None:
        words = _library.LayoutWords(*(_word(name, getattr(self, name)) for name in _FIELDS))
        number = setter(words, *(_word(name, value) for name, value in values.items()))
        if number != Number.DONE:
            raise Refusal(number, rule=_broken(self) or _broken_by(self, **values) if number == Number.RANGE else None)
        for name, word in zip(_FIELDS, words):
            setattr(self, name, _CODES[name](word) if name in _CODES else word)


_FIELDS = tuple(Layout.__dataclass_fields__)
_CODES: dict[str, Any] = {"class_": Class, "order": Order, "lsb": Pad, "msb": Pad, "sign": Sign}


def _word(name: str, value: int) -> ctypes.c_uint32:
    """A 32-bit word. A number that is none becomes the largest, which no field and no setter allows, and is not cut to another."""
    try:
        number = operator.index(value)
    except TypeError:
        raise TypeError(f"{name.rstrip('_')} is a whole number, not {type(value).__name__}") from None
    return ctypes.c_uint32(number if 0 <= number <= 0xFFFFFFFF else 0xFFFFFFFF)


def _broken(layout: Layout) -> Optional[str]:
    """The rule that a layout breaks."""
    codes = _unknown_code(**{name: getattr(layout, name) for name in _CODES})
    if codes:
        return codes
    if not 1 <= layout.size <= 8:
        return f"the layout's size is {layout.size} bytes: 1 to 8 are allowed"
    if not 1 <= layout.precision <= 64:
        return f"the layout's precision is {layout.precision} bits: 1 to 64 are allowed"
    if layout.offset < 0:
        return f"the layout's offset is {layout.offset}: it is 0 or more"
    if layout.offset + layout.precision > 8 * layout.size:
        return (
            f"the layout's offset {layout.offset} and precision {layout.precision} need "
            f"{layout.offset + layout.precision} bits, and its {layout.size} bytes have {8 * layout.size}"
        )
    if layout.class_ == Class.BITS and layout.sign != Sign.UNSIGNED:
        return "the layout is a signed bits: bits have no sign"
    return None


def _broken_by(layout: Layout, **values: int) -> Optional[str]:
    """The rule that a setter's arguments break, on a layout that breaks none."""
    codes = _unknown_code(**values)
    if codes:
        return codes
    if not 1 <= values.get("size", 1) <= 8:
        return f"the size is {values['size']} bytes: 1 to 8 are allowed"
    if not 1 <= values.get("precision", 1) <= 64:
        return f"the precision is {values['precision']} bits: 1 to 64 are allowed"
    most = 64 - values.get("precision", layout.precision)
    if not 0 <= values.get("offset", 0) <= most:
        return f"offset {values['offset']} and precision {values['precision']} do not fit 8 bytes: keep the offset within 0 to {most}"
    if "sign" in values and layout.class_ == Class.BITS:
        return "bits have no sign"
    return None


def _unknown_code(**values: int) -> Optional[str]:
    for name, value in values.items():
        codes = _CODES.get(name)
        if codes is not None and value not in set(codes):
            allowed = " or ".join(f"{codes.__name__}.{code.name}" for code in codes)
            return f"{name.rstrip('_')} is {value!r}: {allowed} is allowed"
    return None
