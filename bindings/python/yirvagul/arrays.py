"""Sheets and numpy: structured arrays of converted records. numpy is needed by these calls alone."""

from __future__ import annotations

import sys
from typing import TYPE_CHECKING, Any, Union, cast

from . import sheets
from ._buffers import Sheet
from .calls import Handling, record_size
from .errors import Refusal, quoted
from .layout import Order, Sign
from .log import LogSource, convert_log_parts

if TYPE_CHECKING:
    import numpy
    import numpy.typing


def _numpy() -> Any:
    try:
        import numpy
    except ImportError:
        raise ImportError("sheet_of, dtype_of and convert_to_array need numpy: run `pip install numpy`") from None
    return numpy


def dtype_of(sheet: Sheet) -> numpy.dtype[Any]:
    """The numpy dtype that has the same bytes as the sheet's type.

    Ints and bits must fill 1, 2, 4 or 8 bytes; a sheet with another layout has no dtype and raises ValueError. Bits become unsigned numbers, reals
    float64. An enum becomes its base with the symbols beside it, in `dtype.metadata["enum"]`, where h5py has them too. The words of members, `clamp` and
    `stop`, have no place in a dtype and are left out.
    """
    np = _numpy()
    record_size(sheet)  # the library judges the sheet
    try:
        read = sheets.read(sheet)
    except sheets.Fault as fault:
        raise ValueError(f"no dtype for this sheet: this version of yirvagul does not know its line {fault.line}") from None
    made: numpy.dtype[Any] = _dtype(np, read, "")
    return made


def _dtype(np: Any, type_: sheets.Type, way: str) -> Any:
    if isinstance(type_, sheets.Compound):
        fields = {
            "names": [member.name for member in type_.members],
            "formats": [_dtype(np, member.type, _inside(way, member.name)) for member in type_.members],
            "offsets": [member.at for member in type_.members],
            "itemsize": type_.size,
        }
        return np.dtype(fields)
    if isinstance(type_, sheets.Array):
        return np.dtype((_dtype(np, type_.base, f"{way}[]"), type_.dimensions))
    if isinstance(type_, sheets.Enum):
        symbols = {value.name: value.number for value in type_.values}
        return np.dtype(_dtype(np, type_.base, way), metadata={"enum": symbols})
    order = "<" if type_.order == Order.LE else ">"
    if isinstance(type_, sheets.Real):
        return np.dtype(f"{order}f8")
    if type_.offset != 0 or type_.precision != 8 * type_.size or type_.size not in (1, 2, 4, 8):
        raise ValueError(
            f"no dtype for this sheet: {_named(way)} has {type_.precision} bits at offset {type_.offset} of {type_.size} bytes, "
            "and numpy's whole numbers fill 1, 2, 4 or 8 bytes: convert to a sheet with such numbers"
        )
    return np.dtype(f"{order}{'i' if type_.sign == Sign.SIGNED else 'u'}{type_.size}")


def sheet_of(dtype: numpy.typing.DTypeLike) -> str:
    """The sheet of a numpy dtype of whole numbers and float64, and of records and arrays of them.

    A number with `metadata["enum"]`, as `dtype_of` and h5py write it, is an enum. No member has a word. A dtype that no sheet can say raises ValueError.
    """
    made = _Lines()
    made.type_of(_numpy().dtype(dtype), "")
    sheet = "".join(made.types)
    try:
        record_size(sheet)
    except Refusal as refused:
        line = f" at {quoted(refused.text)}" if refused.text else ""
        raise ValueError(f"no sheet for this dtype{line}: {refused.rule or refused}") from None
    return sheet


class _Lines:
    """The lines of a sheet, each type with the rows that go with it once, and its number."""

    def __init__(self) -> None:
        self.types: dict[str, int] = {}

    def add(self, *lines: str) -> int:
        return self.types.setdefault("".join(line + "\n" for line in lines), len(self.types))

    def type_of(self, dtype: Any, way: str) -> int:
        """The number of a dtype's type."""
        if dtype.subdtype is not None:
            base, dimensions = dtype.subdtype
            return self.add("\t".join(map(str, ("array", self.type_of(base, f"{way}[]"), *dimensions))))
        if dtype.names is not None:
            rows = []
            for name in dtype.names:
                member, at = dtype.fields[name][:2]
                rows.append(f"member\t{_checked(name, way)}\t{at}\t{self.type_of(member, _inside(way, name))}")
            return self.add(f"comp\t{dtype.itemsize}", *rows)
        is_real = dtype.kind == "f" and dtype.itemsize == 8
        if dtype.kind not in "iu" and not is_real:
            raise ValueError(f"no sheet for this dtype: {_named(way)} is {dtype}, and sheets have whole numbers and float64 alone")
        little = dtype.itemsize == 1 or dtype.byteorder == "<" or (dtype.byteorder == "=" and sys.byteorder == "little")
        order, sign = "LE" if little else "BE", "signed" if dtype.kind == "i" else "unsigned"
        place = "" if is_real else f"\t0\t{8 * dtype.itemsize}\tzero\tzero\t{sign}"
        number = self.add(f"{'real' if is_real else 'int'}\t{dtype.itemsize}\t{order}{place}")
        symbols = (dtype.metadata or {}).get("enum")
        if symbols is None:
            return number
        return self.add(f"enum\t{number}", *(f"value\t{_checked(name, way)}\t{int(value)}" for name, value in symbols.items()))


def _checked(name: str, way: str) -> str:
    """A name that is one field of a line."""
    fault = sheets.name_fault(name)
    if fault:
        raise ValueError(f"no sheet for this dtype: {_named(_inside(way, name))}: {fault}")
    return name


def _inside(way: str, name: str) -> str:
    return f"{way}.{name}" if way else name


def _named(way: str) -> str:
    return quoted(way) if way else "the record"


def convert_to_array(
    source_sheet: Sheet,
    destination: Union[Sheet, numpy.dtype[Any]],
    handling: Handling,
    source: LogSource,
) -> tuple[numpy.ndarray[Any, Any], int]:
    """Converts all records of a log into a new array, over a background of zeros. Gives the array, and how many leaves raised an exception.

    The destination is a sheet that has a dtype, or a dtype that has a sheet; the words of a sheet's members are obeyed. The source is a path, a binary
    file or a buffer, with any number of records.
    """
    np = _numpy()
    if isinstance(destination, np.dtype):
        dtype: Any = destination
        sheet: Sheet = sheet_of(dtype)
    else:
        sheet = cast(Sheet, destination)
        dtype = dtype_of(sheet)
    data, exceptions = bytearray(), 0
    for part in convert_log_parts(source_sheet, sheet, handling, source):
        data += part.data
        exceptions += part.exceptions
    return np.ndarray(len(data) // dtype.itemsize, dtype, data), exceptions
