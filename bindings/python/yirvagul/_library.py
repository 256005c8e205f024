"""The shared object and the C calls in it, as include/yirvagul.h declares them."""

from __future__ import annotations

import ctypes
import os
import pathlib
from typing import Any, Sequence

NAME = "libyirvagul.so"


def _find() -> str:
    """The file that YIRVAGUL_SO names; else, in the repository, the one that `build` leaves; else the one that a wheel brings."""
    named = os.environ.get("YIRVAGUL_SO")
    if named:
        return os.path.abspath(named)
    package = pathlib.Path(__file__).resolve().parent
    if (package.parent / "pyproject.toml").exists():
        return str(package.parents[2] / "target" / "python" / NAME)
    return str(package / NAME)


FILE = _find()
"""The shared object that is in use."""

try:
    _library = ctypes.CDLL(FILE)
except OSError as error:
    raise ImportError(
        f"yirvagul has no shared object ({error}): in the repository run `bindings/archive` and then `bindings/python/build`, "
        "or set YIRVAGUL_SO to the path of one"
    ) from None


def _declare(name: str, arguments: Sequence[Any]) -> Any:
    try:
        function = getattr(_library, "yirvagul_" + name)
    except AttributeError:
        raise ImportError(
            f"{FILE} lacks yirvagul_{name}, so it is of another version than this module: "
            "in the repository run `bindings/archive` and then `bindings/python/build`"
        ) from None
    function.argtypes = arguments
    function.restype = ctypes.c_uint32
    return function


TABLE_WORDS = 8192
"""The words of a working table."""

Table = ctypes.c_uint32 * TABLE_WORDS
Answer = ctypes.c_uint64 * 8
LayoutWords = ctypes.c_uint32 * 8

_bytes = [ctypes.c_void_p, ctypes.c_size_t]
_end = [Table, ctypes.c_size_t, Answer]
_plain = [*_bytes, *_bytes, ctypes.c_uint64, *_bytes, *_bytes, *_end]
_handled = [*_bytes, *_bytes, ctypes.c_uint64, ctypes.c_uint32, *_bytes, *_bytes, *_end]

convert_copying = _declare("convert_copying", _handled)
convert_copying_plain = _declare("convert_copying_plain", _plain)
convert_in_place = _declare("convert_in_place", _handled)
convert_in_place_plain = _declare("convert_in_place_plain", _plain)
report = _declare(
    "report",
    [*_bytes, *_bytes, ctypes.c_uint64, *_bytes, *_bytes, ctypes.POINTER(ctypes.c_int64), ctypes.c_size_t, *_bytes, *_end],
)
compare = _declare("compare", [*_bytes, *_bytes, ctypes.c_uint64, *_bytes, *_bytes, *_bytes, *_end])
reach = _declare("reach", [*_bytes, *_bytes, *_bytes, *_end])
leaf_list = _declare("leaf_list", [*_bytes, *_bytes, *_end])
record_size = _declare("record_size", [*_bytes, *_end])

_one = [LayoutWords, ctypes.c_uint32]
set_size = _declare("set_size", _one)
set_order = _declare("set_order", _one)
set_field = _declare("set_field", [*_one, ctypes.c_uint32])
set_pads = _declare("set_pads", [*_one, ctypes.c_uint32])
set_sign = _declare("set_sign", _one)


def run(function: Any, *arguments: Any) -> tuple[int, ...]:
    """A call with a working table and an answer of its own, so that no two calls share one. Gives the answer's eight words."""
    table, answer = Table(), Answer()
    function(*arguments, table, TABLE_WORDS, answer)
    return tuple(answer)
