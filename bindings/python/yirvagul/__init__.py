"""Converts records of instrument logs from one binary layout to another, reports on the numbers of many logs, compares two logs,
tells which bits of a source record a result can turn on, lists a layout's leaves, and edits atomic layouts.

A wrapper over Yirvagul's proved C library. A sheet is text or its bytes. A buffer that is read is anything with contiguous bytes (bytes, bytearray,
memoryview, mmap, array, numpy array); one that is written is writable and shares no byte with one that is read, which is checked but for two mappings
of one file. Nothing is copied but sheets.

A refused call raises `Refusal` and leaves buffers, layouts, logs and reports as they were. Handling is what to do with numbers that do not fit:
`Handling.CLAMP` writes the nearest that fits and counts it, `Handling.STOP` refuses. The plain forms name none and stop. A word of the destination sheet
goes before it.

Calls keep nothing and let other threads run meanwhile: any number of threads may call at once, each with buffers that no other one writes. A call
takes at most `STACK_BYTES` of its thread's stack.
"""

from .arrays import convert_to_array, dtype_of, sheet_of
from .calls import (
    LIST_BYTES,
    Handling,
    convert_copying,
    convert_copying_plain,
    convert_in_place,
    convert_in_place_plain,
    leaf_list,
    record_size,
)
from .comparing import Difference, compare, differences
from .errors import Kind, Number, Refusal, Short
from .layout import Class, Layout, Order, Pad, Sign
from .log import Part, convert_log, convert_log_parts
from .masks import MASK_BYTES, reach
from .report import Report, Row, Summary

__version__ = "0.1.0"

__all__ = [
    "LIST_BYTES",
    "MASK_BYTES",
    "SMALL_STACK_BYTES",
    "STACK_BYTES",
    "Class",
    "Difference",
    "Handling",
    "Kind",
    "Layout",
    "Number",
    "Order",
    "Pad",
    "Part",
    "Refusal",
    "Report",
    "Row",
    "Short",
    "Sign",
    "Summary",
    "compare",
    "convert_copying",
    "convert_copying_plain",
    "convert_in_place",
    "convert_in_place_plain",
    "convert_log",
    "convert_log_parts",
    "convert_to_array",
    "differences",
    "dtype_of",
    "leaf_list",
    "reach",
    "record_size",
    "sheet_of",
]

STACK_BYTES = 163840
"""The most that any call takes of its thread's stack."""

SMALL_STACK_BYTES = 49152
"""The most that a call takes that converts, reports or compares where the destination record (the reader's, the second log's) has at most 128 bytes; and
a call that does none of these, as `reach`."""
