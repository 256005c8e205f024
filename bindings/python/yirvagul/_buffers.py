"""The bytes that callers lend: sheets, records that are read, and buffers that are written."""

from __future__ import annotations

import ctypes
from types import TracebackType
from typing import TYPE_CHECKING, Any, Optional, Union

if TYPE_CHECKING:
    from _typeshed import ReadableBuffer as ReadableBuffer
    from _typeshed import WriteableBuffer as WriteableBuffer
else:
    ReadableBuffer = WriteableBuffer = Any

Sheet = Union[str, ReadableBuffer]
"""A sheet: text, or the bytes of one."""

SHEET_BYTES = 16384
"""The most bytes of a sheet."""


def sheet_bytes(what: str, sheet: Sheet) -> bytes:
    """A sheet's bytes, in a copy where they could change during the call. Of a sheet that is too long only that shows."""
    if isinstance(sheet, str):
        return sheet.encode("utf-8", "surrogatepass")
    if isinstance(sheet, bytes):
        return sheet
    try:
        view = memoryview(sheet)
    except TypeError:
        raise TypeError(f"the {what} is text or bytes, not {type(sheet).__name__}") from None
    with view:
        return view.tobytes() if view.nbytes <= SHEET_BYTES else bytes(SHEET_BYTES + 1)


class _PyBuffer(ctypes.Structure):
    """CPython's Py_buffer."""

    _fields_ = [
        ("buf", ctypes.c_void_p),
        ("obj", ctypes.c_void_p),
        ("len", ctypes.c_ssize_t),
        ("itemsize", ctypes.c_ssize_t),
        ("readonly", ctypes.c_int),
        ("ndim", ctypes.c_int),
        ("format", ctypes.c_void_p),
        ("shape", ctypes.c_void_p),
        ("strides", ctypes.c_void_p),
        ("suboffsets", ctypes.c_void_p),
        ("internal", ctypes.c_void_p),
    ]


# Prototypes of our own: argument types set on ctypes.pythonapi's functions would bind every other user of them.
_get_buffer = ctypes.PYFUNCTYPE(ctypes.c_int, ctypes.py_object, ctypes.POINTER(_PyBuffer), ctypes.c_int)(
    ("PyObject_GetBuffer", ctypes.pythonapi)
)
_release_buffer = ctypes.PYFUNCTYPE(None, ctypes.POINTER(_PyBuffer))(("PyBuffer_Release", ctypes.pythonapi))

# What an empty buffer's address is, if it has none: no call wants NULL, and none touches a buffer of length 0.
_nowhere = ctypes.c_ubyte()


class Held:
    """The memory of a caller's buffer, not copied. Until it is released Python lets nobody resize or close the buffer."""

    __slots__ = ("what", "address", "length", "_view")

    def __init__(self, what: str, buffer: Any, *, written: bool = False) -> None:
        wanted = "a writable buffer (bytearray, memoryview, mmap, array)" if written else "bytes, or a buffer of bytes"
        try:
            view = memoryview(buffer)
        except TypeError:
            hint = ": text is no record data, open its file in binary mode" if isinstance(buffer, str) else ""
            raise TypeError(f"the {what} is {wanted}, not {type(buffer).__name__}{hint}") from None
        try:
            if written and view.readonly:
                raise TypeError(f"the {what} is written, so it is {wanted}, not a read-only {type(buffer).__name__}")
            if not view.c_contiguous:
                raise BufferError(f"the {what} is not contiguous: pass a copy, or the whole buffer that it is a part of")
            of = _PyBuffer()
            _get_buffer(view, of, 0)
            _release_buffer(of)  # the memoryview holds on to the buffer
        except BaseException:
            view.release()
            raise
        self.what = what
        self.address: int = of.buf or ctypes.addressof(_nowhere)
        self.length = view.nbytes
        self._view = view

    def apart(self, other: Held) -> None:
        """Refuses two buffers with a byte in common."""
        first, last = max(self.address, other.address), min(self.address + self.length, other.address + other.length)
        if first < last:
            raise ValueError(f"the {self.what} and the {other.what} overlap: pass a copy of one of them")

    def release(self) -> None:
        self._view.release()

    def __enter__(self) -> Held:
        return self

    def __exit__(
        self, kind: Optional[type[BaseException]], error: Optional[BaseException], trace: Optional[TracebackType]
    ) -> None:
        self.release()
