"""What a caller gives, as runs of bytes in memory.

What can't be one is turned down with the name of its parameter, before any
call is made.
"""

from __future__ import annotations

import ctypes
from itertools import combinations
from typing import Mapping, Union

Bytes = Union[bytes, bytearray, memoryview]
Lent = Union[bytearray, memoryview]


def readable(name: str, given: Bytes) -> memoryview:
    """A view of a file's bytes."""
    try:
        view = memoryview(given)
    except TypeError:
        raise TypeError(f"{name} must be bytes-like, not {type(given).__name__}") from None
    if view.itemsize != 1 or view.ndim != 1 or not view.contiguous:
        raise TypeError(f"{name} must be bytes-like, one run of single bytes with no gaps")
    return view


def writable(name: str, given: Lent) -> memoryview:
    """A view of a lent buffer's bytes."""
    view = readable(name, given)
    if view.readonly:
        raise TypeError(f"{name} must be writable, not a read-only {type(given).__name__}")
    return view


def keep_apart(files: Mapping[str, memoryview], buffers: Mapping[str, memoryview]) -> None:
    """Sees that no lent buffer has a byte of a file or of another one."""
    pairs = [(file, lent) for file in files.items() for lent in buffers.items()]
    for (one, some), (other, more) in [*pairs, *combinations(buffers.items(), 2)]:
        start, end = max(address(some), address(more)), min(_end(some), _end(more))
        if start < end:
            raise ValueError(f"{one} and {other} overlap: a lent buffer must stand alone")


class _PyBuffer(ctypes.Structure):
    """Py_buffer of Python's C interface: the one way to a read-only view's address."""

    _fields_ = [
        ("buf", ctypes.c_void_p),
        ("obj", ctypes.c_void_p),
        ("len", ctypes.c_ssize_t),
        ("itemsize", ctypes.c_ssize_t),
        ("readonly", ctypes.c_int),
        ("ndim", ctypes.c_int),
        ("format", ctypes.c_char_p),
        ("shape", ctypes.c_void_p),
        ("strides", ctypes.c_void_p),
        ("suboffsets", ctypes.c_void_p),
        ("internal", ctypes.c_void_p),
    ]


def address(view: memoryview) -> int:
    """Where a view's bytes begin; it stays so while the view is held."""
    buffer = _PyBuffer()
    ctypes.pythonapi.PyObject_GetBuffer(ctypes.py_object(view), ctypes.byref(buffer), 0)
    try:
        return int(buffer.buf)
    finally:
        ctypes.pythonapi.PyBuffer_Release(ctypes.byref(buffer))


def _end(view: memoryview) -> int:
    return address(view) + len(view)
