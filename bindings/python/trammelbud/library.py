"""The shared library: where it is found, and its calls as C declares them.

The file is the one that the environment variable TRAMMELBUD_SO names, or else
`libtrammelbud.so` beside this module.
"""

from __future__ import annotations

import ctypes
import os
from pathlib import Path

KINDS = 17
MOST_STEPS = 24


class Answer(ctypes.Structure):
    """tb_answer"""

    _fields_ = [("number", ctypes.c_uint8), ("count", ctypes.c_uint32)]


class Announced(ctypes.Structure):
    """tb_announced"""

    _fields_ = [("pairs", ctypes.c_uint32 * KINDS)]


class Checked(ctypes.Structure):
    """tb_checked"""

    _fields_ = [("number", ctypes.c_uint8), ("steps", Announced * MOST_STEPS)]


# Each call with its number of files and of lent buffers.
_CALLS = {
    "tb_read_graph": (1, 0),
    "tb_read_document": (2, 0),
    "tb_read_tables": (2, 0),
    "tb_read_query": (2, 0),
    "tb_read_program": (2, 0),
    "tb_shred": (2, 1),
    "tb_rebuild": (2, 1),
    "tb_translate": (2, 1),
    "tb_check": (2, 0),
    "tb_run": (3, 2),
    "tb_select": (3, 2),
    "tb_list": (3, 2),
}


def _load() -> ctypes.CDLL:
    beside = Path(__file__).with_name("libtrammelbud.so")
    path = os.environ.get("TRAMMELBUD_SO", str(beside))
    try:
        return _declared(ctypes.CDLL(path))
    except (OSError, AttributeError) as error:
        raise ImportError(
            f"no shared library of Trammelbud at {path!r} ({error}): set TRAMMELBUD_SO to its "
            "path; `bash tools/build`, then `bash bindings/python/test` build it as "
            "target/python/libtrammelbud.so"
        ) from error


def _declared(library: ctypes.CDLL) -> ctypes.CDLL:
    for name, (files, buffers) in _CALLS.items():
        call = getattr(library, name)
        file = [ctypes.c_char_p, ctypes.c_size_t]
        lent = [ctypes.c_void_p, ctypes.c_size_t]
        call.argtypes = file * files + lent * buffers
        call.restype = Checked if name == "tb_check" else Answer
    return library


LIBRARY = _load()
