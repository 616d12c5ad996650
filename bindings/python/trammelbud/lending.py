"""The calls as they are in C: with buffers that the caller lends.

Each takes its files as bytes and its buffers as bytearrays, or views of them.
It answers a count or raises `Refused`; a refused call leaves every buffer as it
came, and no call touches a byte past what it writes. A buffer that is read-only
is a `TypeError`, and one that shares a byte with a file or with another buffer
of the call a `ValueError`.
"""

from __future__ import annotations

from contextlib import ExitStack
from typing import Any, Mapping

from .buffers import Bytes, Lent, address, keep_apart, readable, writable
from .library import LIBRARY
from .refusal import Refusal, Refused


def answer(name: str, files: Mapping[str, Bytes], buffers: Mapping[str, Lent]) -> Any:
    """Makes a call, with what is given by its parameters' names, and hands on
    the structure that it answers."""
    # Held any longer, the views would keep who handles a refusal from resizing
    # what was lent.
    with ExitStack() as held:
        read = {key: held.enter_context(readable(key, file)) for key, file in files.items()}
        lent = {key: held.enter_context(writable(key, room)) for key, room in buffers.items()}
        keep_apart(read, lent)
        words: list[bytes | int] = []
        for view in read.values():
            words += [bytes(view), len(view)]
        for view in lent.values():
            words += [address(view), len(view)]
        answered = getattr(LIBRARY, name)(*words)
    accept(answered.number)
    return answered


def call(name: str, files: Mapping[str, Bytes], **buffers: Lent) -> int:
    """Makes a call that answers a count."""
    return int(answer(name, files, buffers).count)


def accept(number: int) -> None:
    """Raises the refusal that a number stands for, if it isn't 0."""
    if number != 0:
        raise Refused(Refusal(number))


def shred_into(gra: Bytes, tre: Bytes, out: Lent) -> int:
    """Writes a document's tables to `out`; answers their length."""
    return call("tb_shred", {"gra": gra, "tre": tre}, out=out)


def rebuild_into(gra: Bytes, edg: Bytes, out: Lent) -> int:
    """Writes the document of tables to `out`; answers its length."""
    return call("tb_rebuild", {"gra": gra, "edg": edg}, out=out)


def translate_into(gra: Bytes, qry: Bytes, out: Lent) -> int:
    """Writes a query's program to `out`; answers its length."""
    return call("tb_translate", {"gra": gra, "qry": qry}, out=out)


def run_into(gra: Bytes, edg: Bytes, rel: Bytes, out: Lent, work: Lent) -> int:
    """Runs a program: the nodes selected go to `out`, the rows of each step to
    `work`. Answers the number of nodes.

    It needs n + 1 bytes of `out` and 2,048 bytes of `work` for each step.
    """
    return call("tb_run", {"gra": gra, "edg": edg, "rel": rel}, out=out, work=work)


def select_into(gra: Bytes, edg: Bytes, qry: Bytes, out: Lent, work: Lent) -> int:
    """As `run_into`, with the program that a query translates to."""
    return call("tb_select", {"gra": gra, "edg": edg, "qry": qry}, out=out, work=work)


def list_into(gra: Bytes, edg: Bytes, qry: Bytes, text: Lent, work: Lent) -> int:
    """Writes the listing of a query's nodes to `text`; answers its length.

    `text` has room for 13(n+2) bytes; `work` is as for `select_into`.
    """
    return call("tb_list", {"gra": gra, "edg": edg, "qry": qry}, text=text, work=work)
