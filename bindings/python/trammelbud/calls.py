"""The calls with their results as Python values.

Files go in as bytes: `gra` a graph, `tre` a document, `edg` tables, `qry` a
query, `rel` a program. A call that turns its input away raises `Refused`; what
isn't bytes-like is a `TypeError`.
"""

from __future__ import annotations

from dataclasses import dataclass

from . import lending
from .buffers import Bytes
from .lending import answer, call
from .library import KINDS, MOST_STEPS

STEP_ROOM = 2048

# Rooms that are enough whatever the files, as in trammelbud.h.
_TABLES_ROOM = 530
_DOCUMENT_ROOM = 640
_PROGRAM_ROOM = 78
_NODES_ROOM = 128
_LISTING_ROOM = 1677
_WORK_ROOM = STEP_ROOM * MOST_STEPS

# Where a program's file has its number of steps.
_STEPS_AT = 5


@dataclass(frozen=True)
class Run:
    """What a run has made."""

    nodes: tuple[int, ...]
    """The nodes selected, ascending; 0 is the document node."""
    work: bytes
    """The rows of all steps, 2,048 bytes for each."""

    def __repr__(self) -> str:
        return f"Run(nodes={self.nodes}, steps={self.steps}, work=<{len(self.work)} bytes>)"

    @property
    def steps(self) -> int:
        """How many steps there were."""
        return len(self.work) // STEP_ROOM

    def rows(self, step: int) -> frozenset[tuple[int, int]]:
        """The rows (v, w) of one step."""
        if not 0 <= step < self.steps:
            raise IndexError(f"there is no step {step}")
        table = self.work[STEP_ROOM * step : STEP_ROOM * (step + 1)]
        return frozenset(
            (at // 16, at % 16 * 8 + bit)
            for at, byte in enumerate(table)
            for bit in range(8)
            if byte >> bit & 1
        )


@dataclass(frozen=True)
class Announcement:
    """Which kinds the steps of a program may join: the types, and 16 for the
    document node."""

    masks: tuple[tuple[int, ...], ...]
    """For each step and each kind A a mask, with bit B set for the pair (A, B)."""

    def pairs(self, step: int) -> frozenset[tuple[int, int]]:
        """The pairs of kinds (A, B) of one step."""
        return frozenset(
            (a, b) for a in range(KINDS) for b in range(KINDS) if self.masks[step][a] >> b & 1
        )


def read_graph(gra: Bytes) -> int:
    """Reads a graph; answers the number of its types."""
    return call("tb_read_graph", {"gra": gra})


def read_document(gra: Bytes, tre: Bytes) -> int:
    """Reads a document; answers the number of its elements."""
    return call("tb_read_document", {"gra": gra, "tre": tre})


def read_tables(gra: Bytes, edg: Bytes) -> int:
    """Reads tables; answers the number of their elements."""
    return call("tb_read_tables", {"gra": gra, "edg": edg})


def read_query(gra: Bytes, qry: Bytes) -> int:
    """Reads a query; answers the number of its nodes."""
    return call("tb_read_query", {"gra": gra, "qry": qry})


def read_program(gra: Bytes, rel: Bytes) -> int:
    """Reads a program; answers the number of its steps."""
    return call("tb_read_program", {"gra": gra, "rel": rel})


def shred(gra: Bytes, tre: Bytes) -> bytes:
    """The tables of a document."""
    out = bytearray(_TABLES_ROOM)
    return bytes(out[: lending.shred_into(gra, tre, out)])


def rebuild(gra: Bytes, edg: Bytes) -> bytes:
    """The document of tables."""
    out = bytearray(_DOCUMENT_ROOM)
    return bytes(out[: lending.rebuild_into(gra, edg, out)])


def translate(gra: Bytes, qry: Bytes) -> bytes:
    """The program of a query."""
    out = bytearray(_PROGRAM_ROOM)
    return bytes(out[: lending.translate_into(gra, qry, out)])


def check(gra: Bytes, rel: Bytes) -> Announcement:
    """Which kinds each step of a program may join, from the graph alone."""
    checked = answer("tb_check", {"gra": gra, "rel": rel}, {})
    return Announcement(tuple(tuple(step.pairs) for step in checked.steps))


def run(gra: Bytes, edg: Bytes, rel: Bytes) -> Run:
    """Runs a program over tables."""
    out, work = bytearray(_NODES_ROOM), bytearray(_WORK_ROOM)
    count = lending.run_into(gra, edg, rel, out, work)
    return Run(tuple(out[:count]), bytes(work[: STEP_ROOM * bytes(rel)[_STEPS_AT]]))


def select(gra: Bytes, edg: Bytes, qry: Bytes) -> Run:
    """Translates a query and runs its program over tables."""
    out, work = bytearray(_NODES_ROOM), bytearray(_WORK_ROOM)
    count = lending.select_into(gra, edg, qry, out, work)
    steps = translate(gra, qry)[_STEPS_AT]
    return Run(tuple(out[:count]), bytes(work[: STEP_ROOM * steps]))


def listing(gra: Bytes, edg: Bytes, qry: Bytes) -> str:
    """The listing of the nodes that a query selects."""
    text, work = bytearray(_LISTING_ROOM), bytearray(_WORK_ROOM)
    count = lending.list_into(gra, edg, qry, text, work)
    return text[:count].decode("ascii")
