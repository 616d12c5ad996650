"""Why a call turns its input away."""

from __future__ import annotations

from enum import IntEnum


class Refusal(IntEnum):
    """The numbers that a call can be refused with."""

    ENDED = 1
    MARK = 2
    VERSION = 3
    BOUND = 4
    CODE = 5
    TYPE = 6
    EDGE = 7
    ROW = 8
    OPERAND = 9
    EXTRA = 10
    STEPS = 11
    ROOM = 12

    @property
    def meaning(self) -> str:
        """The refusal in words."""
        return _MEANINGS[self]


_MEANINGS = {
    Refusal.ENDED: "the file stops too early, inside a field or between two",
    Refusal.MARK: "its first three letters are not its mark",
    Refusal.VERSION: "its version is another than 1",
    Refusal.BOUND: "more types, elements, query nodes or steps than there may be, "
    "no type, no step or no row at all, or tables for another k than the graph's",
    Refusal.CODE: "a code that means nothing where it stands",
    Refusal.TYPE: "a type, the root or a bit of a mask is past the graph's last type",
    Refusal.EDGE: "element 1 is not of the root type, an element may not be its parent's child, "
    "or the document begins with a close",
    Refusal.ROW: "a row of the tables has a wrong number or a wrong parent",
    Refusal.OPERAND: "a step reads its own result or a later one's",
    Refusal.EXTRA: "the file goes on past its end, or has an x or y other than 0 "
    "where the operation uses none",
    Refusal.STEPS: "the query would take more than 24 steps",
    Refusal.ROOM: "a lent buffer is too short",
}


class Refused(Exception):
    """A call has turned its input away, and written nothing."""

    def __init__(self, refusal: Refusal) -> None:
        super().__init__(f"refused {refusal.value}: {refusal.meaning}")
        self.refusal = refusal

    @property
    def number(self) -> int:
        """The refusal's number, 1 to 12."""
        return self.refusal.value

    @property
    def meaning(self) -> str:
        """The refusal in words."""
        return self.refusal.meaning
