"""Each refusal, and what a refused call leaves."""

from __future__ import annotations

import unittest
from typing import Callable

import trammelbud
from trammelbud import Refusal, Refused

from .example import DOCUMENT, GRAPH, TABLES, query, with_mark

# Nine nodes, and five steps more for each of four //: 29.
TOO_MANY_STEPS = with_mark("QRY", *[5] * 4, *[2, 0] * 5)


class Refusals(unittest.TestCase):
    def assert_refused(self, refusal: Refusal, call: Callable[[], object]) -> None:
        with self.assertRaises(Refused) as caught:
            call()
        self.assertIs(caught.exception.refusal, refusal)
        self.assertEqual(caught.exception.number, int(refusal))
        self.assertEqual(caught.exception.meaning, refusal.meaning)
        self.assertIn(refusal.meaning, str(caught.exception))

    def test_each_number(self) -> None:
        program = trammelbud.translate(GRAPH, query(5))
        cases: list[tuple[Refusal, Callable[[], object]]] = [
            (Refusal.ENDED, lambda: trammelbud.read_graph(b"")),
            (Refusal.ENDED, lambda: trammelbud.read_document(GRAPH, DOCUMENT[:-1])),
            (Refusal.MARK, lambda: trammelbud.read_tables(GRAPH, DOCUMENT)),
            (Refusal.VERSION, lambda: trammelbud.read_query(GRAPH, b"QRY\x00\x02\x01")),
            (Refusal.BOUND, lambda: trammelbud.read_program(GRAPH, with_mark("REL", 0))),
            (Refusal.CODE, lambda: trammelbud.translate(GRAPH, with_mark("QRY", 0x11))),
            (Refusal.TYPE, lambda: trammelbud.translate(GRAPH, with_mark("QRY", 2, 4))),
            (Refusal.EDGE, lambda: trammelbud.shred(GRAPH, with_mark("TRE", 1, 1, 0, 0, 2))),
            (
                Refusal.ROW,
                lambda: trammelbud.rebuild(GRAPH, with_mark("EDG", 4, 1, 0, 2, 0, 0, 0, 0, 0)),
            ),
            (Refusal.OPERAND, lambda: trammelbud.check(GRAPH, with_mark("REL", 1, 6, 0, 0))),
            (Refusal.EXTRA, lambda: trammelbud.run(GRAPH, TABLES, program + b"\x00")),
            (Refusal.STEPS, lambda: trammelbud.select(GRAPH, TABLES, TOO_MANY_STEPS)),
            (Refusal.STEPS, lambda: trammelbud.listing(GRAPH, TABLES, TOO_MANY_STEPS)),
            (Refusal.ROOM, lambda: trammelbud.shred_into(GRAPH, DOCUMENT, bytearray(41))),
        ]
        self.assertEqual({refusal for refusal, _ in cases}, set(Refusal))
        for refusal, call in cases:
            with self.subTest(refusal=refusal):
                self.assert_refused(refusal, call)

    def test_the_query_reader_accepts_what_needs_too_many_steps(self) -> None:
        self.assertEqual(trammelbud.read_query(GRAPH, TOO_MANY_STEPS), 9)

    def test_the_graph_comes_first(self) -> None:
        self.assert_refused(Refusal.EXTRA, lambda: trammelbud.run(GRAPH + b"\x00", b"", b"XYZ"))
        self.assert_refused(Refusal.ENDED, lambda: trammelbud.run(GRAPH, b"", b"XYZ"))
        self.assert_refused(Refusal.MARK, lambda: trammelbud.run(GRAPH, TABLES, b"XYZ"))


if __name__ == "__main__":
    unittest.main()
