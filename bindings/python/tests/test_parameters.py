"""What calls say of parameters that they can't take."""

from __future__ import annotations

import array
import unittest
from typing import Any, Callable

import trammelbud

from .example import DOCUMENT, GRAPH, TABLES, query

QUERY = query(5)
PROGRAM = trammelbud.translate(GRAPH, QUERY)

FILES: dict[str, bytes] = {
    "gra": GRAPH,
    "tre": DOCUMENT,
    "edg": TABLES,
    "qry": QUERY,
    "rel": PROGRAM,
}

# Each call with its files and lent buffers. It is called without its types, which
# would forbid most of what is tried here.
CALLS: dict[str, str] = {
    "read_graph": "gra",
    "read_document": "gra tre",
    "read_tables": "gra edg",
    "read_query": "gra qry",
    "read_program": "gra rel",
    "shred": "gra tre",
    "rebuild": "gra edg",
    "translate": "gra qry",
    "check": "gra rel",
    "run": "gra edg rel",
    "select": "gra edg qry",
    "listing": "gra edg qry",
    "shred_into": "gra tre out",
    "rebuild_into": "gra edg out",
    "translate_into": "gra qry out",
    "run_into": "gra edg rel out work",
    "select_into": "gra edg qry out work",
    "list_into": "gra edg qry text work",
}


def sound(name: str) -> dict[str, Any]:
    """Parameters that the call accepts."""
    lent = {"out": bytearray(640), "text": bytearray(1677), "work": bytearray(49152)}
    given: dict[str, Any] = {**FILES, **lent}
    return {key: given[key] for key in CALLS[name].split()}


def function(name: str) -> Callable[..., object]:
    called: Callable[..., object] = getattr(trammelbud, name)
    return called


class Parameters(unittest.TestCase):
    def assert_raises(
        self, error: type[Exception], message: str, name: str, given: dict[str, Any]
    ) -> None:
        with self.subTest(call=name, message=message):
            with self.assertRaises(error) as caught:
                function(name)(**given)
            self.assertIs(type(caught.exception), error)
            self.assertEqual(str(caught.exception), message)

    def test_every_call_is_here_and_takes_what_is_sound(self) -> None:
        calls = {name for name in trammelbud.__all__ if name.islower()}
        self.assertEqual(set(CALLS), calls)
        for name in CALLS:
            with self.subTest(call=name):
                function(name)(**sound(name))

    def test_what_is_not_bytes_like_is_named(self) -> None:
        for name, keys in CALLS.items():
            for key in keys.split():
                for wrong in (None, 7, "GRA", [71, 82, 65]):
                    message = f"{key} must be bytes-like, not {type(wrong).__name__}"
                    self.assert_raises(TypeError, message, name, {**sound(name), key: wrong})

    def test_views_of_other_than_a_run_of_bytes_are_named(self) -> None:
        room = bytearray(4096)
        for wrong in (
            memoryview(room)[::2],
            memoryview(room)[::-1],
            memoryview(room).cast("H"),
            memoryview(room).cast("B", (64, 64)),
            array.array("H", [1, 2]),
        ):
            for name, keys in CALLS.items():
                for key in keys.split():
                    message = f"{key} must be bytes-like, one run of single bytes with no gaps"
                    self.assert_raises(TypeError, message, name, {**sound(name), key: wrong})

    def test_runs_of_bytes_of_any_type_are_files(self) -> None:
        file = b".." + GRAPH + b".."
        for gra in (
            bytearray(GRAPH),
            memoryview(GRAPH),
            memoryview(file)[2:-2],
            memoryview(GRAPH).cast("c"),
            array.array("B", GRAPH),
        ):
            self.assertEqual(function("read_graph")(gra), 4)

    def test_lent_buffers_that_are_read_only_are_named(self) -> None:
        for wrong in (bytes(640), memoryview(bytes(640)), memoryview(bytearray(640)).toreadonly()):
            for name, keys in CALLS.items():
                for key in set(keys.split()) - set(FILES):
                    message = f"{key} must be writable, not a read-only {type(wrong).__name__}"
                    self.assert_raises(TypeError, message, name, {**sound(name), key: wrong})

    def test_a_view_can_be_lent(self) -> None:
        room = bytearray([0xA5]) * 50
        self.assertEqual(trammelbud.shred_into(GRAPH, DOCUMENT, memoryview(room)[4:46]), 42)
        self.assertEqual(room, b"\xa5" * 4 + TABLES + b"\xa5" * 4)

    def test_a_buffer_lent_twice_is_named_twice(self) -> None:
        for name, first in (("run_into", "out"), ("select_into", "out"), ("list_into", "text")):
            message = f"{first} and work overlap: a lent buffer must stand alone"
            room = bytearray([0xA5]) * 60000
            whole = memoryview(room)
            for one, other in (
                (room, room),
                (whole, room),
                (whole[:2000], whole[1999:]),
                (whole[55000:], whole[:55001]),
                (whole[3000:5000], whole),
            ):
                given = {**sound(name), first: one, "work": other}
                self.assert_raises(ValueError, message, name, given)
            self.assertEqual(set(room), {0xA5})

    def test_neighbours_do_not_overlap(self) -> None:
        room = bytearray(128 + 49152)
        whole = memoryview(room)
        for out, work in ((whole[:128], whole[128:]), (whole[49152:], whole[:49152])):
            self.assertEqual(trammelbud.run_into(GRAPH, TABLES, PROGRAM, out, work), 3)
            self.assertEqual(bytes(out[:3]), bytes([4, 6, 7]))

    def test_a_lent_buffer_that_overlaps_a_file_is_named_with_it(self) -> None:
        for name, keys in CALLS.items():
            for lent in set(keys.split()) - set(FILES):
                for key in set(keys.split()) & set(FILES):
                    file = FILES[key]
                    room = bytearray(file) + bytearray(49152)
                    view = memoryview(room)[: len(file)]
                    message = f"{key} and {lent} overlap: a lent buffer must stand alone"
                    for one, other in (
                        (view, room),
                        (view.toreadonly(), room),
                        (view, memoryview(room)[len(file) - 1 :]),
                    ):
                        given = {**sound(name), key: one, lent: other}
                        self.assert_raises(ValueError, message, name, given)
                    beside = memoryview(room)[len(file) :]
                    function(name)(**{**sound(name), key: view, lent: beside})

    def test_one_file_may_be_given_twice(self) -> None:
        with self.assertRaises(trammelbud.Refused) as caught:
            trammelbud.read_document(GRAPH, GRAPH)
        self.assertIs(caught.exception.refusal, trammelbud.Refusal.MARK)


if __name__ == "__main__":
    unittest.main()
