"""What calls do with the buffers lent to them."""

import unittest

import trammelbud
from trammelbud import Refusal, Refused

from .example import DOCUMENT, GRAPH, LISTING, TABLES, query

FILLINGS = (0x00, 0xA5, 0xFF)


class Buffers(unittest.TestCase):
    def test_bytes_past_what_is_written_stay(self) -> None:
        for filling in FILLINGS:
            out = bytearray([filling]) * 50
            self.assertEqual(trammelbud.shred_into(GRAPH, DOCUMENT, out), 42)
            self.assertEqual(out, TABLES + bytes([filling]) * 8)

    def test_a_run_asks_for_a_byte_a_node_and_writes_the_selected(self) -> None:
        program = trammelbud.translate(GRAPH, query(5))
        for filling in FILLINGS:
            out, work = bytearray([filling]) * 9, bytearray([filling]) * (8 * 2048 + 3)
            self.assertEqual(trammelbud.run_into(GRAPH, TABLES, program, out, work), 3)
            self.assertEqual(out, bytes([4, 6, 7]) + bytes([filling]) * 6)
            ran = trammelbud.run(GRAPH, TABLES, program)
            self.assertEqual(work, ran.work + bytes([filling]) * 3)

    def test_too_little_room_leaves_all_as_it_came(self) -> None:
        for out_room, work_room in [(8, 8 * 2048), (9, 8 * 2048 - 1), (0, 0), (0, 8 * 2048)]:
            out, work = bytearray([0xA5]) * out_room, bytearray([0xA5]) * work_room
            with self.assertRaises(Refused) as caught:
                trammelbud.select_into(GRAPH, TABLES, query(5), out, work)
            self.assertIs(caught.exception.refusal, Refusal.ROOM)
            self.assertEqual(out, bytearray([0xA5]) * out_room)
            self.assertEqual(work, bytearray([0xA5]) * work_room)

    def test_any_refusal_leaves_all_as_it_came(self) -> None:
        out, work = bytearray([0xA5]) * 9, bytearray([0xA5]) * (8 * 2048)
        with self.assertRaises(Refused):
            trammelbud.select_into(GRAPH, TABLES, query(5) + b"\x00", out, work)
        self.assertEqual(set(out + work), {0xA5})

    def test_exact_rooms(self) -> None:
        rebuilt, program = bytearray(45), bytearray(30)
        self.assertEqual(trammelbud.rebuild_into(GRAPH, TABLES, rebuilt), 45)
        self.assertEqual(rebuilt, DOCUMENT)
        self.assertEqual(trammelbud.translate_into(GRAPH, query(5), program), 30)
        text, work = bytearray(130), bytearray(8 * 2048)
        self.assertEqual(trammelbud.list_into(GRAPH, TABLES, query(5), text, work), len(LISTING))
        self.assertEqual(text, LISTING.encode("ascii") + bytes(130 - len(LISTING)))
        self.assertEqual(work, trammelbud.select(GRAPH, TABLES, query(5)).work)

    def test_a_lent_buffer_is_free_again(self) -> None:
        out = bytearray(42)
        trammelbud.shred_into(GRAPH, DOCUMENT, out)
        out.extend(b"more")
        self.assertEqual(len(out), 46)

    def test_a_refused_call_gives_its_buffers_back_before_it_raises(self) -> None:
        out = bytearray(41)
        try:
            trammelbud.shred_into(GRAPH, DOCUMENT, out)
        except Refused:
            out.extend(b"\x00")
        self.assertEqual(trammelbud.shred_into(GRAPH, DOCUMENT, out), 42)


if __name__ == "__main__":
    unittest.main()
