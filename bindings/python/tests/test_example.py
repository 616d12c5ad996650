"""C1 to C14 and the other calls, over the example files."""

import unittest

import trammelbud

from .example import DOCUMENT, GRAPH, LISTING, SELECTED, TABLES, query, with_mark


class Example(unittest.TestCase):
    def test_readers_count(self) -> None:
        self.assertEqual(trammelbud.read_graph(GRAPH), 4)
        self.assertEqual(trammelbud.read_document(GRAPH, DOCUMENT), 8)
        self.assertEqual(trammelbud.read_tables(GRAPH, TABLES), 8)
        self.assertEqual(trammelbud.read_query(GRAPH, query(5)), 3)
        program = trammelbud.translate(GRAPH, query(5))
        self.assertEqual(trammelbud.read_program(GRAPH, program), 8)

    def test_queries_select(self) -> None:
        for number, nodes in SELECTED.items():
            with self.subTest(query=number):
                self.assertEqual(trammelbud.select(GRAPH, TABLES, query(number)).nodes, nodes)

    def test_translated_programs_run_alike(self) -> None:
        for number in SELECTED:
            with self.subTest(query=number):
                program = trammelbud.translate(GRAPH, query(number))
                self.assertEqual(
                    trammelbud.run(GRAPH, TABLES, program),
                    trammelbud.select(GRAPH, TABLES, query(number)),
                )

    def test_tables_and_back(self) -> None:
        self.assertEqual(len(TABLES), 42)
        self.assertEqual(trammelbud.shred(GRAPH, DOCUMENT), TABLES)
        self.assertEqual(trammelbud.rebuild(GRAPH, TABLES), DOCUMENT)

    def test_fifth_query_takes_eight_steps(self) -> None:
        steps = [
            (2, 0, 0),
            (1, 0, 0x0F),
            (6, 1, 0),
            (2, 0, 0),
            (5, 2, 3),
            (4, 0, 4),
            (1, 0, 0x04),
            (4, 5, 6),
        ]
        program = trammelbud.translate(GRAPH, query(5))
        self.assertEqual(program[5:], bytes([8, *(byte for step in steps for byte in step)]))

    def test_rows_of_a_run(self) -> None:
        ran = trammelbud.select(GRAPH, TABLES, query(5))
        self.assertEqual(ran.steps, 8)
        self.assertEqual(ran.rows(0), {(node, node) for node in range(9)})
        parents = {(0, 1), (1, 2), (2, 3), (3, 4), (4, 5), (5, 6), (2, 7), (1, 8)}
        self.assertEqual(ran.rows(1), parents)
        self.assertEqual({w for v, w in ran.rows(7) if v == 0}, {4, 6, 7})
        with self.assertRaises(IndexError):
            ran.rows(8)

    def test_a_run_shows_the_size_of_its_work_area(self) -> None:
        ran = trammelbud.select(GRAPH, TABLES, query(5))
        self.assertEqual(repr(ran), "Run(nodes=(4, 6, 7), steps=8, work=<16384 bytes>)")
        self.assertEqual(str(ran), repr(ran))

    def test_announced_pairs(self) -> None:
        announced = trammelbud.check(GRAPH, trammelbud.translate(GRAPH, query(5)))
        self.assertEqual(announced.pairs(0), {(kind, kind) for kind in (0, 1, 2, 3, 16)})
        self.assertEqual(announced.pairs(1), {(16, 0), (0, 1), (1, 1), (1, 2), (2, 3), (3, 2)})
        self.assertEqual({b for a, b in announced.pairs(7) if a == 16}, {2})
        self.assertTrue(all(not announced.pairs(step) for step in range(8, 24)))

    def test_third_query_announces_nothing(self) -> None:
        announced = trammelbud.check(GRAPH, trammelbud.translate(GRAPH, query(3)))
        self.assertTrue(all(not announced.pairs(step) for step in range(24)))

    def test_text_number_0_is_no_text(self) -> None:
        empty_text = with_mark("QRY", 5, 1, 7, 3, 0x12, 0, 0)
        self.assertEqual(trammelbud.select(GRAPH, TABLES, empty_text).nodes, ())
        not_empty = with_mark("QRY", 5, 1, 7, 1, 0x13, 0x12, 0, 0)
        self.assertEqual(trammelbud.select(GRAPH, TABLES, not_empty).nodes, tuple(range(9)))
        text_0 = with_mark("REL", 1, 3, 0, 0)
        self.assertEqual(trammelbud.run(GRAPH, TABLES, text_0).rows(0), set())
        self.assertEqual(trammelbud.check(GRAPH, text_0).pairs(0), set())

    def test_listings(self) -> None:
        self.assertEqual(trammelbud.listing(GRAPH, TABLES, query(5)), LISTING)
        self.assertEqual(LISTING, "selected 3\n4 2 7\n6 2 8\n7 2 7\n")
        self.assertEqual(trammelbud.listing(GRAPH, TABLES, query(1)), "selected 1\n0 16 0\n")
        self.assertEqual(trammelbud.listing(GRAPH, TABLES, query(3)), "selected 0\n")

    def test_files_of_any_bytes_type(self) -> None:
        self.assertEqual(trammelbud.read_tables(bytearray(GRAPH), memoryview(TABLES)), 8)


if __name__ == "__main__":
    unittest.main()
