"""What an import says that finds no shared library."""

import _ctypes
import os
import subprocess
import sys
import unittest
from pathlib import Path

PACKAGE = Path(__file__).resolve().parents[1]


class Library(unittest.TestCase):
    def assert_says_what_to_do(self, path: str) -> None:
        done = subprocess.run(
            [sys.executable, "-c", "import trammelbud"],
            cwd=PACKAGE,
            env={**os.environ, "TRAMMELBUD_SO": path},
            stderr=subprocess.PIPE,
            text=True,
        )
        last = done.stderr.splitlines()[-1]
        self.assertEqual(done.returncode, 1)
        self.assertTrue(last.startswith("ImportError: "), last)
        for word in (repr(path), "set TRAMMELBUD_SO", "tools/build", "bindings/python/test"):
            self.assertIn(word, last)

    def test_a_missing_library(self) -> None:
        self.assert_says_what_to_do("/nowhere/libtrammelbud.so")

    def test_a_file_that_is_no_library(self) -> None:
        self.assert_says_what_to_do(__file__)

    def test_a_library_of_something_else(self) -> None:
        self.assert_says_what_to_do(str(_ctypes.__file__))

    def test_an_empty_name(self) -> None:
        self.assert_says_what_to_do("")


if __name__ == "__main__":
    unittest.main()
