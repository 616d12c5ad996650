"""The example files, and the nodes that each query selects."""

from pathlib import Path

STATIONS = Path(__file__).resolve().parents[3] / "examples" / "stations"

GRAPH = (STATIONS / "graph.gra").read_bytes()
DOCUMENT = (STATIONS / "document.tre").read_bytes()
TABLES = (STATIONS / "tables.edg").read_bytes()
LISTING = (STATIONS / "listing.txt").read_text(encoding="ascii")

SELECTED = {
    1: (0,),
    2: (1,),
    3: (),
    4: (2, 8),
    5: (4, 6, 7),
    6: (2, 3, 8),
    7: (4, 7),
    8: (6, 7),
    9: (2,),
    10: (2, 3),
    11: (1, 2, 3, 4, 5, 6, 7, 8),
    12: (1, 2, 3, 4, 5, 6, 7, 8),
    13: (6,),
    14: (1,),
}


def query(number: int) -> bytes:
    """C1 to C14."""
    return (STATIONS / "queries" / f"c{number:02}.qry").read_bytes()


def with_mark(mark: str, *body: int) -> bytes:
    """A file of version 1."""
    return mark.encode("ascii") + bytes([0, 1, *body])
