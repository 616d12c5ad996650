"""Trammelbud: documents as tables, and XPath queries over them as programs.

    import trammelbud

    graph = open("graph.gra", "rb").read()
    tables = open("tables.edg", "rb").read()
    query = open("query.qry", "rb").read()
    try:
        print(trammelbud.select(graph, tables, query).nodes)
    except trammelbud.Refused as refused:
        print(refused.number, refused.meaning)
"""

from .calls import (
    Announcement,
    Run,
    check,
    listing,
    read_document,
    read_graph,
    read_program,
    read_query,
    read_tables,
    rebuild,
    run,
    select,
    shred,
    translate,
)
from .lending import (
    list_into,
    rebuild_into,
    run_into,
    select_into,
    shred_into,
    translate_into,
)
from .refusal import Refusal, Refused

__all__ = [
    "Announcement",
    "Refusal",
    "Refused",
    "Run",
    "check",
    "list_into",
    "listing",
    "read_document",
    "read_graph",
    "read_program",
    "read_query",
    "read_tables",
    "rebuild",
    "rebuild_into",
    "run",
    "run_into",
    "select",
    "select_into",
    "shred",
    "shred_into",
    "translate",
    "translate_into",
]
