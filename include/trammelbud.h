/* trammelbud.h - documents as tables, and XPath queries over them as small
 * relational programs.
 *
 * Link with libtrammelbud.a; it needs nothing but memcpy and its like. C99, or
 * C++ as it stands.
 *
 * What holds for every call:
 *
 * - Each file is given as a pointer and a length in bytes, and each buffer that
 *   the call may write to (it is lent) in the same way. No pointer may be null,
 *   also where its length is 0. A lent buffer must not overlap a file or
 *   another lent buffer.
 * - Nothing is allocated, kept or freed, and there is no state: calls may be
 *   made from several threads at once.
 * - Files may hold any bytes whatever. A call comes back with a number: 0 when
 *   it accepts, otherwise a refusal of the list below.
 * - A refused call answers nothing else, its count is 0 and its sets are
 *   empty, and it writes nothing: a lent buffer comes back as it was.
 * - What a lent buffer held before never matters, and the bytes past what is
 *   written stay as they were.
 * - A call must have the stack it needs. tests/stack measures each: tb_run stays
 *   within 4,096 bytes, and tb_check takes the most, about 11,200.
 *
 * The five files, after a mark of three letters and a 16-bit version, 1
 * (numbers of 16 bits are big-endian, all other numbers are one byte):
 *
 *   GRA  graph     k; the root type; a mask of 16 bits for each type, whose
 *                  bit t says that type t may be its child
 *   TRE  document  tokens: 01, type, text number (2 bytes) opens an element,
 *                  02 closes it
 *   EDG  tables    k; for each type a row count, then rows of from, to, text
 *                  number (2 bytes), `to` ascending
 *   QRY  query     one path in prefix order
 *   REL  program   how many steps; for each an operation and two bytes x, y
 *
 * docs/FORMATS.md has them field by field, docs/RULES.md what they mean.
 *
 * A graph has k types, 1 to 16; a document n elements, 1 to 127, numbered in
 * document order from 1, with 0 for the document node; a query at most 24
 * nodes; a program at most 24 steps. A kind is a type, or 16, the kind of the
 * document node. Text number 0 stands for no text or empty text: a query or a
 * program may ask for it, but text()=0 holds of no node, and TEXT 0 has no rows
 * and announces no pairs.
 */
#ifndef TRAMMELBUD_H
#define TRAMMELBUD_H

#include <stddef.h>
#include <stdint.h>

#ifdef __cplusplus
extern "C" {
#endif

/* Why a call turns its input away. A call reads its files one after the other
 * in the order of its parameters, each to its end, field by field, and the
 * first fault it meets is its answer. */
enum tb_refusal {
    TB_ACCEPTED = 0,
    TB_ENDED = 1,   /* the file stops too early, inside a field or between two */
    TB_MARK = 2,    /* its first three letters are not its mark */
    TB_VERSION = 3, /* its version is another than 1 */
    TB_BOUND = 4,   /* more types, elements, query nodes or steps than there may be;
                       no type, no step or no row at all; tables for another k than
                       the graph's */
    TB_CODE = 5,    /* a code that means nothing where it stands */
    TB_TYPE = 6,    /* a type, the root or a bit of a mask is past the graph's last type */
    TB_EDGE = 7,    /* element 1 is not of the root type, an element may not be its
                       parent's child, or the document begins with a close */
    TB_ROW = 8,     /* a row of the tables has a wrong number or a wrong parent */
    TB_OPERAND = 9, /* a step reads its own result or a later one's */
    TB_EXTRA = 10,  /* the file goes on past its end, or has an x or y other than 0
                       where the operation uses none */
    TB_STEPS = 11,  /* the query would take more than 24 steps; judged after all reading */
    TB_ROOM = 12    /* a lent buffer is too short; judged last of all */
};

/* The bounds, and rooms that are always enough. */
#define TB_MOST_TYPES 16
#define TB_MOST_ELEMENTS 127
#define TB_MOST_QUERY_NODES 24
#define TB_MOST_STEPS 24
#define TB_KINDS 17
#define TB_STEP_ROOM 2048      /* work area for one step */
#define TB_TABLES_ROOM 530     /* 6 + k + 4n */
#define TB_DOCUMENT_ROOM 640   /* 5 + 5n */
#define TB_PROGRAM_ROOM 78     /* 6 + 3 for each step */
#define TB_NODES_ROOM 128      /* n + 1 */
#define TB_WORK_ROOM 49152     /* TB_STEP_ROOM for each step */
#define TB_LISTING_ROOM 1677   /* 13 bytes for each node, and for the first line */

/* What a call answers. */
typedef struct tb_answer {
    uint8_t number; /* an enum tb_refusal */
    uint32_t count; /* what it is a count of is told at each call */
} tb_answer;

/* What is announced of one step: where bit B of pairs[A] is not set, it makes no
 * row from a node of kind A to one of kind B. Where it is set, there need not be
 * such a row. */
typedef struct tb_announced {
    uint32_t pairs[TB_KINDS];
} tb_announced;

/* What the check answers. Steps past the program's end announce nothing. */
typedef struct tb_checked {
    uint8_t number; /* an enum tb_refusal */
    tb_announced steps[TB_MOST_STEPS];
} tb_checked;

/* ---- Reading: is this file sound? ---- */

/* Reads a graph. Answers k, the number of its types.
 * Refusals: 1, 2, 3, 4, 6, 10. */
tb_answer tb_read_graph(const uint8_t *gra, size_t gra_len);

/* Reads a graph, then a document under it: element 1 has the root type, and
 * every other element's type may stand under its parent's. Answers n, the
 * number of elements.
 * Refusals: 1 to 7, 10. */
tb_answer tb_read_document(const uint8_t *gra, size_t gra_len,
                           const uint8_t *tre, size_t tre_len);

/* Reads a graph, then tables under it: they have to be those of a document
 * that the graph accepts. Answers n, the number of elements.
 * Refusals: 1 to 4, 6 (the graph), 7, 8, 10. */
tb_answer tb_read_tables(const uint8_t *gra, size_t gra_len,
                         const uint8_t *edg, size_t edg_len);

/* Reads a graph, then a query, whose types have to be the graph's. Answers the
 * number of its nodes. A query that needs too many steps is accepted here.
 * Refusals: 1 to 6, 10. */
tb_answer tb_read_query(const uint8_t *gra, size_t gra_len,
                        const uint8_t *qry, size_t qry_len);

/* Reads a graph, then a program, whose masks have to be the graph's. Answers
 * the number of its steps.
 * Refusals: 1 to 6, 9, 10. */
tb_answer tb_read_program(const uint8_t *gra, size_t gra_len,
                          const uint8_t *rel, size_t rel_len);

/* ---- Converting: one file to another ---- */

/* Reads a graph and a document and writes the document's tables to `out`.
 * Room: 6 + k + 4n bytes, at most TB_TABLES_ROOM. Answers the length written.
 * tb_rebuild makes the same document of them again, byte for byte.
 * Refusals: those of tb_read_document, 12. */
tb_answer tb_shred(const uint8_t *gra, size_t gra_len,
                   const uint8_t *tre, size_t tre_len,
                   uint8_t *out, size_t out_len);

/* Reads a graph and tables and writes their document to `out`.
 * Room: 5 + 5n bytes, at most TB_DOCUMENT_ROOM. Answers the length written.
 * Refusals: those of tb_read_tables, 12. */
tb_answer tb_rebuild(const uint8_t *gra, size_t gra_len,
                     const uint8_t *edg, size_t edg_len,
                     uint8_t *out, size_t out_len);

/* Reads a graph and a query and writes the query's program to `out`: run over
 * the tables of any document of the graph, it selects what the query does.
 * Room: 6 bytes and 3 for each step, at most TB_PROGRAM_ROOM. Answers the
 * length written. The steps are the query's nodes, and five more for each //
 * and one more for each not.
 * Refusals: those of tb_read_query, 11, 12. */
tb_answer tb_translate(const uint8_t *gra, size_t gra_len,
                       const uint8_t *qry, size_t qry_len,
                       uint8_t *out, size_t out_len);

/* ---- Asking ---- */

/* Reads a graph and a program and announces for each step, from the graph
 * alone, which kinds its rows may join: whatever the document, a run makes no
 * row outside these pairs.
 * Refusals: those of tb_read_program. */
tb_checked tb_check(const uint8_t *gra, size_t gra_len,
                    const uint8_t *rel, size_t rel_len);

/* Reads a graph, tables and a program, whether translated or not, and runs it.
 * Writes the nodes selected to `out`, ascending, a byte each, and the rows of
 * every step to `work`. Answers the number of nodes.
 * Room: n + 1 bytes of `out`, however few are selected, and TB_STEP_ROOM bytes
 * of `work` for each step.
 * Step s has the 2,048 bytes from 2048 s on, and node v the 16 of these from
 * 16 v on: whether (v, w) is a row of the step is told in byte w / 8 of the 16
 * by bit w % 8, counted from the lowest. A bit that stands for no row is 0.
 * Refusals: those of tb_read_tables, then of tb_read_program, 12. */
tb_answer tb_run(const uint8_t *gra, size_t gra_len,
                 const uint8_t *edg, size_t edg_len,
                 const uint8_t *rel, size_t rel_len,
                 uint8_t *out, size_t out_len,
                 uint8_t *work, size_t work_len);

/* Reads a graph, tables and a query and selects the query's nodes: answers and
 * writes what tb_run would with the program of tb_translate.
 * Room: as for tb_run with that program.
 * Refusals: those of tb_read_tables, then of tb_read_query, 11, 12. */
tb_answer tb_select(const uint8_t *gra, size_t gra_len,
                    const uint8_t *edg, size_t edg_len,
                    const uint8_t *qry, size_t qry_len,
                    uint8_t *out, size_t out_len,
                    uint8_t *work, size_t work_len);

/* Reads a graph, tables and a query and writes the listing of the query's
 * nodes to `text`: `selected` and how many there are on the first line, and on
 * one line for each node its number, its type and its text number, in decimal
 * with one space between; node 0 is `0 16 0`. Byte 10 ends each line and nothing
 * ends the text. Answers its length.
 * Room: 13(n+2) bytes, which the longest listing of n elements takes, at most
 * TB_LISTING_ROOM, and TB_STEP_ROOM bytes of `work` for each step, which are
 * left as tb_select leaves them.
 * Refusals: those of tb_select. */
tb_answer tb_list(const uint8_t *gra, size_t gra_len,
                  const uint8_t *edg, size_t edg_len,
                  const uint8_t *qry, size_t qry_len,
                  uint8_t *text, size_t text_len,
                  uint8_t *work, size_t work_len);

#ifdef __cplusplus
}
#endif

#endif
