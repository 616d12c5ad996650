/* A libFuzzer target over the whole C interface: makes every call with the
 * files of an input and holds the answers to one another. How an input is taken
 * apart is told in input.h, and how the buffers are watched in arena.h.
 *
 * The archive counts no coverage. The fuzzer is told instead which call gave
 * which number and count, and goes for what is new in that. */
#include <stdint.h>
#include <stdio.h>
#include <string.h>

#include "arena.h"
#include "hold.h"
#include "input.h"
#include "trammelbud.h"

enum { FILE_ROOM = 1 << 16, LARGER = 64 };

enum {
    READ_GRAPH,
    READ_DOCUMENT,
    READ_TABLES,
    READ_QUERY,
    READ_PROGRAM,
    SHRED,
    REBUILD,
    TRANSLATE,
    CHECK,
    RUN,
    SELECT,
    LIST,
    CALLS
};

/* ---- What the fuzzer is told ---- */

enum { NUMBERS = 13, COUNTS = 128, LENGTHS = 16 };

__attribute__((section("__libfuzzer_extra_counters"))) static uint8_t
    accepted_count[CALLS * COUNTS],
    refused_length[CALLS * NUMBERS * LENGTHS];

static size_t at_most(size_t value, size_t most) {
    return value < most ? value : most;
}

/* An accepted call tells its count. A refused one tells about how long its last
 * file is, so that the fuzzer keeps what is turned away late. */
static void tell(int call, tb_answer answer, size_t last_len) {
    HOLD(answer.number < NUMBERS);
    if (answer.number == 0) {
        accepted_count[call * COUNTS + at_most(answer.count, COUNTS - 1)] = 1;
        return;
    }
    int which = call * NUMBERS + answer.number;
    refused_length[which * LENGTHS + at_most(last_len / 16, LENGTHS - 1)] = 1;
}

/* ---- The files and the lent buffers ---- */

static arena file_arena[FILES], lent_arena[2];
static bytes file[FILES];
static int at_start;

static void make_arenas(void) {
    if (file_arena[0].start != NULL)
        return;
    for (int which = 0; which < FILES; which++)
        file_arena[which] = arena_of(FILE_ROOM);
    lent_arena[0] = arena_of(TB_LISTING_ROOM + LARGER);
    lent_arena[1] = arena_of(TB_WORK_ROOM + LARGER);
}

static void put_file(int which, const uint8_t *from, size_t len) {
    file[which] = stretch(file_arena[which], len, at_start);
    if (len > 0)
        memcpy(file[which].start, from, len);
}

static void put_files(const input *from) {
    for (int which = 0; which < FILES; which++)
        put_file(which, from->file[which], from->len[which]);
}

static int is_file(int which, const uint8_t *from, size_t len) {
    return file[which].len == len && (len == 0 || memcmp(file[which].start, from, len) == 0);
}

static bytes lend(int which, size_t len, uint8_t filling) {
    bytes lent = stretch(lent_arena[which], len, at_start);
    if (len > 0)
        memset(lent.start, filling, len);
    return lent;
}

/* Each byte is the one before it, and the first is the filling. */
static int all(const uint8_t *at, size_t len, uint8_t filling) {
    return len == 0 || (at[0] == filling && memcmp(at, at + 1, len - 1) == 0);
}

/* ---- Making the calls ---- */

#define GIVEN(which) file[which].start, file[which].len
#define LENT(buffer) (buffer).start, (buffer).len

static tb_answer read_alone(int call) {
    switch (call) {
    case READ_GRAPH:
        return tb_read_graph(GIVEN(GRA));
    case READ_DOCUMENT:
        return tb_read_document(GIVEN(GRA), GIVEN(TRE));
    case READ_TABLES:
        return tb_read_tables(GIVEN(GRA), GIVEN(EDG));
    case READ_QUERY:
        return tb_read_query(GIVEN(GRA), GIVEN(QRY));
    default:
        return tb_read_program(GIVEN(GRA), GIVEN(REL));
    }
}

static tb_answer make(int call, bytes out, bytes work) {
    switch (call) {
    case SHRED:
        return tb_shred(GIVEN(GRA), GIVEN(TRE), LENT(out));
    case REBUILD:
        return tb_rebuild(GIVEN(GRA), GIVEN(EDG), LENT(out));
    case TRANSLATE:
        return tb_translate(GIVEN(GRA), GIVEN(QRY), LENT(out));
    case RUN:
        return tb_run(GIVEN(GRA), GIVEN(EDG), GIVEN(REL), LENT(out), LENT(work));
    case SELECT:
        return tb_select(GIVEN(GRA), GIVEN(EDG), GIVEN(QRY), LENT(out), LENT(work));
    default:
        return tb_list(GIVEN(GRA), GIVEN(EDG), GIVEN(QRY), LENT(out), LENT(work));
    }
}

static int last_file(int call) {
    switch (call) {
    case READ_GRAPH:
        return GRA;
    case READ_DOCUMENT:
    case SHRED:
        return TRE;
    case READ_TABLES:
    case REBUILD:
        return EDG;
    case READ_PROGRAM:
    case CHECK:
    case RUN:
        return REL;
    default:
        return QRY;
    }
}

/* ---- A reader alone ---- */

static tb_answer hold_reader(int call, uint32_t most) {
    tb_answer answer = read_alone(call);
    tell(call, answer, file[last_file(call)].len);
    HOLD(answer.number <= TB_EXTRA);
    if (answer.number == 0)
        HOLD(answer.count >= 1 && answer.count <= most);
    else
        HOLD(answer.count == 0);
    return answer;
}

/* ---- A call that writes ---- */

/* What a call answered and wrote in plenty of room. */
typedef struct result {
    tb_answer answer;
    size_t room[2];    /* what it asks for */
    size_t written[2]; /* what it writes */
    uint8_t out[TB_LISTING_ROOM + LARGER];
    uint8_t work[TB_WORK_ROOM + LARGER];
} result;

static result results[CALLS];

static int same(tb_answer a, tb_answer b) {
    return a.number == b.number && a.count == b.count;
}

/* Makes a call in so much room, with both buffers filled, and holds what it
 * leaves in them to the result. A refused call leaves all as it came. */
static tb_answer make_in(int call, const result *as, size_t out_len, size_t work_len,
                         uint8_t filling) {
    bytes out = lend(0, out_len, filling), work = lend(1, work_len, filling);
    tb_answer answer = make(call, out, work);
    size_t out_written = answer.number == 0 ? as->written[0] : 0;
    size_t work_written = answer.number == 0 ? as->written[1] : 0;
    HOLD(out_written <= out_len && work_written <= work_len);
    HOLD(out_written == 0 || memcmp(out.start, as->out, out_written) == 0);
    HOLD(work_written == 0 || memcmp(work.start, as->work, work_written) == 0);
    HOLD(all(out.start + out_written, out_len - out_written, filling));
    HOLD(all(work.start + work_written, work_len - work_written, filling));
    return answer;
}

/* A length that stands to the room asked for as two bits of the input tell. */
static size_t length_for(size_t room, int bits) {
    switch (bits & 3) {
    case 0:
        return room;
    case 1:
        return room > 0 ? room - 1 : 0;
    case 2:
        return 0;
    default:
        return room + LARGER;
    }
}

/* The room that an accepted call asks for, of the first buffer: a byte for each
 * node, 13 for each line of the longest listing, or what it writes. */
static size_t room_asked(int call, uint32_t elements, uint32_t count) {
    switch (call) {
    case RUN:
    case SELECT:
        return elements + 1;
    case LIST:
        return 13 * ((size_t)elements + 2);
    default:
        return count;
    }
}

/* Makes a call that writes: in plenty of room over two fillings, and in the
 * room that the input tells. `elements` and `steps` are those of its files. */
static const result *hold_writer(int call, uint8_t rooms, uint32_t elements, uint32_t steps) {
    result *made = &results[call];
    size_t plenty[2] = {TB_LISTING_ROOM + LARGER, (size_t)steps * TB_STEP_ROOM + LARGER};
    bytes out = lend(0, plenty[0], 0x00), work = lend(1, plenty[1], 0x00);
    made->answer = make(call, out, work);
    tell(call, made->answer, file[last_file(call)].len);
    int accepted = made->answer.number == 0;
    HOLD(made->answer.count <= (accepted ? plenty[0] : 0));
    memcpy(made->out, out.start, plenty[0]);
    memcpy(made->work, work.start, plenty[1]);
    made->written[0] = made->answer.count;
    made->written[1] = accepted ? (size_t)steps * TB_STEP_ROOM : 0;
    made->room[0] = room_asked(call, elements, made->answer.count);
    made->room[1] = made->written[1];
    HOLD(all(made->out + made->written[0], plenty[0] - made->written[0], 0x00));
    HOLD(all(made->work + made->written[1], plenty[1] - made->written[1], 0x00));
    HOLD(same(make_in(call, made, plenty[0], plenty[1], 0xFF), made->answer));

    size_t out_len = length_for(made->room[0], rooms);
    size_t work_len = length_for(made->room[1], rooms >> 2);
    int short_of = out_len < made->room[0] || work_len < made->room[1];
    tb_answer told = make_in(call, made, out_len, work_len, 0xA5);
    if (accepted && short_of)
        HOLD(told.number == TB_ROOM && told.count == 0);
    else
        HOLD(same(told, made->answer));
    return made;
}

/* ---- What one call's answer says of another's ---- */

/* The first refusal among files that are read one after the other. */
static uint8_t first_refusal(tb_answer a, tb_answer b) {
    return a.number != 0 ? a.number : b.number;
}

/* The tables of a document make that document again. */
static void hold_rebuilt(uint32_t elements) {
    const result *shredded = &results[SHRED];
    if (shredded->answer.number != 0)
        return;
    put_file(EDG, shredded->out, shredded->answer.count);
    HOLD(read_alone(READ_TABLES).count == elements);
    bytes out = lend(0, TB_DOCUMENT_ROOM, 0);
    tb_answer back = tb_rebuild(GIVEN(GRA), GIVEN(EDG), LENT(out));
    HOLD(back.number == 0 && is_file(TRE, out.start, back.count));
}

/* The document of tables makes these tables again. */
static void hold_shredded(uint32_t elements) {
    const result *rebuilt = &results[REBUILD];
    if (rebuilt->answer.number != 0)
        return;
    put_file(TRE, rebuilt->out, rebuilt->answer.count);
    HOLD(read_alone(READ_DOCUMENT).count == elements);
    bytes out = lend(0, TB_TABLES_ROOM, 0);
    tb_answer back = tb_shred(GIVEN(GRA), GIVEN(TRE), LENT(out));
    HOLD(back.number == 0 && is_file(EDG, out.start, back.count));
}

/* A translated query is a sound program, and running it is selecting. */
static void hold_translated(uint32_t elements) {
    const result *translated = &results[TRANSLATE], *selected = &results[SELECT];
    if (translated->answer.number != 0)
        return;
    uint32_t steps = translated->out[5];
    put_file(REL, translated->out, translated->answer.count);
    HOLD(read_alone(READ_PROGRAM).count == steps);
    HOLD(tb_check(GIVEN(GRA), GIVEN(REL)).number == 0);
    if (selected->answer.number != 0)
        return;
    bytes out = lend(0, elements + 1, 0x5A), work = lend(1, steps * TB_STEP_ROOM, 0x5A);
    tb_answer ran = tb_run(GIVEN(GRA), GIVEN(EDG), GIVEN(REL), LENT(out), LENT(work));
    HOLD(same(ran, selected->answer));
    HOLD(ran.count == 0 || memcmp(out.start, selected->out, ran.count) == 0);
    HOLD(memcmp(work.start, selected->work, work.len) == 0);
}

/* ---- What a run leaves ---- */

static int kind_of[TB_MOST_ELEMENTS + 1];
static uint32_t text_of[TB_MOST_ELEMENTS + 1];

/* Kinds and texts of the nodes, from tables that were accepted. */
static void read_nodes(void) {
    const uint8_t *at = file[EDG].start + 6;
    kind_of[0] = 16;
    text_of[0] = 0;
    for (int type = 0; type < file[EDG].start[5]; type++)
        for (int rows = *at++; rows > 0; rows--, at += 4) {
            kind_of[at[1]] = type;
            text_of[at[1]] = (uint32_t)at[2] << 8 | at[3];
        }
}

static int has_row(const uint8_t *step, unsigned v, unsigned w) {
    return step[16 * v + w / 8] >> (w % 8) & 1;
}

/* Rows lie between nodes, and each joins a pair that the check announces. */
static void hold_rows(const result *ran, const tb_checked *checked, uint32_t elements,
                      uint32_t steps) {
    for (uint32_t step = 0; step < steps; step++)
        for (unsigned v = 0; v <= TB_MOST_ELEMENTS; v++) {
            const uint8_t *rows = ran->work + (size_t)step * TB_STEP_ROOM;
            if (all(rows + 16 * v, 16, 0))
                continue;
            HOLD(v <= elements);
            for (unsigned w = 0; w <= TB_MOST_ELEMENTS; w++)
                if (has_row(rows, v, w)) {
                    HOLD(w <= elements);
                    HOLD(checked->steps[step].pairs[kind_of[v]] >> kind_of[w] & 1);
                }
        }
}

/* The nodes written are the last step's from node 0, ascending. */
static void hold_nodes(const result *ran, uint32_t steps) {
    const uint8_t *last = ran->work + (size_t)(steps - 1) * TB_STEP_ROOM;
    uint32_t count = 0;
    for (unsigned w = 0; w <= TB_MOST_ELEMENTS; w++)
        if (has_row(last, 0, w)) {
            HOLD(count < ran->answer.count && ran->out[count] == w);
            count++;
        }
    HOLD(count == ran->answer.count);
}

/* The listing is that of the nodes selected, over the same work area. */
static void hold_listing(const result *listed, const result *selected) {
    char text[TB_LISTING_ROOM + 1];
    size_t len = (size_t)sprintf(text, "selected %u\n", (unsigned)selected->answer.count);
    for (uint32_t which = 0; which < selected->answer.count; which++) {
        int node = selected->out[which];
        len += (size_t)sprintf(text + len, "%d %d %u\n", node, kind_of[node],
                               (unsigned)text_of[node]);
    }
    HOLD(listed->answer.count == len && memcmp(listed->out, text, len) == 0);
    HOLD(memcmp(listed->work, selected->work, selected->written[1]) == 0);
}

/* ---- One input ---- */

static void hold_check(tb_answer program, const tb_checked *checked) {
    tb_answer as_answer = {checked->number, program.count};
    tell(CHECK, as_answer, file[REL].len);
    HOLD(checked->number == program.number);
    for (uint32_t step = program.count; step < TB_MOST_STEPS; step++)
        for (int kind = 0; kind < TB_KINDS; kind++)
            HOLD(checked->steps[step].pairs[kind] == 0);
}

static void hold_files(const input *given) {
    for (int which = 0; which < FILES; which++)
        HOLD(is_file(which, given->file[which], given->len[which]));
}

static void hold_all(const input *given) {
    tb_answer graph = hold_reader(READ_GRAPH, TB_MOST_TYPES);
    tb_answer document = hold_reader(READ_DOCUMENT, TB_MOST_ELEMENTS);
    tb_answer tables = hold_reader(READ_TABLES, TB_MOST_ELEMENTS);
    tb_answer query = hold_reader(READ_QUERY, TB_MOST_QUERY_NODES);
    tb_answer program = hold_reader(READ_PROGRAM, TB_MOST_STEPS);
    if (graph.number != 0) {
        HOLD(document.number == graph.number && tables.number == graph.number);
        HOLD(query.number == graph.number && program.number == graph.number);
    }
    tb_checked checked = tb_check(GIVEN(GRA), GIVEN(REL));
    hold_check(program, &checked);

    uint8_t rooms = given->rooms;
    HOLD(hold_writer(SHRED, rooms, 0, 0)->answer.number == document.number);
    HOLD(hold_writer(REBUILD, rooms, 0, 0)->answer.number == tables.number);
    const result *translated = hold_writer(TRANSLATE, rooms, 0, 0);
    HOLD(translated->answer.number == query.number ||
         (query.number == 0 && translated->answer.number == TB_STEPS));

    uint32_t steps = translated->answer.number == 0 ? translated->out[5] : 0;
    uint8_t asked = first_refusal(tables, translated->answer);
    const result *ran = hold_writer(RUN, rooms, tables.count, program.count);
    const result *selected = hold_writer(SELECT, rooms, tables.count, steps);
    const result *listed = hold_writer(LIST, rooms, tables.count, steps);
    HOLD(ran->answer.number == first_refusal(tables, program));
    HOLD(selected->answer.number == asked && listed->answer.number == asked);

    if (tables.number == 0)
        read_nodes();
    if (ran->answer.number == 0) {
        hold_rows(ran, &checked, tables.count, program.count);
        hold_nodes(ran, program.count);
    }
    if (asked == 0) {
        hold_nodes(selected, steps);
        hold_listing(listed, selected);
    }
    hold_files(given);

    /* From here on some files are replaced by what was written. */
    hold_translated(tables.count);
    hold_shredded(tables.count);
    put_files(given);
    hold_rebuilt(document.count);
}

int LLVMFuzzerTestOneInput(const uint8_t *data, size_t size) {
    input taken = take_apart(data, size);
    make_arenas();
    at_start = taken.rooms >> 4 & 1;
    put_files(&taken);
    hold_all(&taken);
    return 0;
}

/* ---- Mutating one file at a time, with its length kept right ---- */

size_t LLVMFuzzerMutate(uint8_t *data, size_t size, size_t most);

size_t LLVMFuzzerCustomMutator(uint8_t *data, size_t size, size_t most, unsigned seed) {
    static uint8_t copy[FILE_ROOM], changed[FILE_ROOM];
    if (size < HEAD || size > sizeof copy || most < HEAD)
        return LLVMFuzzerMutate(data, size, most);
    memcpy(copy, data, size);
    input taken = take_apart(copy, size);
    int which = (int)(seed % FILES);
    if (seed / FILES % 8 == 0)
        taken.rooms = (uint8_t)(seed >> 8);
    memcpy(changed, taken.file[which], taken.len[which]);
    taken.len[which] = LLVMFuzzerMutate(changed, taken.len[which], sizeof changed / 16);
    taken.file[which] = changed;
    size_t made = put_together(&taken, data, most);
    return made != 0 ? made : size;
}
