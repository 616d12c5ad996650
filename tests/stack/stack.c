/* How much stack each call takes: the call is made on a stack of its own that was painted before, and the lowest byte that
   lost its paint is looked for afterwards. The field converter has 4 KiB, so tb_run has to stay within 4,096 bytes. */
#include "trammelbud.h"

#include <stdio.h>
#include <stdlib.h>
#include <string.h>
#include <ucontext.h>

enum { STACK = 1 << 18, PAINT = 0xA5, RUN_LIMIT = 4096, ELEMENTS = 127, STEPS = 24 };

static unsigned char stack[STACK] __attribute__((aligned(64)));
static unsigned char *before;

static uint8_t gra[] = {'G', 'R', 'A', 0, 1, 1, 0, 0, 1};
static uint8_t tre[5 + 5 * ELEMENTS];
static uint8_t edg[7 + 4 * ELEMENTS];
/* a query that nests as deep as 24 steps allow: .[.[.[ .. ]]] is 07 01 11, three nodes a level */
static uint8_t qry[64];
static size_t qry_length;
static uint8_t rel[6 + 3 * STEPS];
static uint8_t out[4096];
static uint8_t work[2048 * STEPS];

/* One chain of 127 elements of one type: the longest climbs, the deepest closures. */
static void fill_document(void)
{
    memcpy(tre, "TRE\0\1", 5);
    memcpy(edg, "EDG\0\1\1", 6);
    edg[6] = ELEMENTS;
    for (int i = 0; i < ELEMENTS; i++) {
        memcpy(tre + 5 + 4 * i, (uint8_t[]){1, 0, 0, 7}, 4);
        tre[5 + 4 * ELEMENTS + i] = 2;
        memcpy(edg + 7 + 4 * i, (uint8_t[]){(uint8_t)i, (uint8_t)(i + 1), 0, 7}, 4);
    }
}

static void fill_query(void)
{
    memcpy(qry, "QRY\0\1", 5);
    qry_length = 5;
    for (int level = 0; level < 7; level++) {
        memcpy(qry + qry_length, (uint8_t[]){7, 1, 0x11}, 3);
        qry_length += 3;
    }
    qry[qry_length++] = 3;
}

/* TABLE, SELF and TEXT, then the other six operations in turn, each on the steps before it. */
static void fill_program(void)
{
    memcpy(rel, "REL\0\1", 5);
    rel[5] = STEPS;
    for (int s = 0; s < STEPS; s++) {
        uint8_t operation = s < 3 ? s + 1 : 4 + s % 6;
        int single = operation == 6 || operation == 7;
        uint8_t *step = rel + 6 + 3 * s;
        step[0] = operation;
        step[1] = s < 3 ? 0 : s - 1;
        step[2] = s == 0 ? 1 : s == 2 ? 7 : s < 3 || single ? 0 : s - 2;
    }
}

static int number;

static void call_graph(void) { number = tb_read_graph(gra, sizeof gra).number; }
static void call_document(void) { number = tb_read_document(gra, sizeof gra, tre, sizeof tre).number; }
static void call_tables(void) { number = tb_read_tables(gra, sizeof gra, edg, sizeof edg).number; }
static void call_query(void) { number = tb_read_query(gra, sizeof gra, qry, qry_length).number; }
static void call_program(void) { number = tb_read_program(gra, sizeof gra, rel, sizeof rel).number; }
static void call_shred(void) { number = tb_shred(gra, sizeof gra, tre, sizeof tre, out, sizeof out).number; }
static void call_rebuild(void) { number = tb_rebuild(gra, sizeof gra, edg, sizeof edg, out, sizeof out).number; }
static void call_translate(void) { number = tb_translate(gra, sizeof gra, qry, qry_length, out, sizeof out).number; }
static void call_check(void) { number = tb_check(gra, sizeof gra, rel, sizeof rel).number; }
static void call_run(void)
{
    number = tb_run(gra, sizeof gra, edg, sizeof edg, rel, sizeof rel, out, sizeof out, work, sizeof work).number;
}
static void call_select(void)
{
    number = tb_select(gra, sizeof gra, edg, sizeof edg, qry, qry_length, out, sizeof out, work, sizeof work).number;
}
static void call_list(void)
{
    number = tb_list(gra, sizeof gra, edg, sizeof edg, qry, qry_length, out, sizeof out, work, sizeof work).number;
}

static void (*current)(void);

/* The stack pointer where the call is made: what is below it is the call's. */
static void __attribute__((noinline)) begin(void)
{
    before = __builtin_frame_address(0);
    current();
}

static size_t measure(void (*call)(void))
{
    ucontext_t here, there;
    current = call;
    memset(stack, PAINT, sizeof stack);
    getcontext(&there);
    there.uc_stack.ss_sp = stack;
    there.uc_stack.ss_size = sizeof stack;
    there.uc_link = &here;
    makecontext(&there, begin, 0);
    swapcontext(&here, &there);
    unsigned char *lowest = stack;
    while (*lowest == PAINT)
        lowest++;
    return (size_t)(before - lowest);
}

int main(void)
{
    static const struct { const char *name; void (*call)(void); } calls[] = {
        {"tb_read_graph", call_graph}, {"tb_read_document", call_document}, {"tb_read_tables", call_tables},
        {"tb_read_query", call_query}, {"tb_read_program", call_program},   {"tb_shred", call_shred},
        {"tb_rebuild", call_rebuild},  {"tb_translate", call_translate},    {"tb_check", call_check},
        {"tb_run", call_run},          {"tb_select", call_select},          {"tb_list", call_list},
    };
    int failed = 0;
    fill_document();
    fill_query();
    fill_program();
    for (size_t i = 0; i < sizeof calls / sizeof *calls; i++) {
        size_t used = measure(calls[i].call);
        printf("%-16s %5zu bytes of stack\n", calls[i].name, used);
        if (number != 0) {
            printf("stack: %s was refused with %d\n", calls[i].name, number);
            failed = 1;
        }
        if (calls[i].call == call_run && used > RUN_LIMIT) {
            printf("stack: tb_run takes more than %d bytes\n", RUN_LIMIT);
            failed = 1;
        }
    }
    return failed;
}
