/* Asks the same queries of the same documents through Trammelbud, libxml2 and
 * SQLite, and prints what an answer costs. Ends with 1 where an answer differs
 * or a bar is missed. */
#include "contest.h"
#include "machine.h"
#include "report.h"

#include <malloc.h>
#include <stdio.h>
#include <string.h>

static const size_t sizes[DOCUMENTS] = {8, 32, 127};

/* Memory that is freed stays with the program. Else SQLite, which needs much for
 * a moment, gives it back to the kernel after each answer and asks for it anew:
 * with a small document that is most of its time. */
static void keep_memory(void)
{
    enum { PLENTY = 1 << 28 };
    mallopt(M_TRIM_THRESHOLD, PLENTY);
    mallopt(M_MMAP_THRESHOLD, PLENTY);
}

int main(int count, char **words)
{
    static struct results results;
    enum style style = PLAIN;
    if (count == 2 && strcmp(words[1], "--markdown") == 0) {
        style = MARKDOWN;
    } else if (count != 1) {
        fputs("usage: bench [--markdown]\n", stderr);
        return 2;
    }
    keep_memory();
    results.load = machine_load();
    for (size_t i = 0; i < DOCUMENTS; i++)
        contest(&results.documents[i], sizes[i]);
    report(&results, style);
    return report_bars(&results, style) ? 0 : 1;
}
