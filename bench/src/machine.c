#define _DEFAULT_SOURCE

#include "machine.h"

#include <stdio.h>
#include <stdlib.h>
#include <string.h>
#include <time.h>

/* What stands behind the colon of a line of /proc/cpuinfo. */
static void copy_value(char *name, size_t room, const char *line)
{
    const char *value = strchr(line, ':') + 1;
    value += strspn(value, " \t");
    snprintf(name, room, "%.*s", (int)strcspn(value, "\n"), value);
}

void machine_processor(char *name, size_t room)
{
    char line[256];
    FILE *file = fopen("/proc/cpuinfo", "r");
    snprintf(name, room, "unknown processor");
    if (file == NULL)
        return;
    while (fgets(line, sizeof line, file) != NULL)
        if (strncmp(line, "model name", 10) == 0 && strchr(line, ':') != NULL) {
            copy_value(name, room, line);
            break;
        }
    fclose(file);
}

void machine_date(char *date, size_t room)
{
    time_t now = time(NULL);
    strftime(date, room, "%Y-%m-%d", gmtime(&now));
}

double machine_load(void)
{
    double load = 0;
    getloadavg(&load, 1);
    return load;
}
