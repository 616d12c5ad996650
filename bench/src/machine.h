/* The machine that measures. */
#ifndef MACHINE_H
#define MACHINE_H

#include <stddef.h>

/* The processor's name, as the kernel tells it. */
void machine_processor(char *name, size_t room);

/* Today, as 2025-01-31. */
void machine_date(char *date, size_t room);

/* How many programs wanted to run at once in the last minute. */
double machine_load(void);

#endif
