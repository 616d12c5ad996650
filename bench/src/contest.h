/* One document: every way to ask it is held to the same answer, then timed. */
#ifndef CONTEST_H
#define CONTEST_H

#include "results.h"

/* Ends the program where an answer differs. */
void contest(struct measured *measured, size_t elements);

#endif
