/* The way out when something that has to hold doesn't. */
#ifndef FAIL_H
#define FAIL_H

/* Prints the message, formatted as printf does, and ends the program with 1. */
_Noreturn void fail(const char *format, ...) __attribute__((format(printf, 1, 2)));

#endif
