/* The nine operations of a program, numbered as in a REL file. */
#ifndef OPERATION_H
#define OPERATION_H

enum operation { TABLE = 1, SELF, TEXT, JOIN, UNION, LFP, HAS, DIFF, AND };

enum { OPERATIONS = 9 };

extern const char *const operation_names[OPERATIONS]; /* TABLE's first */

#endif
