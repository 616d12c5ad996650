/* What has to hold, whatever the input. */
#ifndef HOLD_H
#define HOLD_H

#include <stdio.h>
#include <stdlib.h>

#define HOLD(condition)                                                       \
    do {                                                                      \
        if (!(condition)) {                                                   \
            fprintf(stderr, "%s:%d: does not hold: %s\n", __FILE__, __LINE__, \
                    #condition);                                              \
            abort();                                                          \
        }                                                                     \
    } while (0)

#endif
