/* Times: how long one answer takes. */
#ifndef MEASURE_H
#define MEASURE_H

#include <stddef.h>

/* Something to time: `once` gives one answer. */
struct task {
    void (*once)(void *with);
    void *with;
};

/* So many samples are taken of each. */
enum { SAMPLES = 41 };

struct timing {
    double median; /* nanoseconds for one answer */
    double spread; /* half of the samples lie this close together, as a part of the median */
};

/* Times the tasks. They take turns, a sample each, so that whatever else the
 * machine does in the meantime falls on all of them alike. */
void measure(const struct task *tasks, size_t count, struct timing *timings);

#endif
