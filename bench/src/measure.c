#define _DEFAULT_SOURCE

#include "measure.h"

#include "fail.h"

#include <sched.h>
#include <stdlib.h>
#include <sys/resource.h>
#include <time.h>

enum { MOST_TASKS = 10, TRIES = 5 };

/* The answers of a sample are counted for somewhat more than a millisecond, so
 * that it still lasts one when the processor has become faster since. */
static const double long_enough = 1.5e6;

struct samples {
    long answers; /* in each sample */
    double each[SAMPLES];
};

static double now(void)
{
    struct timespec time;
    if (clock_gettime(CLOCK_MONOTONIC, &time) != 0)
        fail("there is no monotonic clock");
    return (double)time.tv_sec * 1e9 + (double)time.tv_nsec;
}

/* How often the kernel has taken the processor away so far. */
static long interruptions(void)
{
    struct rusage usage;
    if (getrusage(RUSAGE_SELF, &usage) != 0)
        fail("the kernel doesn't tell what was used");
    return usage.ru_nivcsw;
}

static double time_once(const struct task *task, long answers)
{
    double start = now();
    for (long i = 0; i < answers; i++)
        task->once(task->with);
    return now() - start;
}

/* The time for so many answers. Where others run on the machine it is taken
 * anew when one of them had the processor in between, a few times at most, and
 * the processor is offered to them beforehand. */
static double time_of(const struct task *task, long answers)
{
    double shortest = 0;
    for (int try = 0; try < TRIES; try++) {
        sched_yield();
        long before = interruptions();
        double time = time_once(task, answers);
        if (interruptions() == before)
            return time;
        if (try == 0 || time < shortest)
            shortest = time;
    }
    return shortest;
}

/* How many answers a sample needs. Counting them warms up, too. */
static long enough(const struct task *task)
{
    long answers = 1;
    while (time_of(task, answers) < long_enough)
        answers *= 2;
    return answers;
}

static int compare(const void *a, const void *b)
{
    double x = *(const double *)a, y = *(const double *)b;
    return (x > y) - (x < y);
}

static struct timing summary(struct samples *samples)
{
    double *each = samples->each;
    qsort(each, SAMPLES, sizeof *each, compare);
    double median = each[SAMPLES / 2];
    double spread = (each[SAMPLES * 3 / 4] - each[SAMPLES / 4]) / median;
    return (struct timing){median, spread};
}

void measure(const struct task *tasks, size_t count, struct timing *timings)
{
    struct samples samples[MOST_TASKS];
    if (count > MOST_TASKS)
        fail("at most %d tasks take turns", MOST_TASKS);
    for (size_t i = 0; i < count; i++)
        samples[i].answers = enough(&tasks[i]);
    for (int turn = 0; turn < SAMPLES; turn++)
        for (size_t i = 0; i < count; i++)
            samples[i].each[turn] = time_of(&tasks[i], samples[i].answers) / samples[i].answers;
    for (size_t i = 0; i < count; i++)
        timings[i] = summary(&samples[i]);
}
