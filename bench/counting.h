/* How a program has callgrind count the instructions of some calls. Under anything else it counts nothing.
 *
 * What stands between START_COUNTING and STOP_COUNTING is counted. count_as writes what was counted since its last call, under a
 * label of three parts: which row and which column of a table it is for, and how many calls were counted. */
#ifndef COUNTING_H
#define COUNTING_H

#include <stdio.h>

#if defined(__has_include)
#if __has_include(<valgrind/callgrind.h>)
#include <valgrind/callgrind.h>
#endif
#endif

#ifdef CALLGRIND_TOGGLE_COLLECT
#define START_COUNTING CALLGRIND_TOGGLE_COLLECT
#define STOP_COUNTING CALLGRIND_TOGGLE_COLLECT
#define WRITE_COUNT(label) CALLGRIND_DUMP_STATS_AT(label)
#else
#define START_COUNTING ((void)0)
#define STOP_COUNTING ((void)0)
#define WRITE_COUNT(label) ((void)(label))
#endif

static inline void count_as(const char *row, const char *column, unsigned calls) {
    char label[120];
    snprintf(label, sizeof label, "%s|%s|%u", row, column, calls);
    WRITE_COUNT(label);
}

#endif
