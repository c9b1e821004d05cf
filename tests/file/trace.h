/* A child process, stopped at each of its system calls. */
#ifndef TRACE_H
#define TRACE_H

#include <stdint.h>
#include <sys/types.h>

struct stop {
    int entering;      /* before the call, and not behind it */
    uint64_t number;   /* of the call */
    uint64_t first;    /* argument */
    int64_t result;    /* behind the call */
};

/* Starts `run` in a child; its answer is the child's status. */
pid_t trace_start(int (*run)(void *with), void *with);

/* Lets it run to its next stop: 1; or 0 behind its end, with its status, or
 * -1 if a signal ended it. */
int trace_next(pid_t child, struct stop *s, int *status);

/* So many instructions more: 1, or 0 as above. */
int trace_step(pid_t child, unsigned long instructions, int *status);

/* Ends it as the signal KILL does. */
void trace_kill(pid_t child);

#endif
