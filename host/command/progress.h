/* Long work: how far it is, and whether it is to stop. */
#ifndef PROGRESS_H
#define PROGRESS_H

#include <signal.h>
#include <stdint.h>
#include <stdio.h>

struct progress {
    int on;          /* standard error is a terminal, and words are wanted */
    const char *what;
    uint64_t whole;  /* of the work; 0: not known */
    double began;
    double shown;    /* when it was last shown; 0: never */
};

/* `what` is said after the number of points. */
void progress_begin(struct progress *p, const char *what, uint64_t whole,
                    int quiet);

/* A line that stays in its place, once the work has taken half a second: the
 * points done, the share of the whole, and the time that is left. */
void progress_show(struct progress *p, unsigned long points, uint64_t part);

/* The same of bytes. */
void progress_show_bytes(struct progress *p, uint64_t part);

/* Takes the line away. */
void progress_end(struct progress *p);

/* Says that input is waited for, if standard input is a terminal and words are
 * wanted. `what` is to be typed. */
void tell_waiting(const char *file, const char *what, int quiet);

/* The bytes that are left of a stream; 0 if that cannot be known. */
uint64_t stream_length(FILE *file);

/* Set once an interrupt was heard. */
extern volatile sig_atomic_t interrupted;

/* From now on INT, TERM and HUP only set it. A signal that is ignored, as
 * under nohup, stays so. */
void catch_interrupts(void);

#endif
