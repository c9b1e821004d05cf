/* Long work: how far it is, and whether it is to stop. */
#include "progress.h"

#include "complain.h"

#include <string.h>
#include <sys/stat.h>
#include <time.h>
#include <unistd.h>

/* ---- progress ---- */

static double now(void)
{
    struct timespec t;

    clock_gettime(CLOCK_MONOTONIC, &t);
    return (double)t.tv_sec + (double)t.tv_nsec / 1e9;
}

void progress_begin(struct progress *p, const char *what, uint64_t whole,
                    int quiet)
{
    p->on = !quiet && isatty(STDERR_FILENO);
    p->what = what;
    p->whole = whole;
    p->began = now();
    p->shown = 0;
}

/* Seconds left, if the rest takes as long as its share of the part. */
static double time_left(const struct progress *p, double time, uint64_t part)
{
    return (time - p->began) * (double)(p->whole - part) / (double)part;
}

static void show(struct progress *p, unsigned long done, const char *unit,
                 uint64_t part)
{
    double time = p->on ? now() : 0;

    if (!p->on || time - p->began < 0.5 || time - p->shown < 0.1)
        return;
    p->shown = time;
    fprintf(stderr, "\rbhtf: %lu %s %s", done, unit, p->what);
    if (part > 0 && part <= p->whole)
        fprintf(stderr, ", %.0f %%, %.0f s left",
                100.0 * (double)part / (double)p->whole,
                time_left(p, time, part));
    fputs("\033[K", stderr);
    fflush(stderr);
}

void progress_show(struct progress *p, unsigned long points, uint64_t part)
{
    show(p, points, "points", part);
}

void progress_show_bytes(struct progress *p, uint64_t part)
{
    show(p, (unsigned long)(part >> 20), "MiB", part);
}

void progress_end(struct progress *p)
{
    if (p->shown > 0)
        fputs("\r\033[K", stderr);
    p->shown = 0;
}

void tell_waiting(const char *file, const char *what, int quiet)
{
    if (!quiet && isatty(STDIN_FILENO))
        complain("%s: waiting for %s; Ctrl-D at the beginning of a line ends "
                 "it, Ctrl-C leaves it", file, what);
}

uint64_t stream_length(FILE *file)
{
    struct stat about;
    off_t at;

    if (fstat(fileno(file), &about) != 0 || !S_ISREG(about.st_mode))
        return 0;
    at = lseek(fileno(file), 0, SEEK_CUR);
    return at >= 0 && at < about.st_size ? (uint64_t)(about.st_size - at) : 0;
}

/* ---- interrupts ---- */

volatile sig_atomic_t interrupted;

static void note_interrupt(int number)
{
    (void)number;
    interrupted = 1;
}

void catch_interrupts(void)
{
    static const int numbers[] = { SIGINT, SIGTERM, SIGHUP };
    struct sigaction action, old;

    memset(&action, 0, sizeof action);
    action.sa_handler = note_interrupt;
    sigemptyset(&action.sa_mask);
    for (size_t i = 0; i < sizeof numbers / sizeof numbers[0]; i++)
        if (sigaction(numbers[i], NULL, &old) == 0 &&
            old.sa_handler != SIG_IGN)
            sigaction(numbers[i], &action, NULL);
}
