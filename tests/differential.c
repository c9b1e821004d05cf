/* Random differential test of the calls.
 *
 * (a) Lists of calls from create on: library, plain reference and control
 *     book. Every answer is compared, and every image byte after every call;
 *     at a list's end the file must find exactly the book's points.
 * (b) The same from sound images that no call made, with the book read off
 *     their bytes.
 * (c) Lists of calls on made-up, damaged and random images: library against
 *     plain reference, answers and bytes.
 * (d) The same on spliced images, in which points share bytes; the check's word
 *     is also held against its definition, pair by pair.
 * (e) The same on pairs of such images, as they are in growth.
 * In all, a refused or reading call must leave every byte. A list goes on in the
 * target of an accepted conversion, with files of version 1 and 2.0.0 in turn;
 * the target is also held against its definition, and taken back, against
 * compaction. It also goes on with the pair of an accepted start of growth, until no
 * point is left in the old image. Most adds, deletes
 * and lookups are made by the form that reports the slots read, some adds,
 * deletes and compactions by the one that lists what changed, or by way of a
 * journal. Recovery is called between, from journals of all sorts.
 *
 * Options: --seed N, --calls N, --seconds N, --quiet, --strict, --old-limits,
 * --old-calls, --old-check.
 * --old-limits keeps to images and tables within document 01's limits,
 * --old-calls to lists of kinds (a) and (b) with its calls: those that 02 left
 * as they were, on files of its versions.
 * --old-check is for a library of before 02's Job 1 in plain's place: of images
 * that no call made, what the two checks say is not compared.
 * --strict also compares outputs the document leaves open: walk's slot at the
 * end, check's slot without a failing slot, both when refused (plain: 0).
 *
 * Images, keys and data end where an unreadable page begins, or a few guard
 * bytes before, and data is read-only: a library that reads or writes outside
 * what it was lent crashes, and the crash is reported like a difference.
 *
 * The parts stand in differential/: memory.c has what is lent; choose.c,
 * images.c, reopened.c, damage.c and splice.c make arguments and images,
 * steps.c and lists.c calls of them; compare.c and book.c hold the answers
 * against each other; packed.c holds a compaction against its definition,
 * converted.c a conversion, columns.c readings by column, ranges.c names in ranges, epochs.c epochs,
 * pair.c a call on a pair, growth.c growth, damaged.c pairs that are damaged,
 * changed.c, listed.c and journal.c a list and a journal, runs.c the runs of bytes
 * that differ; and report.c says what differs. */
#define _DEFAULT_SOURCE

#include "differential/parts.h"

#include <stdio.h>
#include <stdlib.h>
#include <string.h>
#include <time.h>
#include <unistd.h>

#ifndef HANG_SECONDS
#define HANG_SECONDS 60 /* of one list */
#endif

struct run run;
uint64_t seen[KINDS][NUMBERS];
uint64_t seen_on_pair[KINDS][NUMBERS];
struct list list;

static void read_options(int argc, char **argv)
{
    run.seed = (uint64_t)time(NULL) * 1000003u ^ (uint64_t)getpid();
    run.seed &= 0xFFFFFFFFu;
    for (int i = 1; i < argc; i++) {
        const char *value = i + 1 < argc ? argv[i + 1] : "0";

        if (strcmp(argv[i], "--quiet") == 0) {
            run.quiet = 1;
            continue;
        }
        if (strcmp(argv[i], "--strict") == 0) {
            run.strict = 1;
            continue;
        }
        if (strcmp(argv[i], "--old-limits") == 0) {
            run.old_limits = 1;
            continue;
        }
        if (strcmp(argv[i], "--old-calls") == 0) {
            run.old_calls = 1;
            continue;
        }
        if (strcmp(argv[i], "--old-check") == 0) {
            run.old_check = 1;
            continue;
        }
        if (strcmp(argv[i], "--seed") == 0)
            run.seed = strtoull(value, NULL, 0);
        else if (strcmp(argv[i], "--calls") == 0)
            run.call_limit = strtoull(value, NULL, 0);
        else if (strcmp(argv[i], "--seconds") == 0)
            run.seconds = strtoul(value, NULL, 0);
        else {
            fprintf(stderr, "unknown option %s\n", argv[i]);
            exit(2);
        }
        i++;
    }
    if (run.call_limit == 0 && run.seconds == 0)
        run.call_limit = 1000000;
}

static int is_over(time_t start)
{
    if (run.call_limit != 0 && run.calls >= run.call_limit)
        return 1;
    return run.seconds != 0 &&
           time(NULL) - start >= (time_t)run.seconds;
}

static void print_seen(const char *what, uint64_t answers[KINDS][NUMBERS])
{
    printf("%s:\n%-8s", what, "");
    for (int n = 0; n < NUMBERS; n++)
        printf(" %9d", n);
    printf("\n");
    for (int k = 0; k < KINDS; k++) {
        printf("%-8s", kind_name[k]);
        for (int n = 0; n < NUMBERS; n++)
            printf(" %9llu", (unsigned long long)answers[k][n]);
        printf("\n");
    }
}

static void run_list(uint32_t style)
{
    list.growing = 0;
    if (style < 8)
        list_from_create();
    else if (style < 11)
        list_reopened();
    else if (style < 14)
        list_on_damage();
    else if (style < 16)
        list_on_splice();
    else
        list_on_pair();
}

int main(int argc, char **argv)
{
    time_t start = time(NULL);

    read_options(argc, argv);
    printf("seed %llu\n", (unsigned long long)run.seed);
    fflush(stdout);
    random_start(run.seed);
    map_all();
    watch_signals();
    while (!is_over(start)) {
        alarm(HANG_SECONDS);
        list.number++;
        run_list(below(run.old_calls ? 11 : 19));
    }
    if (!run.quiet) {
        print_seen("answers seen", seen);
        print_seen("on a pair of images", seen_on_pair);
    }
    printf("%llu calls, 0 differences (seed %llu)\n",
           (unsigned long long)run.calls, (unsigned long long)run.seed);
    return 0;
}
