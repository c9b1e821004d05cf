/* busy SECONDS FILE [kill]: two writers and six readers at once, each a process
 * with its own handle, on a new file. A writer gives the texts of its ten points
 * the next number in a batch, and compacts now and then; a reader must see one
 * number in all ten, a sound file, and no number below what it saw before or
 * what was acknowledged. With kill the writers are killed and started again all
 * the time. Prints what each did; the last line is 'N passed, M failed'. */
#define _GNU_SOURCE

#include "../../host/include/bhtf_file.h"

#include <signal.h>
#include <stdio.h>
#include <stdlib.h>
#include <string.h>
#include <sys/mman.h>
#include <sys/wait.h>
#include <time.h>
#include <unistd.h>

enum { WRITERS = 2, READERS = 6, POINTS = 10, KEY = 8, SIZE = 262144 };

struct board {
    volatile unsigned long rounds[WRITERS + READERS];
    volatile long acknowledged[WRITERS];
    volatile int end;
};

static struct board *board;
static const char *path;

static void make_key(uint8_t key[KEY], int writer, int point)
{
    memset(key, 0, KEY);
    key[0] = (uint8_t)('A' + writer);
    key[1] = (uint8_t)('0' + point);
}

static int fail(const char *who, int number, const char *words)
{
    printf("  %s %d: %s\n", who, number, words);
    fflush(stdout);
    return 1;
}

/* All texts of a writer tell the same number. */
static int change(bhtf_file *f, int writer, unsigned long round)
{
    uint8_t key[KEY];
    char text[64];

    if (bhtf_file_begin(f) != 0)
        return -1;
    for (int i = 0; i < POINTS; i++) {
        int length = snprintf(text, sizeof text, "%010lu%.*s", round,
                              (int)(round % 20), "....................");

        make_key(key, writer, i);
        if (bhtf_file_replace(f, key, KEY, (const uint8_t *)text,
                              (size_t)length) != 0)
            return -1;
    }
    if (round % 16 == 0 && bhtf_file_compact(f) != 0)
        return -1;
    return bhtf_file_commit(f) == 0 ? 0 : -1;
}

static long told(const uint8_t *image, size_t length, int writer);

static int write_on(int writer)
{
    const struct bhtf_file_how how = { BHTF_FILE_WRITE, 30000, NULL, NULL };

    while (!board->end) {
        struct bhtf_file_error why;
        bhtf_file *f = bhtf_file_open(path, &how, &why);
        const uint8_t *image;
        size_t length;
        long round;

        if (f == NULL)
            return fail("writer", writer, why.words);
        image = bhtf_file_image(f, &length);
        round = told(image, length, writer);
        if (round < board->acknowledged[writer])
            return fail("writer", writer, "what was acknowledged is gone");
        for (int i = 0; i < 5 && !board->end; i++) {
            if (change(f, writer, (unsigned long)++round) != 0) {
                fail("writer", writer, bhtf_file_error(f)->words);
                bhtf_file_close(f);
                return 1;
            }
            board->acknowledged[writer] = round;
            board->rounds[writer]++;
        }
        if (bhtf_file_close(f) != 0)
            return fail("writer", writer, "cannot close");
        usleep(500);
    }
    return 0;
}

/* The number that a writer's texts tell, -1 if they differ. */
static long told(const uint8_t *image, size_t length, int writer)
{
    long number = -1;

    for (int i = 0; i < POINTS; i++) {
        uint32_t at, size;
        uint8_t key[KEY];
        char text[16];
        long one;

        make_key(key, writer, i);
        if (bhtf_lookup(image, length, key, KEY, &at, &size) != 0 || size < 10)
            return -1;
        memcpy(text, image + at, 10);
        text[10] = '\0';
        one = atol(text);
        if (size != 10 + (uint32_t)(one % 20) || (i > 0 && one != number))
            return -1;
        number = one;
    }
    return number;
}

static int read_on(int reader)
{
    const struct bhtf_file_how how = { 0, 30000, NULL, NULL };
    struct bhtf_file_error why;
    bhtf_file *f = bhtf_file_open(path, &how, &why);
    long last[WRITERS] = { 0, 0 };

    if (f == NULL)
        return fail("reader", reader, why.words);
    while (!board->end) {
        size_t length;
        const uint8_t *image = bhtf_file_image(f, &length);
        uint32_t verdict, slot;

        for (int w = 0; w < WRITERS; w++) {
            long now = told(image, length, w);

            if (now < last[w])
                return fail("reader", reader, "a torn or an older state");
            last[w] = now;
        }
        if (bhtf_check(image, length, &verdict, &slot) != 0 || verdict != 0)
            return fail("reader", reader, "not sound");
        board->rounds[WRITERS + reader]++;
        bhtf_file_pause(f);
        usleep(200);
        for (int w = 0; w < WRITERS; w++)
            if (last[w] < board->acknowledged[w])
                last[w] = board->acknowledged[w];
        if (bhtf_file_refresh(f) != 0)
            return fail("reader", reader, bhtf_file_error(f)->words);
    }
    bhtf_file_close(f);
    return 0;
}

static int make_file(void)
{
    uint8_t *image = malloc(SIZE);
    uint8_t key[KEY];
    uint32_t number;

    unlink(path);
    number = bhtf_create(image, SIZE, KEY, 100, 1);
    for (int w = 0; w < WRITERS; w++)
        for (int i = 0; i < POINTS; i++) {
            make_key(key, w, i);
            number |= bhtf_add(image, SIZE, key, KEY,
                               (const uint8_t *)"0000000000", 10, BHTF_NEW);
        }
    if (number == 0)
        number = bhtf_file_create(path, image, SIZE, NULL, NULL);
    free(image);
    return number == 0 ? 0 : -1;
}

static pid_t start(int i)
{
    pid_t child;

    fflush(stdout);
    child = fork();
    if (child == 0)
        _exit(i < WRITERS ? write_on(i) : read_on(i - WRITERS));
    return child;
}

/* Kills writers and starts them again, until the time is over. */
static unsigned long kill_writers(pid_t *writers, int seconds)
{
    time_t end = time(NULL) + seconds;
    unsigned long kills = 0;
    int status;

    while (time(NULL) < end) {
        int w = rand() % WRITERS;

        usleep((useconds_t)(rand() % 15000 + 500));
        kill(writers[w], SIGKILL);
        if (waitpid(writers[w], &status, 0) != writers[w] ||
            !WIFSIGNALED(status))
            return 0;
        writers[w] = start(w);
        kills++;
    }
    return kills;
}

int main(int argc, char **argv)
{
    int status, bad = 0, starved = 0;
    struct timespec pause = { 0, 0 };
    pid_t writers[WRITERS];

    if (argc < 3)
        return 2;
    path = argv[2];
    board = mmap(NULL, sizeof *board, PROT_READ | PROT_WRITE,
                 MAP_SHARED | MAP_ANONYMOUS, -1, 0);
    if (board == MAP_FAILED || make_file() != 0)
        return 2;
    for (int i = 0; i < WRITERS; i++)
        writers[i] = start(i);
    for (int i = WRITERS; i < WRITERS + READERS; i++)
        start(i);
    pause.tv_sec = atoi(argv[1]);
    if (argc == 3) {
        nanosleep(&pause, NULL);
    } else {
        unsigned long kills = kill_writers(writers, atoi(argv[1]));

        printf("  %lu times killed\n", kills);
        bad += kills < 10;
    }
    board->end = 1;
    while (wait(&status) > 0)
        bad += !(WIFEXITED(status) && WEXITSTATUS(status) == 0);
    for (int i = 0; i < WRITERS + READERS; i++) {
        printf("  %s %d: %lu rounds\n", i < WRITERS ? "writer" : "reader",
               i < WRITERS ? i : i - WRITERS, board->rounds[i]);
        starved += board->rounds[i] < 5;
    }
    printf("%d passed, %d failed\n", (bad == 0) + (starved == 0),
           (bad != 0) + (starved != 0));
    return bad == 0 && starved == 0 ? 0 : 1;
}
