/* The file layer's locks.
 *
 * Four stretches of a file are locked, the later three after any byte that a
 * file can have:
 *
 *   bytes    shared by readers; exclusive to a writer while it changes them
 *   gate     held by whoever waits for the bytes, in the same way: a waiting
 *            writer keeps new readers out, and a waiting reader has its turn
 *            before the writer's next change
 *   writer   exclusive to one writer from its opening to its closing
 *   steady   the first byte of that, which the writer takes when it knows the
 *            file to be whole: a reader that has the bytes and finds it taken
 *            need not look at the journal
 *
 * An exclusive fcntl lock on the whole file, which other writers of these
 * files take, covers all four. Locks belong to the open file where the system
 * has such (F_OFD_SETLK), so that handles of one process exclude each other
 * too, and that the process may open and close the file elsewhere.
 */
#define _GNU_SOURCE /* for these */

#include "layer.h"

#include <dirent.h>
#include <errno.h>
#include <fcntl.h>
#include <stdio.h>
#include <stdlib.h>
#include <string.h>
#include <sys/stat.h>
#include <time.h>

#ifdef F_OFD_SETLK
#define SET_LOCK F_OFD_SETLK
#define GET_LOCK F_OFD_GETLK
#else
#define SET_LOCK F_SETLK
#define GET_LOCK F_GETLK
#endif

/* A writer that has waited for the bytes for so long (milliseconds) lets the
 * readers that it kept out pass: one that is stuck must not stop them all. */
#define TURN 500
#define BETWEEN_TURNS 20

struct stretch {
    off_t start;
    off_t length; /* 0: without end */
};

static const struct stretch bytes_lock = { 0, 0x40000000 };
static const struct stretch gate_lock = { 0x40000000, 1 };
static const struct stretch steady_lock = { 0x40000001, 1 };
static const struct stretch writer_lock = { 0x40000002, 0 };

/* ---- time ---- */

int64_t layer_now(void)
{
    struct timespec t;

    clock_gettime(CLOCK_MONOTONIC, &t);
    return (int64_t)t.tv_sec * 1000 + t.tv_nsec / 1000000;
}

int64_t layer_deadline(const bhtf_file *f)
{
    return f->how.wait == BHTF_FILE_FOREVER ? INT64_MAX
                                            : layer_now() + f->how.wait;
}

void bhtf_file_set_wait(bhtf_file *file, uint32_t wait)
{
    file->how.wait = wait;
}

static void sleep_for(int milliseconds)
{
    const struct timespec pause = { 0, milliseconds * 1000000L };

    nanosleep(&pause, NULL);
}

/* ---- one lock ---- */

static int ask(const bhtf_file *f, int command, short type, struct stretch s,
               struct flock *lock)
{
    memset(lock, 0, sizeof *lock);
    lock->l_type = type;
    lock->l_whence = SEEK_SET;
    lock->l_start = s.start;
    lock->l_len = s.length;
    return fcntl(f->fd, command, lock);
}

static void give(const bhtf_file *f, struct stretch s)
{
    struct flock lock;

    ask(f, SET_LOCK, F_UNLCK, s, &lock);
}

enum taken { TAKEN, LATE, FAILED };

/* Takes a lock, waiting for it until then. FAILED comes after a note. */
static enum taken take(bhtf_file *f, short type, struct stretch s,
                       int64_t until)
{
    struct flock lock;

    while (ask(f, SET_LOCK, type, s, &lock) != 0) {
        int error = errno;

        if (error != EACCES && error != EAGAIN && error != EINTR) {
            layer_fail(f, BHTF_FILE_SYSTEM, error, "cannot lock");
            return FAILED;
        }
        if (f->how.give_up != NULL && f->how.give_up(f->how.with)) {
            layer_fail(f, BHTF_FILE_GIVEN_UP, 0,
                       "interrupted while others had it locked");
            return FAILED;
        }
        if (layer_now() >= until)
            return LATE;
        sleep_for(1);
    }
    return TAKEN;
}

/* ---- who has it ---- */

static int find_holder(const bhtf_file *f, short type, struct stretch s,
                       struct flock *lock)
{
    return ask(f, GET_LOCK, type, s, lock) == 0 && lock->l_type != F_UNLCK;
}

/* Is there, in what the system tells of a descriptor, this lock on the file?
 * Locks of open files name no process: so all are looked through. */
static int tells_lock(const char *path, ino_t inode, const struct flock *lock)
{
    FILE *info = fopen(path, "re");
    char line[256];
    int found = 0;

    while (info != NULL && !found && fgets(line, sizeof line, info) != NULL) {
        unsigned long number;
        long long start;

        found = sscanf(line, "lock: %*d: %*s %*s %*s %*d %*x:%*x:%lu %lld",
                       &number, &start) == 2 &&
                number == inode && start == (long long)lock->l_start;
    }
    if (info != NULL)
        fclose(info);
    return found;
}

static int process_holds(const char *process, ino_t inode,
                         const struct flock *lock)
{
    char path[300];
    struct dirent *entry;
    int found = 0;
    DIR *d;

    snprintf(path, sizeof path, "/proc/%.20s/fdinfo", process);
    d = opendir(path);
    while (d != NULL && !found && (entry = readdir(d)) != NULL) {
        snprintf(path, sizeof path, "/proc/%.20s/fdinfo/%.20s", process,
                 entry->d_name);
        found = tells_lock(path, inode, lock);
    }
    if (d != NULL)
        closedir(d);
    return found;
}

/* The process that holds a lock, as far as this one may know; else 0. */
static long find_process(const bhtf_file *f, const struct flock *lock)
{
    struct dirent *entry;
    struct stat about;
    long found = 0;
    DIR *d;

    if (lock->l_pid > 0)
        return (long)lock->l_pid;
    d = fstat(f->fd, &about) == 0 ? opendir("/proc") : NULL;
    while (d != NULL && found == 0 && (entry = readdir(d)) != NULL)
        if (entry->d_name[0] >= '1' && entry->d_name[0] <= '9' &&
            process_holds(entry->d_name, about.st_ino, lock))
            found = atol(entry->d_name);
    if (d != NULL)
        closedir(d);
    return found;
}

/* Whoever holds the gate waits for one that holds the bytes: that one is to
 * blame. */
static uint32_t blame(bhtf_file *f, short type, struct stretch s)
{
    double seconds = f->limit / 1000.0;
    struct flock lock;
    const char *what;
    long process;

    if (!find_holder(f, F_WRLCK, bytes_lock, &lock) &&
        !find_holder(f, type, s, &lock))
        return layer_fail(f, BHTF_FILE_LOCKED, 0,
                          "still locked by another process after %g s",
                          seconds);
    what = lock.l_type == F_WRLCK ? "writing" : "reading";
    process = find_process(f, &lock);
    if (process > 0)
        return layer_fail(f, BHTF_FILE_LOCKED, 0,
                          "still locked by process %ld (%s) after %g s",
                          process, what, seconds);
    return layer_fail(f, BHTF_FILE_LOCKED, 0,
                      "still locked by another process (%s) after %g s", what,
                      seconds);
}

/* ---- the four ---- */

uint32_t layer_lock_writer(bhtf_file *f, int64_t deadline)
{
    enum taken taken = take(f, F_WRLCK, writer_lock, deadline);

    if (taken == LATE)
        return blame(f, F_WRLCK, writer_lock);
    return taken == TAKEN ? BHTF_ACCEPTED : f->why.number;
}

/* Nobody else takes it without the writer's lock. */
uint32_t layer_lock_steady(bhtf_file *f)
{
    enum taken taken = take(f, F_WRLCK, steady_lock, layer_now());

    if (taken == LATE)
        return blame(f, F_WRLCK, steady_lock);
    return taken == TAKEN ? BHTF_ACCEPTED : f->why.number;
}

int layer_is_steady(const bhtf_file *f)
{
    struct flock lock;

    return find_holder(f, F_RDLCK, steady_lock, &lock) &&
           lock.l_type == F_WRLCK;
}

/* A turn at the gate and the bytes. */
static enum taken take_turn(bhtf_file *f, short type, int64_t deadline)
{
    enum taken taken = take(f, type, gate_lock, deadline);
    int64_t turn = layer_now() + TURN;

    if (taken != TAKEN)
        return taken;
    taken = take(f, type, bytes_lock,
                 type == F_WRLCK && turn < deadline ? turn : deadline);
    give(f, gate_lock);
    return taken;
}

uint32_t layer_lock_bytes(bhtf_file *f, int64_t deadline)
{
    short type = f->writing ? F_WRLCK : F_RDLCK;
    enum taken taken = take_turn(f, type, deadline);

    while (taken == LATE && layer_now() < deadline) {
        sleep_for(BETWEEN_TURNS);
        taken = take_turn(f, type, deadline);
    }
    if (taken == LATE)
        return blame(f, type, gate_lock);
    if (taken == FAILED)
        return f->why.number;
    f->held = 1;
    return BHTF_ACCEPTED;
}

void layer_unlock_bytes(bhtf_file *f)
{
    if (f->held)
        give(f, bytes_lock);
    f->held = 0;
}

void layer_unlock_all(bhtf_file *f)
{
    if (layer_is_owner(f)) {
        layer_unlock_bytes(f);
        if (f->writing) {
            give(f, steady_lock);
            give(f, writer_lock);
        }
    }
    f->held = 0;
}
