/* cuts [--command PATH] [--seed N] [--random N] [--states N] [--scenes N]
 *     [--put] [--wide] DIRECTORY
 *
 * Changes of control point files that are cut: by the signal KILL before and
 * behind every system call and at random instructions, and by the power,
 * wherever the disk is then. After each cut a reader must see the file before
 * or after the call that was cut, and every call that was acknowledged; then a
 * writer must find the same, and leave no journal. Where the command appends
 * to a file of records, its next change must go on from there, and a copy of
 * the file before all of them must follow. Where a whole image was put in a
 * file's place, the next one must find nothing in its way.
 *
 *   --command  bhtf, cut too
 *   --random   instructions at which each scene is cut, 20 unless given
 *   --states   random states of the disk for each cut, 6 unless given
 *   --scenes   only so many calls are cut, and create
 *   --put      only bhtf_file_put is cut
 *   --wide     the file is of version 2.0.0
 *
 * The last line is 'N passed, M failed'. */
#define _GNU_SOURCE

#include "disk.h"
#include "trace.h"

#include "../../host/include/bhtf_delta.h"

#include <dirent.h>
#include <errno.h>
#include <fcntl.h>
#include <stdio.h>
#include <stdlib.h>
#include <string.h>
#include <sys/stat.h>
#include <sys/syscall.h>
#include <sys/wait.h>
#include <time.h>
#include <unistd.h>

enum { IMAGE = 16384, LONGER = IMAGE + 8192, KEY = 4, SLOTS = 61,
       STATES_MAX = 16 };

static const char *command;
static char work[512], cut_place[600];
static unsigned long random_cuts = 20, random_states = 6, scenes_wanted = 99;
static unsigned long cuts, cut_failures;
static int wide;
static unsigned passed, failed;

/* ---- scenes ---- */

/* a add, r replace, p append, w withdraw, d delete, c compact, b begin,
 * e commit, o rollback, x close and open again. */
struct op {
    char what;
    unsigned key;
    unsigned length;
};

struct scene {
    const char *name;
    uint32_t flags;
    struct op ops[24];
};

static const struct scene scenes[] = {
    { "add", 0, { { 'a', 50, 40 } } },
    { "add an empty text", 0, { { 'a', 50, 0 } } },
    { "replace in place", 0, { { 'r', 3, 20 } } },
    { "replace by a longer text", 0, { { 'r', 3, 6000 } } },
    { "append", 0, { { 'p', 4, 300 } } },
    { "withdraw", 0, { { 'w', 5, 0 } } },
    { "delete", 0, { { 'd', 6, 0 } } },
    { "compact", 0, { { 'c', 0, 0 } } },
    { "three calls on one handle", 0,
      { { 'a', 50, 10 }, { 'd', 50, 0 }, { 'r', 7, 2000 } } },
    { "a batch", 0,
      { { 'b', 0, 0 }, { 'a', 50, 60 }, { 'd', 1, 0 }, { 'r', 2, 700 },
        { 'a', 51, 0 }, { 'w', 3, 0 }, { 'e', 0, 0 } } },
    { "a small change, then a large batch, then a small one", 0,
      { { 'a', 50, 3 }, { 'b', 0, 0 }, { 'a', 51, 4000 }, { 'a', 52, 4000 },
        { 'c', 0, 0 }, { 'e', 0, 0 }, { 'd', 51, 0 } } },
    { "a batch that is undone, and an add", 0,
      { { 'b', 0, 0 }, { 'a', 50, 60 }, { 'd', 1, 0 }, { 'o', 0, 0 },
        { 'a', 51, 5 } } },
    { "two handles after each other", 0,
      { { 'a', 50, 30 }, { 'x', 0, 0 }, { 'a', 51, 30 } } }
};

enum { SCENES = sizeof scenes / sizeof scenes[0] };

static void make_key(uint8_t key[KEY], unsigned number)
{
    memset(key, 0, KEY);
    key[0] = 'K';
    key[1] = (uint8_t)('0' + number / 10);
    key[2] = (uint8_t)('0' + number % 10);
}

static void make_text(uint8_t *text, const struct op *op)
{
    for (unsigned i = 0; i < op->length; i++)
        text[i] = (uint8_t)('a' + (i * 7 + op->key + (unsigned)op->what) % 26);
    if (op->length > 5)
        text[5] = 0xA5;
    if (op->length >= 2000) /* whatever end the journal has, it looks marked */
        memset(text, 0xA5, op->length);
}

/* ---- what must be there ---- */

static uint8_t image_at[STATES_MAX][LONGER];
static int states;

/* Instead of a scene, an image is put in the file's place: that of state 1, of
 * so many bytes. 0 where there is a scene. */
static size_t put_length;

static void must(int holds, const char *what)
{
    if (holds)
        return;
    printf("FAILED: %s\n", what);
    exit(1);
}

static void make_first(void)
{
    must(bhtf_create(image_at[1], IMAGE, KEY, SLOTS, 7) == 0, "create");
    if (wide)
        must(bhtf_convert(image_at[1], IMAGE, image_at[0], IMAGE) == 0,
             "convert");
    else
        memcpy(image_at[0], image_at[1], IMAGE);
    for (unsigned i = 0; i < 40; i++) {
        const struct op op = { 'a', i, 20 + i };
        uint8_t key[KEY], text[100];

        make_key(key, i);
        make_text(text, &op);
        must(bhtf_add(image_at[0], IMAGE, key, KEY, text, op.length, 1) == 0,
             "add");
    }
    for (unsigned i = 30; i < 36; i++) {
        uint8_t key[KEY];

        make_key(key, i);
        must(bhtf_delete(image_at[0], IMAGE, key, KEY) == 0, "delete");
    }
}

static uint32_t mode_of(char what)
{
    return what == 'a' ? BHTF_NEW : what == 'r' ? BHTF_REPLACE
         : what == 'p' ? BHTF_APPEND : BHTF_WITHDRAW;
}

static uint32_t call_plain(uint8_t *image, const struct op *op)
{
    static uint8_t text[8192];
    uint8_t key[KEY];

    make_key(key, op->key);
    make_text(text, op);
    if (op->what == 'd')
        return bhtf_delete(image, IMAGE, key, KEY);
    if (op->what == 'c')
        return bhtf_compact(image, IMAGE);
    return bhtf_add(image, IMAGE, key, KEY, text, op->length,
                    mode_of(op->what));
}

/* The image behind each call of a scene that is acknowledged. */
static void make_states(const struct scene *scene)
{
    static uint8_t now[IMAGE], kept[IMAGE];
    int batch = 0;

    states = 1;
    memcpy(now, image_at[0], IMAGE);
    for (const struct op *op = scene->ops; op->what != 0; op++) {
        if (op->what == 'b')
            memcpy(kept, now, IMAGE);
        else if (op->what == 'o')
            memcpy(now, kept, IMAGE);
        else if (op->what != 'e' && op->what != 'x')
            must(call_plain(now, op) == 0, "a call of a scene is accepted");
        batch = op->what == 'b' ? 1
              : op->what == 'e' || op->what == 'o' ? 0 : batch;
        if (!batch && op->what != 'o' && op->what != 'x')
            memcpy(image_at[states++], now, IMAGE);
    }
}

/* ---- the writer that is cut ---- */

struct job {
    const struct scene *scene;
    char *const *words;   /* of the command, instead */
    char path[700];
    int acknowledge;      /* descriptor */
};

static uint32_t call_layer(bhtf_file *f, const struct op *op)
{
    static uint8_t text[8192];
    uint8_t key[KEY];

    make_key(key, op->key);
    make_text(text, op);
    switch (op->what) {
    case 'b': return bhtf_file_begin(f);
    case 'e': return bhtf_file_commit(f);
    case 'o': return bhtf_file_rollback(f);
    case 'c': return bhtf_file_compact(f);
    case 'd': return bhtf_file_delete(f, key, KEY);
    default:
        return bhtf_file_add(f, key, KEY, text, op->length, mode_of(op->what));
    }
}

static int run_scene(const struct job *job)
{
    const struct bhtf_file_how how = {
        BHTF_FILE_WRITE | job->scene->flags, 1000, NULL, NULL
    };
    bhtf_file *f = bhtf_file_open(job->path, &how, NULL);
    int batch = 0;

    if (f == NULL)
        return 1;
    for (const struct op *op = job->scene->ops; op->what != 0; op++) {
        if (op->what == 'x') {
            if (bhtf_file_close(f) != 0)
                return 1;
            f = bhtf_file_open(job->path, &how, NULL);
            if (f == NULL)
                return 1;
            continue;
        }
        if (call_layer(f, op) != 0)
            return 1;
        batch = op->what == 'b' ? 1
              : op->what == 'e' || op->what == 'o' ? 0 : batch;
        if (!batch && op->what != 'o' &&
            write(job->acknowledge, "+", 1) != 1)
            return 1;
    }
    return bhtf_file_close(f) == 0 ? 0 : 1;
}

static int run_create(const struct job *job)
{
    if (bhtf_file_create(job->path, image_at[1], IMAGE, NULL, NULL) != 0)
        return 1;
    return write(job->acknowledge, "+", 1) == 1 ? 0 : 1;
}

static int run_put(const struct job *job)
{
    if (bhtf_file_put(job->path, image_at[1], put_length, NULL, NULL) != 0)
        return 1;
    return write(job->acknowledge, "+", 1) == 1 ? 0 : 1;
}

static int run_job(void *with)
{
    const struct job *job = with;

    if (job->words != NULL) {
        int null = open("/dev/null", O_RDWR);

        dup2(null, 0);
        dup2(null, 1);
        dup2(null, 2);
        close(null);
        execv(command, job->words);
        return 99;
    }
    if (put_length > 0)
        return run_put(job);
    return job->scene == NULL ? run_create(job) : run_scene(job);
}

/* ---- looking ---- */

static void remove_all(const char *directory)
{
    DIR *d = opendir(directory);
    struct dirent *entry;
    char path[1200];

    if (d == NULL)
        return;
    while ((entry = readdir(d)) != NULL) {
        snprintf(path, sizeof path, "%s/%s", directory, entry->d_name);
        unlink(path);
    }
    closedir(d);
}

static void write_file(const char *path, const uint8_t *bytes, size_t length)
{
    int fd = open(path, O_RDWR | O_CREAT | O_TRUNC | O_CLOEXEC, 0644);

    must(fd >= 0 && write(fd, bytes, length) == (ssize_t)length, path);
    close(fd);
}

static int which_state(const uint8_t *image, size_t length)
{
    for (int i = 0; i < states; i++)
        if (length == (i == 1 && put_length > 0 ? put_length : IMAGE) &&
            memcmp(image, image_at[i], length) == 0)
            return i;
    return -1;
}

static int complain(const char *place, const char *what)
{
    if (cut_failures++ < 10)
        printf("  %s: %s\n", place, what);
    return -1;
}

/* Opens a file and says which state it is in, or -1. */
static int look(const char *path, uint32_t flags, const char *place)
{
    const struct bhtf_file_how how = { flags, 1000, NULL, NULL };
    struct bhtf_file_error why;
    bhtf_file *f = bhtf_file_open(path, &how, &why);
    uint32_t verdict, slot;
    const uint8_t *image;
    size_t length;
    int state;

    if (f == NULL)
        return complain(place, why.words);
    image = bhtf_file_image(f, &length);
    state = which_state(image, length);
    if (state < 0)
        complain(place, "neither before nor after");
    else if (bhtf_check(image, length, &verdict, &slot) != 0 || verdict != 0)
        state = complain(place, "not sound");
    if (bhtf_file_close(f) != 0)
        state = complain(place, "cannot be closed");
    return state;
}

static int is_there(const char *path, const char *behind)
{
    char name[800];

    snprintf(name, sizeof name, "%s%s", path, behind);
    return access(name, F_OK) == 0;
}

/* ---- files of records ---- */

static char records[700], copy_path[700];
static int has_records;                  /* the command appends to them */
static uint8_t *kept_records;            /* what they begin with; may be NULL */
static size_t kept_records_length;

static int run_words(char *const *words)
{
    int status = -1;
    pid_t child;

    fflush(NULL);
    child = fork();
    if (child == 0) {
        int null = open("/dev/null", O_RDWR);

        dup2(null, 0);
        dup2(null, 1);
        dup2(null, 2);
        execv(command, words);
        _exit(99);
    }
    waitpid(child, &status, 0);
    return WIFEXITED(status) ? WEXITSTATUS(status) : -1;
}

static uint8_t *read_file(const char *path, const char *behind, size_t *length);

static void follow_records(const char *path, const char *place)
{
    char *const change[] = { "bhtf", "add", (char *)path, "K60", "probe",
                             "--delta", records, NULL };
    char *const apply[] = { "bhtf", "apply", copy_path, records, "--no-sync",
                            NULL };
    size_t first_length = 0, second_length = 0;
    uint8_t *first, *second;

    if (run_words(change) != 0) {
        complain(place, "the next change with --delta is refused");
        return;
    }
    write_file(copy_path, image_at[0], IMAGE);
    if (run_words(apply) != 0)
        complain(place, "a copy cannot follow");
    first = read_file(path, "", &first_length);
    second = read_file(copy_path, "", &second_length);
    if (first == NULL || second == NULL || first_length != second_length ||
        memcmp(first, second, first_length) != 0)
        complain(place, "a copy that follows is another");
    free(first);
    free(second);
    unlink(copy_path);
}

/* ---- whole images ---- */

/* Whatever was left of one that was cut is not in the way of the next. */
static void put_again(const char *path, const char *place)
{
    struct bhtf_file_options options = BHTF_FILE_OPTIONS;
    struct bhtf_file_error why;
    int state;

    options.flags = BHTF_FILE_NO_SYNC;
    if (bhtf_file_put(path, image_at[1], put_length, &options, &why) != 0) {
        complain(place, why.words);
        return;
    }
    state = look(path, 0, place);
    if (state >= 0 && memcmp(image_at[state], image_at[1], put_length) != 0)
        complain(place, "the next image is not in the file's place");
    if (is_there(path, ".new") || is_there(path, ".journal"))
        complain(place, "a draft or a journal is left by the next image");
}

/* A file after a cut, behind so many acknowledged calls. States of a file that
 * is being created begin with none. */
static void look_after(const char *path, int acknowledged, int absent,
                       const char *place)
{
    int first, second;

    cuts++;
    if (absent && !is_there(path, "")) {
        if (acknowledged > 0)
            complain(place, "what was acknowledged is gone");
        if (put_length > 0)
            put_again(path, place);
        return;
    }
    first = look(path, 0, place);
    if (first < 0)
        return;
    if (absent ? memcmp(image_at[first], image_at[1], IMAGE) != 0
               : first < acknowledged || first > acknowledged + 1)
        complain(place, "not the state of before or after");
    second = look(path, BHTF_FILE_WRITE | BHTF_FILE_NO_SYNC, place);
    if (second >= 0 && second != first)
        complain(place, "a writer sees another state than a reader did");
    if (second >= 0 && is_there(path, ".journal"))
        complain(place, "a journal is left");
    if (second >= 0 && has_records)
        follow_records(path, place);
    if (second >= 0 && put_length > 0)
        put_again(path, place);
}

/* ---- cuts by KILL ---- */

static int take_acknowledged(int fd)
{
    char bytes[64];
    ssize_t count = read(fd, bytes, sizeof bytes);

    return count > 0 ? (int)count : 0;
}

/* Where the scene begins: its files are put into a directory. */
typedef void setting(const char *path);

static void set_first(const char *path)
{
    write_file(path, image_at[0], IMAGE);
}

static void set_records(const char *path)
{
    write_file(path, image_at[0], IMAGE);
    if (kept_records != NULL)
        write_file(records, kept_records, kept_records_length);
}

static void set_nothing(const char *path)
{
    (void)path;
}

struct run {
    const char *name;
    struct job *job;
    setting *set;
    int absent;        /* the file is being created */
    int fresh[2];      /* pipe of acknowledgements */
};

static pid_t start(struct run *r)
{
    remove_all(cut_place);
    r->set(r->job->path);
    must(pipe2(r->fresh, O_CLOEXEC | O_NONBLOCK) == 0, "pipe");
    r->job->acknowledge = r->fresh[1];
    return trace_start(run_job, r->job);
}

static int finish(struct run *r, int status)
{
    int acknowledged = take_acknowledged(r->fresh[0]);

    close(r->fresh[0]);
    close(r->fresh[1]);
    return r->job->words != NULL ? status == 0 : acknowledged;
}

/* Cuts at stop n, and so many instructions behind it: 0 if the job ended
 * before. */
static int cut_once(struct run *r, unsigned long n, unsigned long instructions)
{
    pid_t child = start(r);
    struct stop stop;
    char place[200];
    int status = -1, going = 1;

    for (unsigned long i = 0; i < n && going; i++)
        going = trace_next(child, &stop, &status);
    if (going && instructions > 0)
        going = trace_step(child, instructions, &status);
    if (going)
        trace_kill(child);
    snprintf(place, sizeof place, "%s, stop %lu and %lu instructions", r->name,
             n, instructions);
    look_after(r->job->path, finish(r, status), r->absent, place);
    if (!going && status != 0)
        complain(place, "the job failed");
    return going;
}

static void cut_by_kill(struct run *r)
{
    unsigned long last = 1;

    while (cut_once(r, last, 0))
        last++;
    for (unsigned long i = 0; i < random_cuts; i++)
        cut_once(r, 1 + (unsigned long)rand() % last,
                 1 + (unsigned long)rand() % 1500);
}

/* ---- cuts by the power ---- */

/* What is done when a record begins, and is not flushed. May be NULL. */
static setting *set_late;

/* Answers how many events lie before the job. */
static size_t record(struct run *r)
{
    pid_t child = start(r);
    struct stop stop = { 0, 0, 0, 0 };
    int status = -1, acknowledged = 0;
    size_t before;

    disk_begin(cut_place);
    before = disk_events();
    if (set_late != NULL)
        set_late(r->job->path);
    while (trace_next(child, &stop, &status)) {
        char byte;

        disk_look(child);
        if (!stop.entering && stop.result == 0 &&
            (stop.number == SYS_fsync || stop.number == SYS_fdatasync))
            disk_flushed(child, (int)stop.first);
        while (read(r->fresh[0], &byte, 1) == 1)
            disk_acknowledged(++acknowledged);
    }
    disk_look(child);
    if (r->job->words != NULL && status == 0)
        disk_acknowledged(1);
    close(r->fresh[0]);
    close(r->fresh[1]);
    if (status != 0)
        complain(r->name, "the job failed");
    return before;
}

static size_t chosen;

static int none_of_them(size_t change) { (void)change; return 0; }
static int all_of_them(size_t change) { (void)change; return 1; }
static int only_one(size_t change) { return change == chosen; }
static int all_but_one(size_t change) { return change != chosen; }
static int torn_one(size_t change) { return change == chosen ? 2 : 1; }
static int any_of_them(size_t change) { (void)change; return rand() % 3; }

static void try_state(struct run *r, size_t events, int acknowledged,
                      int (*choose)(size_t change), const char *how)
{
    char place[300];

    snprintf(place, sizeof place, "%s, power cut behind event %lu, %s %lu",
             r->name, (unsigned long)events, how, (unsigned long)chosen);
    remove_all(cut_place);
    disk_write(events, cut_place, choose);
    look_after(r->job->path, acknowledged, r->absent, place);
}

static void cut_by_power(struct run *r)
{
    for (size_t events = record(r); events <= disk_events(); events++) {
        int acknowledged;
        size_t open_changes = disk_open_changes(events, &acknowledged);

        chosen = 0;
        try_state(r, events, acknowledged, none_of_them, "without");
        if (open_changes == 0)
            continue;
        try_state(r, events, acknowledged, all_of_them, "with all");
        for (chosen = 0; chosen < open_changes && chosen < 40; chosen++) {
            try_state(r, events, acknowledged, only_one, "only");
            try_state(r, events, acknowledged, all_but_one, "all but");
            try_state(r, events, acknowledged, torn_one, "torn");
        }
        for (chosen = 0; chosen < random_states; chosen++)
            try_state(r, events, acknowledged, any_of_them, "random");
    }
    disk_end();
}

/* ---- a recovery that is cut ---- */

static uint8_t *kept_file, *kept_journal;
static size_t kept_length;

static void set_unfinished(const char *path)
{
    char journal[800];

    write_file(path, kept_file, IMAGE);
    snprintf(journal, sizeof journal, "%s.journal", path);
    write_file(journal, kept_journal, kept_length);
}

static uint8_t *read_file(const char *path, const char *behind, size_t *length)
{
    char name[800];
    struct stat about;
    uint8_t *bytes;
    int fd;

    snprintf(name, sizeof name, "%s%s", path, behind);
    fd = open(name, O_RDONLY | O_CLOEXEC);
    if (fd < 0 || fstat(fd, &about) != 0) {
        if (fd >= 0)
            close(fd);
        return NULL;
    }
    bytes = malloc((size_t)about.st_size + 1);
    *length = (size_t)about.st_size;
    must(bytes != NULL && read(fd, bytes, *length) == about.st_size, name);
    close(fd);
    return bytes;
}

static int is_unfinished(const char *path)
{
    struct bhtf_file_error why;
    bhtf_file *f = bhtf_file_open(path, NULL, &why);
    int is = f != NULL && bhtf_file_recovered(f);

    if (f != NULL)
        bhtf_file_close(f);
    return is;
}

/* Goes on to a stop where a change is unfinished, and keeps file and journal.
 * Half of the file's changed bytes are taken back, as if in the middle. */
static int keep_unfinished(struct run *r, unsigned long n)
{
    pid_t child = start(r);
    struct stop stop;
    int status, going = 1;
    size_t length;

    for (unsigned long i = 0; i < n && going; i++)
        going = trace_next(child, &stop, &status);
    if (!going) {
        finish(r, status);
        return -1;
    }
    trace_kill(child);
    finish(r, 0);
    if (!is_unfinished(r->job->path))
        return 0;
    free(kept_file);
    free(kept_journal);
    kept_file = read_file(r->job->path, "", &length);
    kept_journal = read_file(r->job->path, ".journal", &kept_length);
    for (size_t i = 0; i < IMAGE; i++)
        if (rand() % 2 == 0)
            kept_file[i] = image_at[0][i];
    return 1;
}

static void report(const char *name)
{
    static unsigned long before;

    if (cut_failures == before) {
        passed++;
        printf("ok: %s (%lu cuts)\n", name, cuts);
    } else {
        failed++;
        printf("FAILED: %s: %lu of %lu cuts\n", name, cut_failures - before,
               cuts);
    }
    before = cut_failures;
    cuts = 0;
    fflush(stdout);
}

/* ---- all ---- */

static void try_scene(const struct scene *scene)
{
    struct job job = { scene, NULL, "", -1 };
    struct run r = { scene->name, &job, set_first, 0, { -1, -1 } };
    char name[200];

    snprintf(job.path, sizeof job.path, "%s/site", cut_place);
    make_states(scene);
    cut_by_kill(&r);
    snprintf(name, sizeof name, "killed: %s", scene->name);
    report(name);
    cut_by_power(&r);
    snprintf(name, sizeof name, "power cut: %s", scene->name);
    report(name);
}

static void try_no_sync(void)
{
    static const struct scene scene = {
        "a batch without syncing", BHTF_FILE_NO_SYNC,
        { { 'b', 0, 0 }, { 'a', 50, 60 }, { 'd', 1, 0 }, { 'e', 0, 0 },
          { 'a', 51, 9 } }
    };
    struct job job = { &scene, NULL, "", -1 };
    struct run r = { scene.name, &job, set_first, 0, { -1, -1 } };

    snprintf(job.path, sizeof job.path, "%s/site", cut_place);
    make_states(&scene);
    cut_by_kill(&r);
    report("killed: a batch without syncing");
}

static void try_recovery(void)
{
    static const struct scene first = {
        "recovery", 0, { { 'b', 0, 0 }, { 'a', 50, 900 }, { 'd', 1, 0 },
                         { 'c', 0, 0 }, { 'e', 0, 0 } }
    };
    static const struct scene nothing = { "recovery", 0, { { 0, 0, 0 } } };
    struct job job = { &first, NULL, "", -1 };
    struct run r = { first.name, &job, set_first, 0, { -1, -1 } };
    int found = 0;

    snprintf(job.path, sizeof job.path, "%s/site", cut_place);
    make_states(&first);
    for (unsigned long n = 1; found >= 0; n++) {
        job.scene = &first;
        r.set = set_first;
        found = keep_unfinished(&r, n);
        if (found <= 0)
            continue;
        /* Whoever finds it sees the state after: there is one state. */
        memcpy(image_at[STATES_MAX - 1], image_at[0], IMAGE);
        memcpy(image_at[0], image_at[1], IMAGE);
        states = 1;
        job.scene = &nothing;
        r.set = set_unfinished;
        cut_by_kill(&r);
        cut_by_power(&r);
        memcpy(image_at[0], image_at[STATES_MAX - 1], IMAGE);
        states = 2;
    }
    if (cuts == 0)
        complain("recovery", "no unfinished change was found");
    report("killed and power cut: recovery");
}

/* The writer was killed between its mark and the flush of that. */
static void set_unmarked(const char *path)
{
    memcpy(kept_file, image_at[0], IMAGE);
    kept_journal[kept_length - 1] = 0;
    set_unfinished(path);
}

static void set_mark(const char *path)
{
    const uint8_t mark = 0xA5;
    char journal[800];
    int fd;

    snprintf(journal, sizeof journal, "%s.journal", path);
    fd = open(journal, O_RDWR | O_CLOEXEC);
    must(fd >= 0 && pwrite(fd, &mark, 1, (off_t)kept_length - 1) == 1, journal);
    close(fd);
}

static void try_unflushed(void)
{
    static const struct scene first = {
        "recovery of a mark that was not flushed", 0,
        { { 'a', 50, 900 }, { 'e', 0, 0 } }
    };
    static const struct scene nothing = { "recovery", 0, { { 0, 0, 0 } } };
    struct job job = { &first, NULL, "", -1 };
    struct run r = { first.name, &job, set_first, 0, { -1, -1 } };
    unsigned long n = 1;

    snprintf(job.path, sizeof job.path, "%s/site", cut_place);
    make_states(&first);
    while (keep_unfinished(&r, n) == 0)
        n++;
    job.scene = &nothing;
    r.set = set_unmarked;
    set_late = set_mark;
    cut_by_power(&r);
    set_late = NULL;
    report("power cut: recovery of a mark that was not flushed");
}

static void try_create(void)
{
    struct job job = { NULL, NULL, "", -1 };
    struct run r = { "create", &job, set_nothing, 1, { -1, -1 } };

    snprintf(job.path, sizeof job.path, "%s/site", cut_place);
    memcpy(image_at[1], image_at[0], IMAGE);
    states = 2;
    cut_by_kill(&r);
    report("killed: create");
    cut_by_power(&r);
    report("power cut: create");
}

/* An image of so many bytes, which has other texts than the file. */
static void make_put(size_t length)
{
    uint8_t text[200];

    put_length = length;
    must(bhtf_create(image_at[1], length, KEY, SLOTS, 9) == 0, "create");
    memset(text, 'n', sizeof text);
    for (unsigned i = 0; i < 40; i++) {
        uint8_t key[KEY];

        make_key(key, i);
        must(bhtf_add(image_at[1], length, key, KEY, text, sizeof text,
                      BHTF_NEW) == 0, "add");
    }
    states = 2;
}

static void cut_put(const char *what, setting *set, int absent)
{
    struct job job = { NULL, NULL, "", -1 };
    struct run r = { what, &job, set, absent, { -1, -1 } };
    char name[200];

    snprintf(job.path, sizeof job.path, "%s/site", cut_place);
    cut_by_kill(&r);
    snprintf(name, sizeof name, "killed: put %s", what);
    report(name);
    cut_by_power(&r);
    snprintf(name, sizeof name, "power cut: put %s", what);
    report(name);
    put_length = 0;
}

/* Puts an image over the file and the journal that are kept: a reader sees that
 * of state 1 before. */
static void put_over_kept(const char *what)
{
    static uint8_t first[IMAGE];

    memcpy(first, image_at[0], IMAGE);
    memcpy(image_at[0], image_at[1], IMAGE);
    make_put(IMAGE);
    cut_put(what, set_unfinished, 0);
    memcpy(image_at[0], first, IMAGE);
}

static void put_over_unfinished(void)
{
    static const struct scene one = { "one add", 0, { { 'a', 50, 900 } } };
    struct job job = { &one, NULL, "", -1 };
    struct run r = { one.name, &job, set_first, 0, { -1, -1 } };
    unsigned long n = 1;
    int found;

    snprintf(job.path, sizeof job.path, "%s/site", cut_place);
    make_states(&one);
    while ((found = keep_unfinished(&r, n)) == 0)
        n++;
    must(found > 0, "an unfinished change");
    put_over_kept("over an unfinished change");
}

/* Keeps file and journal of stop n: 0 if the job ended before. */
static int keep_at(struct run *r, unsigned long n)
{
    pid_t child = start(r);
    struct stop stop;
    int status, going = 1;
    size_t length;

    for (unsigned long i = 0; i < n && going; i++)
        going = trace_next(child, &stop, &status);
    if (going)
        trace_kill(child);
    finish(r, 0);
    free(kept_file);
    free(kept_journal);
    kept_file = read_file(r->job->path, "", &length);
    kept_journal = read_file(r->job->path, ".journal", &kept_length);
    return going;
}

/* The second change of a handle is cut while its content is written: the torn
 * journal knows the file as it is, and harms nobody. Beside another file it
 * would be damage, and must not come back there. */
static void put_over_torn(void)
{
    static const struct scene two = {
        "two adds", 0, { { 'a', 50, 30 }, { 'a', 51, 30 } }
    };
    enum { CONTENT = 4096 };
    struct job job = { &two, NULL, "", -1 };
    struct run r = { two.name, &job, set_first, 0, { -1, -1 } };
    uint8_t content[64];
    int changes = 0;

    snprintf(job.path, sizeof job.path, "%s/site", cut_place);
    make_states(&two);
    for (unsigned long n = 1; changes < 2; n++) {
        must(keep_at(&r, n), "a change whose content is written");
        if (kept_journal == NULL || kept_journal[kept_length - 1] != 0 ||
            memcmp(kept_file, image_at[1], IMAGE) != 0)
            continue;
        if (changes == 0 || memcmp(content, kept_journal + CONTENT,
                                   sizeof content) != 0)
            changes++;
        memcpy(content, kept_journal + CONTENT, sizeof content);
    }
    kept_journal[CONTENT + 8] ^= 1;
    put_over_kept("over a journal that is torn");
}

static void try_put(void)
{
    make_put(IMAGE);
    cut_put("in a file's place", set_first, 0);
    make_put(LONGER);
    cut_put("a longer image", set_first, 0);
    put_over_unfinished();
    put_over_torn();
    make_put(IMAGE);
    memcpy(image_at[STATES_MAX - 1], image_at[0], IMAGE);
    memcpy(image_at[0], image_at[1], IMAGE);
    cut_put("where there is no file", set_nothing, 1);
    memcpy(image_at[0], image_at[STATES_MAX - 1], IMAGE);
}

/* A command, whose result is what it makes when it is not cut. */
static void try_command(const char *name, char *const *words, int absent)
{
    struct job job = { NULL, words, "", -1 };
    struct run r = { name, &job, absent ? set_nothing
                     : has_records ? set_records : set_first, absent,
                     { -1, -1 } };
    struct stop stop;
    char said[200];
    uint8_t *after;
    size_t length = 0;
    int status = -1;
    pid_t child;

    snprintf(job.path, sizeof job.path, "%s/site", cut_place);
    child = start(&r);
    while (trace_next(child, &stop, &status))
        ;
    finish(&r, status);
    after = read_file(job.path, "", &length);
    if (status != 0 || after == NULL || length != IMAGE) {
        complain(name, "the command failed");
    } else {
        memcpy(image_at[1], after, IMAGE);
        states = 2;
        cut_by_kill(&r);
        snprintf(said, sizeof said, "killed: bhtf %s", name);
        report(said);
        cut_by_power(&r);
    }
    free(after);
    snprintf(said, sizeof said, "power cut: bhtf %s", name);
    report(said);
}

#define WORDS(...) (char *[]) { "bhtf", __VA_ARGS__, NULL }

static int write_output(const char *to, char *const *words)
{
    int status = -1;
    pid_t child;

    fflush(NULL);
    child = fork();
    if (child == 0) {
        int fd = open(to, O_RDWR | O_CREAT | O_TRUNC, 0644);

        dup2(fd, 1);
        execv(command, words);
        _exit(99);
    }
    waitpid(child, &status, 0);
    return WIFEXITED(status) ? WEXITSTATUS(status) : -1;
}

/* What leads from the first image to one with another point and texts. */
static void make_delta(const char *path, const char *delta)
{
    char after[800];

    snprintf(after, sizeof after, "%s/after", work);
    write_file(copy_path, image_at[0], IMAGE);
    write_file(after, image_at[0], IMAGE);
    must(run_words(WORDS("add", after, "K51", "a text")) == 0 &&
         run_words(WORDS("delete", after, "K07")) == 0 &&
         write_output(delta, WORDS("delta", copy_path, after)) == 0, path);
}

/* Commands that append what they change: to a new file, and to one that has
 * a record. */
static void try_records(char *path, char *csv)
{
    has_records = 1;
    for (int later = 0; later < 2; later++) {
        try_command(later ? "add --delta" : "add --delta, the first",
                    WORDS("add", path, "K50", "a text", "--delta", records), 0);
        try_command(later ? "compact --delta" : "compact --delta, the first",
                    WORDS("compact", path, "--delta", records), 0);
        if (later)
            try_command("import --delta", WORDS("import", path, csv, "-c",
                        "PENZD", "--delta", records), 0);
        if (!later) { /* a record that leads to the first image */
            char before[800], delta[800];

            snprintf(before, sizeof before, "%s/before", work);
            snprintf(delta, sizeof delta, "%s/first", work);
            write_file(before, image_at[0], IMAGE);
            write_file(copy_path, image_at[0], IMAGE);
            must(run_words(WORDS("delete", before, "K01")) == 0 &&
                 write_output(delta, WORDS("delta", before, copy_path)) == 0,
                 "a record");
            kept_records = read_file(delta, "", &kept_records_length);
        }
    }
    has_records = 0;
}

static void try_commands(void)
{
    char path[700], csv[700], dump[700], delta[700];
    FILE *f;

    snprintf(path, sizeof path, "%s/site", cut_place);
    snprintf(csv, sizeof csv, "%s/points.csv", work);
    snprintf(dump, sizeof dump, "%s/dump", work);
    snprintf(delta, sizeof delta, "%s/delta", work);
    snprintf(copy_path, sizeof copy_path, "%s/copy", work);
    snprintf(records, sizeof records, "%s/records", cut_place);
    f = fopen(csv, "w");
    must(f != NULL, "a CSV file");
    for (int i = 50; i < 60; i++)
        fprintf(f, "K%d,%d.5,%d.25,3,note\n", i, i, i);
    fclose(f);
    try_command("add", WORDS("add", path, "K50", "a text"), 0);
    try_command("add --replace",
                WORDS("add", path, "K03", "another text", "--replace"), 0);
    try_command("add --append",
                WORDS("add", path, "K03", " and more", "--append"), 0);
    try_command("withdraw", WORDS("withdraw", path, "K04"), 0);
    try_command("delete", WORDS("delete", path, "K06"), 0);
    try_command("compact", WORDS("compact", path), 0);
    try_command("import", WORDS("import", path, csv, "-c", "PENZD"), 0);
    try_command("create", WORDS("create", path, "--key-size", "4", "--slots",
                                "61", "--size", "16384"), 1);
    make_delta(path, delta);
    try_command("apply", WORDS("apply", path, delta), 0);
    must(write_output(dump, WORDS("dump", copy_path)) == 0, "a dump");
    try_command("load", WORDS("load", path, dump), 1);
    try_command("convert", WORDS("convert", copy_path, path), 1);
    try_records(path, csv);
}

static int option(int argc, char **argv, int *i, const char *name)
{
    if (strcmp(argv[*i], name) != 0 || *i + 1 >= argc)
        return 0;
    (*i)++;
    return 1;
}

int main(int argc, char **argv)
{
    unsigned seed = (unsigned)time(NULL) ^ (unsigned)getpid();
    const char *directory = NULL;
    int only_put = 0;

    for (int i = 1; i < argc; i++)
        if (option(argc, argv, &i, "--command"))
            command = argv[i];
        else if (option(argc, argv, &i, "--seed"))
            seed = (unsigned)strtoul(argv[i], NULL, 10);
        else if (option(argc, argv, &i, "--random"))
            random_cuts = strtoul(argv[i], NULL, 10);
        else if (option(argc, argv, &i, "--states"))
            random_states = strtoul(argv[i], NULL, 10);
        else if (option(argc, argv, &i, "--scenes"))
            scenes_wanted = strtoul(argv[i], NULL, 10);
        else if (strcmp(argv[i], "--put") == 0)
            only_put = 1;
        else if (strcmp(argv[i], "--wide") == 0)
            wide = 1;
        else
            directory = argv[i];
    must(directory != NULL, "usage: cuts [OPTION..] DIRECTORY");
    printf("seed %u\n", seed);
    srand(seed);
    snprintf(work, sizeof work, "%s", directory);
    snprintf(cut_place, sizeof cut_place, "%s/cut", work);
    must(mkdir(cut_place, 0755) == 0 || errno == EEXIST, "a directory");
    make_first();
    for (unsigned long i = 0; i < SCENES && i < scenes_wanted && !only_put; i++)
        try_scene(&scenes[i]);
    if (scenes_wanted > SCENES && !only_put) {
        try_no_sync();
        try_recovery();
        try_unflushed();
    }
    if (scenes_wanted > SCENES || only_put)
        try_put();
    if (!only_put)
        try_create();
    if (command != NULL)
        try_commands();
    printf("%u passed, %u failed\n", passed, failed);
    return failed == 0 && passed > 0 ? 0 : 1;
}
