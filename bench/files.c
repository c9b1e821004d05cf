/* files DIRECTORY [SINGLES [BATCH]]: changes of a file on the disk, through the
 * file layer and through two other engines, each with syncing on: single adds,
 * each on the disk before the next, and a batch as one change; and lookups
 * through the layer beside the bare call. A line for each, with the time of one
 * in microseconds, the middle of five turns.
 *
 * tdb and LMDB as bench/tdb.c and bench/lmdb.c open them, but that they sync. */
#include "../host/include/bhtf_file.h"

#include <fcntl.h>
#include <lmdb.h>
#include <signal.h>
#include <stdbool.h>
#include <stdint.h>
#include <stdio.h>
#include <stdlib.h>
#include <string.h>
#include <sys/stat.h>
#include <tdb.h>
#include <time.h>
#include <unistd.h>

enum { KEY = 16, TEXT = 48, SLOTS = 65536, SIZE = 16 << 20, TURNS = 5 };

static char place[400];
static int singles = 200, batch = 10000;

static double now(void)
{
    struct timespec t;

    clock_gettime(CLOCK_MONOTONIC, &t);
    return (double)t.tv_sec * 1e6 + (double)t.tv_nsec / 1e3;
}

static void must(int holds, const char *what)
{
    if (holds)
        return;
    fprintf(stderr, "files: %s failed\n", what);
    exit(1);
}

static void make_point(char key[KEY + 1], char text[TEXT + 1], int number)
{
    memset(key, 0, KEY + 1);
    snprintf(key, KEY + 1, "CP-%08d", number);
    snprintf(text, TEXT + 1, "%d.402,%d.118,489.271,bolt", number, number);
    memset(text + strlen(text), '.', TEXT - strlen(text));
    text[TEXT] = '\0';
}

static const char *name(const char *last)
{
    static char path[500];

    snprintf(path, sizeof path, "%s/%s", place, last);
    return path;
}

/* ---- the file layer ---- */

static bhtf_file *file;

static void layer_open(void)
{
    const struct bhtf_file_how how = { BHTF_FILE_WRITE, 1000, NULL, NULL };
    uint8_t *image = malloc(SIZE);

    unlink(name("bhtf"));
    must(image != NULL && bhtf_create(image, SIZE, KEY, SLOTS, 1) == 0 &&
         bhtf_file_create(name("bhtf"), image, SIZE, NULL, NULL) == 0, "create");
    free(image);
    file = bhtf_file_open(name("bhtf"), &how, NULL);
    must(file != NULL, "open");
}

static void layer_begin(void) { must(bhtf_file_begin(file) == 0, "begin"); }
static void layer_commit(void) { must(bhtf_file_commit(file) == 0, "commit"); }
static void layer_close(void) { bhtf_file_close(file); }

static void layer_add(const char *key, const char *text)
{
    must(bhtf_file_add(file, (const uint8_t *)key, KEY, (const uint8_t *)text,
                       TEXT, BHTF_NEW) == 0, "add");
}

/* ---- tdb ---- */

static struct tdb_context *tdb;

static TDB_DATA as_data(const char *bytes, size_t length)
{
    TDB_DATA d;

    d.dptr = (unsigned char *)bytes;
    d.dsize = length;
    return d;
}

static void tdb_begin_(void)
{
    must(tdb_transaction_start(tdb) == 0, "tdb_transaction_start");
}

static void tdb_commit_(void)
{
    must(tdb_transaction_commit(tdb) == 0, "tdb_transaction_commit");
}

static void tdb_open_(void)
{
    unlink(name("tdb"));
    tdb = tdb_open(name("tdb"), SLOTS, TDB_DEFAULT, O_RDWR | O_CREAT, 0644);
    must(tdb != NULL, "tdb_open");
}

static void tdb_put_(const char *key, const char *text)
{
    must(tdb_store(tdb, as_data(key, KEY), as_data(text, TEXT),
                   TDB_INSERT) == 0, "tdb_store");
}

static void tdb_add_(const char *key, const char *text)
{
    tdb_begin_();
    tdb_put_(key, text);
    tdb_commit_();
}

static void tdb_close_(void) { tdb_close(tdb); }

/* ---- LMDB ---- */

static MDB_env *env;
static MDB_txn *txn;
static MDB_dbi dbi;

static void lmdb_begin(void)
{
    must(mdb_txn_begin(env, NULL, 0, &txn) == 0, "mdb_txn_begin");
}

static void lmdb_commit(void)
{
    must(mdb_txn_commit(txn) == 0, "mdb_txn_commit");
}

static void lmdb_open(void)
{
    unlink(name("lmdb"));
    unlink(name("lmdb-lock"));
    must(mdb_env_create(&env) == 0 &&
         mdb_env_set_mapsize(env, 64 << 20) == 0 &&
         mdb_env_open(env, name("lmdb"), MDB_NOSUBDIR, 0644) == 0, "mdb_env");
    lmdb_begin();
    must(mdb_dbi_open(txn, NULL, MDB_CREATE, &dbi) == 0, "mdb_dbi_open");
    lmdb_commit();
}

static void lmdb_put(const char *key, const char *text)
{
    MDB_val k, v;

    k.mv_data = (void *)key;
    k.mv_size = KEY;
    v.mv_data = (void *)text;
    v.mv_size = TEXT;
    must(mdb_put(txn, dbi, &k, &v, MDB_NOOVERWRITE) == 0, "mdb_put");
}

static void lmdb_add(const char *key, const char *text)
{
    lmdb_begin();
    lmdb_put(key, text);
    lmdb_commit();
}

static void lmdb_close(void) { mdb_env_close(env); }

/* ---- turns ---- */

struct engine {
    const char *name;
    void (*open)(void);
    void (*add)(const char *key, const char *text);   /* as one change */
    void (*begin)(void);
    void (*put)(const char *key, const char *text);
    void (*commit)(void);
    void (*close)(void);
};

static const struct engine engines[] = {
    { "file layer", layer_open, layer_add, layer_begin, layer_add,
      layer_commit, layer_close },
    { "tdb", tdb_open_, tdb_add_, tdb_begin_, tdb_put_, tdb_commit_,
      tdb_close_ },
    { "LMDB", lmdb_open, lmdb_add, lmdb_begin, lmdb_put, lmdb_commit,
      lmdb_close }
};

enum { ENGINES = sizeof engines / sizeof engines[0] };

static int by_time(const void *a, const void *b)
{
    double x = *(const double *)a, y = *(const double *)b;

    return (x > y) - (x < y);
}

static double middle(double *times)
{
    qsort(times, TURNS, sizeof *times, by_time);
    return times[TURNS / 2];
}

static double add_singly(const struct engine *e, int from)
{
    char key[KEY + 1], text[TEXT + 1];
    double start = now();

    for (int i = 0; i < singles; i++) {
        make_point(key, text, from + i);
        e->add(key, text);
    }
    return (now() - start) / singles;
}

static double add_batch(const struct engine *e, int from)
{
    char key[KEY + 1], text[TEXT + 1];
    double start = now();

    e->begin();
    for (int i = 0; i < batch; i++) {
        make_point(key, text, from + i);
        e->put(key, text);
    }
    e->commit();
    return (now() - start) / batch;
}

static void time_changes(void)
{
    double single[ENGINES][TURNS], many[ENGINES][TURNS];

    for (int e = 0; e < ENGINES; e++)
        engines[e].open();
    for (int turn = 0; turn < TURNS; turn++)
        for (int e = 0; e < ENGINES; e++) {
            int from = turn * (singles + batch);

            single[e][turn] = add_singly(&engines[e], from);
            many[e][turn] = add_batch(&engines[e], from + singles);
        }
    for (int e = 0; e < ENGINES; e++) {
        engines[e].close();
        printf("single add, synced\t%s\t%.2f\n", engines[e].name,
               middle(single[e]));
        printf("add in a batch of %d, synced once\t%s\t%.3f\n", batch,
               engines[e].name, middle(many[e]));
    }
}

/* ---- lookups ---- */

static uint32_t seen;

static double look_up(const uint8_t *image, size_t length)
{
    char key[KEY + 1], text[TEXT + 1];
    double start = now();
    uint32_t at, size;

    for (int i = 0; i < batch; i++) {
        make_point(key, text, singles + i);
        must(bhtf_lookup(image, length, (const uint8_t *)key, KEY, &at,
                         &size) == 0, "lookup");
        seen += image[at];
    }
    return (now() - start) / batch;
}

static double look_and_let_go(bhtf_file *f, int lookups)
{
    char key[KEY + 1], text[TEXT + 1];
    double start = now();
    uint32_t at, size;

    for (int i = 0; i < lookups; i++) {
        const uint8_t *image;
        size_t length;

        must(bhtf_file_refresh(f) == 0, "refresh");
        image = bhtf_file_image(f, &length);
        make_point(key, text, singles + i);
        must(bhtf_lookup(image, length, (const uint8_t *)key, KEY, &at,
                         &size) == 0, "lookup");
        seen += image[at];
        bhtf_file_pause(f);
    }
    return (now() - start) / lookups;
}

static void time_lookups(void)
{
    double bare[TURNS], held[TURNS], anew[TURNS];
    uint8_t *copy = malloc(SIZE);
    bhtf_file *f = bhtf_file_open(name("bhtf"), NULL, NULL);
    const uint8_t *image;
    size_t length;

    must(copy != NULL && f != NULL, "open");
    image = bhtf_file_image(f, &length);
    memcpy(copy, image, length);
    for (int turn = 0; turn < TURNS; turn++) {
        bare[turn] = look_up(copy, length);
        held[turn] = look_up(image, length);
        anew[turn] = look_and_let_go(f, batch);
        must(bhtf_file_refresh(f) == 0, "refresh");
        image = bhtf_file_image(f, &length);
    }
    printf("lookup\tbare call\t%.4f\n", middle(bare));
    printf("lookup\tfile layer, held open\t%.4f\n", middle(held));
    printf("lookup\tfile layer, refreshed for each\t%.4f\n", middle(anew));
    bhtf_file_close(f);
    free(copy);
}

int main(int argc, char **argv)
{
    if (argc < 2)
        return 2;
    snprintf(place, sizeof place, "%s", argv[1]);
    if (argc > 2)
        singles = atoi(argv[2]);
    if (argc > 3)
        batch = atoi(argv[3]);
    must(TURNS * (singles + batch) < SLOTS, "the number of points");
    time_changes();
    time_lookups();
    return seen == 1;
}
