/* Trivial database: as many chains as the image has slots, no file lock, no
 * syncing. */
#define _POSIX_C_SOURCE 200809L
#include <fcntl.h>
#include <signal.h>
#include <stdbool.h>
#include <stdlib.h>
#include <sys/types.h>
#include <unistd.h>

#include <tdb.h>

#include "store.h"

static TDB_CONTEXT *db;
static const char *file;
static uint32_t key_size, chains;
static uint8_t last[256];

static TDB_DATA as_data(const uint8_t *bytes, size_t length)
{
    TDB_DATA d;

    d.dptr = (unsigned char *)(uintptr_t)bytes;
    d.dsize = length;
    return d;
}

static int reset_db(void)
{
    if (db)
        tdb_close(db);
    unlink(file);
    db = tdb_open(file, (int)chains,
                  TDB_NOLOCK | TDB_NOSYNC | TDB_INCOMPATIBLE_HASH,
                  O_RDWR | O_CREAT, 0600);
    return db ? DONE : FAILED;
}

static int open_db(const char *path, uint32_t k, uint32_t slots, size_t room)
{
    (void)room;
    file = path;
    key_size = k;
    chains = slots;
    return reset_db();
}

static int put(const uint8_t *key, struct text text, int flag)
{
    int answer = tdb_store(db, as_data(key, key_size),
                           as_data(text.bytes, text.length), flag);

    return answer == 0 ? DONE : FAILED;
}

static int add(const uint8_t *key, struct text text)
{
    return put(key, text, TDB_INSERT);
}

static int replace(const uint8_t *key, struct text text)
{
    return put(key, text, TDB_MODIFY);
}

static int delete(const uint8_t *key)
{
    return tdb_delete(db, as_data(key, key_size)) == 0 ? DONE : FAILED;
}

static int take(TDB_DATA key, TDB_DATA data, void *to)
{
    struct text *text = to;

    (void)key;
    if (data.dsize > sizeof last)
        return -1;
    memcpy(last, data.dptr, data.dsize);
    text->length = data.dsize;
    return 0;
}

static int lookup(const uint8_t *key, struct text *text)
{
    text->bytes = last;
    text->length = 0;
    return tdb_parse_record(db, as_data(key, key_size), take, text) == 0
               ? DONE
               : ABSENT;
}

static int visit(TDB_CONTEXT *context, TDB_DATA key, TDB_DATA data, void *to)
{
    (void)context;
    (void)data;
    see(to, key.dptr);
    return 0;
}

static int walk(struct seen *seen)
{
    return tdb_traverse_read(db, visit, seen) < 0 ? FAILED : DONE;
}

static uint32_t count(void)
{
    return (uint32_t)tdb_traverse_read(db, NULL, NULL);
}

static void close_db(void)
{
    tdb_close(db);
    db = NULL; /* a store may be opened again */
}

const struct store store = {
    .open = open_db,
    .reset = reset_db,
    .add = add,
    .replace = replace,
    .remove = delete,
    .lookup = lookup,
    .walk = walk,
    .count = count,
    .close = close_db,
};
