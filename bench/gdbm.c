/* GNU dbm: no file lock, no syncing. */
#include <gdbm.h>
#include <stdlib.h>

#include "store.h"

static GDBM_FILE db;
static const char *file;
static uint32_t key_size;
static uint8_t last[256];

static datum as_datum(const void *bytes, size_t length)
{
    datum d;

    d.dptr = (char *)(uintptr_t)bytes;
    d.dsize = (int)length;
    return d;
}

static int reset_db(void)
{
    if (db)
        gdbm_close(db);
    db = gdbm_open(file, 0, GDBM_NEWDB | GDBM_NOLOCK, 0600, NULL);
    return db ? DONE : FAILED;
}

static int open_db(const char *path, uint32_t k, uint32_t slots, size_t room)
{
    (void)slots;
    (void)room;
    file = path;
    key_size = k;
    return reset_db();
}

static int put(const uint8_t *key, struct text text, int flag)
{
    int answer = gdbm_store(db, as_datum(key, key_size),
                            as_datum(text.bytes, text.length), flag);

    return answer == 0 ? DONE : FAILED;
}

static int add(const uint8_t *key, struct text text)
{
    return put(key, text, GDBM_INSERT);
}

static int replace(const uint8_t *key, struct text text)
{
    return put(key, text, GDBM_REPLACE);
}

static int delete(const uint8_t *key)
{
    return gdbm_delete(db, as_datum(key, key_size)) == 0 ? DONE : FAILED;
}

static int lookup(const uint8_t *key, struct text *text)
{
    datum d = gdbm_fetch(db, as_datum(key, key_size));

    text->bytes = last;
    text->length = 0;
    if (!d.dptr)
        return ABSENT;
    if (d.dsize <= (int)sizeof last) {
        text->length = (size_t)d.dsize;
        memcpy(last, d.dptr, text->length);
    }
    free(d.dptr);
    return DONE;
}

static int walk(struct seen *seen)
{
    datum key = gdbm_firstkey(db);

    while (key.dptr) {
        datum next = gdbm_nextkey(db, key);

        see(seen, (const uint8_t *)key.dptr);
        free(key.dptr);
        key = next;
    }
    return DONE;
}

static uint32_t count(void)
{
    gdbm_count_t points = 0;

    gdbm_count(db, &points);
    return (uint32_t)points;
}

static void close_db(void)
{
    gdbm_close(db);
}

const struct store store = {
    .open = open_db,
    .reset = reset_db,
    .add = add,
    .replace = replace,
    .remove = delete,
    .lookup = lookup,
    .walk = walk,
    .count = count,
    .close = close_db,
};
