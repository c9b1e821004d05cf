/* LMDB: no lock file, no syncing, written through the map. Each call is a
 * transaction of its own; with ONE_TRANSACTION a run of calls is one. */
#define _POSIX_C_SOURCE 200809L
#include <lmdb.h>
#include <unistd.h>

#include "store.h"

enum { MAP = 128 * 1024 * 1024 };

static MDB_env *env;
static MDB_dbi dbi;
static MDB_txn *reader, *run;
static const char *file;
static uint32_t key_size;
static uint8_t last[256];

static MDB_val as_val(const uint8_t *bytes, size_t length)
{
    MDB_val v;

    v.mv_data = (void *)(uintptr_t)bytes;
    v.mv_size = length;
    return v;
}

static void close_db(void)
{
    if (reader)
        mdb_txn_abort(reader);
    if (env)
        mdb_env_close(env);
    reader = NULL;
    env = NULL;
}

static int open_table(void)
{
    MDB_txn *txn;

    if (mdb_txn_begin(env, NULL, 0, &txn))
        return FAILED;
    if (mdb_dbi_open(txn, NULL, 0, &dbi)) {
        mdb_txn_abort(txn);
        return FAILED;
    }
    return mdb_txn_commit(txn) ? FAILED : DONE;
}

static int reset_db(void)
{
    close_db();
    unlink(file);
    if (mdb_env_create(&env) || mdb_env_set_mapsize(env, MAP))
        return FAILED;
    if (mdb_env_open(env, file,
                     MDB_NOSUBDIR | MDB_NOSYNC | MDB_WRITEMAP | MDB_NOLOCK,
                     0600))
        return FAILED;
    if (open_table() || mdb_txn_begin(env, NULL, MDB_RDONLY, &reader))
        return FAILED;
    mdb_txn_reset(reader);
    return DONE;
}

static int open_db(const char *path, uint32_t k, uint32_t slots, size_t room)
{
    (void)slots;
    (void)room;
    file = path;
    key_size = k;
    return reset_db();
}

#ifdef ONE_TRANSACTION
static int begin(int writing)
{
    return mdb_txn_begin(env, NULL, writing ? 0 : MDB_RDONLY, &run);
}

static int end(void)
{
    int answer = mdb_txn_commit(run);

    run = NULL;
    return answer;
}
#endif

static MDB_txn *writing(void)
{
    MDB_txn *txn = run;

    if (!txn && mdb_txn_begin(env, NULL, 0, &txn))
        return NULL;
    return txn;
}

static int written(MDB_txn *txn, int answer)
{
    if (run)
        return answer ? FAILED : DONE;
    if (answer) {
        mdb_txn_abort(txn);
        return FAILED;
    }
    return mdb_txn_commit(txn) ? FAILED : DONE;
}

static int put(const uint8_t *key, struct text text, unsigned flag)
{
    MDB_val k = as_val(key, key_size), v = as_val(text.bytes, text.length);
    MDB_txn *txn = writing();

    return txn ? written(txn, mdb_put(txn, dbi, &k, &v, flag)) : FAILED;
}

static int add(const uint8_t *key, struct text text)
{
    return put(key, text, MDB_NOOVERWRITE);
}

static int replace(const uint8_t *key, struct text text)
{
    return put(key, text, 0);
}

static int delete(const uint8_t *key)
{
    MDB_val k = as_val(key, key_size);
    MDB_txn *txn = writing();

    return txn ? written(txn, mdb_del(txn, dbi, &k, NULL)) : FAILED;
}

static int lookup(const uint8_t *key, struct text *text)
{
    MDB_val k = as_val(key, key_size), v;
    int answer;

    text->bytes = last;
    text->length = 0;
    if (!run && mdb_txn_renew(reader))
        return FAILED;
    answer = mdb_get(run ? run : reader, dbi, &k, &v);
    if (answer == 0 && v.mv_size <= sizeof last) {
        memcpy(last, v.mv_data, v.mv_size);
        text->length = v.mv_size;
    }
    if (!run)
        mdb_txn_reset(reader);
    return answer == 0 ? DONE : answer == MDB_NOTFOUND ? ABSENT : FAILED;
}

static int walk_in(MDB_txn *txn, struct seen *seen)
{
    MDB_cursor *cursor;
    MDB_val k, v;

    if (mdb_cursor_open(txn, dbi, &cursor))
        return FAILED;
    while (mdb_cursor_get(cursor, &k, &v, MDB_NEXT) == 0)
        see(seen, k.mv_data);
    mdb_cursor_close(cursor);
    return DONE;
}

static int walk(struct seen *seen)
{
    int answer;

    if (run)
        return walk_in(run, seen);
    if (mdb_txn_renew(reader))
        return FAILED;
    answer = walk_in(reader, seen);
    mdb_txn_reset(reader);
    return answer;
}

static uint32_t count(void)
{
    MDB_stat stat;

    stat.ms_entries = 0;
    if (!run && mdb_txn_renew(reader))
        return 0;
    mdb_stat(run ? run : reader, dbi, &stat);
    if (!run)
        mdb_txn_reset(reader);
    return (uint32_t)stat.ms_entries;
}

const struct store store = {
    .open = open_db,
    .reset = reset_db,
    .add = add,
    .replace = replace,
    .remove = delete,
    .lookup = lookup,
    .walk = walk,
    .count = count,
#ifdef ONE_TRANSACTION
    .begin = begin,
    .end = end,
#endif
    .close = close_db,
};
