// Kyoto Cabinet, hash database: as many buckets as the image has slots, the
// whole file mapped, no file lock, no syncing.
#include <kchashdb.h>

#include "store.h"

namespace {

kyotocabinet::HashDB *db;
const char *file;
uint32_t key_size, buckets;
uint8_t last[256];

const char *as_chars(const uint8_t *bytes)
{
    return reinterpret_cast<const char *>(bytes);
}

void close_db()
{
    if (db)
        db->close();
    delete db;
    db = nullptr;
}

int reset_db()
{
    close_db();
    db = new kyotocabinet::HashDB;
    db->tune_buckets(buckets);
    db->tune_map(64 << 20);
    using kyotocabinet::HashDB;
    bool open = db->open(file, HashDB::OWRITER | HashDB::OCREATE |
                                   HashDB::OTRUNCATE | HashDB::ONOLOCK);
    return open ? DONE : FAILED;
}

int open_db(const char *path, uint32_t k, uint32_t slots, size_t)
{
    file = path;
    key_size = k;
    buckets = slots;
    return reset_db();
}

int add(const uint8_t *key, struct text text)
{
    bool done = db->add(as_chars(key), key_size, as_chars(text.bytes),
                        text.length);
    return done ? DONE : FAILED;
}

int replace(const uint8_t *key, struct text text)
{
    bool done = db->replace(as_chars(key), key_size, as_chars(text.bytes),
                            text.length);
    return done ? DONE : FAILED;
}

int remove_key(const uint8_t *key)
{
    return db->remove(as_chars(key), key_size) ? DONE : FAILED;
}

int lookup(const uint8_t *key, struct text *text)
{
    int32_t length = db->get(as_chars(key), key_size,
                             reinterpret_cast<char *>(last), sizeof last);
    text->bytes = last;
    text->length = length < 0 ? 0 : length;
    return length < 0 ? ABSENT : DONE;
}

class Walk : public kyotocabinet::DB::Visitor {
public:
    explicit Walk(struct seen *seen) : seen_(seen) {}

private:
    const char *visit_full(const char *key, size_t, const char *, size_t,
                           size_t *) override
    {
        see(seen_, reinterpret_cast<const uint8_t *>(key));
        return NOP;
    }
    struct seen *seen_;
};

int walk(struct seen *seen)
{
    Walk visitor(seen);
    return db->iterate(&visitor, false) ? DONE : FAILED;
}

uint32_t count()
{
    return static_cast<uint32_t>(db->count());
}

} // namespace

extern "C" const struct store store = {
    open_db, reset_db, add,   replace, nullptr, remove_key, lookup,
    walk,    nullptr,  count, nullptr, nullptr, nullptr,    close_db,
};
