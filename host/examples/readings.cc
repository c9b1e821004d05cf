// readings FILE NAME NUMBER..: stores readings under a name, by column, and
// prints what is stored then. A reading is a signed number of tenths of a
// millimetre, 4 bytes, most significant first.
// c++ -std=c++17 readings.cc $(pkg-config --cflags --libs bhtf)
#include <bhtf_file.h>

#include <charconv>
#include <iostream>
#include <memory>
#include <stdexcept>
#include <string>
#include <vector>

constexpr uint32_t width = 4;
struct Close { void operator()(bhtf_file *f) { bhtf_file_close(f); } };
using File = std::unique_ptr<bhtf_file, Close>;

static void must(const File &f, uint32_t number)
{
    if (number != BHTF_ACCEPTED)
        throw std::runtime_error(bhtf_file_error(f.get())->words);
}

static File open_file(const char *path)
{
    struct bhtf_file_options options = BHTF_FILE_OPTIONS;
    struct bhtf_file_error why;

    options.flags = BHTF_FILE_WRITE;
    File f(bhtf_file_open_with(path, &options, &why));
    if (!f)
        throw std::runtime_error(why.words);
    return f;
}

// What is stored under a key already; nothing if the key is absent. Room that
// is too short is refused, and told how long it must be.
static std::vector<uint8_t> read(const File &f, const uint8_t *key, size_t size)
{
    std::vector<uint8_t> records;
    uint32_t each, number;
    size_t length = 0;

    do {
        records.resize(length);
        number = bhtf_file_read_columns(f.get(), key, size, records.data(),
                                        records.size(), &each, &length);
    } while (number == BHTF_SHORT_SLICE);
    if (number == BHTF_ABSENT)
        return {};
    must(f, number);
    if (each != width)
        throw std::runtime_error(bhtf_message(BHTF_BAD_RECORDS));
    return records;
}

// What is no number, or too large for 4 bytes, is refused.
static void put_number(std::vector<uint8_t> &records, const std::string &word)
{
    const char *const end = word.data() + word.size();
    int32_t value;

    if (auto [stop, why] = std::from_chars(word.data(), end, value);
        why != std::errc() || stop != end)
        throw std::runtime_error(word + " is no reading");
    for (int shift = 24; shift >= 0; shift -= 8)
        records.push_back(static_cast<uint8_t>(uint32_t(value) >> shift));
}

int main(int argc, char **argv)
try {
    if (argc < 3)
        throw std::runtime_error("readings FILE NAME NUMBER..");
    File f = open_file(argv[1]);
    uint8_t key[BHTF_KEY_MAX];
    size_t size;

    must(f, bhtf_file_key(f.get(), argv[2], key, &size));
    auto records = read(f, key, size);
    for (int i = 3; i < argc; i++)
        put_number(records, argv[i]);
    must(f, bhtf_file_store_columns(f.get(), key, size, records.data(),
                                    records.size(), width));
    for (auto r = records.begin(); r != records.end(); r += width)
        std::cout << int8_t(r[0]) * (1 << 24) + (r[1] << 16 | r[2] << 8 | r[3])
                  << '\n';
} catch (const std::exception &e) {
    std::cerr << "readings: " << e.what() << '\n';
    return 1;
}
