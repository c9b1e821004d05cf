// follow COPY < RECORDS: brings a station's copy up to what the office sent,
// and names the points that changed.
// c++ -std=c++17 follow.cc $(pkg-config --cflags --libs bhtf)
#include <bhtf_delta.h>

#include <iostream>
#include <iterator>
#include <memory>
#include <stdexcept>
#include <string>
#include <string_view>

// A file that is open to be written: what was changed since begin() is undone
// unless it is committed.
class File {
public:
    explicit File(const char *path)
    {
        struct bhtf_file_options options = BHTF_FILE_OPTIONS;
        struct bhtf_file_error why;

        options.flags = BHTF_FILE_WRITE;
        handle.reset(bhtf_file_open_with(path, &options, &why));
        if (!handle)
            throw std::runtime_error(why.words);
    }

    void begin() { must(bhtf_file_begin(handle.get())); }
    void commit() { must(bhtf_file_commit(handle.get())); }

    bhtf_applied apply(const std::string &records)
    {
        auto from = reinterpret_cast<const uint8_t *>(records.data());
        bhtf_applied done;

        must(bhtf_file_apply(handle.get(), from, records.size(), 0, &done));
        return done;
    }

    // Calls visit(kind, name) for each point that the batch has changed.
    template <class Visit> void changes(Visit visit)
    {
        struct bhtf_file_about about;
        bhtf_change c = {};
        size_t length;

        must(bhtf_file_about(handle.get(), &about, sizeof about));
        while (must(bhtf_file_changes(handle.get(), &c)), c.kind != 0) {
            auto image = c.kind == BHTF_POINT_GONE
                ? bhtf_file_before(handle.get(), &length)
                : bhtf_file_image(handle.get(), &length);
            std::string_view key(reinterpret_cast<const char *>(image) +
                                 c.key_offset, about.key_size);

            visit(c.kind, key.substr(0, key.find_last_not_of('\0') + 1));
        }
    }

private:
    struct Close { void operator()(bhtf_file *f) { bhtf_file_close(f); } };

    void must(uint32_t number)
    {
        if (number != BHTF_ACCEPTED)
            throw std::runtime_error(bhtf_file_error(handle.get())->words);
    }

    std::unique_ptr<bhtf_file, Close> handle;
};

static const char *const words[] = { "", "new", "gone", "changed", "damaged" };

int main(int argc, char **argv)
try {
    if (argc != 2)
        throw std::runtime_error("follow COPY < RECORDS");
    std::string records{std::istreambuf_iterator<char>(std::cin), {}};
    File copy(argv[1]);

    copy.begin();
    auto done = copy.apply(records);
    copy.changes([](uint32_t kind, std::string_view name) {
        std::cout << words[kind] << ' ' << name << '\n'; });
    copy.commit();
    std::cout << done.applied << " applied, " << done.passed
              << " passed over\n";
} catch (const std::exception &e) {
    std::cerr << "follow: " << e.what() << '\n';
    return 1;
}
