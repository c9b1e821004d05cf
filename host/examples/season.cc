// season FILE NAME..: deletes points and compacts the file, all of it or
// nothing. c++ season.cc $(pkg-config --cflags --libs bhtf)
#include <bhtf_file.h>

#include <iostream>
#include <stdexcept>
#include <string>

// A batch that is undone unless it is committed.
class Batch {
public:
    explicit Batch(const char *path)
    {
        struct bhtf_file_options options = BHTF_FILE_OPTIONS;
        struct bhtf_file_error why;

        options.flags = BHTF_FILE_WRITE;
        file = bhtf_file_open_with(path, &options, &why);
        if (file == 0)
            throw std::runtime_error(why.words);
        must(bhtf_file_begin(file));
    }

    ~Batch() { bhtf_file_close(file); }

    void remove(const std::string &name)
    {
        uint8_t key[BHTF_KEY_MAX];
        size_t size;

        must(bhtf_file_key(file, name.c_str(), key, &size));
        must(bhtf_file_delete(file, key, size));
    }

    void commit()
    {
        must(bhtf_file_compact(file));
        must(bhtf_file_commit(file));
    }

private:
    Batch(const Batch &);
    Batch &operator=(const Batch &);

    void must(uint32_t number)
    {
        if (number != BHTF_ACCEPTED)
            throw std::runtime_error(bhtf_file_error(file)->words);
    }

    bhtf_file *file;
};

int main(int argc, char **argv)
{
    if (argc < 2)
        return 1;
    try {
        Batch batch(argv[1]);

        for (int i = 2; i < argc; i++)
            batch.remove(argv[i]);
        batch.commit();
    } catch (const std::exception &e) {
        std::cerr << "season: " << e.what() << '\n';
        return 1;
    }
    return 0;
}
