// staked FILE < NAME EASTING NORTHING HEIGHT..: stores what was staked out, a
// point a line, as one change, and prints how many points the file has then.
// c++ staked.cc $(pkg-config --cflags --libs bhtf)
#include <bhtf_file.h>

#include <iostream>
#include <sstream>
#include <stdexcept>
#include <string>

// An open file; what was changed since begin() is undone unless it is
// committed.
class File {
public:
    File(const std::string &path, uint32_t flags)
    {
        struct bhtf_file_options options = BHTF_FILE_OPTIONS;
        struct bhtf_file_error why;

        options.flags = flags;
        handle = bhtf_file_open_with(path.c_str(), &options, &why);
        if (handle == 0)
            throw std::runtime_error(why.words);
    }

    ~File() { bhtf_file_close(handle); }

    void begin() { must(bhtf_file_begin(handle)); }
    void commit() { must(bhtf_file_commit(handle)); }

    // A name that is too long throws, and is not cut.
    void put(const std::string &name, const std::string &text)
    {
        uint8_t key[BHTF_KEY_MAX];
        size_t size;

        must(bhtf_file_key(handle, name.c_str(), key, &size));
        must(bhtf_file_replace(handle, key, size,
                               reinterpret_cast<const uint8_t *>(text.data()),
                               text.size()));
    }

    uint32_t count()
    {
        uint32_t points;

        must(bhtf_file_count(handle, &points));
        return points;
    }

private:
    File(const File &);
    File &operator=(const File &);

    void must(uint32_t number)
    {
        if (number != BHTF_ACCEPTED)
            throw std::runtime_error(bhtf_file_error(handle)->words);
    }

    bhtf_file *handle;
};

int main(int argc, char **argv)
{
    std::string line, name, easting, northing, height;

    if (argc != 2)
        return 1;
    try {
        File file(argv[1], BHTF_FILE_WRITE);

        file.begin();
        while (std::getline(std::cin, line)) {
            std::istringstream words(line);

            if (!(words >> name >> easting >> northing >> height))
                throw std::runtime_error("not a point: " + line);
            file.put(name, easting + "," + northing + "," + height + ",staked");
        }
        file.commit();
        std::cout << file.count() << " points\n";
    } catch (const std::exception &e) {
        std::cerr << "staked: " << e.what() << '\n';
        return 1;
    }
    return 0;
}
