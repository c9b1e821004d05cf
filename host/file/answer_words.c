/* The answers in words: those of bhtf.h, of bhtf_file.h and of bhtf_delta.h. */
#include "bhtf_delta.h"

#include <stddef.h>

static const char *const sentences[] = {
    "The call was accepted.",
    ("The file's length is not a multiple of 4,096 from 4,096 to "
     "1,073,741,824."),
    "The key size is not from 1 to 32 bytes.",
    "The table would have more than 1,048,576 slots.",
    "The table does not fit into a file of this length.",
    ("This is not a control point file of version 1.0.0, 1.0.1, 1.0.2 or "
     "2.0.0."),
    "The file's header is damaged: its numbers do not fit together.",
    "The name does not have the file's key size, or is all zero bytes.",
    "The mode is not 1 (new), 2 (replace), 3 (append) or 4 (withdraw).",
    "There already is a point of that name.",
    "The table is full: there is no slot for another point.",
    "The point's message or the file's count of points is damaged.",
    ("The message would be longer than 16,777,215 bytes, or than "
     "1,073,741,823 in a file of version 2.0.0."),
    "There is no room left in the file for the message.",
    "There is no point of that name.",
    "The file is not sound.",
    ("The list is shorter than 8 bytes, or the working slice is shorter than "
     "the file."),
    "The journal is too short for the change, or its mark is not 0.",
    "The journal is empty, or it is marked and does not fit the file.",
    [19] = "These are no records of 1 to 64 bytes, or the slice is too short.",
    [20] = ("A message is longer than 16,777,215 bytes, and a file of version "
            "1.0.2 cannot hold it."),
    [21] = ("The second file has another key size or version, or growth cannot "
            "start: it is not empty, has no more slots, or lacks room."),
    [22] = ("There are not as many ranges as a name has bytes, or one has its "
            "lowest byte above its highest."),
    [23] = "This is no file of epochs: its names have fewer than 5 bytes."
};

/* From 101 on. */
static const char *const of_files[] = {
    "The system refused something.",
    "The file was still locked when the wait was over.",
    "The wait for a lock was given up.",
    "The file was removed or replaced while it was in use.",
    "This is no regular file, or it has two names.",
    "An unfinished change of another file lies in this one's journal.",
    "The file's journal is damaged.",
    "The handle is not open for this.",
    "The disk failed in an earlier change; close the file and open it again.",
    "The file's journal belongs to one who may not write to the file."
};

/* From 121 on. */
static const char *const of_deltas[] = {
    "This is no delta.",
    "The delta is of a version that is not known.",
    "The delta was cut short or damaged; send it again.",
    "The delta was damaged; send it again.",
    "The delta was made wrongly: its pairs and its length do not fit.",
    ("The delta was made wrongly: its new bytes do not give the image that it "
     "promises."),
    "The delta is for a file of another length.",
    ("The delta does not go on from this file: one in front of it is missing, "
     "it is older, or the file was changed by others."),
    "The delta leads to another file than the one wanted.",
    "There is no room for the record."
};

#define WORDS(of, first) { first, sizeof of / sizeof of[0], of }

static const struct {
    uint32_t first;
    uint32_t count;
    const char *const *words;
} kinds[] = {
    WORDS(sentences, BHTF_ACCEPTED),
    WORDS(of_files, BHTF_FILE_SYSTEM),
    WORDS(of_deltas, BHTF_DELTA_NONE)
};

const char *bhtf_message(uint32_t number)
{
    for (size_t i = 0; i < sizeof kinds / sizeof kinds[0]; i++) {
        uint32_t at = number - kinds[i].first;

        if (number >= kinds[i].first && at < kinds[i].count &&
            kinds[i].words[at] != NULL)
            return kinds[i].words[at];
    }
    return "The answer is a number unknown to this version.";
}
