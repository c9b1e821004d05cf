/* layer DIRECTORY [wide]: the calls of bhtf_file.h, one by one, and their
 * errors; on files of version 2.0.0 if that is said. The directory is named from
 * the root.
 * Journals of unfinished changes are made by a child that ends itself in the
 * middle of one. The last line is 'N passed, M failed'. */
#define _GNU_SOURCE

#include "../../host/include/bhtf_file.h"
#include "../../host/file/layer.h"

#include <errno.h>
#include <fcntl.h>
#include <stdio.h>
#include <stdlib.h>
#include <string.h>
#include <sys/stat.h>
#include <sys/syscall.h>
#include <sys/wait.h>
#include <unistd.h>

enum { SIZE = 32768, KEY = 4 };

static int passed, failed;
static char file[600], journal[600], other[600];
static uint8_t first[SIZE];

static void holds(const char *name, int is)
{
    printf("%s: %s\n", is ? "ok" : "FAILED", name);
    *(is ? &passed : &failed) += 1;
}

static const uint8_t *key(const char *name)
{
    static uint8_t bytes[KEY];

    memset(bytes, 0, KEY);
    memcpy(bytes, name, strlen(name));
    return bytes;
}

static int wide;

/* An empty image; one of version 2.0.0 comes from the converter. */
static uint32_t create(uint8_t *image, size_t length, uint32_t slots)
{
    uint32_t number = bhtf_create(image, length, KEY, slots, 3);
    uint8_t *narrow;

    if (number != 0 || !wide)
        return number;
    narrow = malloc(length);
    if (narrow == NULL)
        exit(2);
    memcpy(narrow, image, length);
    number = bhtf_convert(narrow, length, image, length);
    free(narrow);
    return number;
}

static uint32_t put(bhtf_file *f, const char *name, const char *text)
{
    return bhtf_file_add(f, key(name), KEY, (const uint8_t *)text, strlen(text),
                         BHTF_REPLACE);
}

/* Does the file, as a reader sees it, have this text? NULL: no such point. */
static int has(const char *path, const char *name, const char *text)
{
    bhtf_file *f = bhtf_file_open(path, NULL, NULL);
    uint32_t at, size, number;
    const uint8_t *image;
    size_t length;
    int is;

    if (f == NULL)
        return 0;
    image = bhtf_file_image(f, &length);
    number = bhtf_lookup(image, length, key(name), KEY, &at, &size);
    is = text == NULL ? number == BHTF_ABSENT
                      : number == 0 && size == strlen(text) &&
                        memcmp(image + at, text, size) == 0;
    bhtf_file_close(f);
    return is;
}

static int is_there(const char *path)
{
    return access(path, F_OK) == 0;
}

static bhtf_file *open_writer(struct bhtf_file_error *why)
{
    const struct bhtf_file_how how = { BHTF_FILE_WRITE, 100, NULL, NULL };

    return bhtf_file_open(file, &how, why);
}

static void make_fresh(void)
{
    unlink(file);
    unlink(journal);
    if (create(first, SIZE, 50) != 0 ||
        bhtf_file_create(file, first, SIZE, NULL, NULL) != 0)
        exit(2);
}

/* A new file made where it will stand. */
static void try_new(void)
{
    struct bhtf_file_error why;
    bhtf_file_new *n;

    n = bhtf_file_new_begin(file, SIZE, NULL, &why);
    holds("a new file has no name", n != NULL && !is_there(file));
    if (n != NULL)
        bhtf_file_new_drop(n);
    holds("nor when it is dropped", !is_there(file));
    n = bhtf_file_new_begin(file, SIZE, NULL, &why);
    if (n == NULL)
        exit(2);
    holds("an image can be made in it",
          create(bhtf_file_new_image(n), SIZE, 50) == 0);
    holds("it gets its name", bhtf_file_new_end(n) == 0 &&
          has(file, "A", NULL));
    n = bhtf_file_new_begin(file, SIZE, NULL, &why);
    holds("once", n == NULL && why.number == BHTF_FILE_SYSTEM &&
          why.error == EEXIST);
}

/* ---- an unfinished change ---- */

static volatile int armed;
static int fails_at, flushes;

/* In the place of the library's: the child ends where the stretches would be
 * flushed; or the disk fails at one of the flushes. */
int fdatasync(int fd)
{
    static int calls;

    if (armed && ++calls == 3)
        _exit(7);
    if (++flushes == fails_at) {
        errno = EIO;
        return -1;
    }
    return fsync(fd);
}

static int reads_fail, room_fails, ends_at_rights, whole_systems;
static long filled_bytes; /* of the file, by whole pages; -1 if by others */

/* A writer that is killed when its journal has no rights yet. */
int fchown(int fd, uid_t user, gid_t group)
{
    if (ends_at_rights)
        _exit(7);
    return (int)syscall(SYS_fchown, fd, user, group);
}

static int has_holes;

/* In memory a file's holes are filled when they are looked at. */
off64_t lseek64(int fd, off64_t offset, int whence)
{
    if (has_holes && whence == SEEK_HOLE)
        return offset;
    return (off64_t)syscall(SYS_lseek, fd, offset, whence);
}

int syncfs(int fd)
{
    whole_systems++;
    return (int)syscall(SYS_syncfs, fd);
}

/* A journal that cannot be read. */
ssize_t pread64(int fd, void *bytes, size_t length, off64_t at)
{
    if (!reads_fail)
        return pread(fd, bytes, length, at);
    errno = EIO;
    return -1;
}

/* A disk that becomes full when some of the room was given. */
int posix_fallocate64(int fd, off64_t at, off64_t length)
{
    struct stat about;

    if (fstat(fd, &about) == 0 && about.st_size == SIZE && filled_bytes >= 0)
        filled_bytes = at % 4096 == 0 && length % 4096 == 0
            ? filled_bytes + (long)length : -1;
    if (!room_fails)
        return posix_fallocate(fd, at, length);
    return ftruncate(fd, at + length - 4096) == 0 ? ENOSPC : EIO;
}

/* The child's point X is stored, and the mark is there. Before that, the child
 * does what `first` does. */
static int leave_unfinished_behind(void (*first)(bhtf_file *f),
                                   const char *text)
{
    int status = 0;
    pid_t child;

    fflush(stdout);
    child = fork();
    if (child == 0) {
        bhtf_file *f = open_writer(NULL);

        if (f != NULL && first != NULL)
            first(f);
        armed = 1;
        if (f != NULL)
            put(f, "X", text);
        _exit(8);
    }
    waitpid(child, &status, 0);
    return WIFEXITED(status) && WEXITSTATUS(status) == 7;
}

static int leave_unfinished(void)
{
    return leave_unfinished_behind(NULL, "unfinished");
}

static void copy_file(const char *from, const char *to)
{
    static uint8_t bytes[1 << 20];
    int in = open(from, O_RDONLY), out = open(to, O_RDWR | O_CREAT | O_TRUNC,
                                              0644);
    ssize_t length = read(in, bytes, sizeof bytes);

    if (length < 0 || write(out, bytes, (size_t)length) != length)
        exit(2);
    close(in);
    close(out);
}

static void try_unfinished(void)
{
    struct bhtf_file_error why;
    bhtf_file *f;

    make_fresh();
    holds("a writer is ended in the middle", leave_unfinished() &&
          is_there(journal));
    f = bhtf_file_open(file, NULL, NULL);
    holds("a reader finishes the change for itself",
          f != NULL && bhtf_file_recovered(f));
    bhtf_file_close(f);
    holds("and sees it", has(file, "X", "unfinished"));
    holds("the journal stays for a writer", is_there(journal));
    f = open_writer(NULL);
    holds("a writer finishes it in the file", f != NULL &&
          bhtf_file_recovered(f) && !is_there(journal));
    bhtf_file_close(f);
    holds("where it is", has(file, "X", "unfinished"));

    make_fresh();
    leave_unfinished();
    chmod(journal, 0);
    f = bhtf_file_open(file, NULL, &why);
    if (geteuid() != 0)
        holds("a journal that may not be read is told", f == NULL &&
              why.error == EACCES);
    if (f != NULL)
        bhtf_file_close(f);
    chmod(journal, 0644);
}

/* A disk that fails at a flush of a change: content, mark, file. */
static void try_failing(void)
{
    char name[100];
    bhtf_file *f;

    for (int at = 1; at <= 3; at++) {
        uint32_t number;

        make_fresh();
        f = open_writer(NULL);
        flushes = 0;
        fails_at = at;
        number = put(f, "A", "1");
        fails_at = 0;
        snprintf(name, sizeof name, "a disk that fails at flush %d", at);
        holds(name, number == BHTF_FILE_SYSTEM &&
              bhtf_file_error(f)->error == EIO &&
              strstr(bhtf_file_error(f)->words, at < 3 ? "nothing was changed"
                     : "is told when the file is opened again") != NULL);
        holds("whether it is known what is there",
              (bhtf_file_unsure(f) != 0) == (at == 3));
        holds("what it says of the next change", put(f, "B", "2") ==
              (at < 3 ? 0 : BHTF_FILE_BROKEN));
        bhtf_file_close(f);
        holds("what it says of this one", at < 3
              ? has(file, "A", NULL) && has(file, "B", "2") &&
                !is_there(journal)
              : has(file, "A", "1") && has(file, "B", NULL) &&
                is_there(journal));
    }
    f = open_writer(NULL);
    holds("the next writer finishes it", f != NULL && bhtf_file_recovered(f) &&
          !is_there(journal) && put(f, "B", "2") == 0);
    bhtf_file_close(f);
}

/* And at that of mark 0, before a next change. */
static void try_failing_between(void)
{
    bhtf_file *f;

    make_fresh();
    f = open_writer(NULL);
    flushes = 0;
    fails_at = 4;
    holds("a disk that fails between changes", put(f, "A", "1") == 0 &&
          put(f, "B", "2") == BHTF_FILE_SYSTEM);
    fails_at = 0;
    holds("takes no other", put(f, "C", "3") == BHTF_FILE_BROKEN);
    bhtf_file_close(f);
    f = open_writer(NULL);
    holds("until it is opened again", f != NULL && put(f, "C", "3") == 0);
    bhtf_file_close(f);
    holds("and each is as it was told", has(file, "A", "1") &&
          has(file, "B", NULL) && has(file, "C", "3"));
}

/* Whoever finishes another's change flushes it. */
static void try_without_sync(void)
{
    const struct bhtf_file_how how = { BHTF_FILE_WRITE | BHTF_FILE_NO_SYNC, 100,
                                       NULL, NULL };
    bhtf_file *f;

    make_fresh();
    leave_unfinished();
    flushes = 0;
    f = bhtf_file_open(file, &how, NULL);
    holds("a change that is finished is flushed: journal, file, mark 0",
          f != NULL && bhtf_file_recovered(f) && flushes == 3);
    flushes = 0;
    holds("one's own is not, if not asked for", put(f, "A", "1") == 0 &&
          flushes == 0);
    bhtf_file_close(f);
}

/* ---- journals that others remove, or that fail ---- */

static void have_no_room(bhtf_file *f)
{
    static char text[10001];

    memset(text, 't', sizeof text - 1);
    put(f, "A", "1");
    room_fails = 1;
    if (put(f, "B", text) != BHTF_FILE_SYSTEM ||
        bhtf_file_error(f)->error != ENOSPC)
        _exit(9);
    room_fails = 0;
}

static void try_no_room(void)
{
    make_fresh();
    holds("unfinished, behind one for which the journal had no room",
          leave_unfinished_behind(have_no_room, "unfinished"));
    holds("is found", has(file, "A", "1") && has(file, "B", NULL) &&
          has(file, "X", "unfinished"));
}

static void lose_journal(bhtf_file *f)
{
    put(f, "A", "1");
    unlink(journal);
}

static void try_lost(void)
{
    bhtf_file *f;

    make_fresh();
    holds("unfinished, behind the loss of its journal",
          leave_unfinished_behind(lose_journal, "unfinished") &&
          is_there(journal));
    f = open_writer(NULL);
    holds("is finished", f != NULL && bhtf_file_recovered(f) &&
          has(file, "A", "1") && has(file, "X", "unfinished"));
    put(f, "B", "2");
    rename(journal, other);
    copy_file(other, journal);
    bhtf_file_close(f);
    holds("another journal of that name is not removed", is_there(journal));

    make_fresh();
    leave_unfinished();
    rename(journal, other);
    f = open_writer(NULL);
    rename(other, journal);
    holds("nor one with an unfinished change", put(f, "B", "2") ==
          BHTF_FILE_SYSTEM && is_there(journal));
    bhtf_file_close(f);
    holds("which is finished", has(file, "X", "unfinished") &&
          has(file, "B", NULL));
}

static void try_unreadable(void)
{
    struct bhtf_file_error why;

    make_fresh();
    leave_unfinished();
    reads_fail = 1;
    holds("a journal that cannot be read stops a reader",
          bhtf_file_open(file, NULL, &why) == NULL && why.error == EIO &&
          strstr(why.words, "nobody knows whether it is whole") != NULL);
    holds("and a writer", open_writer(&why) == NULL && why.error == EIO);
    reads_fail = 0;
    holds("and stays", is_there(journal) && has(file, "X", "unfinished"));
}

/* A marked journal beside another file. */
static void try_foreign(void)
{
    static uint8_t before[SIZE];
    struct bhtf_file_error why;
    bhtf_file *f;
    int fd;

    make_fresh();
    copy_file(file, other);
    f = open_writer(NULL);
    put(f, "A", "later than the copy");
    bhtf_file_close(f);
    leave_unfinished();
    copy_file(other, file); /* in place, as cp does it: the inode stays */
    f = bhtf_file_open(file, NULL, &why);
    holds("an older copy in its place: a reader refuses the journal",
          f == NULL && why.number == BHTF_FILE_FOREIGN);
    holds("with words", strstr(why.words, "another file") != NULL);
    f = open_writer(&why);
    holds("a writer too", f == NULL && why.number == BHTF_FILE_FOREIGN);
    fd = open(file, O_RDONLY);
    holds("and nothing was touched", read(fd, before, SIZE) == SIZE &&
          memcmp(before, first, SIZE) == 0 && is_there(journal));
    close(fd);
    unlink(journal);
    holds("without the journal it is read", has(file, "X", NULL));

    make_fresh();
    leave_unfinished();
    unlink(file);
    holds("nor is a new file made beside it",
          bhtf_file_create(file, first, SIZE, NULL, &why) != 0 &&
          strstr(why.words, "journal") != NULL);
    create(first, 16384, 50);
    fd = open(file, O_RDWR | O_CREAT, 0644);
    if (write(fd, first, 16384) != 16384)
        exit(2);
    close(fd);
    f = bhtf_file_open(file, NULL, &why);
    holds("a file of another length", f == NULL &&
          why.number == BHTF_FILE_FOREIGN);

    make_fresh();
    leave_unfinished();
    copy_file(file, other);
    unlink(file);
    rename(other, file);
    holds("file and journal copied together belong together",
          has(file, "X", "unfinished"));
}

static void flip(const char *path, off_t at)
{
    int fd = open(path, O_RDWR);
    uint8_t byte;

    if (pread(fd, &byte, 1, at) != 1)
        exit(2);
    byte ^= 0x40;
    if (pwrite(fd, &byte, 1, at) != 1)
        exit(2);
    close(fd);
}

/* ---- damage ---- */

static uint8_t half[SIZE], after[SIZE];
static char now_aside[700];

static void read_file(uint8_t *bytes)
{
    int fd = open(file, O_RDONLY);

    if (fd < 0 || read(fd, bytes, SIZE) != SIZE)
        exit(2);
    close(fd);
}

static void write_file(const uint8_t *bytes)
{
    int fd = open(file, O_RDWR);

    if (fd < 0 || write(fd, bytes, SIZE) != SIZE)
        exit(2);
    close(fd);
}

/* An unfinished change, of which the file has every second byte that it
 * writes. */
static void leave_half(void)
{
    int odd = 0;

    make_fresh();
    if (!leave_unfinished())
        exit(2);
    read_file(after);
    memcpy(half, after, SIZE);
    for (size_t i = 0; i < SIZE; i++)
        if (half[i] != first[i] && odd++ % 2 == 0)
            half[i] = first[i];
    write_file(half);
}

static void zero(off_t from, off_t length)
{
    static const uint8_t nothing[65536];
    int fd = open(journal, O_RDWR);

    if (pwrite(fd, nothing, (size_t)length, from) != length)
        exit(2);
    close(fd);
}

static off_t journal_length(void)
{
    struct stat about;

    return stat(journal, &about) == 0 ? about.st_size : 0;
}

static void damage_first_sector(void) { zero(0, 512); }
static void damage_magic(void) { zero(0, 1); }
static void damage_head(void) { flip(journal, 20); }
static void damage_head_sum(void) { flip(journal, 76); }
static void damage_content(void) { flip(journal, 4096 + 20); }
static void damage_mark(void) { flip(journal, journal_length() - 1); }
static void damage_mark_zero(void) { zero(journal_length() - 1, 1); }
static void damage_last_sector(void) { zero(journal_length() - 512, 512); }
static void damage_mark_page(void) { zero(journal_length() - 4096, 4096); }
static void damage_rest(void) { zero(4096, journal_length() - 4096); }
static void damage_all(void) { zero(0, journal_length()); }

static void cut_to(off_t length)
{
    if (truncate(journal, length) != 0)
        exit(2);
}

static void damage_last_page(void) { cut_to(journal_length() - 4096); }
static void damage_last_byte(void) { cut_to(journal_length() - 1); }
static void damage_all_but_head(void) { cut_to(512); }
static void damage_to_nothing(void) { cut_to(0); }
static void damage_longer(void) { cut_to(journal_length() + 1); }
static void damage_other(void) { copy_file(file, journal); }

static const struct {
    const char *name;
    void (*damage)(void);
    int finished; /* all of it is known */
} damages[] = {
    { "zeros in the first sector", damage_first_sector, 0 },
    { "a zero in the magic", damage_magic, 0 },
    { "a bit of the head", damage_head, 0 },
    { "a bit of the head's sum", damage_head_sum, 0 },
    { "a bit of content", damage_content, 0 },
    { "a bit of the mark", damage_mark, 0 },
    { "the mark", damage_mark_zero, 0 },
    { "zeros in the last sector", damage_last_sector, 0 },
    { "zeros in the last page", damage_mark_page, 0 },
    { "zeros from the content on", damage_rest, 0 },
    { "zeros", damage_all, 0 },
    { "the last page cut", damage_last_page, 0 },
    { "the last byte cut", damage_last_byte, 0 },
    { "all except the head cut", damage_all_but_head, 0 },
    { "cut to nothing", damage_to_nothing, 0 },
    { "one byte more", damage_longer, 1 },
    { "another file in its place", damage_other, 0 }
};

/* Half a change is never read, and its journal never removed, whatever became
 * of that. */
static void try_damage_of_half(size_t i)
{
    static uint8_t now[SIZE];
    struct bhtf_file_error why = { 0, 0, "" };
    char name[120];
    bhtf_file *f;

    leave_half();
    damages[i].damage();
    f = bhtf_file_open(file, NULL, &why);
    snprintf(name, sizeof name, "half a change, and of its journal %s: a reader",
             damages[i].name);
    holds(name, damages[i].finished
          ? f != NULL && bhtf_file_recovered(f)
          : f == NULL && why.number == BHTF_FILE_JOURNAL &&
            strstr(why.words, "bhtf recover") != NULL);
    if (f != NULL)
        bhtf_file_close(f);
    f = open_writer(&why);
    read_file(now);
    holds("a writer", damages[i].finished
          ? f != NULL && memcmp(now, after, SIZE) == 0 && !is_there(journal)
          : f == NULL && why.number == BHTF_FILE_JOURNAL &&
            memcmp(now, half, SIZE) == 0 && is_there(journal));
    if (f != NULL)
        bhtf_file_close(f);
    unlink(journal);
}

/* Where the file is whole, it is read as it is, or not at all. */
static void try_damage_of_whole(size_t i, const uint8_t *bytes)
{
    static uint8_t now[SIZE];
    char name[120];
    bhtf_file *f;
    int read, written;

    leave_half();
    write_file(bytes);
    damages[i].damage();
    f = bhtf_file_open(file, NULL, NULL);
    read = f == NULL || damages[i].finished || !bhtf_file_recovered(f);
    if (f != NULL)
        bhtf_file_close(f);
    f = open_writer(NULL);
    read_file(now);
    written = memcmp(now, damages[i].finished ? after : bytes, SIZE) == 0 &&
              is_there(journal) == (f == NULL);
    if (f != NULL)
        bhtf_file_close(f);
    snprintf(name, sizeof name, "no change or all of it, and %s",
             damages[i].name);
    holds(name, read && written);
    unlink(journal);
}

static void try_damaged(void)
{
    for (size_t i = 0; i < sizeof damages / sizeof damages[0]; i++) {
        try_damage_of_half(i);
        try_damage_of_whole(i, first);
        try_damage_of_whole(i, after);
    }
    leave_half();
    write_file(after);
    damage_content();
    holds("a journal that is proved to be of no use does not stop",
          has(file, "X", "unfinished"));
    unlink(journal);
}

/* What a person may choose where a journal is damaged. */
static void try_recover(void)
{
    static uint8_t now[SIZE];
    struct bhtf_file_journal j;
    struct bhtf_file_error why;

    make_fresh();
    holds("no journal is told", bhtf_file_recover(file, BHTF_FILE_LOOK, NULL, &j,
          &why) == 0 && j.state == BHTF_FILE_NO_JOURNAL && j.sound);
    holds("and cannot be finished", bhtf_file_recover(file, BHTF_FILE_FINISH,
          NULL, &j, &why) == BHTF_FILE_MISUSE);
    leave_half();
    holds("an unfinished change is told", bhtf_file_recover(file, BHTF_FILE_LOOK,
          NULL, &j, &why) == 0 && j.state == BHTF_FILE_UNFINISHED &&
          j.mark == 0xA5 && j.head && j.content && j.same && j.sound_after &&
          j.written < j.stretches && is_there(journal));
    damage_mark_zero();
    holds("one without its mark", bhtf_file_recover(file, BHTF_FILE_LOOK, NULL,
          &j, &why) == 0 && j.state == BHTF_FILE_JOURNAL && j.mark == 0 &&
          j.content && j.same);
    read_file(now);
    holds("looking touches nothing", memcmp(now, half, SIZE) == 0);
    holds("can be finished", bhtf_file_recover(file, BHTF_FILE_FINISH, NULL, &j,
          &why) == 0 && !is_there(journal));
    read_file(now);
    holds("and is", memcmp(now, after, SIZE) == 0 &&
          has(file, "X", "unfinished"));
    leave_half();
    damage_last_page();
    holds("so can one whose last page is cut", bhtf_file_recover(file,
          BHTF_FILE_FINISH, NULL, &j, &why) == 0 && !is_there(journal) &&
          has(file, "X", "unfinished"));
    leave_half();
    damage_content();
    holds("but not one without its content", bhtf_file_recover(file,
          BHTF_FILE_FINISH, NULL, &j, &why) == BHTF_FILE_JOURNAL &&
          is_there(journal));
    holds("that is set aside", bhtf_file_recover(file, BHTF_FILE_SET_ASIDE, NULL,
          &j, &why) == 0 && !is_there(journal) &&
          strcmp(j.aside, ".journal.aside-1") == 0);
    read_file(now);
    holds("and the file is as it stood", memcmp(now, half, SIZE) == 0);
    snprintf(now_aside, sizeof now_aside, "%s%s", file, j.aside);
    holds("the journal is kept", is_there(now_aside));
    unlink(now_aside);
}

/* ---- handles ---- */

static int asked;

static int give_up_at_once(void *with)
{
    (void)with;
    asked++;
    return 1;
}

static void try_locks(void)
{
    struct bhtf_file_how how = { BHTF_FILE_WRITE, 50, NULL, NULL };
    struct bhtf_file_error why;
    bhtf_file *a, *b, *r;
    int64_t start;

    make_fresh();
    a = open_writer(NULL);
    b = bhtf_file_open(file, &how, &why);
    holds("a second writer of the process has to wait", b == NULL &&
          why.number == BHTF_FILE_LOCKED);
    how.give_up = give_up_at_once;
    how.wait = BHTF_FILE_FOREVER;
    b = bhtf_file_open(file, &how, &why);
    holds("or gives up", b == NULL && why.number == BHTF_FILE_GIVEN_UP &&
          asked > 0);
    r = bhtf_file_open(file, NULL, NULL);
    holds("a reader reads beside a writer", r != NULL);
    holds("which cannot change what is read", put(a, "A", "1") ==
          BHTF_FILE_LOCKED);
    bhtf_file_set_wait(a, 400);
    start = layer_now();
    holds("nor after another wait", put(a, "A", "1") == BHTF_FILE_LOCKED &&
          layer_now() - start >= 400);
    bhtf_file_pause(r);
    holds("until the reader pauses", put(a, "A", "1") == 0);
    holds("refresh takes the new state", bhtf_file_refresh(r) == 0 &&
          has(file, "A", "1"));
    holds("a reader cannot write", put(r, "A", "2") == BHTF_FILE_MISUSE);
    bhtf_file_close(r);
    bhtf_file_close(a);
}

static void try_batches(void)
{
    bhtf_file *f;

    make_fresh();
    f = open_writer(NULL);
    holds("no batch to commit", bhtf_file_commit(f) == BHTF_FILE_MISUSE);
    bhtf_file_begin(f);
    holds("one batch at a time", bhtf_file_begin(f) == BHTF_FILE_MISUSE);
    put(f, "A", "1");
    holds("a batch is not seen", has(file, "A", NULL));
    holds("a refused call leaves it", bhtf_file_delete(f, key("B"), KEY) ==
          BHTF_ABSENT && bhtf_file_commit(f) == 0 && has(file, "A", "1"));
    bhtf_file_begin(f);
    put(f, "A", "2");
    bhtf_file_rollback(f);
    holds("rollback", has(file, "A", "1") && put(f, "B", "3") == 0 &&
          has(file, "A", "1"));
    bhtf_file_begin(f);
    put(f, "A", "2");
    bhtf_file_close(f);
    holds("closing undoes what is not committed", has(file, "A", "1"));
    holds("no journal is left", !is_there(journal));
    f = open_writer(NULL);
    bhtf_file_withdraw(f, key("A"), KEY);
    holds("a change of nothing makes no journal",
          bhtf_file_withdraw(f, key("A"), KEY) == 0 && has(file, "A", ""));
    bhtf_file_close(f);
}

static void try_names(void)
{
    char name[600];
    struct bhtf_file_error why;
    const struct bhtf_file_how how = { BHTF_FILE_WRITE, 100, NULL, NULL };
    bhtf_file *f;

    make_fresh();
    snprintf(name, sizeof name, "%s.link", file);
    unlink(name);
    if (symlink(file, name) != 0)
        exit(2);
    leave_unfinished();
    holds("a symbolic link finds the journal", has(name, "X", "unfinished"));
    unlink(name);
    if (link(file, name) != 0)
        exit(2);
    f = bhtf_file_open(name, &how, &why);
    holds("a file with two names is not written", f == NULL &&
          why.number == BHTF_FILE_UNFIT);
    unlink(name);
    f = bhtf_file_open("/dev/null", NULL, &why);
    holds("nor is a device a file", f == NULL && why.number == BHTF_FILE_UNFIT);
    f = bhtf_file_open("/no/such/file", NULL, &why);
    holds("errno is kept", f == NULL && why.number == BHTF_FILE_SYSTEM &&
          why.error == ENOENT && strstr(why.words, "No such file") != NULL);

    make_fresh();
    f = open_writer(NULL);
    copy_file(file, other);
    rename(other, file);
    holds("a file that was replaced is not written",
          put(f, "A", "1") == BHTF_FILE_REPLACED && !is_there(journal));
    bhtf_file_close(f);
    holds("the new one is as it was", has(file, "A", NULL));
}

static int is_image_sound(bhtf_file *f)
{
    uint32_t verdict, slot;
    size_t length;
    const uint8_t *image = bhtf_file_image(f, &length);

    return bhtf_check(image, length, &verdict, &slot) == 0 && verdict == 0;
}

/* A file that is moved, with a symbolic link left in its place. */
static void try_moved(const char *directory)
{
    char place[700], moved[800], beside[800], link[600];
    bhtf_file *w, *r;

    snprintf(place, sizeof place, "%s/elsewhere", directory);
    snprintf(moved, sizeof moved, "%s/site", place);
    snprintf(beside, sizeof beside, "%s.journal", moved);
    strcpy(link, file);
    mkdir(place, 0755);
    unlink(moved);
    make_fresh();
    w = open_writer(NULL);
    put(w, "A", "1");
    if (rename(file, moved) != 0 || symlink(moved, file) != 0)
        exit(2);
    holds("a file that was moved, with a link in its place, is not written",
          put(w, "A", "2") == BHTF_FILE_REPLACED);
    bhtf_file_close(w);
    unlink(file);
    rename(moved, file);

    make_fresh();
    r = bhtf_file_open(file, NULL, NULL);
    bhtf_file_pause(r);
    if (rename(file, moved) != 0 || symlink(moved, file) != 0)
        exit(2);
    strcpy(file, moved);
    strcpy(journal, beside);
    if (!leave_unfinished())
        exit(2);
    read_file(after);
    for (size_t i = 0, odd = 0; i < SIZE; i++)
        if (after[i] != first[i] && odd++ % 2 == 0)
            after[i] = first[i];
    write_file(after);
    holds("a reader goes with it, and with its journal",
          bhtf_file_refresh(r) == 0 && bhtf_file_recovered(r) &&
          is_image_sound(r));
    bhtf_file_close(r);
    unlink(journal);
    unlink(file);
    strcpy(file, link);
    unlink(file);
    snprintf(journal, sizeof journal, "%s.journal", file);
    rmdir(place);
}

/* A hard link that is made while a writer is open, or beside half a change. */
static void try_hard_links(void)
{
    struct bhtf_file_error why;
    static uint8_t now[SIZE];
    bhtf_file *f;

    make_fresh();
    unlink(other);
    f = open_writer(NULL);
    put(f, "A", "1");
    if (link(file, other) != 0)
        exit(2);
    holds("a file that got a second name is not written",
          put(f, "A", "2") == BHTF_FILE_UNFIT && has(file, "A", "1"));
    unlink(other);
    holds("until it has one again", put(f, "A", "3") == 0);
    bhtf_file_close(f);
    leave_half();
    if (link(file, other) != 0)
        exit(2);
    f = open_writer(&why);
    read_file(now);
    holds("a change is finished, though the file has two names", f == NULL &&
          why.number == BHTF_FILE_UNFIT && memcmp(now, after, SIZE) == 0 &&
          !is_there(journal));
    unlink(other);
}

/* Journals of those who may not write to the file. */
static void try_owner(void)
{
    struct bhtf_file_error why;
    bhtf_file *f;

    if (geteuid() != 0) {
        printf("not root: no journal of another user can be made\n");
        return;
    }
    leave_half();
    if (chmod(file, 0644) != 0 || chown(journal, 65534, 65534) != 0)
        exit(2);
    holds("a journal of one who may not write to the file stops a reader",
          bhtf_file_open(file, NULL, &why) == NULL &&
          why.number == BHTF_FILE_OWNER &&
          strstr(why.words, "belongs to user 65534") != NULL);
    holds("and a writer", open_writer(&why) == NULL &&
          why.number == BHTF_FILE_OWNER);
    if (chmod(journal, 0) != 0 || chmod(file, 0664) != 0)
        exit(2);
    holds("though a group may", bhtf_file_open(file, NULL, &why) == NULL &&
          why.number == BHTF_FILE_OWNER);
    if (chown(file, 0, 65534) != 0)
        exit(2);
    f = bhtf_file_open(file, NULL, &why);
    holds("unless it is theirs", f != NULL && bhtf_file_recovered(f));
    if (f != NULL)
        bhtf_file_close(f);
    if (chown(file, 65534, 0) != 0)
        exit(2);
    f = open_writer(&why);
    holds("or the file is", f != NULL && bhtf_file_recovered(f));
    if (f != NULL)
        bhtf_file_close(f);
}

/* A journal has its rights when it has its name. */
static void try_rights(void)
{
    struct stat about;
    int status = 0;
    bhtf_file *f;
    pid_t child;

    make_fresh();
    fflush(stdout);
    child = fork();
    if (child == 0) {
        f = open_writer(NULL);
        ends_at_rights = 1;
        if (f != NULL)
            put(f, "A", "1");
        _exit(8);
    }
    waitpid(child, &status, 0);
    holds("a writer that is killed before its journal has its rights",
          WIFEXITED(status) && WEXITSTATUS(status) == 7);
    holds("leaves none", !is_there(journal));
    chmod(file, 0664);
    f = open_writer(NULL);
    put(f, "A", "1");
    holds("a journal has the file's rights", stat(journal, &about) == 0 &&
          (about.st_mode & 0777) == 0664);
    bhtf_file_close(f);
}

/* A file with holes gets whole pages before a change. */
static void try_holes(void)
{
    bhtf_file *f;
    int fd;

    make_fresh();
    unlink(file);
    fd = open(file, O_RDWR | O_CREAT, 0644);
    if (ftruncate(fd, SIZE) != 0 || pwrite(fd, first, 4096, 0) != 4096)
        exit(2);
    close(fd);
    f = open_writer(NULL);
    filled_bytes = 0;
    has_holes = 1;
    holds("holes are filled by pages", f != NULL && put(f, "A", "1") == 0 &&
          filled_bytes == 8192);
    has_holes = 0;
    if (f != NULL)
        bhtf_file_close(f);
}

/* A directory that may not be read. */
static void try_unreadable_directory(const char *directory)
{
    const struct bhtf_file_how how = { BHTF_FILE_WRITE, 100, NULL, NULL };
    char place[700], name[800];
    int status = 0;
    pid_t child;

    snprintf(place, sizeof place, "%s/unread", directory);
    snprintf(name, sizeof name, "%s/site", place);
    mkdir(place, 0777);
    make_fresh();
    copy_file(file, name);
    if (chmod(directory, 0755) != 0 || chmod(name, 0666) != 0 ||
        chmod(place, 0333) != 0)
        exit(2);
    fflush(stdout);
    child = fork();
    if (child == 0) {
        bhtf_file *f;

        if (geteuid() == 0 && (setgid(65534) != 0 || setuid(65534) != 0))
            _exit(9);
        f = bhtf_file_open(name, &how, NULL);
        _exit(f == NULL ? 8 : put(f, "A", "1") != 0 ? 7 : whole_systems != 1);
    }
    waitpid(child, &status, 0);
    holds("where a directory may not be read, its file system is flushed",
          WIFEXITED(status) && WEXITSTATUS(status) == 0);
    chmod(place, 0755);
    unlink(name);
    strcat(name, ".journal");
    unlink(name);
    rmdir(place);
}

/* A link that leads to another file by now, and a process that went elsewhere
 * since it opened one by a relative name. */
static void try_links(const char *directory)
{
    char name[700];
    uint8_t *image = malloc(SIZE);
    uint32_t at, size;
    size_t length;
    bhtf_file *f;

    make_fresh();
    snprintf(name, sizeof name, "%s/current", directory);
    unlink(name);
    unlink(other);
    if (image == NULL || create(image, SIZE, 50) != 0 ||
        bhtf_add(image, SIZE, key("N"), KEY, key("new"), 3, BHTF_NEW) != 0 ||
        bhtf_file_create(other, image, SIZE, NULL, NULL) != 0 ||
        symlink(file, name) != 0 || chdir(directory) != 0)
        exit(2);
    free(image);
    f = bhtf_file_open("current", NULL, NULL);
    unlink(name);
    if (f == NULL || symlink(other, name) != 0 || chdir("/") != 0)
        exit(2);
    holds("refresh goes with a link", bhtf_file_refresh(f) == 0 &&
          bhtf_lookup(bhtf_file_image(f, &length), SIZE, key("N"), KEY, &at,
                      &size) == 0);
    unlink(name);
    holds("and tells that it is gone", bhtf_file_refresh(f) ==
          BHTF_FILE_SYSTEM && bhtf_file_error(f)->error == ENOENT);
    bhtf_file_close(f);
    unlink(other);
}

/* A child closes what it has from its parent. */
static void try_fork(void)
{
    bhtf_file *f, *second;
    int status, way[2];
    pid_t child;
    char byte;

    make_fresh();
    f = open_writer(NULL);
    put(f, "A", "1");
    if (pipe(way) != 0)
        exit(2);
    fflush(stdout);
    child = fork();
    if (child == 0)
        _exit(bhtf_file_close(f) != 0);
    waitpid(child, &status, 0);
    holds("a child that closes a writer's handle leaves the journal",
          status == 0 && is_there(journal));
    holds("and the lock", open_writer(NULL) == NULL);
    child = fork();
    if (child == 0) {
        size_t length = 1;

        bhtf_file_image(f, &length);
        _exit(put(f, "C", "3") != BHTF_FILE_MISUSE || length != 0 ||
              bhtf_file_begin(f) != BHTF_FILE_MISUSE);
    }
    waitpid(child, &status, 0);
    holds("one that changes the file by it is refused", status == 0 &&
          has(file, "C", NULL));
    child = fork();
    if (child == 0) { /* has the descriptors until it is told to end */
        close(way[1]);
        _exit(read(way[0], &byte, 1) != 0);
    }
    holds("the writer goes on", put(f, "B", "2") == 0 &&
          bhtf_file_close(f) == 0 && !is_there(journal));
    second = open_writer(NULL);
    holds("and is done when it says so, whatever a child has open",
          second != NULL);
    if (second != NULL)
        bhtf_file_close(second);
    close(way[0]);
    close(way[1]);
    waitpid(child, &status, 0);
}

/* A name so long that no journal can stand beside it, and one of which the
 * words have only the end. */
static void try_long_name(const char *directory)
{
    const struct bhtf_file_how how = { BHTF_FILE_WRITE, 100, NULL, NULL };
    struct bhtf_file_error why;
    char name[900];
    bhtf_file *f;

    make_fresh();
    snprintf(name, sizeof name, "%s/%0250d", directory, 0);
    unlink(name);
    holds("a name of 250 bytes is too long for a journal",
          bhtf_file_create(name, first, SIZE, NULL, &why) != 0 &&
          why.error == ENAMETOOLONG &&
          strstr(why.words, "no journal could stand beside it") != NULL);
    copy_file(file, name);
    f = bhtf_file_open(name, &how, NULL);
    holds("one that has it is read only", has(name, "A", NULL) && f != NULL &&
          put(f, "A", "1") == BHTF_FILE_SYSTEM &&
          bhtf_file_error(f)->error == ENAMETOOLONG &&
          strstr(bhtf_file_error(f)->words, "File name too long") != NULL);
    if (f != NULL)
        bhtf_file_close(f);
    unlink(name);
    snprintf(name, sizeof name, "%s/%0240d", directory, 0);
    unlink(name);
    copy_file(file, name);
    f = bhtf_file_open(name, &how, NULL);
    strcat(name, ".journal");
    mkdir(name, 0755);
    holds("words keep their reason", f != NULL && put(f, "A", "1") != 0 &&
          strstr(bhtf_file_error(f)->words, "File exists") != NULL);
    bhtf_file_close(f);
    rmdir(name);
    *strrchr(name, '.') = '\0';
    unlink(name);
}

/* ---- sums ---- */

static uint64_t others(const uint8_t *image, size_t length,
                       const uint8_t *pairs, size_t count)
{
    return layer_sum(image, length, 0, length) -
           layer_sum_met(image, length, pairs, count, 0) +
           layer_sum_met(image, length, pairs, count, 1);
}

static void try_sums(void)
{
    static uint8_t big[5000 * 4096];
    const uint8_t pairs[16] = { 0, 0, 0, 10, 0, 0, 0, 5, 0, 0, 32, 0, 0, 0, 0,
                                3 };
    uint64_t before;
    int seen = 1;

    holds("XXH64 of nothing",
          layer_xxh64(NULL, 0, 0) == UINT64_C(0xEF46DB3751D8E999));
    holds("XXH64 of a", layer_xxh64((const uint8_t *)"a", 1, 0) ==
          UINT64_C(0xD24EC4F1A98C6E5B));
    holds("XXH64 of abc", layer_xxh64((const uint8_t *)"abc", 3, 0) ==
          UINT64_C(0x44BC2CF5AD770999));
    holds("XXH64 of 39 bytes", layer_xxh64((const uint8_t *)
          "Nobody inspects the spammish repetition", 39, 0) ==
          UINT64_C(0xFBCEA83C8A378BF1));
    before = others(big, sizeof big, pairs, 2);
    memset(big + 10, 'x', 5);
    memset(big + 8192, 'y', 3);
    holds("stretches do not count",
          before == others(big, sizeof big, pairs, 2));
    big[15] = 1;
    holds("the byte after one does",
          before != others(big, sizeof big, pairs, 2));
    before = layer_sum(big, sizeof big, 0, sizeof big);
    for (size_t page = 0; page < 5000; page++) {
        big[page * 4096 + page % 4096] ^= 1;
        seen &= layer_sum(big, sizeof big, 0, sizeof big) != before;
        big[page * 4096 + page % 4096] ^= 1;
        page += 236;
    }
    holds("every page of a long file is in its sum", seen);
    holds("a sum is that of its parts", before ==
          layer_sum(big, sizeof big, 0, 8192) +
          layer_sum(big, sizeof big, 8192, sizeof big));
}

/* A file above 16 MiB. */
static void try_large(void)
{
    const size_t size = 40u << 20;
    uint8_t *image = calloc(size, 1);
    bhtf_file *f;

    unlink(file);
    unlink(journal);
    if (image == NULL || create(image, size, 1000) != 0 ||
        bhtf_file_create(file, image, size, NULL, NULL) != 0)
        exit(2);
    free(image);
    holds("a large file: unfinished", leave_unfinished());
    holds("a large file: read", has(file, "X", "unfinished"));
    f = open_writer(NULL);
    holds("a large file: written", f != NULL && bhtf_file_recovered(f) &&
          put(f, "Y", "1") == 0 && put(f, "Z", "2") == 0);
    bhtf_file_close(f);
    holds("a large file: as it should be", has(file, "X", "unfinished") &&
          has(file, "Y", "1") && has(file, "Z", "2"));
    unlink(file);
}

/* An older copy of a large file that is put back, which differs in one text. */
static void try_large_foreign(void)
{
    enum { LARGE = 40 << 20, TEXT = 3 << 20, TEXTS = 5 };
    static char text[TEXT + 1];
    uint8_t *image = calloc(LARGE, 1), *older = malloc(LARGE);
    int refused = 0;

    unlink(file);
    unlink(journal);
    memset(text, 'a', TEXT);
    if (image == NULL || older == NULL ||
        create(image, LARGE, 1000) != 0)
        exit(2);
    for (char name[] = "A"; name[0] < 'A' + TEXTS; name[0]++)
        bhtf_add(image, LARGE, key(name), KEY, (uint8_t *)text, TEXT, BHTF_NEW);
    for (int i = 0; i < TEXTS; i++) {
        int fd = open(file, O_RDWR | O_CREAT, 0644);
        char name[] = { (char)('A' + i), '\0' };
        struct bhtf_file_error why = { 0, 0, "" };
        bhtf_file *f;

        if (write(fd, image, LARGE) != LARGE)
            exit(2);
        f = open_writer(NULL);
        text[1 + 131072 * i] = 'b';
        put(f, name, text);
        text[1 + 131072 * i] = 'a';
        bhtf_file_close(f);
        leave_unfinished();
        if (pwrite(fd, image, LARGE, 0) != LARGE)
            exit(2);
        close(fd);
        f = bhtf_file_open(file, NULL, &why);
        refused += f == NULL && why.number == BHTF_FILE_FOREIGN;
        if (f != NULL)
            bhtf_file_close(f);
        unlink(journal);
    }
    holds("older copies of a large file, each other in one byte",
          refused == TEXTS);
    free(image);
    free(older);
    unlink(file);
}

/* ---- the other version ---- */

static int major_of(const char *path)
{
    uint8_t head[8] = { 0 };
    int fd = open(path, O_RDONLY);

    if (fd < 0 || read(fd, head, sizeof head) != sizeof head)
        head[5] = 0;
    close(fd);
    return head[5];
}

static size_t length_of(const char *path)
{
    struct stat about;

    return stat(path, &about) == 0 ? (size_t)about.st_size : 0;
}

static void try_convert(void)
{
    const int mine = wide ? 2 : 1;
    bhtf_file *f;
    pid_t child;
    int status = 0;

    make_fresh();
    unlink(other);
    f = open_writer(NULL);
    if (f == NULL || put(f, "A", "a text") != 0 || bhtf_file_begin(f) != 0 ||
        put(f, "B", "") != 0)
        exit(2);
    holds("convert: a writer's batch counts", bhtf_file_convert(f, other, 0) ==
          0 && has(other, "A", "a text") && has(other, "B", ""));
    holds("convert: the other version, as long as it was",
          major_of(other) == 3 - mine && length_of(other) == SIZE);
    holds("convert: the batch is open still", bhtf_file_rollback(f) == 0 &&
          has(file, "B", NULL) && major_of(file) == mine);
    holds("convert: a name that is taken", bhtf_file_convert(f, other, 0) ==
          BHTF_FILE_SYSTEM && bhtf_file_error(f)->error == EEXIST &&
          has(other, "B", ""));
    unlink(other);
    holds("convert: a length that is none",
          bhtf_file_convert(f, other, 5000) == BHTF_BAD_LENGTH &&
          bhtf_file_convert(f, other, (size_t)1 << 31) == BHTF_BAD_LENGTH &&
          !is_there(other));
    holds("convert: too short", bhtf_file_convert(f, other, 4096) ==
          BHTF_NO_ROOM && strstr(bhtf_file_error(f)->words, "8192 bytes") !=
          NULL && !is_there(other));
    holds("convert: as short as may be", bhtf_file_convert(f, other, 8192) == 0
          && has(other, "A", "a text") && length_of(other) == 8192);
    bhtf_file_close(f);
    f = bhtf_file_open(other, NULL, NULL);
    unlink(file);
    holds("convert: and back", f != NULL &&
          bhtf_file_convert(f, file, SIZE) == 0 && has(file, "A", "a text") &&
          major_of(file) == mine);
    bhtf_file_pause(f);
    unlink(file);
    holds("convert: not while paused", bhtf_file_convert(f, file, 0) ==
          BHTF_FILE_MISUSE && !is_there(file));
    bhtf_file_refresh(f);
    child = fork();
    if (child == 0)
        _exit(bhtf_file_convert(f, file, 0) == BHTF_FILE_MISUSE ? 0 : 1);
    waitpid(child, &status, 0);
    holds("convert: not by a fork", status == 0 && !is_there(file));
    bhtf_file_close(f);
    unlink(other);
}

/* A file whose messages need another page in version 2.0.0, and one that is not
 * sound. */
static void try_convert_full(void)
{
    enum { SLOTS = 50, FULL = 8192, MOST = FULL - 4096 };
    static uint8_t image[FULL], text[MOST];
    uint32_t left = MOST;
    bhtf_file *f;

    unlink(file);
    unlink(other);
    if (bhtf_create(image, FULL, KEY, SLOTS, 3) != 0)
        exit(2);
    for (char name[] = "A"; left > 0; name[0]++) {
        uint32_t size = left < 1004 ? left - 4 : 1000;

        if (bhtf_add(image, FULL, key(name), KEY, text, size, BHTF_NEW) != 0)
            exit(2);
        left -= size + 4;
    }
    if (bhtf_file_create(file, image, FULL, NULL, NULL) != 0)
        exit(2);
    f = bhtf_file_open(file, NULL, NULL);
    holds("convert: a full file becomes longer", f != NULL &&
          bhtf_file_convert(f, other, 0) == 0 && length_of(other) ==
          FULL + 4096 && major_of(other) == 2);
    bhtf_file_close(f);
    unlink(other);
    unlink(file);
    image[23]++;
    if (bhtf_file_create(file, image, FULL, NULL, NULL) != 0)
        exit(2);
    f = bhtf_file_open(file, NULL, NULL);
    holds("convert: a file that is not sound", f != NULL &&
          bhtf_file_convert(f, other, 0) == BHTF_UNSOUND && !is_there(other));
    bhtf_file_close(f);
    unlink(file);
}

/* What a version allows, and a text that only 2.0.0 does. */
static void try_long_text(void)
{
    const size_t size = 40u << 20;
    const uint32_t text = 17u << 20;
    uint8_t *image = malloc(size), *bytes = calloc(text, 1);
    bhtf_file *f;
    size_t length;

    unlink(file);
    unlink(other);
    if (image == NULL || bytes == NULL || create(image, size, 50) != 0 ||
        bhtf_file_create(file, image, size, NULL, NULL) != 0)
        exit(2);
    holds("the longest message", bhtf_message_max(image, size) ==
          (wide ? BHTF_MESSAGE_MAX_2 : BHTF_MESSAGE_MAX));
    holds("a message's header", bhtf_message_header(image, size) ==
          (wide ? BHTF_MESSAGE_HEADER_2 : BHTF_MESSAGE_HEADER));
    holds("neither of what is no file", bhtf_message_max(image, 4097) == 0 &&
          bhtf_message_header(bytes, 4096) == 0);
    f = open_writer(NULL);
    bytes[text - 1] = 7;
    holds("a text of 17 MiB", f != NULL &&
          bhtf_file_add(f, key("S"), KEY, bytes, text, BHTF_NEW) ==
          (wide ? 0 : BHTF_TOO_LONG));
    if (wide) {
        uint32_t at, found;
        const uint8_t *now = bhtf_file_image(f, &length);

        bhtf_lookup(now, length, key("S"), KEY, &at, &found);
        holds("is there", found == text && memcmp(now + at, bytes, text) == 0);
        holds("and has no place in version 1",
              bhtf_file_convert(f, other, 0) == BHTF_TOO_LONG_FOR_1 &&
              !is_there(other));
    }
    bhtf_file_close(f);
    unlink(file);
    free(image);
    free(bytes);
}

int main(int argc, char **argv)
{
    if (argc < 2)
        return 2;
    wide = argc > 2 && strcmp(argv[2], "wide") == 0;
    snprintf(file, sizeof file, "%s/layer.bhtf", argv[1]);
    snprintf(journal, sizeof journal, "%s.journal", file);
    snprintf(other, sizeof other, "%s.other", file);
    try_sums();
    try_new();
    try_batches();
    try_locks();
    try_names();
    try_unfinished();
    try_failing();
    try_failing_between();
    try_without_sync();
    try_no_room();
    try_lost();
    try_unreadable();
    try_foreign();
    try_damaged();
    try_recover();
    try_moved(argv[1]);
    try_hard_links();
    try_owner();
    try_rights();
    try_holes();
    try_unreadable_directory(argv[1]);
    try_long_name(argv[1]);
    try_fork();
    try_large();
    try_large_foreign();
    try_links(argv[1]);
    try_convert();
    try_convert_full();
    try_long_text();
    printf("%d passed, %d failed\n", passed, failed);
    return failed == 0 && passed > 0 ? 0 : 1;
}
