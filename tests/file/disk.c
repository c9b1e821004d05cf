/* What a disk may hold.
 *
 * A change is a sector of a file, a file's length, or a name. One that was
 * flushed before the cut is there; each other one is there, or not, or (a
 * sector) in part, whatever became of the rest. Of two changes of one thing
 * the later one stands if it is there. */
#define _GNU_SOURCE

#include "disk.h"

#include <dirent.h>
#include <fcntl.h>
#include <stdio.h>
#include <stdlib.h>
#include <string.h>
#include <sys/stat.h>
#include <unistd.h>

enum kind { SECTOR_CHANGE, LENGTH_CHANGE, NAME_CHANGE, FLUSH, DIRECTORY_FLUSH,
            ACKNOWLEDGED };

struct event {
    enum kind kind;
    ino_t file;         /* of a name: 0 if it is gone */
    size_t number;      /* sector, length, or acknowledged calls */
    char name[128];
    uint8_t bytes[SECTOR];
};

/* A file as it was last seen. */
struct seen {
    ino_t file;
    size_t length;
    uint8_t *bytes;
};

struct name {
    char name[128];
    ino_t file;
    int there;
};

static char directory_path[512];
static struct event *events;
static size_t event_count, event_room;
static struct seen seen[64];
static size_t seen_count;
static struct name names[64];
static size_t name_count;

/* ---- the record ---- */

static struct event *new_event(enum kind kind)
{
    if (event_count == event_room) {
        event_room = event_room == 0 ? 256 : 2 * event_room;
        events = realloc(events, event_room * sizeof *events);
        if (events == NULL)
            abort();
    }
    memset(&events[event_count], 0, sizeof *events);
    events[event_count].kind = kind;
    return &events[event_count++];
}

static struct seen *find_seen(ino_t file)
{
    for (size_t i = 0; i < seen_count; i++)
        if (seen[i].file == file)
            return &seen[i];
    if (seen_count == sizeof seen / sizeof seen[0])
        abort();
    memset(&seen[seen_count], 0, sizeof seen[0]);
    seen[seen_count].file = file;
    return &seen[seen_count++];
}

static void note_sectors(struct seen *s, const uint8_t *bytes, size_t length)
{
    for (size_t at = 0; at < length; at += SECTOR) {
        size_t part = length - at < SECTOR ? length - at : SECTOR;
        uint8_t before[SECTOR] = { 0 }, now[SECTOR] = { 0 };

        memcpy(now, bytes + at, part);
        if (at < s->length)
            memcpy(before, s->bytes + at,
                   s->length - at < SECTOR ? s->length - at : SECTOR);
        if (memcmp(before, now, SECTOR) != 0) {
            struct event *e = new_event(SECTOR_CHANGE);

            e->file = s->file;
            e->number = at / SECTOR;
            memcpy(e->bytes, now, SECTOR);
        }
    }
}

static void look_at_file(const char *path)
{
    int fd = open(path, O_RDONLY | O_CLOEXEC);
    struct stat about;
    struct seen *s;
    uint8_t *bytes;

    if (fd < 0 || fstat(fd, &about) != 0 || !S_ISREG(about.st_mode)) {
        if (fd >= 0)
            close(fd);
        return;
    }
    bytes = malloc((size_t)about.st_size + 1);
    if (bytes == NULL ||
        pread(fd, bytes, (size_t)about.st_size, 0) != about.st_size)
        abort();
    close(fd);
    s = find_seen(about.st_ino);
    if (s->length != (size_t)about.st_size) {
        struct event *e = new_event(LENGTH_CHANGE);

        e->file = s->file;
        e->number = (size_t)about.st_size;
    }
    note_sectors(s, bytes, (size_t)about.st_size);
    free(s->bytes);
    s->bytes = bytes;
    s->length = (size_t)about.st_size;
}

static void note_name(const char *name, ino_t file)
{
    struct name *n = NULL;
    struct event *e;

    for (size_t i = 0; i < name_count; i++)
        if (strcmp(names[i].name, name) == 0)
            n = &names[i];
    if (n == NULL) {
        n = &names[name_count++];
        snprintf(n->name, sizeof n->name, "%s", name);
        n->file = 0;
    }
    n->there = 1;
    if (n->file == file)
        return;
    n->file = file;
    e = new_event(NAME_CHANGE);
    e->file = file;
    snprintf(e->name, sizeof e->name, "%s", name);
}

static void look_at_names(void)
{
    DIR *d = opendir(directory_path);
    struct dirent *entry;
    char path[1024];

    if (d == NULL)
        abort();
    for (size_t i = 0; i < name_count; i++)
        names[i].there = 0;
    while ((entry = readdir(d)) != NULL) {
        if (entry->d_name[0] == '.')
            continue;
        snprintf(path, sizeof path, "%s/%s", directory_path, entry->d_name);
        look_at_file(path);
        note_name(entry->d_name, entry->d_ino);
    }
    closedir(d);
    for (size_t i = 0; i < name_count; i++)
        if (!names[i].there && names[i].file != 0) {
            struct event *e = new_event(NAME_CHANGE);

            names[i].file = 0;
            snprintf(e->name, sizeof e->name, "%s", names[i].name);
        }
}

/* Files that have no name yet. */
static void look_at_open_files(pid_t child)
{
    char path[1024], link[1024];

    for (int fd = 3; fd < 16; fd++) {
        ssize_t length;

        snprintf(path, sizeof path, "/proc/%ld/fd/%d", (long)child, fd);
        length = readlink(path, link, sizeof link - 1);
        if (length <= 0)
            continue;
        link[length] = '\0';
        if (strncmp(link, directory_path, strlen(directory_path)) == 0 &&
            link[strlen(directory_path)] == '/')
            look_at_file(path);
    }
}

void disk_begin(const char *directory)
{
    if (realpath(directory, directory_path) == NULL)
        abort();
    event_count = 0;
    seen_count = 0;
    name_count = 0;
    look_at_names();
    for (size_t i = 0; i < seen_count; i++)
        new_event(FLUSH)->file = seen[i].file;
    new_event(DIRECTORY_FLUSH);
}

void disk_look(pid_t child)
{
    look_at_open_files(child);
    look_at_names();
}

void disk_flushed(pid_t child, int fd)
{
    struct stat about;
    char path[64];

    snprintf(path, sizeof path, "/proc/%ld/fd/%d", (long)child, fd);
    if (stat(path, &about) != 0)
        return;
    if (S_ISDIR(about.st_mode))
        new_event(DIRECTORY_FLUSH);
    else
        new_event(FLUSH)->file = about.st_ino;
}

void disk_acknowledged(int calls)
{
    new_event(ACKNOWLEDGED)->number = (size_t)calls;
}

size_t disk_events(void)
{
    return event_count;
}

void disk_end(void)
{
    for (size_t i = 0; i < seen_count; i++)
        free(seen[i].bytes);
    free(events);
    events = NULL;
    event_count = event_room = seen_count = name_count = 0;
}

/* ---- states ---- */

static int is_change(const struct event *e)
{
    return e->kind == SECTOR_CHANGE || e->kind == LENGTH_CHANGE ||
           e->kind == NAME_CHANGE;
}

static int is_flushed(size_t i, size_t until)
{
    for (size_t j = i + 1; j < until; j++)
        if (events[i].kind == NAME_CHANGE
                ? events[j].kind == DIRECTORY_FLUSH
                : events[j].kind == FLUSH && events[j].file == events[i].file)
            return 1;
    return 0;
}

size_t disk_open_changes(size_t until, int *acknowledged)
{
    size_t count = 0;

    *acknowledged = 0;
    for (size_t i = 0; i < until; i++) {
        if (events[i].kind == ACKNOWLEDGED)
            *acknowledged = (int)events[i].number;
        count += is_change(&events[i]) && !is_flushed(i, until);
    }
    return count;
}

/* A file of the state. */
struct made {
    ino_t file;
    size_t length;
    size_t reach;    /* end of its last sector */
    uint8_t *bytes;
};

static struct made made[64];
static size_t made_count;
static struct name made_names[64];
static size_t made_name_count;

static struct made *find_made(ino_t file)
{
    for (size_t i = 0; i < made_count; i++)
        if (made[i].file == file)
            return &made[i];
    memset(&made[made_count], 0, sizeof made[0]);
    made[made_count].file = file;
    return &made[made_count++];
}

static void make_sector(const struct event *e, int torn)
{
    struct made *m = find_made(e->file);
    size_t end = (e->number + 1) * SECTOR;
    /* Often near its beginning, where a head is. */
    size_t from = torn ? (size_t)rand() % (rand() % 2 == 0 ? 96 : SECTOR) : 0;

    if (end > m->reach) {
        m->bytes = realloc(m->bytes, end);
        if (m->bytes == NULL)
            abort();
        memset(m->bytes + m->reach, 0, end - m->reach);
        m->reach = end;
    }
    if (torn && rand() % 2 == 0)
        memcpy(m->bytes + end - SECTOR, e->bytes, from);
    else
        memcpy(m->bytes + end - SECTOR + from, e->bytes + from, SECTOR - from);
}

static void make_name(const struct event *e)
{
    struct name *n = NULL;

    for (size_t i = 0; i < made_name_count; i++)
        if (strcmp(made_names[i].name, e->name) == 0)
            n = &made_names[i];
    if (n == NULL) {
        n = &made_names[made_name_count++];
        snprintf(n->name, sizeof n->name, "%s", e->name);
    }
    n->file = e->file;
}

static void make_change(const struct event *e, int torn)
{
    if (e->kind == SECTOR_CHANGE)
        make_sector(e, torn);
    else if (e->kind == LENGTH_CHANGE)
        find_made(e->file)->length = e->number;
    else
        make_name(e);
}

/* Sectors behind a length that is not there are lost, or are the length. */
static void write_file(const char *path, struct made *m)
{
    int fd = open(path, O_RDWR | O_CREAT | O_TRUNC | O_CLOEXEC, 0644);
    size_t length;

    if (m->reach > m->length && rand() % 2 == 0)
        m->length = m->reach;
    length = m->reach < m->length ? m->reach : m->length;

    if (fd < 0 || ftruncate(fd, (off_t)m->length) != 0 ||
        pwrite(fd, m->bytes, length, 0) != (ssize_t)length)
        abort();
    close(fd);
}

static void write_names(const char *directory)
{
    char path[1024];

    for (size_t i = 0; i < made_name_count; i++) {
        snprintf(path, sizeof path, "%s/%s", directory, made_names[i].name);
        unlink(path);
        if (made_names[i].file != 0)
            write_file(path, find_made(made_names[i].file));
    }
}

void disk_write(size_t until, const char *directory,
                int (*choose)(size_t change))
{
    size_t open_change = 0;

    made_count = 0;
    made_name_count = 0;
    for (size_t i = 0; i < until; i++) {
        int there = 1;

        if (!is_change(&events[i]))
            continue;
        if (!is_flushed(i, until))
            there = choose(open_change++);
        if (there)
            make_change(&events[i], there == 2);
    }
    write_names(directory);
    for (size_t i = 0; i < made_count; i++)
        free(made[i].bytes);
}
