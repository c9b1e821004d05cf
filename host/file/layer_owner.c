/* The file layer: whose journal counts. In a directory in which anybody may
 * make files (/tmp) anybody can put a journal beside another's file. One counts
 * only if its owner could have written to the file as well. */
#define _DEFAULT_SOURCE

#include "layer.h"

#include <errno.h>
#include <sys/stat.h>
#include <unistd.h>

#ifdef __linux__
#include <sys/xattr.h>
#endif

#ifdef __linux__
/* The access list as the system keeps it: a version, then entries of 8 bytes,
 * each a kind, rights and a number, least significant byte first. */
enum { ENTRY_USER = 2, ENTRY_MASK = 16, ENTRY = 8, LIST_MOST = 4 + 64 * ENTRY };

static unsigned u16(const uint8_t *at)
{
    return at[0] | (unsigned)at[1] << 8;
}

/* Does the file's access list let a user write? */
static int is_listed(const bhtf_file *f, uid_t user)
{
    uint8_t list[LIST_MOST];
    ssize_t length = fgetxattr(f->fd, "system.posix_acl_access", list,
                               sizeof list);
    int may = 0, masked = 0;

    for (ssize_t at = 4; at + ENTRY <= length; at += ENTRY) {
        const uint8_t *e = list + at;
        uid_t number = u16(e + 4) | (uid_t)u16(e + 6) << 16;

        may |= u16(e) == ENTRY_USER && number == user && u16(e + 2) & 2;
        masked |= u16(e) == ENTRY_MASK && !(u16(e + 2) & 2);
    }
    return may && !masked;
}
#else
static int is_listed(const bhtf_file *f, uid_t user)
{
    (void)f;
    (void)user;
    return 0;
}
#endif

/* Whoever has a file of a group is of that group, except where a directory
 * that is open to all gives its own group away. */
static int shows_group(const bhtf_file *f)
{
    struct stat about;

    return fstat(f->directory, &about) == 0 &&
           !((about.st_mode & S_ISGID) && (about.st_mode & S_IWOTH));
}

int layer_may_write(const bhtf_file *f, const struct stat *other)
{
    struct stat about;

    if (other->st_uid == 0 || other->st_uid == geteuid())
        return 1;
    if (fstat(f->fd, &about) != 0)
        return 0;
    if (other->st_uid == about.st_uid || (about.st_mode & S_IWOTH))
        return 1;
    return (about.st_mode & S_IWGRP && other->st_gid == about.st_gid &&
            shows_group(f)) || is_listed(f, other->st_uid);
}
