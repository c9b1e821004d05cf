/* What a disk may hold: the changes of a directory's files, in their order,
 * with the flushes between them; and states made of them. */
#ifndef DISK_H
#define DISK_H

#include <stddef.h>
#include <stdint.h>
#include <sys/types.h>

#define SECTOR 512u

/* Begins a record of a directory, with what is in it: that is on the disk. */
void disk_begin(const char *directory);

/* Notes what has changed since; `child` may hold files without a name open. */
void disk_look(pid_t child);

/* Notes that what a descriptor of the child leads to was flushed. */
void disk_flushed(pid_t child, int fd);

/* Notes how many calls were acknowledged by now. */
void disk_acknowledged(int calls);

/* How many events there are: changes, flushes, acknowledgements. */
size_t disk_events(void);

/* How many changes a cut behind the first `events` leaves undecided, and the
 * calls acknowledged before it. */
size_t disk_open_changes(size_t events, int *acknowledged);

/* Writes such a state to a directory. `choose` says of each undecided change
 * whether it is there: 0 no, 1 yes, 2 torn. */
void disk_write(size_t events, const char *directory,
                int (*choose)(size_t change));

void disk_end(void);

#endif
