/* locker FILE read|write [LENGTH]: locks a whole file with fcntl as the
 * original's writer does, or its first LENGTH bytes; prints "locked" and holds
 * the lock until standard input ends. */
#include <fcntl.h>
#include <stdio.h>
#include <stdlib.h>
#include <string.h>
#include <unistd.h>

int main(int argc, char **argv)
{
    struct flock lock;
    char byte;
    int write = argc >= 3 && strcmp(argv[2], "write") == 0;
    int fd = argc >= 3 ? open(argv[1], write ? O_RDWR : O_RDONLY) : -1;

    memset(&lock, 0, sizeof lock);
    lock.l_type = write ? F_WRLCK : F_RDLCK;
    lock.l_whence = SEEK_SET;
    lock.l_len = argc == 4 ? atol(argv[3]) : 0;
    if (fd < 0 || fcntl(fd, F_SETLK, &lock) != 0) {
        perror("locker");
        return 1;
    }
    puts("locked");
    fflush(stdout);
    while (read(STDIN_FILENO, &byte, 1) > 0)
        ;
    return 0;
}
