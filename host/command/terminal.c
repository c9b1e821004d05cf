/* Texts of points on standard output. */
#include "terminal.h"

#include "utf8.h"

#include <errno.h>
#include <stdio.h>
#include <unistd.h>

/* Asked once; it changes errno, which says why a write failed. */
static int is_terminal(void)
{
    static int known, is;

    if (!known) {
        int error = errno;

        is = isatty(STDOUT_FILENO);
        known = 1;
        errno = error;
    }
    return is;
}

void put_bytes(const uint8_t *bytes, size_t length)
{
    if (!is_terminal()) {
        if (length > 0)
            fwrite(bytes, 1, length, stdout);
        return;
    }
    while (length > 0) {
        size_t step = utf8_prints(bytes, length);

        if (step == 0 && (*bytes == '\n' || *bytes == '\t'))
            step = 1;
        if (step == 0)
            printf("\\x%02X", (unsigned)*bytes);
        else
            fwrite(bytes, 1, step, stdout);
        step = step == 0 ? 1 : step;
        bytes += step;
        length -= step;
    }
}
