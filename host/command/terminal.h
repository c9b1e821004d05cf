/* Texts of points on standard output. */
#ifndef TERMINAL_H
#define TERMINAL_H

#include <stddef.h>
#include <stdint.h>

/* Puts bytes as they are; on a terminal, what does not print, line ends and
 * tabs aside, as \xHH: a text must not change the terminal. */
void put_bytes(const uint8_t *bytes, size_t length);

#endif
