/* See grow.h. */
#include "grow.h"
#include "samples.h"

#include <stdio.h>
#include <stdlib.h>
#include <string.h>

void name_of(uint8_t *key, uint32_t number)
{
    uint32_t scattered = (number + 1) * 2654435761u;

    memcpy(key, "point ", 6);
    for (int i = KEY - 1; i >= 6; i--) {
        key[i] = (uint8_t)('0' + scattered % 10);
        scattered /= 10;
    }
}

const uint8_t *text_of(uint32_t number)
{
    static uint8_t text[TEXT];

    for (int i = 0; i < TEXT; i++)
        text[i] = (uint8_t)(number >> (i % 4 * 8)) ^ (uint8_t)i;
    return text;
}

void note_time(struct times *t, double spent)
{
    if (t->count == t->room) {
        t->room = t->room == 0 ? 1024 : 2 * t->room;
        t->of = realloc(t->of, t->room * sizeof *t->of);
        if (t->of == NULL)
            exit(2);
    }
    t->of[t->count++] = spent / 1000;
}

void clear_times(struct times *t)
{
    t->count = 0;
}

void print_times(uint32_t slots, const char *what, const char *who,
                 struct times *t)
{
    double sum = 0;

    if (t->count == 0)
        return;
    qsort(t->of, t->count, sizeof *t->of, rising);
    for (size_t i = 0; i < t->count; i++)
        sum += t->of[i];
    printf("| %u | %s | %s | %zu | %.1f | %.1f | %.1f |\n", slots, what, who,
           t->count, sum / (double)t->count, t->of[t->count * 99 / 100],
           t->of[t->count - 1]);
    fflush(stdout);
}
