/* Epochs, as numbers and as dates. */
#include "epoch.h"

#include "commands.h"

#include <stdio.h>
#include <string.h>

/* ---- dates ---- */

static int is_leap(int64_t year)
{
    return (year % 4 == 0 && year % 100 != 0) || year % 400 == 0;
}

/* Days from 1970-01-01; -1 if there is no such day, or it is before that. */
static int64_t days_of(int64_t year, int month, int day)
{
    static const int before[] = { 0, 31, 59, 90, 120, 151, 181, 212, 243, 273,
                                  304, 334 };
    static const int last[] = { 31, 28, 31, 30, 31, 30, 31, 31, 30, 31, 30,
                                31 };
    int64_t years = year - 1;

    if (year < 1970 || month < 1 || month > 12 || day < 1 ||
        day > last[month - 1] + (month == 2 && is_leap(year)))
        return -1;
    return (years * 365 + years / 4 - years / 100 + years / 400) - 719162 +
           before[month - 1] + (month > 2 && is_leap(year)) + day - 1;
}

static int date_read(const char *word, int64_t *days)
{
    int year, month, day, used = 0;

    if (sscanf(word, "%4d-%2d-%2d%n", &year, &month, &day, &used) != 3 ||
        used != 10 || word[10] != '\0')
        return -1;
    *days = days_of(year, month, day);
    return *days < 0 ? -1 : 0;
}

/* The Monday of a year's first week, which is the one with January 4. */
static int64_t first_monday(int year)
{
    int64_t days = days_of(year, 1, 4);

    return days - (days + 3) % 7; /* 1970-01-01 was a Thursday */
}

static int week_read(const char *word, int64_t *days)
{
    int year, week, used = 0;

    if (sscanf(word, "%4d-W%2d%n", &year, &week, &used) != 2 || used != 8 ||
        word[8] != '\0' || year < 1970 || week < 1)
        return -1;
    *days = first_monday(year) + 7 * (week - 1);
    return *days < 0 || *days >= first_monday(year + 1) ? -1 : 0;
}

int epoch_read(const char *word, int weeks, uint32_t *epoch)
{
    uint64_t number;
    int64_t days;

    if (number_read(word, UINT32_MAX, &number) == 0) {
        *epoch = (uint32_t)number;
        return 0;
    }
    if ((date_read(word, &days) != 0 && week_read(word, &days) != 0) ||
        (weeks && days < 4))
        return -1;
    *epoch = (uint32_t)(weeks ? (days - 4) / 7 : days);
    return 0;
}

int epoch_weeks(const struct options *o, int *weeks)
{
    *weeks = o->unit != NULL && strcmp(o->unit, "week") == 0;
    if (o->unit == NULL || *weeks || strcmp(o->unit, "day") == 0)
        return DONE;
    complain("--epoch-unit is day or week, and not %s", o->unit);
    return TROUBLE;
}

int epoch_wanted(const struct options *o, const char *word, uint32_t *epoch)
{
    int weeks;

    if (epoch_weeks(o, &weeks) != DONE)
        return TROUBLE;
    if (epoch_read(word, weeks, epoch) == 0)
        return DONE;
    complain("%s, and not %s", EPOCH_IS, word);
    return TROUBLE;
}

/* ---- keys ---- */

int epoch_key(struct buffer *key, const uint8_t *typed, size_t length,
              uint32_t epoch, uint32_t key_size)
{
    uint32_t name = key_size < EPOCH_SIZE ? 0 : key_size - EPOCH_SIZE;

    if (key_from(key, typed, length, name) != 0)
        return -1;
    for (int shift = 24; shift >= 0; shift -= 8)
        if (buffer_put_byte(key, (uint8_t)(epoch >> shift)) != 0)
            return -1;
    return 0;
}

int key_named(struct buffer *key, const struct options *o,
              const uint8_t *typed, size_t length, uint32_t key_size)
{
    if (o->given & OPTION_EPOCH)
        return epoch_key(key, typed, length, o->epoch_number, key_size);
    return key_from(key, typed, length, key_size);
}

int dated_show(struct buffer *to, const uint8_t *key, uint32_t key_size)
{
    uint32_t length = key_size - EPOCH_SIZE;
    char number[32];

    while (length > 0 && key[length - 1] == 0)
        length--;
    snprintf(number, sizeof number, " at %lu",
             (unsigned long)epoch_of(key, key_size));
    return name_show(to, key, length) |
           buffer_put(to, number, strlen(number));
}

uint32_t epoch_of(const uint8_t *key, uint32_t key_size)
{
    const uint8_t *at = key + key_size - EPOCH_SIZE;

    return (uint32_t)at[0] << 24 | (uint32_t)at[1] << 16 |
           (uint32_t)at[2] << 8 | at[3];
}
