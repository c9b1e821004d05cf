/* The file layer: records of a file's changes, made and applied. */
#include "delta.h"
#include "layer.h"

#include <string.h>

uint32_t bhtf_file_sum(bhtf_file *file, uint8_t sum[BHTF_SUM])
{
    uint32_t number = layer_ask_shown(file);

    memset(sum, 0, BHTF_SUM);
    if (number == BHTF_ACCEPTED)
        bhtf_sum(file->image, file->length, sum);
    return number;
}

uint32_t bhtf_file_delta(bhtf_file *file, uint8_t *record, size_t record_len,
                         size_t *size)
{
    uint32_t number = layer_ask_batch(file);

    *size = 0;
    if (number != BHTF_ACCEPTED)
        return number;
    return layer_refused(file, bhtf_delta_make(file->length > 0 ? file->disk
                                               : &file->none, file->image,
                                               file->length, NULL, record,
                                               record_len, size));
}

const uint8_t *bhtf_file_before(const bhtf_file *file, size_t *image_len)
{
    *image_len = file->writing && layer_is_owner(file) ? file->length : 0;
    if (!file->writing)
        return NULL;
    return file->disk != NULL ? file->disk : &file->none;
}

uint32_t bhtf_file_changes(bhtf_file *file, struct bhtf_change *change)
{
    uint32_t number = layer_ask_batch(file);

    change->kind = 0;
    if (number != BHTF_ACCEPTED)
        return number;
    return layer_refused(file, bhtf_changes(file->length > 0 ? file->disk
                                            : &file->none, file->length,
                                            file->image, file->length,
                                            change));
}

/* ---- applying ---- */

/* Brings what differs to the image, and nothing else. */
static void take_work(bhtf_file *f)
{
    struct layer_run run;
    size_t at = 0;

    while (layer_next_run(f->image, f->work, &at, f->length, &run)) {
        memcpy(f->image + run.from, f->work + run.from, run.size);
        layer_touch(f, run.from, run.size);
    }
}

static uint32_t refused_record(bhtf_file *f, uint32_t number, uint32_t record)
{
    return number < BHTF_DELTA_NONE
        ? layer_refused(f, number)
        : layer_fail(f, number, 0, "record %lu: refused (%lu): %s",
                     (unsigned long)record + 1, (unsigned long)number,
                     bhtf_message(number));
}

static uint32_t apply(bhtf_file *f, const uint8_t *records, size_t records_len,
                      const uint8_t *end, struct bhtf_applied *done)
{
    uint32_t count, number = bhtf_count(f->image, f->length, &count);

    if (number != BHTF_ACCEPTED)
        return layer_refused(f, number);
    number = layer_lend(f);
    if (number != BHTF_ACCEPTED)
        return number;
    number = layer_apply(f->image, f->length, records, records_len, end,
                         f->work, done);
    if (number == BHTF_ACCEPTED && done->applied > 0)
        take_work(f);
    layer_take_back(f);
    return number == BHTF_ACCEPTED
        ? layer_settle(f) : refused_record(f, number, done->record);
}

uint32_t bhtf_file_apply(bhtf_file *file, const uint8_t *records,
                         size_t records_len, const uint8_t *end,
                         struct bhtf_applied *done)
{
    uint32_t number = layer_ask_writer(file);

    memset(done, 0, sizeof *done);
    if (number == BHTF_ACCEPTED)
        number = apply(file, records, records_len, end, done);
    if (number != BHTF_ACCEPTED) {
        done->applied = done->passed = 0;
        memset(done->sum, 0, BHTF_SUM);
    }
    return number;
}
