/* What the messages of a file take of its data, and of what kind they are. */
#include "space_used.h"

#include "bhtf.h"

#include <string.h>

static void note_message(struct space *s, const uint8_t *image,
                         const struct header *h, uint32_t slot)
{
    struct stretch m;

    if (!slot_stretch(image, h, slot, &m)) {
        s->bad++;
    } else if (m.end > 0 && image[m.start] == 'a') {
        s->active += m.end - m.start;
        s->texts++;
        s->empty += m.end - m.start == h->message_header;
    } else {
        s->withdrawn += m.end - m.start;
        s->bare++;
    }
}

struct space space_measure(const struct buffer *copy, const struct header *h)
{
    struct space s;
    uint32_t slot, place;

    memset(&s, 0, sizeof s);
    bhtf_walk(copy->bytes, copy->length, 0, &slot, &place);
    while (place != 0) {
        note_message(&s, copy->bytes, h, slot);
        bhtf_walk(copy->bytes, copy->length, slot + 1, &slot, &place);
    }
    s.dead = h->next - h->data - s.active;
    return s;
}
