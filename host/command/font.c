/* Widths of texts: the advances of DejaVu Sans and DejaVu Sans Mono 2.37, as
 * their files have them. tests/sheets.sh holds them against the types
 * themselves. */
#include "font.h"

#include "utf8.h"

#include <string.h>

/* Of one em, in thousandths and rounded up: U+0020 to U+007E, then U+00A0 to
 * U+017F. */
static const short advances[] = {
    318, 401, 460, 838, 637, 951, 780, 275, 391, 391, 500, 838,
    318, 361, 318, 337, 637, 637, 637, 637, 637, 637, 637, 637,
    637, 637, 337, 337, 838, 838, 838, 531, 1000, 685, 687, 699,
    771, 632, 576, 775, 752, 295, 295, 656, 558, 863, 749, 788,
    604, 788, 695, 635, 611, 732, 685, 989, 686, 611, 686, 391,
    337, 391, 838, 500, 500, 613, 635, 550, 635, 616, 353, 635,
    634, 278, 278, 580, 278, 975, 634, 612, 635, 635, 412, 521,
    393, 634, 592, 818, 592, 592, 525, 637, 337, 637, 838, 318,
    401, 637, 637, 637, 637, 337, 500, 500, 1000, 472, 612, 838,
    361, 1000, 500, 500, 838, 401, 401, 500, 637, 637, 318, 500,
    401, 472, 612, 970, 970, 970, 531, 685, 685, 685, 685, 685,
    685, 975, 699, 632, 632, 632, 632, 295, 295, 295, 295, 775,
    749, 788, 788, 788, 788, 788, 838, 788, 732, 732, 732, 732,
    611, 605, 630, 613, 613, 613, 613, 613, 613, 982, 550, 616,
    616, 616, 616, 278, 278, 278, 278, 612, 634, 612, 612, 612,
    612, 612, 838, 612, 634, 634, 634, 634, 592, 635, 592, 685,
    613, 685, 613, 685, 613, 699, 550, 699, 550, 699, 550, 699,
    550, 771, 635, 775, 635, 632, 616, 632, 616, 632, 616, 632,
    616, 632, 616, 775, 635, 775, 635, 775, 635, 775, 635, 752,
    634, 917, 695, 295, 278, 295, 278, 295, 278, 295, 278, 295,
    278, 590, 556, 295, 278, 656, 580, 580, 558, 278, 558, 278,
    558, 375, 558, 342, 563, 285, 749, 634, 749, 634, 749, 634,
    814, 749, 634, 788, 612, 788, 612, 788, 612, 1070, 1023, 695,
    412, 695, 412, 695, 412, 635, 521, 635, 521, 635, 521, 635,
    521, 611, 393, 611, 393, 611, 393, 732, 634, 732, 634, 732,
    634, 732, 634, 732, 634, 732, 634, 989, 818, 611, 592, 611,
    686, 525, 686, 525, 686, 525, 353,
};

enum { FIRST = 0x20, LAST = 0x7E, MORE_FIRST = 0xA0, MORE_LAST = 0x17F,
       WIDEST = 1100 };

static const double mono_advance = 0.6021;

static int advance_of(uint32_t c)
{
    if (c >= FIRST && c <= LAST)
        return advances[c - FIRST];
    if (c >= MORE_FIRST && c <= MORE_LAST)
        return advances[c - MORE_FIRST + LAST - FIRST + 1];
    return WIDEST;
}

double sans_width(const char *text, double size)
{
    const uint8_t *at = (const uint8_t *)text;
    size_t left = strlen(text);
    double all = 0;

    while (left > 0) {
        uint32_t c = 0;
        size_t used = utf8_read(at, left, &c);

        all += used == 0 ? WIDEST : advance_of(c);
        used = used == 0 ? 1 : used;
        at += used;
        left -= used;
    }
    return all / 1000 * size;
}

double mono_width(const char *text, double size)
{
    return places_of(text) * size * mono_advance;
}
