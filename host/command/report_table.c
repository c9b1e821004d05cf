/* A report as text, CSV or JSON. */
#include "report.h"

#include "rows.h"
#include "utf8.h"

#include <string.h>

/* A prism's row, as it is printed. */
struct line {
    const struct report *r;
    const struct row *row;
    struct buffer name;
};

static int has_movement(const struct row *row)
{
    return row->standing == BEYOND || row->standing == INSIDE;
}

/* ---- text ---- */

enum { NAME_PLACES = 16 };

static void print_number(int known, double mm, int sign)
{
    char number[48] = "-";

    if (known)
        decimals_show(number, sizeof number, mm, 1, sign);
    printf(" %8s", number);
}

static void print_movement(const struct row *row)
{
    print_number(row->d.has_plan, row->d.east, 1);
    print_number(row->d.has_plan, row->d.north, 1);
    print_number(row->d.has_height, row->d.height, 1);
    print_number(1, row->became.move.all, 0);
}

static int print_text(struct line *l)
{
    const struct row *row = l->row;
    const char *name = (const char *)l->name.bytes;
    int wide = places_of(name);
    char reason[160];

    printf("%-8s %s%*s", standing_word(l->r, row), name,
           wide < NAME_PLACES ? NAME_PLACES - wide : 0, "");
    if (!has_movement(row)) {
        row_reason(reason, sizeof reason, l->r, row);
        printf(" %s\n", reason);
        return DONE;
    }
    print_movement(row);
    if (l->r->precision.plan > 0)
        printf(" %9.2f %8.6f%s", row->test.test, row->test.chance,
               row->test.significant ? " significant" : "");
    putchar('\n');
    return DONE;
}

static void print_text_head(const struct report *r)
{
    char from[64], to[64], words[320];

    if (r->o->quiet)
        return;
    epoch_show(from, sizeof from, r->o->from, r->from);
    epoch_show(to, sizeof to, r->o->to, r->to);
    printf("movements from epoch %s to %s, in millimetres\n", from, to);
    report_test(words, sizeof words, r);
    if (words[0] != '\0')
        puts(words);
    printf("%-8s %-*s %8s %8s %8s %8s%s\n", "", NAME_PLACES, "prism", "dE",
           "dN", "dH", "length", words[0] != '\0' ? "         T   chance" : "");
}

static void print_text_end(const struct report *r)
{
    char words[320];

    report_counts(words, sizeof words, r);
    if (!r->o->quiet)
        puts(words);
}

/* ---- CSV ---- */

static void print_csv_number(int known, double value, int decimals)
{
    char number[48] = "";

    if (known)
        decimals_show(number, sizeof number, value, decimals, 0);
    printf(",%s", number);
}

static int print_csv(struct line *l)
{
    const struct row *row = l->row;
    struct piece name = { l->name.bytes, l->name.length - 1 };
    struct buffer field = { NULL, 0, 0 };
    int moved = has_movement(row);
    int tested = moved && row->test.coordinates > 0;
    char reason[160];

    row_reason(reason, sizeof reason, l->r, row);
    if (csv_put(&field, name) != 0) {
        buffer_free(&field);
        return out_of_memory();
    }
    printf("%s,%.*s", standing_word(l->r, row), (int)field.length,
           (const char *)field.bytes);
    buffer_free(&field);
    print_csv_number(moved && row->d.has_plan, row->d.east, 3);
    print_csv_number(moved && row->d.has_plan, row->d.north, 3);
    print_csv_number(moved && row->d.has_height, row->d.height, 3);
    print_csv_number(moved && row->d.has_plan, row->became.move.plane, 3);
    print_csv_number(moved, row->became.move.all, 3);
    print_csv_number(tested, row->test.coordinates, 0);
    print_csv_number(tested, row->test.test, 4);
    print_csv_number(tested, row->test.chance, 6);
    printf(",%s,\"%s\"\n", !tested ? "" : row->test.significant ? "yes" : "no",
           reason);
    return DONE;
}

/* ---- JSON ---- */

static void print_json_number(const char *word, int known, double value,
                              int decimals)
{
    char number[48];

    if (!known)
        return;
    decimals_show(number, sizeof number, value, decimals, 0);
    printf(",\"%s\":%s", word, number);
}

static int print_json(struct line *l)
{
    const struct row *row = l->row;
    struct piece name = { l->name.bytes, l->name.length - 1 };
    int moved = has_movement(row);
    int tested = moved && row->test.coordinates > 0;
    char reason[160];

    printf("%s\n{\"name\":", row == l->r->rows ? "" : ",");
    json_put(name);
    printf(",\"state\":\"%s\"", standing_word(l->r, row));
    print_json_number("dE", moved && row->d.has_plan, row->d.east, 3);
    print_json_number("dN", moved && row->d.has_plan, row->d.north, 3);
    print_json_number("dH", moved && row->d.has_height, row->d.height, 3);
    print_json_number("plan", moved && row->d.has_plan,
                      row->became.move.plane, 3);
    print_json_number("length", moved, row->became.move.all, 3);
    print_json_number("coordinates", tested, row->test.coordinates, 0);
    print_json_number("test", tested, row->test.test, 4);
    print_json_number("chance", tested, row->test.chance, 6);
    if (tested)
        printf(",\"significant\":%s", row->test.significant ? "true"
                                                            : "false");
    row_reason(reason, sizeof reason, l->r, row);
    if (reason[0] != '\0')
        printf(",\"reason\":\"%s\"", reason);
    putchar('}');
    return DONE;
}

static void print_json_head(const struct report *r)
{
    const struct precision *p = &r->precision;

    printf("{\"from\":%lu,\"to\":%lu,\"unit\":\"mm\"", (unsigned long)r->from,
           (unsigned long)r->to);
    if (r->o->tolerance != NULL)
        printf(",\"tolerance\":%.10g", r->r.tolerance);
    if (p->plan > 0)
        printf(",\"sigma\":{\"plan\":%.10g,\"height\":%.10g},\"alpha\":%.10g,"
               "\"quantiles\":[%.4f,%.4f,%.4f]", p->plan, p->height, p->level,
               chi_square_quantile(1, p->level),
               chi_square_quantile(2, p->level),
               chi_square_quantile(3, p->level));
    fputs(",\"prisms\":[", stdout);
}

static void print_json_end(const struct report *r)
{
    const size_t *n = r->standings;

    printf("\n],\"beyond\":%lu,\"within\":%lu,\"missing\":%lu,\"unread\":%lu,"
           "\"damaged\":%lu}\n", (unsigned long)n[BEYOND],
           (unsigned long)n[INSIDE], (unsigned long)n[MISSING],
           (unsigned long)n[UNREAD], (unsigned long)n[BROKEN]);
}

/* ---- all of it ---- */

static void print_head(const struct report *r)
{
    if (r->o->given & OPTION_JSON)
        print_json_head(r);
    else if (r->o->given & OPTION_CSV)
        puts("state,name,dE mm,dN mm,dH mm,plan mm,length mm,coordinates,T,"
             "chance,significant,reason");
    else
        print_text_head(r);
}

int report_print(const struct report *r)
{
    struct line l = { r, NULL, { NULL, 0, 0 } };
    int (*print)(struct line *) = r->o->given & OPTION_JSON ? print_json
                                : r->o->given & OPTION_CSV ? print_csv
                                                           : print_text;
    int status = DONE;

    print_head(r);
    for (size_t i = 0; i < r->count && status == DONE; i++) {
        l.row = &r->rows[i];
        status = spot_show(&l.name, l.row->prism->readings) == 0
            ? print(&l) : out_of_memory();
    }
    if (r->o->given & OPTION_JSON)
        print_json_end(r);
    else if (!(r->o->given & OPTION_CSV))
        print_text_end(r);
    buffer_free(&l.name);
    return status;
}
