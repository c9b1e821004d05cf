/* The test whether a point moved. */
#include "congruence.h"

#include "change.h"

#include <math.h>
#include <string.h>

/* ---- chi-square ---- */

/* In closed form for up to three degrees of freedom. */
double chi_square_above(int degrees, double t)
{
    static const double pi = 3.14159265358979323846;
    double root = sqrt(t / 2);

    if (t <= 0)
        return 1;
    if (degrees == 1)
        return erfc(root);
    if (degrees == 2)
        return exp(-t / 2);
    return erfc(root) + 2 * root / sqrt(pi) * exp(-t / 2);
}

double chi_square_quantile(int degrees, double chance)
{
    double least = 0, most = 64;

    for (int i = 0; i < 64; i++) {
        double middle = (least + most) / 2;

        if (chi_square_above(degrees, middle) > chance)
            least = middle;
        else
            most = middle;
    }
    return most;
}

/* ---- the test ---- */

/* A difference of two epochs has twice the variance of one. */
static double share(double step, double deviation)
{
    return step * step / (2 * deviation * deviation);
}

struct congruence congruence_test(const struct precision *p,
                                  const struct displacement *d)
{
    struct congruence c = { 0, 0, 1, 0 };

    if (p->plan == 0)
        return c;
    if (d->has_plan) {
        c.coordinates += 2;
        c.test += share(d->east, p->plan) + share(d->north, p->plan);
    }
    if (d->has_height) {
        c.coordinates++;
        c.test += share(d->height, p->height);
    }
    if (c.coordinates > 0)
        c.chance = chi_square_above(c.coordinates, c.test);
    c.significant = c.coordinates > 0 && c.chance < p->level;
    return c;
}

/* ---- as typed ---- */

int precision_read(struct precision *p, const char *word)
{
    size_t first = strcspn(word, ",");
    char plan[64];

    if (first >= sizeof plan)
        return -1;
    memcpy(plan, word, first);
    plan[first] = '\0';
    if (tolerance_read(&p->plan, plan) != 0)
        return -1;
    p->height = p->plan;
    if (word[first] == ',' &&
        tolerance_read(&p->height, word + first + 1) != 0)
        return -1;
    return p->plan > 0 && p->height > 0 ? 0 : -1;
}

int level_read(struct precision *p, const char *word)
{
    struct piece number = { (const uint8_t *)word, strlen(word) };
    double percent;

    if (number.length > 1 && word[number.length - 1] == '%')
        number.length--;
    if (coordinate_read(number, &percent) != 0 || percent < 1e-7 ||
        percent > 50)
        return -1;
    p->level = percent / 100;
    return 0;
}
