/* A second opinion on the figure of a resection, by other ways than the
 * command's.
 *
 *     second axes E N  E1 N1  E2 N2  E3 N3 ..
 *
 * prints the long and the short axis of the error ellipse in mm for directions
 * of 1 mgon, and the bearing of the long one in gon. Of three points: the
 * station is computed from its directions by Tienstra's formula (proved by J.
 * M. Porta and F. Thomas, Concise proof of Tienstra's formula, Journal of
 * Surveying Engineering 135(4), 2009), and again with each direction a little
 * changed. Of more: the normal equations of easting, northing and orientation,
 * with derivatives taken as differences, are inverted whole.
 *
 *     second circle E N  E1 N1  E2 N2  E3 N3
 *
 * prints the radius of the circle through three points from their sides and
 * area (R = abc / 4F), and the station's power against it from the inscribed
 * angle: what is left of angle BAC once angle BSC is taken off, in gon. On the
 * circle it is 0 or 200. */
#include <math.h>
#include <stdio.h>
#include <stdlib.h>
#include <string.h>

#define PI 3.14159265358979323846
#define GON (PI / 200)

enum { MOST = 64 };

struct at {
    double e;
    double n;
};

static double bearing(struct at from, struct at to)
{
    return atan2(to.e - from.e, to.n - from.n);
}

static double cot(double angle)
{
    return cos(angle) / sin(angle);
}

/* ---- three points ---- */

static double weight(struct at a, struct at b, struct at c, double to_b,
                     double to_c)
{
    return 1 / (cot(bearing(a, c) - bearing(a, b)) - cot(to_c - to_b));
}

static struct at tienstra(const struct at p[3], const double r[3])
{
    double k0 = weight(p[0], p[1], p[2], r[1], r[2]);
    double k1 = weight(p[1], p[2], p[0], r[2], r[0]);
    double k2 = weight(p[2], p[0], p[1], r[0], r[1]);
    double all = k0 + k1 + k2;
    struct at s = { (k0 * p[0].e + k1 * p[1].e + k2 * p[2].e) / all,
                    (k0 * p[0].n + k1 * p[1].n + k2 * p[2].n) / all };

    return s;
}

/* The station's covariance: ee, en, nn. */
static void by_differences(struct at s, const struct at *p, double q[3])
{
    const double step = 1e-6;

    memset(q, 0, 3 * sizeof *q);
    for (int i = 0; i < 3; i++) {
        double r[3] = { bearing(s, p[0]), bearing(s, p[1]), bearing(s, p[2]) };
        struct at before, after;
        double e, n;

        r[i] -= step;
        before = tienstra(p, r);
        r[i] += 2 * step;
        after = tienstra(p, r);
        e = (after.e - before.e) / (2 * step);
        n = (after.n - before.n) / (2 * step);
        q[0] += e * e;
        q[1] += e * n;
        q[2] += n * n;
    }
}

/* ---- more points ---- */

static void by_normals(struct at s, const struct at *p, int count, double q[3])
{
    const double step = 1e-4;
    double m[3][3] = { { 0 } }, det;

    for (int i = 0; i < count; i++) {
        struct at e0 = { s.e - step, s.n }, e1 = { s.e + step, s.n };
        struct at n0 = { s.e, s.n - step }, n1 = { s.e, s.n + step };
        double row[3] = {
            remainder(bearing(e1, p[i]) - bearing(e0, p[i]), 2 * PI) /
                (2 * step),
            remainder(bearing(n1, p[i]) - bearing(n0, p[i]), 2 * PI) /
                (2 * step),
            -1 };

        for (int j = 0; j < 3; j++)
            for (int k = 0; k < 3; k++)
                m[j][k] += row[j] * row[k];
    }
    det = m[0][0] * (m[1][1] * m[2][2] - m[1][2] * m[2][1]) -
          m[0][1] * (m[1][0] * m[2][2] - m[1][2] * m[2][0]) +
          m[0][2] * (m[1][0] * m[2][1] - m[1][1] * m[2][0]);
    q[0] = (m[1][1] * m[2][2] - m[1][2] * m[2][1]) / det;
    q[1] = (m[0][2] * m[2][1] - m[0][1] * m[2][2]) / det;
    q[2] = (m[0][0] * m[2][2] - m[0][2] * m[2][0]) / det;
}

static void print_axes(struct at s, const struct at *p, int count)
{
    double q[3], half, mean, towards;

    if (count == 3)
        by_differences(s, p, q);
    else
        by_normals(s, p, count, q);
    mean = (q[0] + q[2]) / 2;
    half = hypot((q[2] - q[0]) / 2, q[1]);
    towards = atan2(2 * q[1], q[2] - q[0]) / 2;
    printf("%.6f %.6f %.4f\n", sqrt(mean + half) * GON,
           sqrt(mean - half) * GON,
           (towards < 0 ? towards + PI : towards) / GON);
}

/* ---- the circle ---- */

static void print_circle(struct at s, const struct at p[3])
{
    double a = hypot(p[1].e - p[2].e, p[1].n - p[2].n);
    double b = hypot(p[2].e - p[0].e, p[2].n - p[0].n);
    double c = hypot(p[0].e - p[1].e, p[0].n - p[1].n);
    double half = (a + b + c) / 2;
    double area = sqrt(half * (half - a) * (half - b) * (half - c));
    double at_a = bearing(p[0], p[2]) - bearing(p[0], p[1]);
    double at_s = bearing(s, p[2]) - bearing(s, p[1]);

    printf("%.4f %.4f\n", a * b * c / (4 * area),
           fabs(remainder(at_a - at_s, PI)) / GON);
}

int main(int argc, char **argv)
{
    struct at all[MOST];
    int count = 0;

    if (argc < 10 || argc > 2 + 2 * MOST || argc % 2 != 0)
        return 2;
    for (int i = 2; i < argc; i += 2) {
        all[count].e = atof(argv[i]);
        all[count++].n = atof(argv[i + 1]);
    }
    if (strcmp(argv[1], "axes") == 0)
        print_axes(all[0], all + 1, count - 1);
    else
        print_circle(all[0], all + 1);
    return 0;
}
