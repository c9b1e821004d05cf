/* The test whether a point moved: the congruence test of a single point with
 * known standard deviations. Under the null hypothesis, that it did not,
 * T = d' S^-1 d follows chi-square with as many degrees of freedom as the
 * displacement d has coordinates; S is d's covariance matrix. */
#ifndef CONGRUENCE_H
#define CONGRUENCE_H

/* The standard deviations of a coordinate in one epoch, in millimetres. The
 * epochs are not correlated, and their deviations are the same. */
struct precision {
    double plan;     /* of easting and of northing; 0: there is no test */
    double height;
    double level;    /* of significance: 0.05 for 5 % */
};

/* A displacement in millimetres. */
struct displacement {
    double east;
    double north;
    double height;
    int has_plan;
    int has_height;
};

struct congruence {
    int coordinates; /* 1 to 3; 0: nothing to test */
    double test;     /* T */
    double chance;   /* of a T as large, or larger, if nothing moved */
    int significant; /* the chance is below the level */
};

struct congruence congruence_test(const struct precision *p,
                                  const struct displacement *d);

/* The chance that chi-square with 1, 2 or 3 degrees of freedom is above t. */
double chi_square_above(int degrees, double t);

/* The t above which it is with that chance, from 1e-9 to 1. */
double chi_square_quantile(int degrees, double chance);

/* "0.8", or "0.8,1.2" for plan and height, with mm after the numbers or not: 0,
 * or -1. */
int precision_read(struct precision *p, const char *word);

/* "5" or "5%", above 0 and at most 50: 0, or -1. */
int level_read(struct precision *p, const char *word);

#endif
