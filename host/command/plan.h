/* A plan: points on sheets of paper, and what became of them. */
#ifndef PLAN_H
#define PLAN_H

#include "change.h"
#include "commands.h"
#include "labels.h"
#include "svg.h"

#define MARK_SIZE 1.7  /* a point's mark to each side, in millimetres */
#define DETAILS_MOST 400

/* A point on the plan. */
struct mark {
    enum change change;
    const struct spot *now;  /* NULL: there is none */
    const struct spot *old;
    struct at at;
    struct at before;        /* a moved point's old place */
    struct move move;
    char *text;              /* its name, and what became of it */
    int outlier;             /* so far off that it is named at the margin */
    size_t detail;           /* the one that names it, from 1 on; 0: the plan */
    int named;               /* somewhere */
};

/* A frame with a map in it: the plan itself, or a detail of it. */
struct view {
    struct sheet sheet;      /* its frame and scale */
    size_t *marks;           /* numbers of the marks that are in it */
    struct label *labels;    /* of these; those named elsewhere have no width */
    size_t count;
    long unnamed;            /* names that found no place */
    double name_size;
    double mark_size;        /* 1, or less where names are small */
    struct bounds ground;    /* of a detail: what it names */
    size_t page;             /* the sheet that it is on, from 0 on */
};

/* The scale that was found for a detail of these bounds. */
struct scaled {
    struct bounds ground;
    double scale;
};

/* A sheet of paper. */
struct paper {
    const char *name;
    double width;
    double height;
    struct area frame;       /* the border */
    double column;           /* left of the column at the right */
    double block;            /* top of the title block in it */
};

struct plan {
    const struct options *o;
    struct site now;
    struct site old;
    struct mark *marks;
    size_t count;
    struct reckoning r;      /* with --against */
    struct buffer placeless; /* changed points that have no place, in words */
    size_t placeless_count;
    struct at middle;        /* of the points */
    struct paper paper;
    struct view main;
    struct view details[DETAILS_MOST];
    size_t detail_count;
    struct scaled known[DETAILS_MOST]; /* details of the round before */
    size_t known_count;
    size_t detail_pages;     /* sheets of details alone */
    int last;                /* all details are made */
    char **rows;             /* the list of coordinates, after its heading */
    size_t row_count;
    char row_head[160];
    double row_wide;         /* millimetres of the widest */
    size_t rows_beside;      /* of them beside the plan */
    double beside_size;      /* of letters there */
    size_t list_pages;
    double vectors;          /* millimetres of movement to one of a vector; 0
                                for none */
    long unnamed;            /* points without a name anywhere */
};

/* The type of the list. */
#define LIST_SIZE 2.3
#define LIST_STEP 3.1

/* The number of a size of paper, or -1. */
int paper_read(const char *word);

/* Lays out all sheets: DONE, or TROUBLE after a complaint. */
int lay_plan(struct plan *p);
void views_free(struct plan *p);

/* Where a mark is in a view; an outlier stands at the margin. */
struct label label_of(const struct plan *p, const struct view *v,
                      const struct mark *m);

/* A moved point's vector begins on it; from a metre on the move is drawn to the
 * plan's scale, and ends on it. */
int is_far_move(const struct mark *m);

/* The list of coordinates: DONE, or TROUBLE after a complaint. */
int list_make(struct plan *p);

/* The rows that column number `column` of a list sheet holds, and how many
 * columns there are. */
size_t list_columns(const struct plan *p);
size_t list_rows(const struct plan *p, size_t column);
size_t list_rows_beside(const struct plan *p);

size_t plan_pages(const struct plan *p);

/* The letter of a detail: A, B .. */
void detail_letter(char to[8], size_t detail);

/* All sheets: 0, or -1 for no memory. */
int draw_plan(const struct plan *p);

/* The frame, the title block and the list. */
void draw_block(const struct plan *p, size_t page);
void draw_beside(const struct plan *p);
void draw_list_page(const struct plan *p, size_t page, size_t *row);

/* What the browser's page knows of the points, as JSON on standard output. */
void plan_points_put(const void *plan);

#endif
