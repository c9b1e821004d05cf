/* Details of a plan: what is too dense for its names, drawn larger. */
#ifndef SHEET_DETAILS_H
#define SHEET_DETAILS_H

#include "plan.h"

/* A detail's letter and scale stand above it, and take these millimetres. */
#define DETAIL_HEAD 6.0

/* Makes room for `count` marks in a view, which has none then: 0, or -1 for
 * no memory. */
int view_room(struct view *v, size_t count);

/* Places the names of a view, whose marks are known: large ones if that is
 * clear, else small ones. `detail` is its number, from 1 on, or 0 for the plan
 * itself. DONE, or TROUBLE after a complaint. */
int place_view(const struct plan *p, struct view *v, size_t detail);

/* Have all names a place, few of them at lines? */
int is_clear(const struct view *v);

/* What the frame of a detail takes on the plan, with its letter. */
struct area detail_area(const struct plan *p, const struct view *d);

/* What sheets of details have room for. */
struct area detail_room(const struct paper *p);

/* Makes details of what the plan could not name: DONE, or TROUBLE. `added`
 * tells whether there was anything. */
int add_details(struct plan *p, int *added);

/* Gives each detail its place, on the plan where that is free, else on sheets
 * after it: DONE, or TROUBLE. */
int put_details(struct plan *p);

#endif
