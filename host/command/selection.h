/* The points that a command line names. */
#ifndef SELECTION_H
#define SELECTION_H

#include "commands.h"
#include "coords.h"

/* Leaves in these sites the points that the words from number `first` on name;
 * all of them if there is no such word. A word that is the name of a point, in
 * one of the sites, means that point alone; any other is a pattern. DONE,
 * REFUSED after a complaint for each word that names nothing, or TROUBLE. */
int sites_select(struct site *const sites[], size_t count,
                 const struct options *o, int first);

/* The same in one site. */
int site_select(struct site *s, const struct options *o, int first);

/* Does --by say name? `usual` without it. DONE, or TROUBLE after a
 * complaint. */
int order_read(const struct options *o, int usual, int *by_name);

#endif
