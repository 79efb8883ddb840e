/* A page and its boxes: what the files that draw share. */
#ifndef PAGE_H
#define PAGE_H

#include "columns.h"
#include "picture.h"

/* Letters are this wide, in pixels, where the font is the one asked for, and no more in most others. */
static const int SMALL_LETTER = 7, LETTER = 8, BIG_LETTER = 11;

struct page {
    const struct circuit *circuit;
    const struct picture *picture;
    bool budget; /* there is one to show */
    struct flow flow;
    struct columns columns;
    int64_t least, plenty;      /* slacks: that of the reddest shown, but at least 0, and where green starts */
    bool late;                  /* one is shown that is late */
    double *x;                  /* the left edge of each column */
    double box, right, bottom;  /* the width of all boxes, and where the columns end */
    struct bytes below, legend; /* the words below the title, and below the scale of colours */
};

/* The height of a node's middle. */
double height_of(const struct node *node);

/* Words as they may stand in SVG, shortened if there are more than so many letters. */
void put_words(struct bytes *out, const char *words, size_t most);

/* What the colours of a page stand for. */
void find_colours(struct page *page);

/* The width that a component's words need. */
double box_width(const struct page *page, size_t component);
void put_box(const struct page *page, const struct node *node, struct bytes *out);

#endif
