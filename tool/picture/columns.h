/* Where everything stands in a picture: a column for each logic depth, as in a schematic. */
#ifndef COLUMNS_H
#define COLUMNS_H

#include "flow.h"

/* Half the height of a box and of a line that passes, and the least distance between two, in pixels. */
static const int BOX_HALF = 20, LINE_HALF = 4, DISTANCE = 14;

/* A component, or the line of a driver that passes a column on its way further. */
struct node {
    uint32_t component; /* the one shown, or the driver */
    uint32_t column;
    bool passes, thick;
    int64_t y; /* the place within the column; once heights are found, of the middle, in tenths of a pixel */
};

/* A piece of wire from one column to the next. */
struct link {
    uint32_t left, right; /* nodes */
    uint32_t wire;        /* the one that ends here, if `right` is a component */
    uint32_t port;        /* how many others enter `right` above it */
    bool thick;
};

struct columns {
    struct node *nodes;
    struct link *links;
    size_t count, node_count, node_room, link_count, link_room, cut_count;
    bool *cut;                          /* by wire: it is too long to be drawn */
    struct groups nodes_in;             /* by column, from top to bottom */
    struct groups links_from, links_to; /* by left and by right node */
};

/* Neighbours pull a node to their heights, some more than others: the sum over them, by weight. */
struct pull {
    int64_t sum, weight;
};
enum { FROM_LEFT = 1, FROM_RIGHT = 2 };

void find_columns(const struct circuit *circuit, const struct flow *flow, struct columns *columns);
void free_columns(struct columns *columns);

/* The pull on a node from its left, its right, or both. */
struct pull pull_on(const struct columns *columns, uint32_t node, unsigned sides);

/* Sorts the nodes within columns so that few links cross, and numbers their places. */
void order_columns(struct columns *columns);

/* From places in columns to heights. */
void find_heights(struct columns *columns);

#endif
