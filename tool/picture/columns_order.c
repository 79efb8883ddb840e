/*
 * Each column is sorted by the means of its neighbours' places, to and fro over all columns. That
 * does not always get better, so the order with the fewest crossings is kept.
 */
#include <stdlib.h>
#include <string.h>

#include "columns.h"

enum { SWEEPS = 24, FINE = 1024 };

static void add_pull(const struct columns *columns, const struct groups *links, uint32_t node, struct pull *pull)
{
    for (size_t at = links->start[node]; at < links->start[node + 1]; at++) {
        const struct link *link = &columns->links[links->at[at]];
        const struct node *left = &columns->nodes[link->left], *right = &columns->nodes[link->right];
        /* the tightest path and long lines are to be straight before others are */
        int64_t weight = link->thick || (left->passes && right->passes) ? 4 : 1;
        pull->sum += weight * (link->left == node ? right->y : left->y);
        pull->weight += weight;
    }
}

struct pull pull_on(const struct columns *columns, uint32_t node, unsigned sides)
{
    struct pull pull = {0, 0};
    if ((sides & FROM_LEFT) != 0) {
        add_pull(columns, &columns->links_to, node, &pull);
    }
    if ((sides & FROM_RIGHT) != 0) {
        add_pull(columns, &columns->links_from, node, &pull);
    }
    return pull;
}

struct ranked {
    int64_t mean;
    uint32_t before, node;
};

static int by_mean(const void *left, const void *right)
{
    const struct ranked *a = left, *b = right;
    int order = (a->mean > b->mean) - (a->mean < b->mean);
    return order != 0 ? order : (a->before > b->before) - (a->before < b->before);
}

static void number_column(struct columns *columns, size_t column)
{
    uint32_t first = columns->nodes_in.start[column];
    for (uint32_t at = first; at < columns->nodes_in.start[column + 1]; at++) {
        columns->nodes[columns->nodes_in.at[at]].y = at - first;
    }
}

static void number_columns(struct columns *columns)
{
    for (size_t column = 0; column < columns->count; column++) {
        number_column(columns, column);
    }
}

static void sort_column(struct columns *columns, size_t column, unsigned side, struct ranked *ranked)
{
    uint32_t *nodes = columns->nodes_in.at + columns->nodes_in.start[column];
    size_t count = group_size(&columns->nodes_in, column);
    for (uint32_t at = 0; at < count; at++) {
        struct pull pull = pull_on(columns, nodes[at], side);
        int64_t mean = pull.weight == 0 ? FINE * (int64_t)at : FINE * pull.sum / pull.weight;
        ranked[at] = (struct ranked){mean, at, nodes[at]};
    }
    qsort(ranked, count, sizeof *ranked, by_mean);
    for (size_t at = 0; at < count; at++) {
        nodes[at] = ranked[at].node;
    }
    number_column(columns, column);
}

static void sweep(struct columns *columns, bool rightward, struct ranked *ranked)
{
    for (size_t step = 0; step < columns->count; step++) {
        size_t column = rightward ? step : columns->count - 1 - step;
        sort_column(columns, column, rightward ? FROM_LEFT : FROM_RIGHT, ranked);
    }
}

/*
 * Links that end at a place or above it, counted in a tree: counter n (from 1) stands for as many
 * places up to n as the lowest set bit of n says.
 */
static size_t ends_up_to(const uint32_t *tree, size_t place)
{
    size_t found = 0;
    for (size_t at = place + 1; at > 0; at &= at - 1) {
        found += tree[at];
    }
    return found;
}

static void count_end(uint32_t *tree, size_t size, size_t place)
{
    for (size_t at = place + 1; at <= size; at += at & (~at + 1)) {
        tree[at]++;
    }
}

struct tally {
    uint32_t *tree; /* of ends in the column to the right */
    size_t size, ends, crossings;
};

/* A link crosses those that start above it and end below it. Links that start at one node do not cross. */
static void tally_node(const struct columns *columns, uint32_t node, struct tally *tally)
{
    const struct groups *links = &columns->links_from;
    for (size_t at = links->start[node]; at < links->start[node + 1]; at++) {
        size_t end = (size_t)columns->nodes[columns->links[links->at[at]].right].y;
        tally->crossings += tally->ends - ends_up_to(tally->tree, end);
    }
    for (size_t at = links->start[node]; at < links->start[node + 1]; at++) {
        count_end(tally->tree, tally->size, (size_t)columns->nodes[columns->links[links->at[at]].right].y);
        tally->ends++;
    }
}

/* Between a column and the next. */
static size_t crossings_behind(const struct columns *columns, size_t column, uint32_t *tree)
{
    struct tally tally = {tree, group_size(&columns->nodes_in, column + 1), 0, 0};
    memset(tree, 0, (tally.size + 1) * sizeof *tree);
    for (size_t at = columns->nodes_in.start[column]; at < columns->nodes_in.start[column + 1]; at++) {
        tally_node(columns, columns->nodes_in.at[at], &tally);
    }
    return tally.crossings;
}

static size_t count_crossings(const struct columns *columns, uint32_t *tree)
{
    size_t found = 0;
    for (size_t column = 0; column + 1 < columns->count; column++) {
        found += crossings_behind(columns, column, tree);
    }
    return found;
}

void order_columns(struct columns *columns)
{
    size_t size = columns->node_count * sizeof *columns->nodes_in.at, fewest = SIZE_MAX;
    struct ranked *ranked = cleared(columns->node_count, sizeof *ranked);
    uint32_t *best = cleared(columns->node_count, sizeof *best);
    uint32_t *tree = cleared(columns->node_count + 1, sizeof *tree);
    number_columns(columns);
    for (int done = 0; done < SWEEPS && fewest > 0; done++) {
        sweep(columns, done % 2 == 0, ranked);
        size_t crossings = count_crossings(columns, tree);
        if (crossings < fewest) {
            fewest = crossings;
            memcpy(best, columns->nodes_in.at, size);
        }
    }
    memcpy(columns->nodes_in.at, best, size);
    number_columns(columns);
    free(ranked);
    free(best);
    free(tree);
}
