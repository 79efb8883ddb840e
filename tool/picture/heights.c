/*
 * Wires run level where a node stands at the mean height of its neighbours. A column is moved as
 * near to that as its order and the distances allow: where two nodes would come too close, they
 * make a block, which moves as one to the mean of what its nodes want.
 *
 * All is whole numbers, in hundredths of a pixel, so that every machine draws the same.
 */
#include <stdlib.h>

#include "columns.h"

enum { PIXEL = 100, SWEEPS = 40, SWEEPS_TO_ONE_SIDE = 30 };

/* Nodes of a column from the end of the block before it up to `end`; a mean is that of the first node. */
struct block {
    int64_t sum, weight;
    size_t end;
};

static int64_t mean(const struct block *block)
{
    return block->sum / block->weight;
}

static int64_t half_of(const struct node *node)
{
    return (node->passes ? LINE_HALF : BOX_HALF) * PIXEL;
}

/* How far below the first node of its column a node would stand, if all stood as close as they may. */
static int64_t depth_below(const struct columns *columns, const uint32_t *nodes, size_t at, int64_t depth)
{
    return at == 0 ? 0 : depth + half_of(&columns->nodes[nodes[at - 1]]) + half_of(&columns->nodes[nodes[at]])
                             + DISTANCE * PIXEL;
}

/* Joins the last block with those above it that it would run into; returns how many blocks are left. */
static size_t join_up(struct block *blocks, size_t count)
{
    while (count > 1 && mean(&blocks[count - 2]) > mean(&blocks[count - 1])) {
        blocks[count - 2].sum += blocks[count - 1].sum;
        blocks[count - 2].weight += blocks[count - 1].weight;
        blocks[count - 2].end = blocks[count - 1].end;
        count--;
    }
    return count;
}

static void find_blocks(const struct columns *columns, size_t column, unsigned sides, struct block *blocks)
{
    const uint32_t *nodes = columns->nodes_in.at + columns->nodes_in.start[column];
    size_t size = group_size(&columns->nodes_in, column), count = 0;
    int64_t depth = 0;
    for (size_t at = 0; at < size; at++) {
        depth = depth_below(columns, nodes, at, depth);
        struct pull pull = pull_on(columns, nodes[at], sides);
        if (pull.weight == 0) { /* it has no wish but to stay, and not a strong one */
            blocks[count++] = (struct block){columns->nodes[nodes[at]].y - depth, 1, at + 1};
        } else {
            blocks[count++] = (struct block){10 * (pull.sum - depth * pull.weight), 10 * pull.weight, at + 1};
        }
        count = join_up(blocks, count);
    }
}

static void settle(struct columns *columns, size_t column, unsigned sides, struct block *blocks)
{
    const uint32_t *nodes = columns->nodes_in.at + columns->nodes_in.start[column];
    size_t size = group_size(&columns->nodes_in, column), block = 0;
    int64_t depth = 0;
    find_blocks(columns, column, sides, blocks);
    for (size_t at = 0; at < size; at++) {
        depth = depth_below(columns, nodes, at, depth);
        block += at == blocks[block].end;
        columns->nodes[nodes[at]].y = mean(&blocks[block]) + depth;
    }
}

static void sweep(struct columns *columns, int done, struct block *blocks)
{
    bool rightward = done % 2 == 0;
    unsigned side = rightward ? FROM_LEFT : FROM_RIGHT;
    for (size_t step = 0; step < columns->count; step++) {
        size_t column = rightward ? step : columns->count - 1 - step;
        settle(columns, column, done < SWEEPS_TO_ONE_SIDE ? side : FROM_LEFT | FROM_RIGHT, blocks);
    }
}

/* The highest edge comes to 0, and the tenths that are drawn are all that is left of a height. */
static void move_to_top(struct columns *columns)
{
    int64_t top = INT64_MAX;
    for (size_t at = 0; at < columns->node_count; at++) {
        int64_t edge = columns->nodes[at].y - half_of(&columns->nodes[at]);
        top = edge < top ? edge : top;
    }
    for (size_t at = 0; at < columns->node_count; at++) {
        columns->nodes[at].y = (columns->nodes[at].y - top + PIXEL / 20) / (PIXEL / 10);
    }
}

void find_heights(struct columns *columns)
{
    struct block *blocks = cleared(columns->node_count, sizeof *blocks);
    for (size_t at = 0; at < columns->node_count; at++) {
        columns->nodes[at].y *= (2 * BOX_HALF + DISTANCE) * PIXEL;
    }
    for (int done = 0; done < SWEEPS; done++) {
        sweep(columns, done, blocks);
    }
    move_to_top(columns);
    free(blocks);
}
