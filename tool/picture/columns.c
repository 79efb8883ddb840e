/*
 * A wire over several columns is a line through a node in each of them, so that boxes make way for
 * it. All wires of one driver share its line.
 */
#include "columns.h"

#include <stdlib.h>

static const uint32_t NO_NODE = UINT32_MAX;

/* A wire over more columns is not drawn: along a path of a thousand, such lines would be all that is seen. */
enum { FARTHEST = 80 };

struct building {
    const struct circuit *circuit;
    const struct flow *flow;
    struct columns *columns;
    uint32_t *node_of; /* by component */
};

static struct node *box_of(const struct building *building, uint32_t component)
{
    return &building->columns->nodes[building->node_of[component]];
}

static uint32_t add_node(struct columns *columns, struct node node)
{
    columns->nodes = grown(columns->nodes, &columns->node_room, columns->node_count + 1, sizeof *columns->nodes);
    columns->nodes[columns->node_count] = node;
    return (uint32_t)columns->node_count++;
}

static void add_link(struct columns *columns, struct link link)
{
    columns->links = grown(columns->links, &columns->link_room, columns->link_count + 1, sizeof *columns->links);
    columns->links[columns->link_count++] = link;
}

static void add_boxes(struct building *building)
{
    for (uint32_t at = 0; at < building->circuit->count; at++) {
        struct node node = {.component = at, .thick = building->flow->tight[at]};
        building->node_of[at] = building->flow->shown[at] ? add_node(building->columns, node) : NO_NODE;
    }
}

/* One more than the columns of all shown that feed a component. */
static uint32_t depth_of(const struct building *building, uint32_t component)
{
    const struct groups *entering = &building->flow->entering;
    uint32_t depth = 0;
    for (size_t at = entering->start[component]; at < entering->start[component + 1]; at++) {
        uint32_t from = building->circuit->wires[entering->at[at]].from;
        if (building->flow->shown[from] && box_of(building, from)->column >= depth) {
            depth = box_of(building, from)->column + 1;
        }
    }
    return depth;
}

/* What is on a loop or behind one stays in column 0. Wires to there would run backward and are not drawn. */
static void find_depths(struct building *building)
{
    building->columns->count = 1;
    for (size_t next = 0; next < building->flow->ordered; next++) {
        uint32_t component = building->flow->order[next];
        if (building->flow->shown[component]) {
            uint32_t depth = depth_of(building, component);
            box_of(building, component)->column = depth;
            building->columns->count = depth >= building->columns->count ? depth + 1 : building->columns->count;
        }
    }
}

static void cut_long_wires(struct building *building)
{
    const struct flow *flow = building->flow;
    for (size_t at = 0; at < building->circuit->wire_count; at++) {
        const struct wire *wire = &building->circuit->wires[at];
        bool shown = flow->shown[wire->from] && flow->shown[wire->to] && !flow->tight_wire[at];
        bool cut = shown && box_of(building, wire->to)->column > box_of(building, wire->from)->column + FARTHEST;
        building->columns->cut[at] = cut;
        building->columns->cut_count += cut;
    }
}

/* The column that a wire is drawn to; 0 if it is not drawn. */
static uint32_t end_column(const struct building *building, uint32_t wire)
{
    uint32_t to = building->circuit->wires[wire].to;
    return building->flow->shown[to] && !building->columns->cut[wire] ? box_of(building, to)->column : 0;
}

/* The furthest column that a driver feeds, and the furthest that it feeds by a tight wire. */
static void find_reach(const struct building *building, uint32_t driver, uint32_t *reach, uint32_t *tight_reach)
{
    const struct flow *flow = building->flow;
    *reach = *tight_reach = 0;
    for (size_t at = flow->leaving.start[driver]; at < flow->leaving.start[driver + 1]; at++) {
        uint32_t wire = flow->leaving.at[at], column = end_column(building, wire);
        *reach = column > *reach ? column : *reach;
        *tight_reach = flow->tight_wire[wire] && column > *tight_reach ? column : *tight_reach;
    }
}

/* The nodes of a driver's line stand one behind the other; the first is returned. */
static uint32_t add_line(struct building *building, uint32_t driver)
{
    struct columns *columns = building->columns;
    uint32_t reach, tight_reach, left = building->node_of[driver], first = (uint32_t)columns->node_count;
    find_reach(building, driver, &reach, &tight_reach);
    for (uint32_t column = columns->nodes[left].column + 1; column < reach; column++) {
        bool thick = column < tight_reach;
        struct node node = {.component = driver, .column = column, .passes = true, .thick = thick};
        uint32_t right = add_node(columns, node);
        add_link(columns, (struct link){.left = left, .right = right, .thick = thick});
        left = right;
    }
    return first;
}

/* Links a driver to what it feeds: straight from its box to the next column, from its line further on. */
static void add_ends(struct building *building, uint32_t driver, uint32_t line)
{
    const struct flow *flow = building->flow;
    uint32_t start = box_of(building, driver)->column;
    for (size_t at = flow->leaving.start[driver]; at < flow->leaving.start[driver + 1]; at++) {
        uint32_t wire = flow->leaving.at[at], column = end_column(building, wire);
        if (column > start) {
            uint32_t left = column == start + 1 ? building->node_of[driver] : line + (column - start - 2);
            uint32_t right = building->node_of[building->circuit->wires[wire].to];
            add_link(building->columns, (struct link){left, right, wire, 0, flow->tight_wire[wire]});
        }
    }
}

static void add_wires(struct building *building)
{
    for (uint32_t driver = 0; driver < building->circuit->count; driver++) {
        if (building->flow->shown[driver]) {
            add_ends(building, driver, add_line(building, driver));
        }
    }
}

static void group(struct columns *columns)
{
    size_t nodes = columns->node_count, links = columns->link_count, size = sizeof *columns->links;
    columns->nodes_in = grouped(columns->nodes, nodes, sizeof *columns->nodes, offsetof(struct node, column),
                                columns->count);
    columns->links_from = grouped(columns->links, links, size, offsetof(struct link, left), nodes);
    columns->links_to = grouped(columns->links, links, size, offsetof(struct link, right), nodes);
}

static void give_ports(struct columns *columns, uint32_t left, uint32_t *taken)
{
    for (size_t at = columns->links_from.start[left]; at < columns->links_from.start[left + 1]; at++) {
        struct link *link = &columns->links[columns->links_from.at[at]];
        link->port = taken[link->right]++;
    }
}

/* From the top of each column on, so that wires into one box do not cross just before it. */
static void find_ports(struct columns *columns)
{
    uint32_t *taken = cleared(columns->node_count, sizeof *taken);
    for (size_t at = 0; at < columns->node_count; at++) {
        give_ports(columns, columns->nodes_in.at[at], taken);
    }
    free(taken);
}

void find_columns(const struct circuit *circuit, const struct flow *flow, struct columns *columns)
{
    *columns = (struct columns){.cut = cleared(circuit->wire_count, sizeof *columns->cut)};
    struct building building = {circuit, flow, columns, cleared(circuit->count, sizeof *building.node_of)};
    add_boxes(&building);
    find_depths(&building);
    cut_long_wires(&building);
    add_wires(&building);
    free(building.node_of);
    group(columns);
    order_columns(columns);
    find_heights(columns);
    find_ports(columns);
}

void free_columns(struct columns *columns)
{
    free(columns->nodes);
    free(columns->links);
    free(columns->cut);
    free_groups(&columns->nodes_in);
    free_groups(&columns->links_from);
    free_groups(&columns->links_to);
}
