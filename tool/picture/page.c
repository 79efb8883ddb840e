/* The page: head, wires, boxes, legend. What is thick is drawn last, so that it stands above the rest. */
#include <inttypes.h>
#include <stdlib.h>
#include <string.h>

#include "page.h"

enum { LEAST_WIDTH = 560, MOST_TITLE = 60 };
static const int MARGIN = 28, HEAD = 70, FOOT = 62;

static bool part_only(const struct page *page)
{
    return page->flow.shown_count < page->circuit->count;
}

/* Some wires are dashes. */
static bool has_dashes(const struct page *page)
{
    return part_only(page) || page->columns.cut_count > 0;
}

double height_of(const struct node *node)
{
    return HEAD + (double)node->y / 10;
}

static double greater(double one, double other)
{
    return one > other ? one : other;
}

static void write_words(struct page *page)
{
    size_t shown = page->flow.shown_count, all = page->circuit->count, wires = page->circuit->wire_count;
    put_words(&page->below, page->picture->below, SIZE_MAX);
    if (part_only(page)) {
        put(&page->below, "; the %zu of %zu components on the tightest paths", shown, all);
    } else {
        put(&page->below, "; %zu component%s, ", all, all == 1 ? "" : "s");
        put(&page->below, "%zu connection%s", wires, wires == 1 ? "" : "s");
    }
    put(&page->legend, "%sin ps; the pill is slack at base delays%s%s",
        page->budget ? "delay + increment = bound, " : "all numbers ",
        page->late ? "; dark red is late" : "", has_dashes(page) ? "; dashed: so many wires not drawn" : "");
}

static void measure_boxes(struct page *page)
{
    page->bottom = HEAD;
    for (size_t at = 0; at < page->columns.node_count; at++) {
        const struct node *node = &page->columns.nodes[at];
        if (!node->passes) {
            page->box = greater(page->box, box_width(page, node->component));
        }
        int64_t end = (node->y + 9) / 10 + (node->passes ? LINE_HALF : BOX_HALF);
        page->bottom = greater(page->bottom, HEAD + (double)end);
    }
}

static size_t links_behind(const struct columns *columns, size_t column)
{
    size_t found = 0;
    for (size_t at = columns->nodes_in.start[column]; at < columns->nodes_in.start[column + 1]; at++) {
        found += group_size(&columns->links_from, columns->nodes_in.at[at]);
    }
    return found;
}

/* Columns stand further apart where more wires run between them. */
static void measure_columns(struct page *page)
{
    double dash = has_dashes(page) ? 8 : 0, right = MARGIN;
    page->x = cleared(page->columns.count, sizeof *page->x);
    for (size_t column = 0; column < page->columns.count; column++) {
        size_t links = links_behind(&page->columns, column);
        page->x[column] = right + dash;
        right = page->x[column] + page->box + 48 + (links < 40 ? 2 * (double)links : 80);
    }
    page->right = greater(LEAST_WIDTH, page->x[page->columns.count - 1] + page->box + MARGIN);
    size_t title = strlen(page->picture->title);
    page->right = greater(page->right, 2 * MARGIN + BIG_LETTER * (double)(title < MOST_TITLE ? title : MOST_TITLE));
    page->right = greater(page->right, 2 * MARGIN + SMALL_LETTER * (double)page->below.length);
    page->right = greater(page->right, 2 * MARGIN + SMALL_LETTER * (double)page->legend.length);
}

static void put_head(const struct page *page, struct bytes *out)
{
    put(out, "<svg xmlns='http://www.w3.org/2000/svg' width='%.0f' height='%.0f' viewBox='0 0 %.0f %.0f'>\n",
        page->right, page->bottom + FOOT, page->right, page->bottom + FOOT);
    put(out, "<style>text{font-family:'DejaVu Sans Mono',Menlo,Consolas,monospace;fill:#1d2733}"
             ".b{font-size:17px;font-weight:bold}"
             ".n{font-size:13px;font-weight:bold}"
             ".d{font-size:11px;fill:#4a5866}"
             ".m{font-size:9px;fill:#4a5866;text-anchor:middle}"
             ".p{font-size:9px;fill:#4a5866;text-anchor:end}"
             ".s{font-size:11px;font-weight:bold;fill:#fff;text-anchor:middle}"
             ".w{fill:none;stroke-width:1.4;stroke-opacity:.75}"
             ".t{fill:none;stroke:#b3261e;stroke-width:4;stroke-linecap:round}"
             ".h{stroke:#8894a0;stroke-dasharray:2 2}</style>\n"
             "<rect width='100%%' height='100%%' fill='#fff'/>\n<text class='b' x='%d' y='32'>", MARGIN);
    put_words(out, page->picture->title, MOST_TITLE);
    put(out, "</text><text class='d' x='%d' y='50'>%s</text>\n", MARGIN, (const char *)page->below.at);
}

/* Wires of one driver have one shade; the tightest path is red whatever its shade. */
static void start_wire(const struct node *node, bool thick, struct bytes *out)
{
    static const char *const shades[] = {"5f7890", "8a6fa0", "5b8f82", "94804f", "4f86a8", "a06f7c"};
    put(out, "<path class='%c' stroke='#%s' ", thick ? 't' : 'w', shades[node->component % 6]);
}

/* Where a link meets its right end: those into one box are spread over its side. */
static double end_of(const struct columns *columns, const struct link *link)
{
    const struct node *right = &columns->nodes[link->right];
    int64_t count = (int64_t)group_size(&columns->links_to, link->right);
    int64_t tenths = 15 * BOX_HALF / 2 * (2 * (int64_t)link->port + 1 - count) / count;
    return height_of(right) + (double)tenths / 10;
}

static void put_link(const struct page *page, const struct link *link, struct bytes *out)
{
    const struct node *left = &page->columns.nodes[link->left], *right = &page->columns.nodes[link->right];
    const struct wire *wire = &page->circuit->wires[link->wire];
    double x = page->x[left->column] + page->box, y = height_of(left);
    double end_x = page->x[right->column], end_y = end_of(&page->columns, link), bend = (x + end_x) / 2;
    start_wire(left, link->thick, out);
    put(out, "d='M%.1f %.1fC%.1f %.1f %.1f %.1f %.1f %.1f'/>\n", x, y, bend, y, bend, end_y, end_x, end_y);
    if (!right->passes && wire->has_pin) {
        put(out, "<text class='p' x='%.1f' y='%.1f'>+%" PRIu32 "</text>\n", end_x - 4, end_y - 3, wire->pin);
    }
}

static void put_wires(const struct page *page, bool thick, struct bytes *out)
{
    for (size_t at = 0; at < page->columns.node_count; at++) {
        const struct node *node = &page->columns.nodes[at];
        if (node->passes && node->thick == thick) {
            start_wire(node, thick, out);
            put(out, "d='M%.1f %.1fh%.1f'/>\n", page->x[node->column], height_of(node), page->box);
        }
    }
    for (size_t at = 0; at < page->columns.link_count; at++) {
        if (page->columns.links[at].thick == thick) {
            put_link(page, &page->columns.links[at], out);
        }
    }
}

static void put_boxes(const struct page *page, struct bytes *out)
{
    for (size_t at = 0; at < page->columns.node_count; at++) {
        if (!page->columns.nodes[at].passes) {
            put_box(page, &page->columns.nodes[at], out);
        }
    }
}

static void put_legend(const struct page *page, struct bytes *out)
{
    double y = page->bottom + 24;
    struct bytes least = {0}, plenty = {0};
    put(&least, "slack %" PRId64, page->least);
    put(&plenty, "%" PRId64 " ps or more", page->plenty);
    int bar = MARGIN + SMALL_LETTER * (int)least.length + 8, behind = bar + 118;
    int path = behind + SMALL_LETTER * (int)plenty.length + 26;
    put(out, "<defs><linearGradient id='g'><stop offset='0' stop-color='#d62f2f'/><stop offset='.5' "
             "stop-color='#e09a10'/><stop offset='1' stop-color='#2c944c'/></linearGradient></defs>\n");
    put(out, "<text class='d' x='%d' y='%.1f'>%s</text>", MARGIN, y + 9, (const char *)least.at);
    put(out, "<rect x='%d' y='%.1f' width='110' height='9' rx='4' fill='url(#g)'/>", bar, y);
    put(out, "<text class='d' x='%d' y='%.1f'>%s</text>\n", behind, y + 9, (const char *)plenty.at);
    put(out, "<path class='t' d='M%d %.1fh34'/>", path, y + 5);
    put(out, "<text class='d' x='%d' y='%.1f'>tightest path</text>\n", path + 42, y + 9);
    put(out, "<text class='d' x='%d' y='%.1f'>%s</text>\n", MARGIN, y + 28, (const char *)page->legend.at);
    free(least.at);
    free(plenty.at);
}

void draw(const struct circuit *circuit, const struct picture *picture, struct bytes *out)
{
    struct page page = {.circuit = circuit, .picture = picture,
                        .budget = picture->increments != NULL && picture->bounds != NULL};
    find_flow(circuit, picture->slacks, picture->most, &page.flow);
    find_columns(circuit, &page.flow, &page.columns);
    find_colours(&page);
    write_words(&page);
    measure_boxes(&page);
    measure_columns(&page);
    put_head(&page, out);
    put_wires(&page, false, out);
    put_wires(&page, true, out);
    put_boxes(&page, out);
    put_legend(&page, out);
    put(out, "</svg>\n");
    free_flow(&page.flow);
    free_columns(&page.columns);
    free(page.x);
    free(page.below.at);
    free(page.legend.at);
}
