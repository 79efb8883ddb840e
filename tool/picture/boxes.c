/* A box: the name, the numbers and the slack of a component, in a colour that says how tight it is. */
#include <inttypes.h>
#include <stdio.h>
#include <stdlib.h>
#include <string.h>

#include "hozbantir.h"
#include "page.h"

enum { MOST_SHOWN = 18 };
static const int PAD = 9;

/* Names of files may have any bytes. */
void put_words(struct bytes *out, const char *words, size_t most)
{
    static const char *const marks = "<>&'\"", *const escapes[] = {"&lt;", "&gt;", "&amp;", "&#39;", "&quot;"};
    size_t length = strlen(words), end = length > most ? most - 1 : length;
    for (size_t at = 0; at < end; at++) {
        const char *mark = strchr(marks, words[at]);
        if (mark != NULL) {
            put(out, "%s", escapes[mark - marks]);
        } else {
            put(out, "%c", words[at] < ' ' || words[at] > '~' ? '?' : words[at]);
        }
    }
    put(out, "%s", length > most ? "\xe2\x80\xa6" : "");
}

static int by_slack(const void *left, const void *right)
{
    int32_t a = *(const int32_t *)left, b = *(const int32_t *)right;
    return (a > b) - (a < b);
}

/* Green starts where three quarters of those shown have less: a single idle input does not redden all others. */
void find_colours(struct page *page)
{
    int32_t *sorted = cleared(page->circuit->count, sizeof *sorted);
    size_t found = 0;
    for (size_t at = 0; at < page->circuit->count; at++) {
        if (page->flow.shown[at]) {
            sorted[found++] = page->picture->slacks[at];
        }
    }
    qsort(sorted, found, sizeof *sorted, by_slack);
    page->late = sorted[0] < 0;
    page->least = page->late ? 0 : sorted[0];
    page->plenty = sorted[found * 3 / 4];
    if (page->plenty <= page->least) {
        int32_t greatest = sorted[found > 0 ? found - 1 : 0];
        page->plenty = greatest > page->least ? greatest : page->least;
    }
    free(sorted);
}

/* Between two colours, so many hundredths of the way from the first. */
static uint32_t blend(uint32_t from, uint32_t to, int64_t hundredths)
{
    uint32_t blended = 0;
    for (int shift = 16; shift >= 0; shift -= 8) {
        int64_t a = from >> shift & 255, b = to >> shift & 255;
        blended |= (uint32_t)((a * (100 - hundredths) + b * hundredths) / 100) << shift;
    }
    return blended;
}

static uint32_t colour_of(const struct page *page, int64_t slack)
{
    const uint32_t late = 0x8e0b3c, red = 0xd62f2f, amber = 0xe09a10, green = 0x2c944c;
    if (slack <= page->least) {
        return slack < 0 ? late : red;
    }
    int64_t part = slack >= page->plenty ? 200 : (slack - page->least) * 200 / (page->plenty - page->least);
    return part < 100 ? blend(red, amber, part) : blend(amber, green, part - 100);
}

/* The line below the name. An input without delay has nothing but its time. */
static void put_numbers(const struct page *page, size_t number, struct bytes *out)
{
    const struct component *component = &page->circuit->components[number];
    const uint32_t *increments = page->picture->increments, *bounds = page->picture->bounds;
    bool input = component->kind == HOZBANTIR_KIND_INPUT;
    bool idle = input && component->delay == 0 && !(page->budget && (increments[number] != 0 || bounds[number] != 0));
    if (input) {
        put(out, "at %" PRId32 "%s", component->time, idle ? "" : ", ");
    }
    if (!idle && page->budget) {
        put(out, "%" PRIu32 " + %" PRIu32 " = %" PRIu32, component->delay, increments[number], bounds[number]);
    } else if (!idle) {
        put(out, "delay %" PRIu32, component->delay);
    }
    if (component->kind == HOZBANTIR_KIND_OUTPUT) {
        put(out, ", by %" PRId32, component->time);
    }
}

static double pill_width(int32_t slack)
{
    return SMALL_LETTER * snprintf(NULL, 0, "%" PRId32, slack) + 10;
}

double box_width(const struct page *page, size_t component)
{
    struct bytes numbers = {0};
    put_numbers(page, component, &numbers);
    size_t name = strlen(page->circuit->components[component].name), shown = name < MOST_SHOWN ? name : MOST_SHOWN;
    double upper = LETTER * (double)shown + pill_width(page->picture->slacks[component]) + 4 * PAD;
    double lower = SMALL_LETTER * (double)numbers.length + 3 * PAD;
    free(numbers.at);
    return upper > lower ? upper : lower;
}

/* Rounded for a gate; pointed, as in schematics, where signals come in or go out. */
static void put_shape(double x, double y, double width, bool pointed, struct bytes *out)
{
    double top = y - BOX_HALF, low = y + BOX_HALF, side = x + width - PAD;
    if (pointed) {
        put(out, "<path d='M%.1f %.1fH%.1fl%d %dL%.1f %.1fH%.1fz'", x, top, side, PAD, BOX_HALF, side, low, x);
    } else {
        put(out, "<rect x='%.1f' y='%.1f' width='%.1f' height='%d' rx='5'", x, top, width, 2 * BOX_HALF);
    }
}

/* A dash and a number for the wires of a component that are not drawn, if there are some. */
static void put_hidden(const struct page *page, const struct groups *wires, size_t component, double x, double y,
                       struct bytes *out)
{
    size_t hidden = 0;
    for (size_t at = wires->start[component]; at < wires->start[component + 1]; at++) {
        const struct wire *wire = &page->circuit->wires[wires->at[at]];
        bool shown = page->flow.shown[wire->from] && page->flow.shown[wire->to];
        hidden += !shown || page->columns.cut[wires->at[at]];
    }
    if (hidden > 0) {
        put(out, "<path class='h' d='M%.1f %.1fh14'/>", x, y);
        put(out, "<text class='m' x='%.1f' y='%.1f'>+%zu</text>\n", x + 7, y + 10, hidden);
    }
}

static void put_title(const struct page *page, size_t component, struct bytes *out)
{
    put(out, "<title>");
    put_words(out, page->circuit->components[component].name, MOST_NAME);
    put(out, " (%zu): ", component);
    put_numbers(page, component, out);
    put(out, "; slack %" PRId32 " ps</title>", page->picture->slacks[component]);
}

void put_box(const struct page *page, const struct node *node, struct bytes *out)
{
    const struct component *component = &page->circuit->components[node->component];
    int32_t slack = page->picture->slacks[node->component];
    uint32_t colour = colour_of(page, slack);
    bool pointed = component->kind != HOZBANTIR_KIND_INNER;
    double x = page->x[node->column], y = height_of(node), right = x + page->box, pill = pill_width(slack);
    put(out, "<g>");
    put_title(page, node->component, out);
    put_shape(x, y, page->box, pointed, out);
    put(out, " fill='#%06" PRIx32 "' stroke='#%06" PRIx32 "' stroke-width='%s'/>", blend(0xffffff, colour, 13), colour,
        node->thick ? "2.6" : "1.3");
    put(out, "<text class='n' x='%.1f' y='%.1f'>", x + PAD, y - 4);
    put_words(out, component->name, MOST_SHOWN);
    put(out, "</text><text class='d' x='%.1f' y='%.1f'>", x + PAD, y + 13);
    put_numbers(page, node->component, out);
    put(out, "</text><rect x='%.1f' y='%.1f' width='%.1f' height='15' rx='7.5' fill='#%06" PRIx32 "'/>",
        right - 11 - pill, y - 17, pill, colour);
    put(out, "<text class='s' x='%.1f' y='%.1f'>%" PRId32 "</text></g>\n", right - 11 - pill / 2, y - 6, slack);
    put_hidden(page, &page->flow.entering, node->component, x - 14, y + 15, out);
    put_hidden(page, &page->flow.leaving, node->component, pointed ? right - 6 : right, y + 15, out);
}
