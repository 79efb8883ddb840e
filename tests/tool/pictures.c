/* Pictures of whatever circuits come up: none may end the program, and each has to be XML. */
#include <stdlib.h>
#include <string.h>

#include "picture.h"
#include "trial.h"

enum { MOST_DRAWN = 64, DEEPEST = 16 };

/* Where in a picture it is read, and the elements that are open there. */
struct xml {
    const char *at, *end;
    const char *open[DEEPEST];
    size_t depth, roots;
};

static size_t name_length(const char *at)
{
    return strspn(at, "abcdefghijklmnopqrstuvwxyzABCDEFGHIJKLMNOPQRSTUVWXYZ");
}

static void close_element(struct xml *xml)
{
    size_t length = name_length(xml->at + 2);
    must(xml->depth > 0, "what ends in a picture has begun");
    const char *open = xml->open[--xml->depth];
    bool same = name_length(open) == length && memcmp(open, xml->at + 2, length) == 0;
    must(same, "what began last in a picture ends first");
    must(xml->at[2 + length] == '>', "a picture's end tags are whole");
    xml->at += length + 3;
}

/* The attributes are quoted, and hold no sign that would end them or begin something. */
static void open_element(struct xml *xml)
{
    const char *name = xml->at + 1;
    char quote = '\0';
    must(name_length(name) > 0, "a picture's elements have names");
    for (xml->at = name; xml->at < xml->end && (quote != '\0' || *xml->at != '>'); xml->at++) {
        must(*xml->at != '<', "no element of a picture begins within a tag");
        bool is_quote = *xml->at == '\'' || *xml->at == '"';
        quote = quote == '\0' && is_quote ? *xml->at : quote == *xml->at ? '\0' : quote;
    }
    must(xml->at < xml->end, "a picture's tags end");
    xml->roots += xml->depth == 0;
    if (xml->at[-1] != '/') {
        must(xml->depth < DEEPEST, "a picture is not so deep");
        xml->open[xml->depth++] = name;
    }
    xml->at++;
}

static bool is_escape(const char *at)
{
    static const char *const all[] = {"&lt;", "&gt;", "&amp;", "&quot;", "&apos;", "&#39;"};
    for (size_t next = 0; next < sizeof all / sizeof *all; next++) {
        if (strncmp(at, all[next], strlen(all[next])) == 0) {
            return true;
        }
    }
    return false;
}

/* The part of XML that a picture needs. */
static void check_picture(struct bytes *out)
{
    put(out, "%s", ""); /* a NUL behind it, so that it can be searched as a string */
    struct xml xml = {.at = (const char *)out->at, .end = (const char *)out->at + out->length};
    must(memchr(out->at, '\0', out->length) == NULL, "a picture has no NUL");
    while (xml.at < xml.end) {
        if (*xml.at == '<' && xml.at[1] == '/') {
            close_element(&xml);
        } else if (*xml.at == '<') {
            open_element(&xml);
        } else {
            must((unsigned char)*xml.at >= 32 || *xml.at == '\n', "a picture has no control bytes");
            must(*xml.at != '&' || is_escape(xml.at), "what is escaped in a picture is known");
            xml.at++;
        }
    }
    must(xml.depth == 0 && xml.roots == 1, "a picture is one element");
}

/* What the library lets through as far as a picture depends on it. */
static bool can_be_drawn(const struct circuit *circuit)
{
    bool can = circuit->count > 0 && circuit->count <= MOST_DRAWN;
    for (size_t at = 0; at < circuit->wire_count && can; at++) {
        can = circuit->wires[at].from < circuit->wires[at].to;
    }
    return can;
}

bool try_picture(struct dice *dice, const struct circuit *circuit)
{
    static const char *const titles[] = {"fuzz", "<&>'\"", "\x1b[31m \xff",
                                         "a title that goes on and on, as the names of files may do, all 64 letters"};
    int32_t slacks[MOST_DRAWN];
    uint32_t increments[MOST_DRAWN], bounds[MOST_DRAWN];
    int32_t width = below(dice, 8) == 0 ? 200000000 : 3;
    if (!can_be_drawn(circuit)) {
        return false;
    }
    for (size_t at = 0; at < circuit->count; at++) {
        slacks[at] = (int32_t)below(dice, (size_t)width) - width / 3;
        increments[at] = (uint32_t)below(dice, (size_t)width);
        bounds[at] = circuit->components[at].delay + increments[at];
    }
    bool budgeted = below(dice, 2) == 0;
    struct picture picture = {.title = titles[below(dice, sizeof titles / sizeof *titles)], .below = "as it came",
                              .slacks = slacks, .increments = budgeted ? increments : NULL,
                              .bounds = budgeted ? bounds : NULL, .most = 1 + below(dice, 80)};
    struct bytes out = {0};
    draw(circuit, &picture, &out);
    check_picture(&out);
    free(out.at);
    return true;
}
