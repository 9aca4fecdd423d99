#include "draw.h"

#include <inttypes.h>

#include "names.h"

enum { TILES = 5, SWATCH = 11, GAP = 34 };

/* Colours of a reel: how much of it is in a node's ground, in its filled part and in its border. */
static const double GROUND = 0.13, FILLED = 0.5, BORDER = 0.9;

double draw_fill(const struct tally *t) {
    return t->places == 0 ? 0 : (double)t->frames / (double)t->places;
}

void draw_swatch(const struct picture *p, size_t reel, double x, double y) {
    svg_rect(p->out, (struct box){x, y, SWATCH, SWATCH}, "rx=\"2\" fill=\"%s\" stroke=\"%s\"", svg_colour(reel, FILLED).text,
             svg_colour(reel, BORDER).text);
}

static void put_box(FILE *out, struct box b, double fill, struct svg_colour ground, struct svg_colour filled,
                    struct svg_colour border) {
    double height = b.height * fill;
    svg_rect(out, b, "fill=\"%s\"", ground.text);
    svg_rect(out, (struct box){b.x, b.y + b.height - height, b.width, height}, "fill=\"%s\"", filled.text);
    svg_rect(out, b, "fill=\"none\" stroke=\"%s\"", border.text);
}

static void put_free(FILE *out, struct box b) {
    svg_rect(out, b, "class=\"free\"");
}

static void put_numbers(FILE *out, uint64_t node, struct box b, const struct tally *t) {
    const double roomy = 40, wide = 24, high = 28;
    int numbered = b.height >= high && b.width >= wide;
    double x = b.x + b.width / 2, y = b.y + b.height / 2 + (numbered ? 8 : 4);
    if (t && b.width >= roomy)
        svg_text(out, x, y, "middle", "%" PRIu64 "/%" PRIu64, t->frames, t->places);
    else if (t && b.width >= wide)
        svg_text(out, x, y, "middle", "%" PRIu64, t->frames);
    if (numbered)
        svg_text(out, b.x + 3, b.y + 9, "tiny", "%" PRIu64, node);
}

void draw_node(const struct picture *p, uint64_t node, struct box box) {
    size_t owner = p->survey->owners[node];
    if (owner == 0) {
        put_free(p->out, box);
        put_numbers(p->out, node, box, NULL);
        return;
    }
    const uint64_t *words = book_node(p->book, node);
    struct tally t = {0};
    tally_node(&t, words);
    size_t reel = owner - 1;
    svg_put(p->out,
            "<g><title>node %" PRIu64 ": reel %" PRIu64 ", level %" PRIu64 ", %" PRIu64 " of %" PRIu64 " places held</title>",
            node, p->survey->reels[reel].reel, words[REELBOOK_NODE_LEVEL], t.frames, t.places);
    put_box(p->out, box, draw_fill(&t), svg_colour(reel, GROUND), svg_colour(reel, FILLED), svg_colour(reel, BORDER));
    put_numbers(p->out, node, box, &t);
    svg_put(p->out, "</g>\n");
}

static double draw_numbers(const struct picture *p, double y) {
    static const char *const labels[TILES] = {"reels", "frames", "nodes used", "places (held)", "deepest level"};
    const struct tally *t = &p->survey->total;
    double x[TILES], base = y + 26;
    for (int i = 0; i < TILES; i++) {
        x[i] = DRAW_MARGIN + i * (double)DRAW_INNER / TILES;
        svg_text(p->out, x[i], y, "label", "%s", labels[i]);
    }
    svg_text(p->out, x[0], base, "big", "%zu of %" PRIu64, p->survey->count, p->book->file.slots);
    svg_text(p->out, x[1], base, "big", "%" PRIu64, t->frames);
    svg_text(p->out, x[2], base, "big", "%" PRIu64 " of %" PRIu64, t->nodes, p->book->file.nodes);
    svg_text(p->out, x[3], base, "big", "%" PRIu64 " (%.0f%%)", t->places, 100 * draw_fill(t));
    svg_text(p->out, x[4], base, "big", "%u", p->survey->deepest);
    return base;
}

static double draw_samples(const struct picture *p, double y) {
    const char *const names[] = {"free", "used, no frame held", "half of its places held", "all of them"};
    const double widths[] = {84, 178, 192, 130};
    struct svg_colour ground = {"#eeeeee"}, filled = {"#9c9c9c"}, border = {"#666666"};
    double x = DRAW_MARGIN;
    for (int i = 0; i < 4; i++) {
        struct box box = {x, y, 18, 18};
        if (i == 0)
            put_free(p->out, box);
        else
            put_box(p->out, box, (i - 1) / 2.0, ground, filled, border);
        svg_text(p->out, x + 25, y + 13, "label", "%s", names[i]);
        x += widths[i];
    }
    return y + 18;
}

static double draw_names(const struct picture *p, double y) {
    double x = DRAW_MARGIN;
    char name[40];
    for (size_t i = 0; i < p->survey->count; i++) {
        double width = SWATCH + 24 + 7.2 * snprintf(name, sizeof name, "reel %" PRIu64, p->survey->reels[i].reel);
        if (x + width > DRAW_MARGIN + DRAW_INNER) {
            x = DRAW_MARGIN;
            y += 20;
        }
        draw_swatch(p, i, x, y);
        svg_text(p->out, x + SWATCH + 6, y + 10, "plain", "%s", name);
        x += width;
    }
    return y + SWATCH;
}

/* What a box means, where there are any; the reels by name, where each tree is drawn whole. Else a table names them. */
static double draw_legend(const struct picture *p, double y) {
    int whole = draw_trees_whole(p->survey);
    if (whole || draw_pool_whole(p->book->file.nodes))
        y = draw_samples(p, y + GAP);
    if (whole && p->survey->count > 0)
        y = draw_names(p, y + GAP / 2);
    return y;
}

static double draw_all(const struct picture *p, const char *name) {
    double y = DRAW_MARGIN + 20;
    svg_text(p->out, DRAW_MARGIN, y, "title", "Reel book %s", name);
    y = draw_numbers(p, y + GAP);
    y = draw_legend(p, y);
    y = draw_pool(p, y + GAP);
    y = draw_trees(p, y + GAP);
    return y + DRAW_MARGIN;
}

/* The picture has the name as far as there is room; the file, which a viewer may show above it, has all of it. */
void draw(FILE *out, const struct book *b, const struct survey *s, const char *path) {
    const double before_name = 165;
    char name[192], whole[1024];
    struct picture p = {NULL, b, s};
    name_as_text(name, sizeof name, name_of_path(path), DRAW_INNER - before_name);
    name_as_text(whole, sizeof whole, name_of_path(path), 1e9);
    svg_begin(out, DRAW_WIDTH, draw_all(&p, name), whole);
    p.out = out;
    draw_all(&p, name);
    svg_end(out);
}
