#include <inttypes.h>

#include "draw.h"

/* More than this are not drawn node by node. */
enum { MOST_LEAVES = 140, MOST_TREES = 64 };

static double least(double a, double b) {
    return a < b ? a : b;
}

static double most(double a, double b) {
    return a > b ? a : b;
}

static uint64_t leaves_of(const struct survey_reel *r) {
    uint64_t leaves = r->total.nodes;
    for (unsigned level = 0; level < r->deepest; level++)
        leaves -= r->levels[level + 1].nodes / survey_fanout(level);
    return leaves;
}

int draw_trees_whole(const struct survey *s) {
    for (size_t i = 0; i < s->count; i++)
        if (leaves_of(&s->reels[i]) > MOST_LEAVES)
            return 0;
    return s->count <= MOST_TREES;
}

/* A tree as it is drawn: a row for each level, a column for each leaf. */
struct panel {
    const struct picture *picture;
    double left, top, column;
    uint64_t leaves; /* drawn so far */
};

static const double PADDING = 14, HEADING = 62, LEVEL_NAMES = 20, GAP = 16, NARROWEST = 248;
static const double ROW = 62, BOX_HEIGHT = 34, BOX_WIDTH = 50, COLUMN = 56, BOX_SHARE = 0.88;

static void put_link(const struct panel *panel, double from, double to, double y) {
    double middle = y + (ROW - BOX_HEIGHT) / 2, end = y + ROW - BOX_HEIGHT;
    svg_put(panel->picture->out, "<path class=\"link\" d=\"M%g %gC%g %g %g %g %g %g\"/>\n", from, y, from, middle, to, middle, to,
            end);
}

/* Draws a subtree in the columns of its leaves, and answers the middle of its root. */
static double put_subtree(struct panel *panel, uint64_t number, unsigned level) {
    const uint64_t *node = book_node(panel->picture->book, number);
    unsigned children = node[REELBOOK_NODE_NEXT] ? survey_fanout(level) : 0;
    double y = panel->top + ROW * level, left = panel->left + panel->column * (double)panel->leaves;
    double middles[SURVEY_MOST_CHILDREN] = {0};
    for (unsigned i = 0; i < children; i++)
        middles[i] = put_subtree(panel, node[REELBOOK_NODE_NEXT] - 1 + i, level + 1);
    panel->leaves += children == 0;
    double right = panel->left + panel->column * (double)panel->leaves;
    double width = least(BOX_WIDTH, BOX_SHARE * (right - left));
    double middle = children ? (middles[0] + middles[children - 1]) / 2 : (left + right) / 2;
    middle = most(left + width / 2, least(middle, right - width / 2));
    for (unsigned i = 0; i < children; i++)
        put_link(panel, middle, middles[i], y + BOX_HEIGHT);
    draw_node(panel->picture, number, (struct box){middle - width / 2, y, width, BOX_HEIGHT});
    return middle;
}

static struct box panel_box(const struct survey_reel *r, double x, double y) {
    double width = LEVEL_NAMES + COLUMN * (double)leaves_of(r) + 2 * PADDING;
    return (struct box){x, y, least(DRAW_INNER, most(NARROWEST, width)), HEADING + ROW * r->deepest + BOX_HEIGHT + PADDING};
}

static void put_panel(const struct picture *p, size_t reel, struct box box) {
    const struct survey_reel *r = &p->survey->reels[reel];
    double left = box.x + PADDING;
    svg_rect(p->out, box, "class=\"panel\" rx=\"6\"");
    draw_swatch(p, reel, left, box.y + 13);
    svg_text(p->out, left + 19, box.y + 23, "name", "reel %" PRIu64, r->reel);
    svg_text(p->out, left, box.y + 42, "label", "slot %" PRIu64 ", frames %" PRIu64 ", nodes %" PRIu64 ", %.0f%% held", r->slot,
             r->total.frames, r->total.nodes, 100 * draw_fill(&r->total));
    for (unsigned level = 0; level <= r->deepest; level++)
        svg_text(p->out, left, box.y + HEADING + ROW * level + BOX_HEIGHT / 2 + 4, "label", "%u", level);
    left += LEVEL_NAMES;
    double column = least(COLUMN, (box.x + box.width - PADDING - left) / (double)leaves_of(r));
    struct panel panel = {.picture = p, .left = left, .top = box.y + HEADING, .column = column};
    put_subtree(&panel, r->root, 0);
}

/* As many beside each other as have room. */
static double draw_each_node(const struct picture *p, double y) {
    double x = DRAW_MARGIN, height = 0;
    for (size_t i = 0; i < p->survey->count; i++) {
        struct box box = panel_box(&p->survey->reels[i], x, y);
        if (x + box.width > DRAW_MARGIN + DRAW_INNER) {
            box.x = x = DRAW_MARGIN;
            box.y = y += height + GAP;
            height = 0;
        }
        put_panel(p, i, box);
        x += box.width + GAP;
        height = most(height, box.height);
    }
    return y + height;
}

/* The table: a row for each reel, a cell for each of its levels. */
static const double LINE = 18, REEL_END = 158, FRAMES_END = 214, NODES_END = 258, CELLS = 268, CELL = 39;

static double cell_width(const struct survey *s) {
    return least(CELL, (DRAW_INNER - CELLS) / (s->deepest + 1.0));
}

static void put_table_head(const struct picture *p, double x, double y) {
    double cell = cell_width(p->survey);
    svg_text(p->out, x + REEL_END, y, "right", "reel");
    svg_text(p->out, x + FRAMES_END, y, "right", "frames");
    svg_text(p->out, x + NODES_END, y, "right", "nodes");
    for (unsigned level = 0; level <= p->survey->deepest; level++)
        svg_text(p->out, x + CELLS + cell * (level + 0.5), y, "middle", "%u", level);
}

static void put_table_row(const struct picture *p, size_t reel, double x, double y) {
    const struct survey_reel *r = &p->survey->reels[reel];
    double cell = cell_width(p->survey), base = y + LINE - 5;
    draw_swatch(p, reel, x, y + 3);
    svg_text(p->out, x + REEL_END, base, "right", "%" PRIu64, r->reel);
    svg_text(p->out, x + FRAMES_END, base, "right", "%" PRIu64, r->total.frames);
    svg_text(p->out, x + NODES_END, base, "right", "%" PRIu64, r->total.nodes);
    for (unsigned level = 0; level <= r->deepest; level++) {
        double left = x + CELLS + cell * level, fill = draw_fill(&r->levels[level]);
        svg_rect(p->out, (struct box){left, y, cell - 1, LINE - 1}, "fill=\"%s\"", svg_colour(reel, 0.06 + 0.6 * fill).text);
        svg_text(p->out, left + cell / 2, base, "middle", "%" PRIu64, r->levels[level].nodes);
    }
}

static double draw_each_level(const struct picture *p, double y) {
    double width = CELLS + cell_width(p->survey) * (p->survey->deepest + 1.0) + 2 * GAP;
    size_t columns = (size_t)((DRAW_INNER + 2 * GAP) / width), rows = (p->survey->count + columns - 1) / columns;
    y += LINE;
    for (size_t column = 0; column < columns; column++)
        put_table_head(p, DRAW_MARGIN + width * (double)column, y - 6);
    for (size_t i = 0; i < p->survey->count; i++)
        put_table_row(p, i, DRAW_MARGIN + width * (double)(i / rows), y + LINE * (double)(i % rows));
    return y + LINE * (double)rows;
}

double draw_trees(const struct picture *p, double y) {
    int whole = draw_trees_whole(p->survey);
    svg_text(p->out, DRAW_MARGIN, y + 14, "head", "The trees");
    if (p->survey->count > 0)
        svg_text(p->out, DRAW_MARGIN + 108, y + 14, "label", "%s",
                 whole ? "In a box, as far as there is room: the node's number; its frames / its places."
                       : "The number of nodes at each level. The deeper its colour, the more of their places are held.");
    y += 30;
    if (p->survey->count == 0) {
        svg_text(p->out, DRAW_MARGIN, y + 6, "label", "No reel is open.");
        return y + 6;
    }
    return whole ? draw_each_node(p, y) : draw_each_level(p, y);
}
