#include <inttypes.h>
#include <string.h>

#include "draw.h"

/* The pool as a grid: a box for each node, or, where they are too many, a dot whose colour is the deeper the fuller the node. */
struct grid {
    uint64_t nodes; /* at most */
    unsigned columns;
    double width, height; /* of a cell */
    int boxes;
    const char *about;
};

static struct grid grid_for(uint64_t nodes) {
    static const char dots[] = "A dot for each node. The deeper its colour, the more of its places are held.";
    static const struct grid grids[] = {
        {128, 16, 66, 46, 1, "In a box: the node's number; its frames / its places."},
        {512, 32, 33, 33, 1, "In a box: the node's number; its frames."},
        {2048, 64, 16, 16, 1, "A box for each node; before each line, the number of its first one."},
        {8192, 128, 8, 8, 0, dots},
        {REELBOOK_MAX_NODES, 256, 4, 4, 0, dots},
    };
    const struct grid *g = grids;
    while (g->nodes < nodes)
        g++;
    return *g;
}

int draw_pool_whole(uint64_t nodes) {
    return grid_for(nodes).boxes;
}

static void put_boxes(const struct picture *p, struct grid g, uint64_t first, uint64_t end, double x, double y) {
    const double gap = g.width > 20 ? 4 : 2;
    for (uint64_t node = first; node < end; node++)
        draw_node(p, node, (struct box){x + (double)(node - first) * g.width, y, g.width - gap, g.height - gap});
}

/* In steps, so that neighbours can be of one colour. */
static struct svg_colour dot_colour(const struct picture *p, uint64_t node) {
    const double steps = 6, weakest = 0.2;
    if (p->survey->owners[node] == 0)
        return (struct svg_colour){"#ededE8"};
    struct tally t = {0};
    tally_node(&t, book_node(p->book, node));
    int step = (int)(steps * draw_fill(&t));
    return svg_colour(p->survey->owners[node] - 1, weakest + (1 - weakest) * step / steps);
}

/* Neighbours of one colour are one bar. */
static void put_dots(const struct picture *p, struct grid g, uint64_t first, uint64_t end, double x, double y) {
    for (uint64_t node = first, next; node < end; node = next) {
        struct svg_colour colour = dot_colour(p, node);
        for (next = node + 1; next < end && strcmp(dot_colour(p, next).text, colour.text) == 0;)
            next++;
        double left = x + (double)(node - first) * g.width, width = (double)(next - node) * g.width;
        svg_put(p->out, "<path fill=\"%s\" d=\"M%g %gh%gv%gh%gz\"/>\n", colour.text, left, y, width, g.height, -width);
    }
}

double draw_pool(const struct picture *p, double y) {
    const double label = 48, label_height = 64;
    const uint64_t nodes = p->book->file.nodes;
    struct grid g = grid_for(nodes);
    double x = DRAW_MARGIN + label;
    svg_text(p->out, DRAW_MARGIN, y + 14, "head", "The pool");
    svg_text(p->out, x + 60, y + 14, "label", "%s", g.about);
    y += 30;
    unsigned every = g.boxes ? 1 : (unsigned)(label_height / g.height);
    svg_put(p->out, "<g%s>\n", g.boxes ? "" : " shape-rendering=\"crispEdges\"");
    for (uint64_t first = 0; first < nodes; first += g.columns) {
        uint64_t end = first + g.columns < nodes ? first + g.columns : nodes;
        if (first / g.columns % every == 0)
            svg_text(p->out, x - 8, y + (g.boxes ? g.height / 2 + 2 : 8), "right", "%" PRIu64, first);
        (g.boxes ? put_boxes : put_dots)(p, g, first, end, x, y);
        y += g.height;
    }
    svg_put(p->out, "</g>\n");
    return y;
}
