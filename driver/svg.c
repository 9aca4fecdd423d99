#include "svg.h"

#include <stdarg.h>

static const char style[] =
    "text{font-family:'DejaVu Sans',Verdana,Helvetica,sans-serif;font-size:12px;fill:#2b2b2b}"
    ".title{font-size:26px;font-weight:bold}"
    ".head{font-size:17px;font-weight:bold}"
    ".big{font-size:21px}"
    ".name{font-weight:bold}"
    ".label{font-size:11px;fill:#6f6f6f}"
    ".right{font-size:11px;fill:#6f6f6f;text-anchor:end}"
    ".tiny{font-size:8px;fill:#555}"
    ".middle{font-size:11px;text-anchor:middle}"
    ".link{fill:none;stroke:#b5b5b0;stroke-width:1.2}"
    ".free{fill:#eeeeea;stroke:#dcdcd6}"
    ".panel{fill:#fff;stroke:#e2e2dc}";

static void put_escaped(FILE *out, const char *text) {
    for (; *text; text++)
        switch (*text) {
        case '&':
            fputs("&amp;", out);
            break;
        case '<':
            fputs("&lt;", out);
            break;
        case '>':
            fputs("&gt;", out);
            break;
        default:
            fputc(*text, out);
        }
}

void svg_begin(FILE *out, double width, double height, const char *title) {
    svg_put(out, "<svg xmlns=\"http://www.w3.org/2000/svg\" width=\"%g\" height=\"%g\" viewBox=\"0 0 %g %g\">\n", width, height,
            width, height);
    svg_put(out, "<title>");
    put_escaped(out, title);
    svg_put(out, "</title>\n<style>%s</style>\n", style);
    svg_rect(out, (struct box){0, 0, width, height}, "fill=\"#fafaf7\"");
}

void svg_end(FILE *out) {
    svg_put(out, "</svg>\n");
}

void svg_put(FILE *out, const char *format, ...) {
    va_list arguments;
    if (!out)
        return;
    va_start(arguments, format);
    vfprintf(out, format, arguments);
    va_end(arguments);
}

void svg_rect(FILE *out, struct box b, const char *attributes, ...) {
    va_list arguments;
    if (!out)
        return;
    svg_put(out, "<rect x=\"%g\" y=\"%g\" width=\"%g\" height=\"%g\" ", b.x, b.y, b.width, b.height);
    va_start(arguments, attributes);
    vfprintf(out, attributes, arguments);
    va_end(arguments);
    svg_put(out, "/>\n");
}

void svg_text(FILE *out, double x, double y, const char *class, const char *format, ...) {
    char text[256];
    va_list arguments;
    if (!out)
        return;
    va_start(arguments, format);
    vsnprintf(text, sizeof text, format, arguments);
    va_end(arguments);
    svg_put(out, "<text x=\"%g\" y=\"%g\" class=\"%s\">", x, y, class);
    put_escaped(out, text);
    svg_put(out, "</text>\n");
}

/* One of red, green and blue (n is 0, 8, 4) of a hue in degrees, in the formula of CSS for hsl(). */
static double part_of_hue(double hue, double n) {
    const double saturation = 0.58, lightness = 0.46;
    double k = n + hue / 30;
    k = k >= 12 ? k - 12 : k;
    double low = k - 3 < 9 - k ? k - 3 : 9 - k;
    low = low > 1 ? 1 : low < -1 ? -1 : low;
    return lightness - saturation * lightness * low;
}

/* Hues go on by the golden angle, so that neighbours differ. */
struct svg_colour svg_colour(size_t n, double strength) {
    struct svg_colour colour;
    const double parts[] = {0, 8, 4};
    unsigned mixed[3];
    double hue = (double)((205000 + n * 137508) % 360000) / 1000;
    for (int i = 0; i < 3; i++)
        mixed[i] = (unsigned)(255.5 - 255 * strength * (1 - part_of_hue(hue, parts[i])));
    snprintf(colour.text, sizeof colour.text, "#%02x%02x%02x", mixed[0] & 255, mixed[1] & 255, mixed[2] & 255);
    return colour;
}
