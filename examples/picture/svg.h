/* svg.h: text and shapes of an SVG file, in memory until all of it is there. Coordinates are whole numbers. */
#ifndef SVG_H
#define SVG_H

#include <stddef.h>

typedef struct {
  char *text;
  size_t len, room;
  int failed; /* no memory */
} svg;

/* Text of its class: see `fonts` in svg.c. */
typedef enum { FONT_TITLE, FONT_NOTE, FONT_PLAIN, FONT_BOLD, FONTS } font;

/* As printf: for numbers and for text that is known to need no escape. */
__attribute__((format(printf, 2, 3))) void svg_put(svg *s, const char *form, ...);
/* Any text, escaped. */
void svg_escaped(svg *s, const char *text);
/* A line of text that begins at x, on the base line y. Ink and halo are colours, or NULL. */
void svg_text(svg *s, int x, int y, font f, const char *ink, const char *halo, const char *text);
void svg_style(svg *s);
/* How wide a text is in the widest of the usual fonts, so that it fits in all. */
int svg_width(font f, const char *text);
int svg_height(font f);
/* How many bytes of the text fit in so many units: up to a space where there is one, and at least one character. */
size_t svg_fitting(font f, const char *text, int units);

#endif
