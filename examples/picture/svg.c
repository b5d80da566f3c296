#include "svg.h"

#include <stdarg.h>
#include <stdint.h>
#include <stdio.h>
#include <stdlib.h>
#include <string.h>

static const struct {
  const char *name;
  int size, bold;
} fonts[FONTS] = {{"h", 15, 1}, {"p", 11, 0}, {"t", 10, 0}, {"b", 10, 1}};

/* ---- text in memory */

static int has_room(svg *s, size_t more) {
  if (s->failed || s->room - s->len > more) return !s->failed;
  size_t room = 2 * (s->room + more) + 4096;
  char *text = realloc(s->text, room);
  s->failed = !text;
  if (!text) return 0;
  s->text = text;
  s->room = room;
  return 1;
}

void svg_put(svg *s, const char *form, ...) {
  va_list list;
  va_start(list, form);
  int len = vsnprintf(NULL, 0, form, list);
  va_end(list);
  if (len < 0) s->failed = 1;
  if (len < 0 || !has_room(s, (size_t)len)) return;
  va_start(list, form);
  vsnprintf(s->text + s->len, (size_t)len + 1, form, list);
  va_end(list);
  s->len += (size_t)len;
}

/* ---- escaping */

/* The character at a text's beginning, 0 where it is none that XML allows; and how many bytes it takes, 1 if it is none. */
static uint32_t character(const char *text, size_t *len) {
  static const uint32_t least[] = {0, 0, 0x80, 0x800, 0x10000};
  const uint8_t *p = (const uint8_t *)text;
  size_t n = p[0] < 0x80 ? 1 : p[0] >= 0xC2 && p[0] < 0xE0 ? 2 : p[0] >= 0xE0 && p[0] < 0xF0 ? 3 : p[0] >= 0xF0 && p[0] < 0xF5 ? 4 : 0;
  uint32_t c = n == 1 ? p[0] : n ? p[0] & (0x7Fu >> n) : 0;
  *len = 1;
  for (size_t k = 1; k < n; k++) {
    if ((p[k] & 0xC0) != 0x80) return 0;
    c = c << 6 | (p[k] & 0x3F);
  }
  if (n == 0 || c < least[n] || c > 0x10FFFF || (c >= 0xD800 && c < 0xE000) || c == 0xFFFE || c == 0xFFFF) return 0;
  *len = n;
  return c < 0x20 || c == 0x7F ? 0 : c;
}

void svg_escaped(svg *s, const char *text) {
  for (size_t len; *text; text += len) {
    uint32_t c = character(text, &len);
    if (c == 0) svg_put(s, "?");
    else if (c == '&') svg_put(s, "&amp;");
    else if (c == '<') svg_put(s, "&lt;");
    else if (c == '>') svg_put(s, "&gt;");
    else if (c == '"') svg_put(s, "&quot;");
    else svg_put(s, "%.*s", (int)len, text);
  }
}

/* ---- text as it is seen */

/* In hundredths of the size: DejaVu Sans, plain and bold, which is wide. From the space to the tilde; other characters are not wider
 * than the widest of these. */
static int wide(font f, uint32_t c) {
  static const uint8_t ascii[2][95] = {
      {32,  41, 46, 84, 64, 96, 78, 28, 40, 40, 50, 84, 32, 37, 32, 34, 64, 64, 64, 64, 64, 64, 64, 64, 64, 64, 34, 34, 84, 84, 84, 54,
       100, 69, 69, 70, 77, 64, 58, 78, 76, 30, 30, 66, 56, 87, 75, 79, 61, 79, 70, 64, 62, 74, 69, 99, 69, 62, 69, 40, 34, 40, 84, 50,
       50,  62, 64, 55, 64, 62, 36, 64, 64, 28, 28, 58, 28, 98, 64, 62, 64, 64, 42, 53, 40, 64, 60, 82, 60, 60, 53, 64, 34, 64, 84},
      {35, 46, 53, 84, 70, 101, 88, 31,  46,  46, 53, 84, 38, 42, 38, 37, 70, 70, 70, 70, 70, 70,  70, 70,
       70, 70, 40, 40, 84, 84,  84, 58,  100, 78, 77, 74, 83, 69, 69, 83, 84, 38, 38, 78, 64, 100, 84, 85,
       74, 85, 77, 73, 69, 82,  78, 111, 78,  73, 73, 46, 37, 46, 84, 50, 50, 68, 72, 60, 72, 68,  44, 72,
       72, 35, 35, 67, 35, 105, 72, 69,  72,  72, 50, 60, 48, 72, 66, 93, 65, 66, 59, 72, 37, 72,  84}};
  if (c == 0) c = '?';
  return c < 0x20 + sizeof ascii[0] ? ascii[fonts[f].bold][c - 0x20] : 111;
}

int svg_width(font f, const char *text) {
  int hundredths = 0;
  for (size_t len; *text; text += len) hundredths += wide(f, character(text, &len));
  return (hundredths * fonts[f].size + 99) / 100;
}

int svg_height(font f) { return fonts[f].size; }

size_t svg_fitting(font f, const char *text, int units) {
  size_t space = 0, at = 0;
  int hundredths = 0;
  for (size_t len; text[at]; at += len) {
    if (text[at] == ' ') space = at;
    hundredths += wide(f, character(text + at, &len));
    if (hundredths * fonts[f].size > 100 * units) return space ? space : at ? at : len;
  }
  return at;
}

void svg_text(svg *s, int x, int y, font f, const char *ink, const char *halo, const char *text) {
  svg_put(s, "<text x=\"%d\" y=\"%d\" class=\"%s\"", x, y, fonts[f].name);
  if (ink) svg_put(s, " fill=\"%s\"", ink);
  if (halo) svg_put(s, " stroke=\"%s\"", halo);
  svg_put(s, ">");
  svg_escaped(s, text);
  svg_put(s, "</text>\n");
}

void svg_style(svg *s) {
  svg_put(s, "<style>@page{size:210mm 297mm;margin:8mm}text{font-family:Arial,Helvetica,'DejaVu Sans',sans-serif;"
             "paint-order:stroke;stroke-width:3px;stroke-linejoin:round}");
  for (int k = 0; k < FONTS; k++)
    svg_put(s, ".%s{font-size:%dpx%s}", fonts[k].name, fonts[k].size, fonts[k].bold ? ";font-weight:bold" : "");
  svg_put(s, "</style>\n");
}
