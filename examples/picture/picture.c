/* picture.c: the whole picture, and its file. */
#define _XOPEN_SOURCE 700
#include "drawing.h"

#include <errno.h>
#include <stdio.h>
#include <stdlib.h>
#include <string.h>
#include <sys/stat.h>
#include <unistd.h>

/* ---- the picture */

/* A text in lines as long as the picture is wide. */
static void put_lines(drawing *d, font f, const char *text) {
  while (*text) {
    size_t len = svg_fitting(f, text, WIDTH - 8);
    char line[512];
    snprintf(line, sizeof line, "%.*s", (int)len, text);
    d->y += svg_height(f) + 4;
    svg_text(&d->s, 4, d->y, f, NULL, NULL, line);
    text += strlen(line);
    text += *text == ' ';
  }
}

static void put_defs(svg *s) {
  svg_put(s, "<defs>\n");
  for (int k = 0; k < 8; k++)
    svg_put(s,
            "<marker id=\"to%d\" viewBox=\"0 0 8 8\" refX=\"8\" refY=\"4\" markerWidth=\"7\" markerHeight=\"7\" orient=\"auto\">"
            "<path d=\"M0 0L8 4L0 8z\" fill=\"%s\"/></marker>\n",
            k, colour_of(k).dark);
  svg_put(s, "<pattern id=\"away\" width=\"6\" height=\"6\" patternUnits=\"userSpaceOnUse\"><path d=\"M0 0h6v6h-6z\" fill=\"#fff\"/>"
             "<path d=\"M0 6l6 -6\" stroke=\"#888\"/></pattern>\n"
             "<pattern id=\"fold\" width=\"6\" height=\"6\" patternUnits=\"userSpaceOnUse\"><path d=\"M3 0v6\" stroke=\"#ddd\" "
             "stroke-width=\"2\"/>"
             "</pattern>\n</defs>\n");
}

/* Columns side by side, in parts as wide as the picture. Gives the first column of the next part. */
static int fill_part(drawing *d, int first) {
  int x = LEFT + 3, k = first, count = (int)d->columns.count;
  for (; k < count; k++) {
    column *c = column_at(d, k);
    if (k > first && x + c->width + 2 > WIDTH - RIGHT) break;
    c->x = x;
    x += c->width + 3;
  }
  d->parts++;
  return k;
}

/* The picture ends before a column. */
static void cut(drawing *d, int end) {
  picture *p = d->p;
  p->to = moment_at(p, column_at(d, end - 1)->moment)->number;
  d->columns.count = (size_t)end;
  for (size_t k = 0; k < p->events.count; k++)
    if (event_at(p, k)->column >= end) event_at(p, k)->column = NOWHERE;
}

static void make_parts(drawing *d) {
  int end = NOWHERE;
  for (int k = 0; k < (int)d->columns.count; k = fill_part(d, k))
    if (d->parts == MOST_PARTS) end = k;
  if (end != NOWHERE) cut(d, end);
}

static uint32_t last_number(const picture *p) {
  const moment *last = moment_at(p, (int)p->moments.count - 1);
  return last->number + last->folded;
}

static void put_folds(drawing *d) {
  uint32_t folds = 0, moments = 0;
  char many[TEXT], text[2 * TEXT];
  for (int k = 0; k < (int)d->columns.count; k++) {
    moments += column_at(d, k)->folded;
    folds += column_at(d, k)->folded > 0;
  }
  fold_text(d->p, moments, many);
  snprintf(text, sizeof text, "Folded, since nothing new happens: %s in %u place%s.", many, folds, folds == 1 ? "" : "s");
  if (folds > 0) put_lines(d, FONT_NOTE, text);
}

/* Where lists part, the first time that is drawn. */
static void put_parting(drawing *d) {
  const picture *p = d->p;
  char text[2 * TEXT];
  for (size_t k = 0; k < p->events.count; k++) {
    const event *e = event_at(p, k);
    if (e->parts_from == NOWHERE || e->column == NOWHERE) continue;
    snprintf(text, sizeof text, "THE LISTS PART at %.40s %u: card %d has another block in a place of its list than card %d has.",
             p->setup.unit, moment_at(p, e->moment)->number, e->card, e->parts_from);
    put_lines(d, FONT_BOLD, text);
    return;
  }
}

/* What the picture leaves out. */
static void put_remarks(drawing *d) {
  const picture *p = d->p;
  const char *unit = p->setup.unit;
  char text[256];
  uint32_t end = last_number(p);
  if (p->from > 0 || p->to < end) {
    snprintf(text, sizeof text, "Only %.40ss %u to %u are drawn, of a run up to %.40s %u.", unit, p->from, p->to < end ? p->to : end,
             unit, end);
    put_lines(d, FONT_NOTE, text);
  }
  put_folds(d);
  if (d->parts > 1) put_lines(d, FONT_NOTE, "Drawn in parts, one below the other.");
  if (d->parts > MOST_PARTS) {
    snprintf(text, sizeof text, "TOO LONG: there are %d parts, and only the first %d are drawn. Draw fewer %.40ss to see the others.",
             d->parts, MOST_PARTS, unit);
    put_lines(d, FONT_NOTE, text);
  }
}

static void draw_lanes(drawing *d) {
  int count = (int)d->columns.count;
  d->y += 10;
  for (int k = 0, end = 0; k < count && !d->s.failed; k = end) {
    end = k + 1;
    while (end < count && column_at(d, end)->x > column_at(d, end - 1)->x) end++;
    draw_part(d, k, end);
  }
}

/* How the cards stand before the window. */
static void skip_to_window(drawing *d) {
  const picture *p = d->p;
  for (size_t k = 0; k < p->events.count && moment_at(p, event_at(p, k)->moment)->number < p->from; k++) {
    pass_event(d, event_at(p, k));
    pass_mark(d, event_at(p, k));
  }
}

static void draw(drawing *d) {
  const picture_setup *setup = &d->p->setup;
  put_lines(d, FONT_TITLE, setup->title);
  put_lines(d, FONT_NOTE, setup->note);
  make_columns(d);
  make_parts(d);
  put_parting(d);
  put_remarks(d);
  skip_to_window(d);
  draw_lanes(d);
  draw_fates(d);
  d->y += 12;
  draw_legend(d);
}

static void put_head(svg *s, const drawing *d) {
  svg_put(s, "<svg xmlns=\"http://www.w3.org/2000/svg\" width=\"%d\" height=\"%d\" viewBox=\"0 0 %d %d\" role=\"img\">\n<title>", WIDTH,
          d->y, WIDTH, d->y);
  svg_escaped(s, d->p->setup.title);
  svg_put(s, "</title>\n<desc>");
  svg_escaped(s, d->p->setup.note);
  svg_put(s, "</desc>\n");
  svg_style(s);
  put_defs(s);
  svg_put(s, "<path d=\"M0 0h%dv%dh-%dz\" fill=\"#fff\"/>\n", WIDTH, d->y, WIDTH);
}

/* ---- the file */

static int put_all(FILE *to, const svg *head, const svg *body) {
  if (!to) return 0;
  int good = fwrite(head->text, 1, head->len, to) == head->len && fwrite(body->text, 1, body->len, to) == body->len;
  return fclose(to) == 0 && good;
}

/* What a new file may be: what the user's mask leaves. */
static mode_t new_mode(void) {
  mode_t mask = umask(0);
  umask(mask);
  return 0666 & ~mask;
}

/* Under a name of its own first, which takes the file's place when all is written. */
static int replace_file(const char *path, mode_t mode, const svg *head, const svg *body) {
  static const char open_letters[] = ".XXXXXX"; /* mkstemp puts others in their place */
  size_t len = strlen(path);
  char *beside = malloc(len + sizeof open_letters);
  if (!beside) return 0;
  memcpy(beside, path, len);
  memcpy(beside + len, open_letters, sizeof open_letters);
  int file = mkstemp(beside);
  FILE *to = file < 0 ? NULL : fdopen(file, "wb");
  int good = to && fchmod(file, mode) == 0;
  good = put_all(to, head, body) && good && rename(beside, path) == 0;
  int why = errno;
  if (file >= 0 && !good) remove(beside);
  free(beside);
  errno = why;
  return good;
}

/* What is no file, a terminal or a pipe say, is written to: nothing can take its place. A link is followed. */
static int put_file(const char *path, const svg *head, const svg *body) {
  struct stat old, link;
  if (stat(path, &old) != 0) {
    int why = errno, is_new = *path && lstat(path, &link) != 0; /* else it is no name, or a link to nothing */
    errno = why;
    return is_new && replace_file(path, new_mode(), head, body);
  }
  if (!S_ISREG(old.st_mode)) return put_all(fopen(path, "wb"), head, body);
  char *file = access(path, W_OK) == 0 ? realpath(path, NULL) : NULL;
  int good = file && replace_file(file, old.st_mode & 07777, head, body);
  free(file);
  return good;
}

const char *picture_write(picture *p, const char *path) {
  drawing d = {.p = p, .y = 4};
  svg head = {0};
  const char *why = "no memory";
  uint32_t to = p->to; /* a long picture ends earlier */
  int some = 0;
  for (int m = 0; m < (int)p->moments.count; m++) some |= in_window(p, m) > 0;
  if (p->failed) return why;
  if (p->moments.count == 0) return "nothing happens that could be drawn";
  snprintf(p->why, sizeof p->why, "the run ends with %.40s %u", p->setup.unit, last_number(p));
  if (!some) return p->why;
  p->is_done = 1;
  for (size_t k = 0; k < p->events.count; k++) event_at(p, k)->column = NOWHERE;
  draw(&d);
  svg_put(&d.s, "</svg>\n");
  put_head(&head, &d);
  if (!d.s.failed && !head.failed) why = put_file(path, &head, &d.s) ? NULL : strerror(errno);
  p->to = to;
  p->is_done = 0;
  free(d.columns.at);
  free(d.s.text);
  free(head.text);
  return why;
}
