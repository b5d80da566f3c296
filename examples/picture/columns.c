/* columns.c: where each call is drawn, and what is written there. */
#include "drawing.h"

#include <stdio.h>
#include <stdlib.h>
#include <string.h>

/* The words of the repair sheets, and for 16 to 18, which they do not have, the header's. */
static const char *const sheet[] = {"taken", "set-up", "record",    "term over",    "short tray",     "long entry", "cut",
                                    "check", "form",   "parted",    "stale",        "loose",          "undone",     "unshown",
                                    "early", "absent", "not a set", "bad rotation", "no equivocation"};
const char *refusal_word(uint8_t number) { return number < sizeof sheet / sizeof *sheet ? sheet[number] : "unknown"; }

uint32_t in_window(const picture *p, int m) {
  uint64_t first = moment_at(p, m)->number, last = first + moment_at(p, m)->folded;
  if (first < p->from) first = p->from;
  if (last > p->to) last = p->to;
  return first > last ? 0 : (uint32_t)(last - first + 1);
}

static int most(int a, int b) { return a > b ? a : b; }

/* ---- what is written */

int emitted_of(const picture *p, const event *e, uint8_t kind) {
  for (size_t k = 0; k < e->outs.count && e->kind != PICTURE_FETCH; k++)
    if (frame_at(p, linked_at(p, e->outs, k))->kind == kind) return linked_at(p, e->outs, k);
  return NOWHERE;
}

int token_width(const char *text) {
  int width = svg_width(FONT_BOLD, text) + 8;
  return width < 18 ? 18 : width;
}

int tokens_width(const picture *p, const event *e) {
  int width = 0;
  char text[TEXT];
  for (int k = 0; k < tokens(e); k++) {
    token_text(p, e, (size_t)k, text);
    width += token_width(text) + 2;
  }
  return width;
}

int box_width(const seen_frame *f) {
  char text[TEXT];
  snprintf(text, TEXT, f->kind == APOLLO_BLOCK ? "round %u" : "blame %u", f->round);
  if (f->kind != APOLLO_BLOCK) return svg_width(FONT_BOLD, text) + 8;
  int width = svg_width(FONT_BOLD, text);
  snprintf(text, TEXT, "height %u", f->height);
  return most(width, svg_width(FONT_PLAIN, text)) + 6;
}

int tokens(const event *e) { return e->ins.count > MOST_TOKENS ? 1 : (int)e->ins.count; }

void token_text(const picture *p, const event *e, size_t k, char text[TEXT]) {
  const seen_frame *f = frame_at(p, linked_at(p, e->ins, k));
  if (e->ins.count <= MOST_TOKENS) snprintf(text, TEXT, "%u", f->round);
  else snprintf(text, TEXT, "%zu %s", e->ins.count, f->kind == APOLLO_BLOCK ? "blocks" : "blames");
}

int cells(const event *e) { return e->commits.count > MOST_TOKENS ? 1 : (int)e->commits.count; }

void cell_text(const picture *p, const event *e, size_t k, char text[TEXT]) {
  const seen_frame *f = frame_at(p, linked_at(p, e->commits, k));
  const seen_frame *last = frame_at(p, linked_at(p, e->commits, e->commits.count - 1));
  if (e->commits.count <= MOST_TOKENS) snprintf(text, TEXT, "%u", f->round);
  else snprintf(text, TEXT, "%zu blocks, %u to %u", e->commits.count, f->round, last->round);
}

static void skip_text(const picture *p, const event *e, char text[TEXT]) {
  if (e->skips.count == 1) snprintf(text, TEXT, "skips %d", linked_at(p, e->skips, 0));
  else if (e->skips.count == 2) snprintf(text, TEXT, "skips %d, %d", linked_at(p, e->skips, 0), linked_at(p, e->skips, 1));
  else snprintf(text, TEXT, "skips %zu rounds", e->skips.count);
}

int tag_of(const drawing *d, const event *e, char text[TEXT]) {
  int with_sign = e->number != APOLLO_TAKEN || e->skips.count > 0 || e->marks != NOWHERE;
  text[0] = 0;
  if (e->is_lie) snprintf(text, TEXT, "lie");
  else if (e->number == APOLLO_NOT_CERTIFIED) snprintf(text, TEXT, "%u %s: %u", e->number, refusal_word(e->number), e->place);
  else if (e->number != APOLLO_TAKEN) snprintf(text, TEXT, "%u %s", e->number, refusal_word(e->number));
  else if (e->marks != NOWHERE) snprintf(text, TEXT, "marks card %d", e->marks);
  else if (e->skips.count > 0) skip_text(d->p, e, text);
  else if (e->kind == PICTURE_FETCH) snprintf(text, TEXT, "gives %zu block%s", e->outs.count, e->outs.count == 1 ? "" : "s");
  else if (e->kind == PICTURE_OPEN && e->again) snprintf(text, TEXT, "opened again");
  return text[0] ? svg_width(FONT_BOLD, text) + (with_sign ? 11 : 0) + (e->ins.count > 0 ? TAG_SHIFT : 0) : 0;
}

/* ---- how wide it is */

static int event_width(const drawing *d, const event *e) {
  const picture *p = d->p;
  char text[TEXT];
  int wide = tag_of(d, e, text), row = tokens_width(p, e);
  int block = emitted_of(p, e, APOLLO_BLOCK), blame = emitted_of(p, e, APOLLO_BLAME);
  if (block != NOWHERE) row += box_width(frame_at(p, block));
  wide = most(wide, row);
  if (blame != NOWHERE) wide = most(wide, box_width(frame_at(p, blame)));
  row = e->parts_from == NOWHERE ? 0 : svg_width(FONT_BOLD, "\xE2\x89\xA0 card 10") + 2;
  for (int k = 0; k < cells(e); k++) {
    cell_text(p, e, (size_t)k, text);
    row += token_width(text);
  }
  return most(wide, row);
}

/* ---- columns */

static column *add_column(drawing *d, column c) {
  if (d->columns.count == d->columns.room) {
    size_t room = 2 * d->columns.room + 64;
    void *at = realloc(d->columns.at, room * sizeof c);
    if (!at) d->s.failed = 1;
    if (!at) return NULL;
    d->columns.at = at;
    d->columns.room = room;
  }
  *column_at(d, (int)d->columns.count) = c;
  return column_at(d, (int)d->columns.count++);
}

static int label_width(const drawing *d, int m) {
  char text[TEXT];
  snprintf(text, TEXT, "%u", moment_at(d->p, m)->number);
  return most(svg_width(FONT_BOLD, text), svg_width(FONT_BOLD, moment_at(d->p, m)->label)) + 2;
}

/* A column for a moment, and more where a card makes several calls in it. */
static void add_moment(drawing *d, int m) {
  const picture *p = d->p;
  int calls[APOLLO_MAX_REPLICAS] = {0}, first = (int)d->columns.count;
  add_column(d, (column){.moment = m, .width = label_width(d, m)});
  for (size_t k = moment_at(p, m)->first; k < events_end(p, m) && !d->s.failed; k++) {
    event *e = event_at(p, k);
    if ((is_dot(e) && calls[e->card] > 0) || (e->is_lie && is_quiet(p, e))) continue;
    e->column = first + calls[e->card];
    if (e->column == (int)d->columns.count) add_column(d, (column){.moment = m, .sub = calls[e->card], .width = 8});
    if (d->s.failed) return;
    column_at(d, e->column)->width = most(column_at(d, e->column)->width, event_width(d, e));
    if (!is_dot(e)) calls[e->card]++;
  }
}

/* How many moments, from this one on, make a quiet stretch that is too long to be drawn, with those that were left out; and its last
 * one. 0: it is not. */
static uint32_t stretch(const picture *p, int m, int *last) {
  uint32_t count = 0, left_out = 0;
  for (; m < (int)p->moments.count && in_window(p, m) && is_quiet_moment(p, m); m++) {
    count += in_window(p, m);
    left_out += moment_at(p, m)->folded;
    *last = m;
  }
  return count > QUIET_KEPT || left_out ? count : 0;
}

void fold_text(const picture *p, uint32_t count, char text[TEXT]) {
  snprintf(text, TEXT, "%u %.40s%s", count, p->setup.unit, count == 1 ? "" : "s");
}

static void add_fold(drawing *d, int m, uint32_t count) {
  char text[TEXT];
  fold_text(d->p, count, text);
  add_column(d, (column){.moment = m, .folded = count, .width = svg_width(FONT_BOLD, text) + 4});
}

void make_columns(drawing *d) {
  const picture *p = d->p;
  for (int m = 0; m < (int)p->moments.count && !d->s.failed; m++) {
    if (!in_window(p, m)) continue;
    int last = m;
    uint32_t quiet = stretch(p, m, &last);
    if (quiet) add_fold(d, m = last, quiet);
    else add_moment(d, m);
  }
}
