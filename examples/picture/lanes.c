/* lanes.c: a part of the run, with a lane for each card. */
#include "drawing.h"

#include <stdio.h>
#include <string.h>

static const int row_height[ROWS] = {13, 13, 20, 26, 17};
enum { MOST_GAP = 12, AXIS = 26 };

/* The part's events: those that are drawn in its columns. */
static event *next_event(const drawing *d, size_t *k) {
  const picture *p = d->p;
  size_t end = events_end(p, column_at(d, d->end - 1)->moment);
  for (; *k < end; ++*k) {
    event *e = event_at(p, *k);
    if (e->column >= d->first && e->column < d->end) return e;
  }
  return NULL;
}
static size_t first_event(const drawing *d) { return moment_at(d->p, column_at(d, d->first)->moment)->first; }
static int x_of(const drawing *d, const event *e) { return column_at(d, e->column)->x; }
static int has_box(const drawing *d, const event *e) { return emitted_of(d->p, e, APOLLO_BLOCK) != NOWHERE; }
/* A block stands behind what was handed in, so that arrows from below are seen to their ends. */
static int box_x(const drawing *d, const event *e) { return x_of(d, e) + tokens_width(d->p, e); }
static int mid(const drawing *d, int card) { return d->rows[card][ROW_BAND] + 12; }

/* ---- lanes */

/* Which rows a card's lane needs in this part. */
static void find_rows(const drawing *d, int needs[APOLLO_MAX_REPLICAS][ROWS]) {
  char text[TEXT];
  size_t k = first_event(d);
  for (const event *e; (e = next_event(d, &k)); k++) {
    int *lane = needs[e->card];
    lane[ROW_TAG] |= tag_of(d, e, text) > 0;
    lane[ROW_FRAMES] |= e->ins.count > 0 || is_dot(e) || emitted_of(d->p, e, APOLLO_BLAME) != NOWHERE;
    lane[ROW_LIST] |= e->commits.count > 0;
  }
  for (size_t j = 0; j < d->p->phases.count; j++) needs[phase_at(d->p, j)->card][ROW_PHASE] = 1;
  for (int i = 0; i < d->p->setup.cards; i++) {
    needs[i][ROW_LIST] |= d->cards[i].listed > 0;
    needs[i][ROW_FRAMES] |= d->marked_by[i] != 0;
    needs[i][ROW_BAND] = 1;
  }
}

/* What is left between the lanes, so that a page takes all of them. */
static int gap_of(int cards, int needs[APOLLO_MAX_REPLICAS][ROWS]) {
  int left = PAGE - AXIS;
  for (int i = 0; i < cards; i++)
    for (int r = 0; r < ROWS; r++) left -= needs[i][r] ? row_height[r] : 0;
  return left / cards < MOST_GAP ? left / cards : MOST_GAP;
}

/* Gives the height of the part's lanes, and where their rows are. */
static int place_rows(drawing *d) {
  int needs[APOLLO_MAX_REPLICAS][ROWS] = {{0}}, y = d->y + AXIS;
  find_rows(d, needs);
  int gap = gap_of(d->p->setup.cards, needs);
  for (int i = 0; i < d->p->setup.cards; i++) {
    for (int r = 0; r < ROWS; r++) {
      d->rows[i][r] = needs[i][r] ? y : NOWHERE;
      if (needs[i][r]) y += row_height[r];
    }
    y += gap;
  }
  return y - (gap + 1) / 2 - d->y;
}

/* ---- time, from left to right */

static void draw_axis(drawing *d) {
  const picture *p = d->p;
  svg_text(&d->s, 20, d->y + 9, FONT_PLAIN, "#555", NULL, p->setup.unit);
  for (int k = d->first; k < d->end; k++) {
    const column *c = column_at(d, k);
    char text[TEXT];
    if (c->sub == 0 && !c->folded)
      svg_put(&d->s, "<path d=\"M%d %dV%d\" stroke=\"#e4e4e4\" fill=\"none\"/>\n", c->x - 2, d->y + AXIS - 4, d->foot);
    snprintf(text, TEXT, "%u", moment_at(p, c->moment)->number);
    if (c->sub == 0 && !c->folded) {
      svg_text(&d->s, c->x, d->y + 9, FONT_BOLD, "#555", NULL, text);
      svg_text(&d->s, c->x, d->y + 20, FONT_BOLD, NULL, NULL, moment_at(p, c->moment)->label);
    }
    if (!c->folded) continue;
    d->used[SIGN_FOLD] = 1;
    fold_text(p, c->folded, text);
    svg_put(&d->s, "<rect x=\"%d\" y=\"%d\" width=\"%d\" height=\"%d\" fill=\"url(#fold)\"/>\n", c->x - 1, d->y + AXIS - 4, c->width,
            d->foot - d->y - AXIS + 4);
    svg_text(&d->s, c->x, d->y + 9, FONT_BOLD, "#555", NULL, "quiet:");
    svg_text(&d->s, c->x, d->y + 20, FONT_BOLD, "#555", NULL, text);
  }
}

/* ---- the round that a card waits for */

static int moves(const event *e) { return !e->is_lie && (e->kind == PICTURE_OPEN || e->was != e->round); }

static void put_band(drawing *d, int card, int from, int to, const standing *at) {
  int y = d->rows[card][ROW_BAND];
  const char *fill = at->leader == NOWHERE ? "#fff" : colour_of(at->leader).pale;
  if (!at->open && to - from < 8) return;
  if (!at->open) svg_put(&d->s, "<path d=\"M%d %dH%d\" stroke=\"#999\" stroke-dasharray=\"2 4\" fill=\"none\"/>\n", from, y + 12, to);
  else svg_put(&d->s, "<path d=\"M%d %dh%dv24h-%dz\" fill=\"%s\" stroke=\"#ccc\"/>\n", from, y, to - from, to - from, fill);
  d->used[SIGN_BAND] |= at->open;
}

static standing after(const event *e) { return (standing){.open = e->round > 0, .leader = e->leader, .round = e->round}; }

static void draw_bands(drawing *d, int card) {
  standing at = d->cards[card];
  int from = LEFT;
  size_t k = first_event(d);
  for (const event *e; (e = next_event(d, &k)); k++) {
    if (e->card != card || !moves(e)) continue;
    int x = has_box(d, e) ? box_x(d, e) : x_of(d, e);
    if (x > from) put_band(d, card, from, x, &at);
    from = x;
    at = after(e);
  }
  put_band(d, card, from, d->right, &at);
}

/* Where the lane's next block or next round is. */
static int next_stop(const drawing *d, int card, size_t k) {
  for (const event *e; (e = next_event(d, &k)); k++)
    if (e->card == card && (moves(e) || has_box(d, e))) return x_of(d, e);
  return d->right;
}

/* The longest of these that fits. */
static void put_wait(drawing *d, int card, int x, int to, const standing *at) {
  char text[4][TEXT] = {{0}};
  if (at->leader == NOWHERE) snprintf(text[0], TEXT, "term over");
  else snprintf(text[0], TEXT, "waits for round %u of card %d", at->round, at->leader);
  if (at->leader != NOWHERE) snprintf(text[1], TEXT, "waits for round %u", at->round);
  if (at->leader != NOWHERE) snprintf(text[2], TEXT, "waits: %u", at->round);
  if (at->leader != NOWHERE) snprintf(text[3], TEXT, "%u", at->round);
  for (int k = 0; k < 4 && at->open; k++) {
    if (!text[k][0] || svg_width(FONT_PLAIN, text[k]) > to - x - 2) continue;
    svg_text(&d->s, x, mid(d, card) + 4, FONT_PLAIN, "#333", at->leader == NOWHERE ? "#fff" : colour_of(at->leader).pale, text[k]);
    return;
  }
}

static int wait_x(const drawing *d, const event *e) {
  int block = emitted_of(d->p, e, APOLLO_BLOCK);
  return block == NOWHERE ? x_of(d, e) + 3 : box_x(d, e) + box_width(frame_at(d->p, block)) + 3;
}

static void draw_waits(drawing *d, int card) {
  size_t k = first_event(d);
  put_wait(d, card, LEFT + 3, next_stop(d, card, k), &d->cards[card]);
  for (const event *e; (e = next_event(d, &k)); k++) {
    standing at = after(e);
    if (e->card == card && moves(e)) put_wait(d, card, wait_x(d, e), next_stop(d, card, k + 1), &at);
  }
}

/* ---- phases */

/* The first column at or after a moment, or the end. */
static int column_from(const drawing *d, int m) {
  int k = d->first;
  while (k < d->end && (m == NOWHERE || column_at(d, k)->moment < m)) k++;
  return k;
}

static void draw_phases(drawing *d) {
  for (size_t j = 0; j < d->p->phases.count; j++) {
    const phase *f = phase_at(d->p, j);
    int from = column_from(d, f->from), to = column_from(d, f->to), y = d->rows[f->card][ROW_PHASE];
    int x = from == d->first ? LEFT : column_at(d, from - 1)->x + column_at(d, from - 1)->width;
    int end = to == d->end ? d->right : column_at(d, to)->x - 2;
    if (from == to || (f->from > column_at(d, d->end - 1)->moment)) continue;
    d->used[SIGN_PHASE] = 1;
    svg_put(&d->s, "<rect x=\"%d\" y=\"%d\" width=\"%d\" height=\"12\" fill=\"url(#away)\" stroke=\"#555\"/>\n", x, y, end - x);
    if (svg_width(FONT_BOLD, f->word) + 6 <= end - x) svg_text(&d->s, x + 3, y + 10, FONT_BOLD, NULL, "#fff", f->word);
  }
}

/* ---- arrows */

/* From where a frame was emitted; from the left edge, at its signer's lane, where that was in an earlier part. */
static void arrow_from(drawing *d, const seen_frame *f, int card, int x, int y, int w) {
  if (f->signer >= d->p->setup.cards || f->signer == card) return;
  const event *from = f->emitted == NOWHERE ? NULL : event_at(d->p, (size_t)f->emitted);
  int down = card > f->signer, x1 = LEFT - 1, y1 = mid(d, f->signer);
  if (!from || from->column < d->first || from->column >= d->end) d->used[SIGN_EARLIER] = 1;
  else {
    int is_block = f->kind == APOLLO_BLOCK, box = box_width(f);
    int beside = !is_block || (!down && emitted_of(d->p, from, APOLLO_BLAME) != NOWHERE); /* past what is said or stands above it */
    x1 = (is_block ? box_x(d, from) : x_of(d, from)) + (beside ? box : box / 2);
    y1 = d->rows[f->signer][is_block ? ROW_BAND : ROW_FRAMES] + (!is_block ? 8 : down ? 24 : beside ? 3 : 0);
  }
  if (down) draw_arrow(d, x1, y1, x + 3, y + 2, f); /* from the left, so that it leaves free what is said above */
  else draw_arrow(d, x1, y1, x + w / 2, y + 17, f);
}

static void draw_arrows(drawing *d) {
  size_t k = first_event(d);
  for (const event *e; (e = next_event(d, &k)); k++) {
    int x = x_of(d, e);
    char text[TEXT];
    for (size_t j = 0; j < e->ins.count; j++) {
      token_text(d->p, e, j, text);
      int w = token_width(text);
      arrow_from(d, frame_at(d->p, linked_at(d->p, e->ins, j)), e->card, x, d->rows[e->card][ROW_FRAMES], w);
      if (tokens(e) > 1) x += w + 2;
    }
  }
}

/* ---- calls */

static void put_tag(drawing *d, const event *e, int x, int y) {
  char text[TEXT];
  int sign = 11;
  if (!tag_of(d, e, text)) return;
  if (e->ins.count > 0) x += TAG_SHIFT; /* arrows come from the left */
  if (e->number != APOLLO_TAKEN && !e->is_lie) snprintf(d->refused, sizeof d->refused, "%u", e->number);
  if (e->is_lie) sign = 0;
  else if (e->number != APOLLO_TAKEN) draw_cross(d, x, y + 2);
  else if (e->marks != NOWHERE) draw_flag(d, x, y + 1, e->marks);
  else if (e->skips.count > 0)
    draw_skip(d, x, y + 2,
              e->skips.count == 1 ? leader_of(d->p, d->p->cards[e->card].record.rotation, (uint32_t)linked_at(d->p, e->skips, 0))
                                  : NOWHERE);
  else sign = 0;
  svg_text(&d->s, x + sign, y + 10, sign ? FONT_BOLD : FONT_PLAIN, NULL, "#fff", text);
}

static void put_frames(drawing *d, const event *e, int x, int y) {
  int blame = emitted_of(d->p, e, APOLLO_BLAME);
  char text[TEXT];
  if (is_dot(e)) {
    d->used[e->kind == PICTURE_NOTHING ? SIGN_NOTHING : SIGN_DOT] = 1;
    svg_put(&d->s, "<circle cx=\"%d\" cy=\"%d\" r=\"3\" fill=\"%s\" stroke=\"#333\"/>\n", x + 4, y + 8,
            e->kind == PICTURE_NOTHING ? "#fff" : "#333");
  }
  if (blame != NOWHERE) draw_blame(d, x, y, frame_at(d->p, blame), e->is_lie);
  for (int k = 0; k < tokens(e); k++) {
    const seen_frame *f = frame_at(d->p, linked_at(d->p, e->ins, (size_t)k));
    token_text(d->p, e, (size_t)k, text);
    if (e->ins.count > MOST_TOKENS) draw_bundle(d, x, y, text);
    else draw_token(d, x, y, f, text);
    x += token_width(text) + 2;
  }
}

static void put_list(drawing *d, const event *e, int x, int y) {
  char text[TEXT];
  int many = e->commits.count > MOST_TOKENS, other = 0;
  for (size_t k = 0; k < e->commits.count; k++) {
    int frame = linked_at(d->p, e->commits, k);
    other = (many && other) || is_other(d->p, e, frame);
    if (many && k + 1 < e->commits.count) continue;
    cell_text(d->p, e, many ? 0 : k, text);
    draw_cell(d, x, y, many ? NULL : frame_at(d->p, frame), other, text);
    x += token_width(text);
  }
  if (e->parts_from == NOWHERE) return;
  d->used[SIGN_PARTED] = 1;
  snprintf(text, TEXT, "\xE2\x89\xA0 card %d", e->parts_from);
  svg_text(&d->s, x + 3, y + 11, FONT_BOLD, dark_red, "#fff", text);
}

/* What a pointer over it shows: the line that rehearse prints, in words. */
static void put_title(drawing *d, const event *e) {
  const moment *m = moment_at(d->p, e->moment);
  svg_put(&d->s, "<title>");
  svg_escaped(&d->s, d->p->setup.unit);
  svg_put(&d->s, " %u", m->number);
  if (m->label[0]) svg_put(&d->s, ", ");
  svg_escaped(&d->s, m->label);
  svg_put(&d->s, ": card %d", e->card);
  if (e->is_lie) svg_put(&d->s, " lies</title>\n");
  else if (e->kind == PICTURE_NOTHING) svg_put(&d->s, ": no frame waits</title>\n");
  else
    svg_put(&d->s, ": %u %s, R %u, tip %u, committed %u%s</title>\n", e->number, refusal_word(e->number), e->round, e->tip,
            e->committed, e->kind == PICTURE_FETCH ? ", fetch" : "");
}

static void draw_event(drawing *d, const event *e) {
  int x = x_of(d, e), block = emitted_of(d->p, e, APOLLO_BLOCK);
  const int *rows = d->rows[e->card];
  svg_put(&d->s, "<g>");
  put_title(d, e);
  put_tag(d, e, x, rows[ROW_TAG]);
  put_frames(d, e, x, rows[ROW_FRAMES]);
  if (block != NOWHERE) draw_block(d, box_x(d, e), rows[ROW_BAND], frame_at(d->p, block), e->is_lie);
  put_list(d, e, x, rows[ROW_LIST]);
  svg_put(&d->s, "</g>\n");
}

/* ---- what stands before a lane */

/* By which cards it is marked: how many, where they are many. */
static void put_marks(drawing *d, int card) {
  char text[TEXT] = "by ";
  int many = 0, y = d->rows[card][ROW_FRAMES];
  if (!d->marked_by[card]) return;
  for (int i = 0; i < APOLLO_MAX_REPLICAS; i++)
    if (d->marked_by[card] >> i & 1) snprintf(text + strlen(text), TEXT - strlen(text), many++ ? ",%d" : "%d", i);
  if (svg_width(FONT_PLAIN, text) > LEFT - 34) snprintf(text, TEXT, "by %d cards", many);
  draw_flag(d, 20, y + 3, card);
  svg_text(&d->s, 32, y + 12, FONT_PLAIN, NULL, NULL, text);
}

static void draw_header(drawing *d, int card) {
  const lane_state *c = &d->p->cards[card];
  int y = d->rows[card][ROW_BAND];
  colour k = colour_of(card);
  char text[TEXT], word[WORD];
  svg_put(&d->s, "<rect x=\"4\" y=\"%d\" width=\"10\" height=\"24\" fill=\"%s\" stroke=\"%s\" stroke-width=\"%s\"/>\n", y, k.fill,
          k.dark, edge_of(card));
  snprintf(text, TEXT, "card %d", card);
  svg_text(&d->s, 20, y + (c->word[0] ? 10 : 16), FONT_BOLD, NULL, NULL, text);
  snprintf(word, sizeof word, "%.*s", (int)svg_fitting(FONT_BOLD, c->word, LEFT - 22), c->word);
  if (c->word[0]) svg_text(&d->s, 20, y + 21, FONT_BOLD, dark_red, NULL, word);
  snprintf(text, TEXT, d->cards[card].listed ? "safe list, %u" : "safe list", d->cards[card].listed);
  if (d->rows[card][ROW_LIST] != NOWHERE) svg_text(&d->s, 20, d->rows[card][ROW_LIST] + 11, FONT_PLAIN, "#555", NULL, text);
  put_marks(d, card);
}

/* ---- a part */

void pass_event(drawing *d, const event *e) {
  standing *c = &d->cards[e->card];
  if (e->is_lie) return;
  uint32_t listed = e->kind == PICTURE_OPEN ? 0 : c->listed;
  *c = after(e);
  c->listed = listed + (uint32_t)e->commits.count;
}

void pass_mark(drawing *d, const event *e) {
  if (e->marks != NOWHERE) d->marked_by[e->marks] |= (uint16_t)(1u << e->card);
}

void draw_part(drawing *d, int first, int end) {
  d->first = first;
  d->end = end;
  d->right = column_at(d, end - 1)->x + column_at(d, end - 1)->width + 2;
  for (size_t k = first_event(d); next_event(d, &k); k++) pass_mark(d, event_at(d->p, k));
  int height = place_rows(d);
  if (d->y % PAGE + height > PAGE) {
    d->y += PAGE - d->y % PAGE;
    place_rows(d);
  }
  d->foot = d->y + height;
  draw_axis(d);
  for (int i = 0; i < d->p->setup.cards; i++) draw_bands(d, i);
  draw_phases(d);
  draw_arrows(d);
  for (int i = 0; i < d->p->setup.cards; i++) draw_header(d, i);
  for (int i = 0; i < d->p->setup.cards; i++) draw_waits(d, i);
  size_t k = first_event(d);
  for (const event *e; (e = next_event(d, &k)); k++) draw_event(d, e);
  for (k = first_event(d); next_event(d, &k); k++) pass_event(d, event_at(d->p, k));
  d->y = d->foot + 8;
}
