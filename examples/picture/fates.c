/* fates.c: below the lanes a line for each round that is drawn: what became of it. */
#include "drawing.h"

#include <stdio.h>
#include <stdlib.h>
#include <string.h>

enum { FATE = 160, LINE = 15 };

typedef struct {
  int shown, blocks, other;       /* in the window; blocks put out for it; whether it is on a list that parted */
  int first, last;                /* the calls that committed it: the first, and the first of the last card */
  uint16_t blamed, safe, skipped; /* by cards, at cards */
} fate;

static int cards_in(uint16_t set) {
  int count = 0;
  for (int i = 0; i < APOLLO_MAX_REPLICAS; i++) count += set >> i & 1;
  return count;
}

static void note_frame(const picture *p, fate *fates, const event *e, int frame) {
  const seen_frame *f = frame_at(p, frame);
  if (f->round < 1 || f->round > p->setup.rounds || f->signer >= p->setup.cards) return;
  fate *t = &fates[f->round];
  t->shown |= e->column != NOWHERE;
  if (f->kind == APOLLO_BLAME) t->blamed |= (uint16_t)(1u << f->signer);
  else t->blocks += event_at(p, (size_t)f->emitted) == e;
}

static void note_commit(const picture *p, fate *fates, int k, int frame) {
  const event *e = event_at(p, (size_t)k);
  uint32_t round = frame_at(p, frame)->round;
  if (round < 1 || round > p->setup.rounds) return; /* no call made such a log */
  fate *t = &fates[round];
  t->shown |= e->column != NOWHERE;
  t->other |= is_other(p, e, frame);
  if (t->safe >> e->card & 1) return; /* a card that was opened again */
  if (!t->safe) t->first = k;
  t->safe |= (uint16_t)(1u << e->card);
  t->last = k;
}

/* A liar's list and what it skips count for nothing; and what a card does that goes by another rotation is about other rounds. */
static void note_event(const picture *p, fate *fates, int k) {
  const event *e = event_at(p, (size_t)k);
  const lane_state *c = &p->cards[e->card];
  if (is_quiet(p, e) || memcmp(c->record.rotation, p->setup.rotation, (size_t)p->setup.cards) != 0) return;
  for (size_t j = 0; j < e->outs.count && e->kind != PICTURE_FETCH; j++) note_frame(p, fates, e, linked_at(p, e->outs, j));
  for (size_t j = 0; j < e->skips.count && c->counts; j++) {
    fate *t = &fates[linked_at(p, e->skips, j)];
    t->shown |= e->column != NOWHERE;
    t->skipped |= (uint16_t)(1u << e->card);
  }
  for (size_t j = 0; j < e->commits.count && c->counts; j++) note_commit(p, fates, k, linked_at(p, e->commits, j));
}

static void add_text(char *to, const char *what) { snprintf(to + strlen(to), FATE - strlen(to), "%s", what); }

static void add_number(char *to, const char *form, uint32_t number) {
  char text[TEXT];
  snprintf(text, TEXT, form, number);
  add_text(to, text);
}

/* Some cards, if they are few; else how many. */
static void add_cards(char *to, const char *what, uint16_t set) {
  int all = cards_in(set), many = 0;
  add_text(to, what);
  for (int i = 0; i < APOLLO_MAX_REPLICAS && all <= 4; i++)
    if (set >> i & 1) add_number(to, !many++ ? "%u" : many == all ? " and %u" : ", %u", (uint32_t)i);
  if (all > 4) add_number(to, "%u cards", (uint32_t)all);
}

/* Where it was committed first, and by when everywhere that it was. */
static void add_safe(const picture *p, char *to, const fate *t) {
  const event *first = event_at(p, (size_t)t->first), *last = event_at(p, (size_t)t->last);
  int all = cards_in(t->safe);
  add_number(to, "safe at card %u from ", (uint32_t)first->card);
  add_text(to, p->setup.unit);
  add_number(to, " %u", moment_at(p, first->moment)->number);
  if (all == 2) add_number(to, ", at card %u", (uint32_t)last->card);
  if (all > 2) add_number(to, ", at %u cards", (uint32_t)all);
  if (all > 1) add_number(to, " from %u", moment_at(p, last->moment)->number);
}

/* Is the term over for some card, so that nothing more is committed there? */
static int is_over(const drawing *d) {
  for (int i = 0; i < d->p->setup.cards; i++)
    if (d->cards[i].open && d->cards[i].round > d->p->setup.rounds) return 1;
  return 0;
}

static void tell(const drawing *d, char *to, const fate *t) {
  uint16_t skipped = t->skipped & (uint16_t)~t->safe; /* and not taken later */
  to[0] = 0;
  if (t->blocks > 1) add_number(to, "%u blocks; ", (uint32_t)t->blocks);
  if (t->blocks == 0 && !t->safe) add_text(to, "no block; ");
  if (t->blamed) add_cards(to, "blamed by ", t->blamed);
  if (t->blamed) add_text(to, "; ");
  if (t->safe) add_safe(d->p, to, t);
  else if (!skipped) add_text(to, is_over(d) ? "not safe: the term ends" : "not safe yet");
  if (skipped) add_cards(to, t->safe ? "; skipped at " : "skipped at ", skipped);
  if (t->other) add_text(to, "; LISTS PART");
}

/* Whose round it was. */
static int name_round(const drawing *d, uint32_t round, char text[TEXT]) {
  int leader = leader_of(d->p, d->p->setup.rotation, round);
  snprintf(text, TEXT, "round %u, card %d:", round, leader);
  return leader;
}

static int fate_width(const drawing *d, uint32_t round, const fate *t) {
  char name[TEXT], text[FATE];
  name_round(d, round, name);
  tell(d, text, t);
  return 17 + svg_width(FONT_BOLD, name) + svg_width(FONT_PLAIN, text);
}

static void put_fate(drawing *d, uint32_t round, const fate *t, int x, int y) {
  char name[TEXT], text[FATE];
  colour c = colour_of(name_round(d, round, name));
  svg_put(&d->s, "<rect x=\"%d\" y=\"%d\" width=\"9\" height=\"9\" fill=\"%s\" stroke=\"%s\"/>\n", x, y + 2, c.fill, c.dark);
  svg_text(&d->s, x + 14, y + 10, FONT_BOLD, NULL, NULL, name);
  tell(d, text, t);
  svg_text(&d->s, x + 17 + svg_width(FONT_BOLD, name), y + 10, FONT_PLAIN, NULL, NULL, text);
}

/* In two columns if there is room, the first one down first, as far as a page goes. */
static void put_fates(drawing *d, const fate *fates, int count, int columns) {
  uint32_t round = 0;
  while (count > 0) {
    int room = (PAGE - d->y % PAGE) / LINE, rows = (count + columns - 1) / columns;
    if (rows > room) rows = room;
    for (int k = 0; k < columns * rows && count > 0; k++, count--) {
      do round++;
      while (!fates[round].shown);
      put_fate(d, round, &fates[round], k < rows ? 4 : WIDTH / 2, d->y + k % rows * LINE);
    }
    d->y += rows * LINE;
    if (count > 0) d->y += PAGE - d->y % PAGE;
  }
}

void draw_fates(drawing *d) {
  const picture *p = d->p;
  fate *fates = calloc(p->setup.rounds + 1, sizeof *fates);
  int count = 0, wide = 0;
  if (!fates) d->s.failed = 1;
  if (!fates) return;
  for (size_t k = 0; k < p->events.count; k++)
    if (moment_at(p, event_at(p, k)->moment)->number <= p->to) note_event(p, fates, (int)k);
  for (uint32_t r = 1; r <= p->setup.rounds; r++) {
    count += fates[r].shown;
    if (fates[r].shown && fate_width(d, r, &fates[r]) > wide) wide = fate_width(d, r, &fates[r]);
  }
  if (d->y % PAGE + 50 > PAGE) d->y += PAGE - d->y % PAGE;
  svg_text(&d->s, 4, d->y + 11, FONT_BOLD, NULL, NULL, "What became of each round");
  d->y += 17;
  put_fates(d, fates, count, wide < WIDTH / 2 - 8 ? 2 : 1);
  free(fates);
}
