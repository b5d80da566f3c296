/* run.c: keeps what happens in a run, as far as the picture shows it. */
#include "run.h"

#include <stdlib.h>
#include <string.h>

/* ---- lists */

/* A new last element of zeros. Without memory it is one that nobody looks at. */
static void *add(picture *p, list *l, size_t size) {
  if (l->count == l->room && !p->failed) {
    size_t room = 2 * l->room + 64;
    void *at = realloc(l->at, room * size);
    p->failed = !at;
    if (at) *l = (list){at, l->count, room};
  }
  void *last = p->failed ? (void *)&p->scratch : (char *)l->at + size * l->count++;
  return memset(last, 0, size);
}
_Static_assert(sizeof(event) >= sizeof(seen_frame) && sizeof(event) >= sizeof(moment) && sizeof(event) >= sizeof(phase),
               "picture.scratch takes each of them");

static void link_to(picture *p, links *l, int what) {
  if (l->count++ == 0) l->at = p->linked.count;
  *(int *)add(p, &p->linked, sizeof(int)) = what;
}

/* ---- frames */

static uint32_t get32(const uint8_t *at) { return (uint32_t)at[0] << 24 | (uint32_t)at[1] << 16 | (uint32_t)at[2] << 8 | at[3]; }

/* A frame's place in the list, where it is put if it is new. */
static int find_frame(picture *p, const uint8_t *bytes) {
  uint32_t round = get32(bytes + 4), height = get32(bytes + 8);
  int *head = &p->by_round[round <= p->setup.rounds ? round : 0];
  for (int k = *head; k != NOWHERE; k = frame_at(p, k)->next) {
    const seen_frame *f = frame_at(p, k);
    if (f->kind == bytes[0] && f->signer == bytes[1] && f->round == round && f->height == height &&
        memcmp(f->digest, bytes + 480, APOLLO_DIGEST) == 0)
      return k;
  }
  seen_frame *f = add(p, &p->frames, sizeof *f);
  *f = (seen_frame){.kind = bytes[0], .signer = bytes[1], .round = round, .height = height, .emitted = NOWHERE, .next = *head};
  memcpy(f->digest, bytes + 480, APOLLO_DIGEST);
  if (p->failed) return 0;
  return *head = (int)p->frames.count - 1;
}

/* ---- a run */

picture *picture_new(picture_setup setup) {
  picture *p = calloc(1, sizeof *p);
  if (!p) return NULL;
  *p = (picture){.setup = setup, .to = UINT32_MAX};
  int good = setup.cards >= 3 && setup.cards <= APOLLO_MAX_REPLICAS && setup.rounds <= APOLLO_MAX_ROUNDS;
  p->by_round = good ? malloc((setup.rounds + 1) * sizeof *p->by_round) : NULL;
  p->first = good ? malloc((setup.rounds + 1) * sizeof *p->first) : NULL;
  if (!p->by_round || !p->first) {
    picture_free(p);
    return NULL;
  }
  for (uint32_t r = 0; r <= setup.rounds; r++) {
    p->by_round[r] = NOWHERE;
    p->first[r] = (first_commit){NOWHERE, NOWHERE};
  }
  for (int i = 0; i < setup.cards; i++) p->cards[i] = (lane_state){.counts = 1, .phase = NOWHERE, .number = NOWHERE};
  return p;
}

void picture_free(picture *p) {
  if (!p) return;
  list *all[] = {&p->frames, &p->events, &p->moments, &p->phases, &p->linked};
  for (size_t k = 0; k < sizeof all / sizeof *all; k++) free(all[k]->at);
  free(p->by_round);
  free(p->first);
  free(p);
}

static void copy_word(char to[WORD], const char *from) {
  size_t len = from ? strlen(from) : 0;
  if (len >= WORD) len = WORD - 1;
  if (len > 0) memcpy(to, from, len);
  to[len] = 0;
}

void picture_say(picture *p, int card, const char *word, int counts) {
  copy_word(p->cards[card].word, word);
  p->cards[card].counts = counts;
}

void picture_window(picture *p, uint32_t from, uint32_t to) {
  p->from = from;
  p->to = to;
}

/* ---- moments */

static int now(const picture *p) { return (int)p->moments.count - 1; }

size_t events_end(const picture *p, int m) { return m < now(p) ? moment_at(p, m + 1)->first : p->events.count; }

int is_dot(const event *e) {
  int idle = e->kind == PICTURE_TICK && e->number == APOLLO_TAKEN && e->was == e->round && e->outs.count == 0;
  return !e->is_lie && (idle || e->kind == PICTURE_NOTHING);
}

int is_quiet(const picture *p, const event *e) {
  if (e->is_lie) return p->is_done && !frame_at(p, linked_at(p, e->outs, 0))->handed;
  return is_dot(e) || (e->kind == PICTURE_TICK && e->number != APOLLO_TAKEN && e->again);
}

int is_quiet_moment(const picture *p, int m) {
  if (moment_at(p, m)->kept) return 0;
  for (size_t k = moment_at(p, m)->first; k < events_end(p, m); k++)
    if (!is_quiet(p, event_at(p, k))) return 0;
  return 1;
}

/* Of a long quiet stretch only the first moments stay, and how many there were. */
static void fold(picture *p) {
  int last = now(p), quiet = 0;
  while (quiet <= QUIET_KEPT && last - quiet >= 0 && is_quiet_moment(p, last - quiet)) quiet++;
  if (quiet <= QUIET_KEPT) return;
  p->events.count = moment_at(p, last)->first;
  p->moments.count--;
  moment_at(p, last - 1)->folded++;
}

void picture_moment(picture *p, uint32_t number, const char *label) {
  if (p->moments.count > 0) fold(p);
  moment *m = add(p, &p->moments, sizeof *m);
  m->number = number;
  m->first = p->events.count;
  copy_word(m->label, label);
}

void picture_phase(picture *p, int card, const char *word) {
  lane_state *c = &p->cards[card];
  if (p->moments.count == 0) return;
  moment_at(p, now(p))->kept = 1;
  if (c->phase != NOWHERE) phase_at(p, (size_t)c->phase)->to = now(p);
  c->phase = NOWHERE;
  if (!word) return;
  phase *f = add(p, &p->phases, sizeof *f);
  f->card = card;
  f->from = now(p);
  f->to = NOWHERE;
  copy_word(f->word, word);
  c->phase = (int)p->phases.count - 1;
}

/* ---- calls */

static const uint8_t *slot(const picture_call *c, uint32_t round) { return c->log + (size_t)(round - 1) * APOLLO_FRAME; }
static int filled(const picture_call *c, uint32_t round) { return slot(c, round)[0] == APOLLO_BLOCK; }

int is_other(const picture *p, const event *e, int frame) {
  uint32_t height = frame_at(p, frame)->height;
  return p->cards[e->card].counts && height <= p->setup.rounds && p->first[height].frame != frame;
}

/* A block comes on the card's list: the first at its height, the same as another card's, or another one, and the lists part. */
static void commit(picture *p, event *e, int frame) {
  lane_state *c = &p->cards[e->card];
  uint32_t height = frame_at(p, frame)->height;
  link_to(p, &e->commits, frame);
  if (p->failed || !c->counts || height > p->setup.rounds) return;
  first_commit *first = &p->first[height];
  if (first->frame == NOWHERE) *first = (first_commit){frame, e->card};
  if (first->frame == frame || c->parted) return;
  c->parted = 1;
  e->parts_from = first->card;
}

/* What became of rounds in a call that was taken: those that R passed without a block, and those that were committed. */
static void note_rounds(picture *p, event *e, const picture_call *call) {
  const apollo_replica *before = &p->cards[e->card].record;
  uint32_t committed = e->kind == PICTURE_OPEN ? 0 : before->committed_round.value;
  for (uint32_t r = e->was; r < e->round; r++)
    if (!filled(call, r)) link_to(p, &e->skips, (int)r);
  for (uint32_t r = committed + 1; r <= e->committed; r++)
    if (filled(call, r)) commit(p, e, find_frame(p, slot(call, r)));
}

static void note_frames(picture *p, event *e, const picture_call *call) {
  int here = (int)p->events.count - 1;
  for (size_t k = 0; k < call->ins; k++) {
    int frame = find_frame(p, call->in + k * APOLLO_FRAME);
    link_to(p, &e->ins, frame);
    if (!p->failed) frame_at(p, frame)->handed = 1;
  }
  for (size_t k = 0; k < call->outs; k++) {
    int frame = find_frame(p, call->out + k * APOLLO_FRAME);
    link_to(p, &e->outs, frame);
    if (e->kind != PICTURE_FETCH && !p->failed && frame_at(p, frame)->emitted == NOWHERE) frame_at(p, frame)->emitted = here;
  }
}

static void note_mark(picture *p, event *e, const picture_call *call) {
  int fresh = call->record->equivocators & ~p->cards[e->card].record.equivocators;
  if (e->kind != PICTURE_EQUIVOCATION || !fresh) return;
  for (e->marks = 0; !(fresh >> e->marks & 1);) e->marks++;
}

/* Is it a call of a card of this run, with a record that the run's log and rounds go with? */
static int belongs(const picture *p, const picture_call *call) {
  uint32_t last = call->record->last_round.value;
  return call->card >= 0 && call->card < p->setup.cards && last <= p->setup.rounds && call->record->round.value <= last + 1;
}

void picture_add(picture *p, const picture_call *call) {
  if (p->failed || p->moments.count == 0 || !belongs(p, call)) return;
  lane_state *c = &p->cards[call->card];
  const apollo_replica *r = call->record;
  uint32_t last = r->last_round.value;
  event *e = add(p, &p->events, sizeof *e), fresh = {.card = call->card, .moment = now(p), .kind = call->kind, .number = call->number};
  fresh.place = call->place;
  fresh.round = r->round.value;
  fresh.was = call->kind == PICTURE_OPEN || !c->opened ? 1 : c->record.round.value;
  fresh.tip = r->tip_round.value;
  fresh.committed = r->committed_round.value;
  fresh.leader = fresh.round < 1 || fresh.round > last ? NOWHERE : leader_of(p, r->rotation, fresh.round);
  fresh.marks = fresh.parts_from = fresh.column = NOWHERE;
  fresh.again = call->kind == PICTURE_OPEN ? c->opened : c->number == call->number;
  note_frames(p, &fresh, call);
  if (call->number == APOLLO_TAKEN && call->kind != PICTURE_FETCH && call->kind != PICTURE_NOTHING) note_rounds(p, &fresh, call);
  note_mark(p, &fresh, call);
  if (!p->failed) *e = fresh;
  c->record = *r;
  c->opened |= call->kind == PICTURE_OPEN && call->number == APOLLO_TAKEN;
  if (call->kind != PICTURE_FETCH && call->kind != PICTURE_NOTHING) c->number = call->number;
}

void picture_lie(picture *p, int card, const uint8_t *bytes) {
  if (p->failed || p->moments.count == 0) return;
  int frame = find_frame(p, bytes);
  if (p->failed || frame_at(p, frame)->emitted != NOWHERE) return;
  event *e = add(p, &p->events, sizeof *e);
  const lane_state *c = &p->cards[card];
  *e = (event){.card = card, .moment = now(p), .is_lie = 1, .marks = NOWHERE, .parts_from = NOWHERE, .column = NOWHERE};
  e->was = e->round = c->record.round.value;
  e->tip = c->record.tip_round.value;
  e->committed = c->record.committed_round.value;
  e->leader = NOWHERE;
  link_to(p, &e->outs, frame);
  frame_at(p, frame)->emitted = (int)p->events.count - 1;
  frame_at(p, frame)->lie = 1;
}
