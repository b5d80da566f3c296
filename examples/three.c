/* The smallest host: three cards in one process, f = 1, a term of eight rounds. Card 1 falls silent after its first turn: the others
 * blame it, pass over the rounds that it leads, and commit the same list, which is printed. Round 8, the last, is one of these: the
 * entry of round 7 is committed by its blames.
 * A real host runs one card: it signs and sends what `after` hands round, checks the signature of what `turn` hands in, and hands in
 * the blames of a round as one set (card.c). */
#include "apollo.h"

#include <stdio.h>
#include <string.h>

enum { CARDS = 3, F = 1, T = 8, QUEUE = 16 };

static const uint8_t rotation[CARDS] = {0, 1, 2}; /* who leads round 1, 2 and 3, then again: the same at all cards */

typedef struct {
  apollo_replica record; /* record, log and masks: a card's state */
  uint8_t log[APOLLO_FRAME * T];
  uint16_t masks[T];
  uint8_t queue[QUEUE][APOLLO_FRAME]; /* frames on their way to it */
  int queued, proposed;
} card;

static card cards[CARDS];
static uint8_t out[APOLLO_OUT], entry[APOLLO_ENTRY];

/* The entry that card i proposes if the next call brings it to a round that it leads. */
static size_t next_entry(int i) {
  return (size_t)snprintf((char *)entry, sizeof entry, "card %d, entry %d", i, cards[i].proposed + 1);
}

/* After each call: keeps the record and hands what the card emitted to the others. */
static int after(int i, apollo_answer a) {
  cards[i].record = a.replica;
  for (int k = 0; k < a.frames; k++) {
    const uint8_t *frame = out + APOLLO_FRAME * k;
    cards[i].proposed += frame[0] == APOLLO_BLOCK;
    for (int j = 0; j < CARDS; j++)
      if (j != i && cards[j].queued < QUEUE) memcpy(cards[j].queue[cards[j].queued++], frame, APOLLO_FRAME);
  }
  return a.number;
}

static int hand_in(int i, const uint8_t *frame) {
  card *c = &cards[i];
  size_t len = next_entry(i);
  if (frame[0] == APOLLO_BLOCK)
    return after(i, apollo_branch(c->record, c->log, sizeof c->log, c->masks, T, frame, APOLLO_FRAME, entry, len, out, sizeof out));
  return after(i, apollo_blame(c->record, c->log, sizeof c->log, c->masks, T, frame, APOLLO_FRAME, entry, len, out, sizeof out));
}

/* Hands in what waits for card i, keeps what came too early, and ticks. */
static void turn(int i) {
  card *c = &cards[i];
  int kept = 0;
  for (int k = 0; k < c->queued; k++) {
    int number = hand_in(i, c->queue[k]);
    if (number == APOLLO_UNATTACHED || number == APOLLO_NOT_CERTIFIED || number == APOLLO_EARLY)
      memmove(c->queue[kept++], c->queue[k], APOLLO_FRAME);
  }
  c->queued = kept;
  size_t len = next_entry(i);
  after(i, apollo_tick(c->record, c->log, sizeof c->log, c->masks, T, entry, len, out, sizeof out));
}

int main(void) {
  if (apollo_version() != APOLLO_VERSION) return 2; /* header and archive do not belong together */
  apollo_ticks timeout = {2};
  apollo_round last_round = {T};
  for (int i = 0; i < CARDS; i++) {
    card *c = &cards[i];
    size_t len = next_entry(i);
    apollo_answer a = apollo_open((uint8_t)i, F, timeout, last_round, rotation, CARDS, c->log, sizeof c->log, c->masks, T, entry, len,
                                  out, sizeof out);
    if (after(i, a) != APOLLO_TAKEN) return 1;
  }
  for (int t = 0; t < 20; t++)
    for (int i = 0; i < CARDS; i++)
      if (i != 1 || t == 0) turn(i);
  for (int i = 0; i < CARDS; i++) {
    const card *c = &cards[i];
    printf("card %d waits for round %u and has committed\n", i, c->record.round.value);
    for (apollo_height h = {1}; h.value <= c->record.committed_height.value; h.value++) {
      apollo_part p = apollo_read(c->record, c->log, sizeof c->log, h);
      printf("  %u: %.*s\n", h.value, (int)p.length, (const char *)c->log + p.start);
    }
  }
  return 0;
}
