/* lists.c: what the cards have committed and acted on, and whether it is the same. */
#include "lists.h"

#include "cabinet.h"

#include <stdio.h>
#include <string.h>

void host_act(int id, uint32_t round, const uint8_t *entry, size_t len) {
  (void)entry, (void)len; /* a real program switches something here */
  cabinet.acts[id][cabinet.acted[id]++] = round;
}

/* The first round up to which both have committed and where they differ; 0 if there is none. */
static uint32_t parting(int a, int b) {
  uint32_t x = cabinet.cards[a].record.committed_round.value, y = cabinet.cards[b].record.committed_round.value;
  for (uint32_t r = 1; r <= x && r <= y; r++)
    if (memcmp(slot(a, r), slot(b, r), APOLLO_FRAME) != 0) return r;
  return 0;
}

/* Have two cards committed the same list? They must have when the term is over, though they may hold different blocks after it. */
static int same_list(int a, int b) {
  return parting(a, b) == 0 && cabinet.cards[a].record.committed_round.value == cabinet.cards[b].record.committed_round.value;
}

/* Has the card's host acted on every entry of its list, in order? */
static int acted_on_list(int i) {
  uint32_t count = 0;
  for (uint32_t r = 1; r <= cabinet.cards[i].record.committed_round.value; r++) {
    const uint8_t *block = slot(i, r);
    if (block[0] != APOLLO_BLOCK || (block[2] == 0 && block[3] == 0)) continue;
    if (count == cabinet.acted[i] || cabinet.acts[i][count++] != r) return 0;
  }
  return count == cabinet.acted[i];
}

/* How a card that was away came back. */
static void report_way_back(int i) {
  const card *c = &cabinet.cards[i];
  if (cabinet.faults[i] == LOST) printf("; was %u rounds behind when it began again, to follow", cabinet.behind[i]);
  else printf("; was %u rounds behind when it came back%s", cabinet.behind[i], cabinet.late[i] ? ", the term being over" : "");
  if (c->runs > 0)
    printf("; %u exchanges in %u run%s: %u of frames, %u of blames, %u asked again", c->frames_got + c->blames_got, c->runs,
           c->runs == 1 ? "" : "s", c->frames_got, c->blames_got, c->asked_again);
}

int report_lists(int best) {
  int good = 1;
  for (int i = 0; i < cabinet.n; i++) {
    const apollo_replica *r = &cabinet.cards[i].record;
    printf("card %d (%s): ", i, fault_names[cabinet.faults[i]]);
    if (!cabinet.is_open[i]) {
      puts("not there");
      continue;
    }
    printf("waits for round %u of %u, has committed %u blocks up to round %u, holds %u more", r->round.value, cabinet.rounds,
           r->committed_height.value, r->committed_round.value, r->tip_height.value - r->committed_height.value);
    if (was_away(i)) report_way_back(i);
    putchar('\n');
    for (int j = 0; j < i; j++)
      if (keeps_rules(i) && keeps_rules(j) && parting(i, j)) {
        printf("LISTS DIFFER: cards %d and %d part at round %u\n", j, i, parting(i, j));
        good = 0;
      }
    if (catches_up(i) && good && !(card_is_over(&cabinet.cards[i]) && same_list(i, best))) {
      printf("NOT CAUGHT UP: card %d\n", i);
      good = 0;
    }
    if (keeps_rules(i) && good && !acted_on_list(i)) {
      printf("NOT ACTED ON: the list of card %d\n", i);
      good = 0;
    }
  }
  return good;
}

void print_list(int i) {
  for (uint32_t h = 1;; h++) {
    const card *c = &cabinet.cards[i];
    apollo_part p = apollo_read(c->record, c->log, (size_t)cabinet.rounds * APOLLO_FRAME, (apollo_height){h});
    if (p.number != APOLLO_TAKEN) break;
    if (p.length > 0) printf("%4u  %.*s\n", h, (int)p.length, (const char *)c->log + p.start);
  }
}
