/* marks.c: who tells different blocks of a round, and whether it, and nobody else, is marked for it. */
#include "marks.h"

#include "cabinet.h"

#include <stdio.h>
#include <stdlib.h>
#include <string.h>

typedef struct {
  uint16_t at[APOLLO_MAX_REPLICAS];
  uint32_t count;
} mark_list; /* at card i the marks of cards j, and how many in all */

/* Of each round the first good block that came to a card; zeros for none. */
static uint8_t (*stories[APOLLO_MAX_REPLICAS])[APOLLO_DIGEST];
static uint16_t doubled;                     /* leaders of whom different blocks of a round came to correct cards, */
static uint16_t caught[APOLLO_MAX_REPLICAS]; /* and to this card */
static mark_list wrong, lacking;             /* marks that are not as they must be */

void begin_marks(int i) {
  stories[i] = calloc(cabinet.rounds, sizeof *stories[i]);
  if (!stories[i]) stop("no memory");
}

void end_marks(int i) { free(stories[i]); }

/* Is it a block of its round's leader, with all that the frame table asks for and its signature? */
static int is_good_block(const card_setup *shared, const signed_block *b) {
  const uint8_t *frame = b->frame;
  uint32_t len = (uint32_t)frame[2] << 8 | frame[3], round = get32(frame + 4), height = get32(frame + 8), rest = 0;
  uint8_t digest[APOLLO_DIGEST];
  if (frame[0] != APOLLO_BLOCK || len > APOLLO_ENTRY || frame[1] != leader_of(round) || height < 1 || height > round) return 0;
  for (uint32_t k = 44 + len; k < 480; k++) rest |= frame[k];
  apollo_digest(frame, 480, digest);
  return rest == 0 && memcmp(digest, frame + 480, APOLLO_DIGEST) == 0 && host_verify(shared, frame, b->signature);
}

/* Notes the stories that correct cards are told. Whoever tells one of them two is to be marked there at once; whoever tells two of them
 * one each, by all in the end. */
void note_story(int to, const packet *p) {
  static const uint8_t none[APOLLO_DIGEST];
  if (p->kind != PACKET_BLOCK || cabinet.faults[to] != NONE) return;
  const uint8_t *digest = p->block.frame + 480;
  uint32_t round = get32(p->block.frame + 4);
  if (round < 1 || round > cabinet.rounds) return;
  uint8_t *own = stories[to][round - 1];
  if (memcmp(own, digest, APOLLO_DIGEST) == 0 || !is_good_block(&cabinet.cards[to].setup, &p->block)) return;
  for (int j = 0; j < cabinet.n; j++) {
    const uint8_t *other = stories[j][round - 1];
    if (memcmp(other, none, APOLLO_DIGEST) && memcmp(other, digest, APOLLO_DIGEST)) doubled |= bit(leader_of(round));
  }
  if (memcmp(own, none, APOLLO_DIGEST)) caught[to] |= bit(leader_of(round));
  else memcpy(own, digest, APOLLO_DIGEST);
}

/* Says once what is wrong with card j's mark at card i. */
static void note_mark(mark_list *list, int i, int j, const char *what) {
  if (list->at[i] >> j & 1) return;
  list->at[i] |= bit(j);
  list->count++;
  printf("tick %u: card %d %s at card %d\n", cabinet.now, j, what, i);
}

/* After each tick a card has marked all that it caught or named to the repairer, no other, and none that signs one block a round. */
void watch_marks(int i) {
  uint16_t marks = cabinet.cards[i].record.equivocators;
  for (int j = 0; j < cabinet.n && keeps_rules(i); j++) {
    int marked = marks >> j & 1, told = cabinet.told[i] >> j & 1;
    if (marked && !may_double(j)) note_mark(&wrong, i, j, "WRONGLY MARKED");
    if (marked != told) note_mark(&wrong, i, j, marked ? "MARKED AND NOT TOLD" : "TOLD AND NOT MARKED");
    if (caught[i] >> j & 1 && !marked) note_mark(&lacking, i, j, "CAUGHT AND NOT MARKED");
  }
}

/* Whom a card that catches up is still to mark. */
static int unmarked(int i) { return catches_up(i) ? doubled & ~cabinet.cards[i].record.equivocators : 0; }

int have_spread(void) {
  for (int i = 0; i < cabinet.n; i++)
    if (unmarked(i)) return 0;
  return 1;
}

/* Whom the repairer is to replace, and which cards that keep the rules have marked it. */
static void print_marks(void) {
  for (int j = 0; j < cabinet.n; j++) {
    if (cabinet.doubles[j] == 0) continue;
    printf("card %d (%s) signed two blocks for round %u: marked at", j, fault_names[cabinet.faults[j]], cabinet.doubles[j]);
    for (int i = 0; i < cabinet.n; i++)
      if (keeps_rules(i) && cabinet.cards[i].record.equivocators >> j & 1) printf(" %d", i);
    putchar('\n');
  }
}

/* In the end every card that catches up has marked whoever told correct ones different blocks of a round. */
int report_marks(void) {
  print_marks();
  for (int i = 0; i < cabinet.n; i++)
    for (int j = 0; j < cabinet.n; j++)
      if (unmarked(i) >> j & 1) note_mark(&lacking, i, j, "NOT MARKED");
  printf("marks: %u told, %u wrong, %u lacking\n", cabinet.alarms[ALARM_DOUBLE], wrong.count, lacking.count);
  return wrong.count == 0 && lacking.count == 0;
}
