/* entries.c: each card is given entries, and each must come on the list once or wait in its card's line. */
#include "entries.h"

#include "cabinet.h"

#include <stdio.h>
#include <string.h>

enum {
  ENTRIES = 30, /* most entries that each card is given */
  TEXT = 64
};

static int given[APOLLO_MAX_REPLICAS];
static uint32_t missed; /* turns that a card left empty though an entry waited */

static size_t entry_text(int i, int k, char text[TEXT]) {
  return (size_t)snprintf(text, TEXT, "card %d: group %d to night service", i, 100 * i + k);
}

void give_entry(int i) {
  char text[TEXT];
  size_t len = entry_text(i, given[i], text);
  if (given[i] < ENTRIES && card_propose(&cabinet.cards[i], (const uint8_t *)text, len)) given[i]++;
}

/* Does a correct card leave its turn empty though an entry waits? It may in the term's last f rounds, and while it is behind: another
 * correct card has passed that round then. */
void note_turn(int i, const uint8_t *frame) {
  const card *c = &cabinet.cards[i];
  uint32_t round = get32(frame + 4);
  int waits = 0;
  if (cabinet.faults[i] != NONE || frame[0] != APOLLO_BLOCK || frame[2] || frame[3] || round + c->setup.f > cabinet.rounds) return;
  for (int j = 0; j < cabinet.n; j++)
    if (j != i && cabinet.faults[j] == NONE && cabinet.cards[j].record.round.value > round) return;
  for (size_t k = 0; k < c->lined; k++) waits |= c->line[k].round == 0;
  missed += (uint32_t)waits;
}

static int on_list(int i, const char *text, size_t len) {
  int count = 0;
  for (uint32_t k = 0; k < cabinet.acted[i]; k++) {
    const uint8_t *block = slot(i, cabinet.acts[i][k]);
    count += ((size_t)block[2] << 8 | block[3]) == len && memcmp(block + 44, text, len) == 0;
  }
  return count;
}

static int in_line(int i, const char *text, size_t len) {
  const card *c = &cabinet.cards[i];
  for (size_t k = 0; k < c->lined; k++)
    if (c->line[k].len == len && memcmp(c->line[k].entry, text, len) == 0) return 1;
  return 0;
}

/* Each entry of a card that keeps the rules and its state is on the list once, or still in its card's line for the next term; and none
 * waited while a correct card left its turn empty. */
int report_entries(int best) {
  int all = 0, listed = 0, waiting = 0, lost = 0, twice = 0;
  uint32_t again = 0;
  for (int i = 0; i < cabinet.n; i++) {
    if (cabinet.faults[i] != NONE && !is_cut(i)) continue;
    again += cabinet.cards[i].again;
    for (int k = 0; k < given[i]; k++) {
      char text[TEXT];
      size_t len = entry_text(i, k, text);
      int times = on_list(best, text, len), waits = in_line(i, text, len);
      all++;
      listed += times > 0;
      waiting += waits;
      lost += times + waits == 0;
      twice += times + waits > 1;
    }
  }
  printf("entries: %d given, %d on the list, %d wait for the next term, %u proposed again, %d lost, %d twice, %u turns missed\n", all,
         listed, waiting, again, lost, twice, missed);
  return listed > 0 && lost == 0 && twice == 0 && missed == 0;
}
