/* run.c: the clock, and what each card does in a tick. */
#include "cabinet.h"
#include "cables.h"
#include "draw_run.h"
#include "entries.h"
#include "keys.h"
#include "liars.h"
#include "marks.h"

#include <stdlib.h>

enum {
  SKEW = 100,  /* the cards start at random within so many ticks */
  GRACE = 200, /* ticks that a card waits at the start for the others */
  EVERY = 40,  /* ticks from one entry that a card is given to the next */
  SPREAD = 50  /* retries after the term in which evidence still comes to every card */
};

static uint32_t start[APOLLO_MAX_REPLICAS]; /* the tick at which a card is opened */
static uint32_t ended;                      /* the tick at which the term was over for all */

/* A card that is set apart has the rotation backwards. */
static void open_card(int i) {
  card_setup setup = {.f = (uint8_t)cabinet.f,
                      .rounds = cabinet.rounds,
                      .id = (uint8_t)i,
                      .timeout = cabinet.timeout,
                      .retry = retry(),
                      .idle = IDLE,
                      .grace = GRACE,
                      .tray = cabinet.tray};
  for (int k = 0; k < cabinet.n; k++) setup.rotation[k] = cabinet.rotation[cabinet.faults[i] == APART ? cabinet.n - 1 - k : k];
  if (!card_open(&cabinet.cards[i], setup)) stop("a card cannot be opened");
  cabinet.is_open[i] = 1;
}

static void note_lag(int i) {
  for (int j = 0; j < cabinet.n; j++) {
    uint32_t there = cabinet.cards[j].record.round.value, here = cabinet.cards[i].record.round.value;
    if (cabinet.faults[j] == NONE && there > here + cabinet.behind[i]) cabinet.behind[i] = there - here;
    if (cabinet.faults[j] == NONE && there > cabinet.rounds) cabinet.late[i] = 1;
  }
}

static void lose_state(int i) {
  card_close(&cabinet.cards[i]);
  open_card(i);
  cabinet.acted[i] = 0;
  cabinet.told[i] = 0;
  note_lag(i);
}

static void turn(int i) {
  if (cabinet.faults[i] == DEAD) return;
  if (cabinet.now == start[i]) open_card(i);
  if ((cabinet.faults[i] == LOST || cabinet.faults[i] == AGAIN) && cabinet.now == CUT_FROM) lose_state(i);
  if (is_cut(i) && cabinet.now == CUT_FROM + CUT_FOR) note_lag(i);
  deliver(i);
  if (!cabinet.is_open[i]) return;
  if (cabinet.now % EVERY == start[i] % EVERY && !follows(i)) give_entry(i);
  card_tick(&cabinet.cards[i]);
  watch_marks(i);
  if (cabinet.faults[i] == WORN) slip(i);
  if (lies(i)) lie(i);
}

static int is_over(void) {
  for (int i = 0; i < cabinet.n; i++)
    if (catches_up(i) && !(cabinet.is_open[i] && card_is_over(&cabinet.cards[i]))) return 0;
  if (cabinet.now <= SKEW) return 0;
  if (!ended) ended = cabinet.now;
  return have_spread() || cabinet.now > ended + SPREAD * retry();
}

static void begin_run(void) {
  choose_faults();
  for (int i = 0; i < cabinet.n; i++) {
    make_key(i);
    start[i] = chance(SKEW);
    cabinet.acts[i] = calloc(cabinet.rounds, sizeof *cabinet.acts[i]);
    if (!cabinet.acts[i]) stop("no memory");
    begin_marks(i);
  }
  if (cabinet.path) begin_picture();
}

void run(void) {
  uint32_t most = 5000 + cabinet.rounds * (cabinet.timeout + 50);
  begin_run();
  for (cabinet.now = 0; cabinet.now < most && !is_over(); cabinet.now++) {
    draw_tick();
    for (int i = 0; i < cabinet.n; i++) turn(i);
  }
}

void end_run(void) {
  for (int i = 0; i < cabinet.n; i++) {
    card_close(&cabinet.cards[i]);
    close_cable(i);
    end_marks(i);
    free(cabinet.acts[i]);
  }
}
