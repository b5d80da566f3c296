/* draw_run.c: tells the run to ../picture, which draws it. */
#include "draw_run.h"

#include "../picture/picture.h"
#include "cabinet.h"

#include <stdio.h>
#include <string.h>

static picture *drawing; /* NULL: none is asked for */

void host_note(const card *c, const card_call *call) {
  static const picture_kind kinds[] = {PICTURE_OPEN, PICTURE_BRANCH, PICTURE_BLAMES, PICTURE_TICK, PICTURE_EQUIVOCATION, PICTURE_FETCH};
  if (!drawing) return;
  picture_add(drawing, &(picture_call){.card = c->setup.id,
                                       .kind = kinds[call->kind],
                                       .number = call->number,
                                       .place = call->place,
                                       .record = &c->record,
                                       .log = c->log,
                                       .in = call->in,
                                       .ins = call->ins,
                                       .out = call->out,
                                       .outs = call->outs});
}

void draw_lie(int liar, const uint8_t *frame) {
  if (drawing && frame[1] == liar) picture_lie(drawing, liar, frame);
}

/* What a card is from this tick on, where that changes. */
static void draw_phase(int i) {
  fault kind = cabinet.faults[i];
  if (cabinet.now == CUT_FROM && is_cut(i)) picture_phase(drawing, i, kind == DEAF ? "deaf" : "mute");
  if (cabinet.now == CUT_FROM && kind == LOST) picture_phase(drawing, i, "lost its state: follows");
  if (cabinet.now == CUT_FROM && kind == AGAIN) picture_phase(drawing, i, "lost its state: sends");
  if (cabinet.now == CUT_FROM + DEAF_LATER && kind == CUT) picture_phase(drawing, i, "mute and deaf");
  if (cabinet.now == CUT_FROM + CUT_FOR && is_cut(i)) picture_phase(drawing, i, NULL);
}

void draw_tick(void) {
  if (!drawing) return;
  picture_moment(drawing, cabinet.now, "");
  for (int i = 0; i < cabinet.n; i++) draw_phase(i);
}

/* The words of the picture are those of the report. */
void begin_picture(void) {
  static char title[128];
  static const char note[] =
      "A lane for each card, time to the right (not to scale), a column for each tick in which something happens. An arrow ends where a "
      "card hands the frame to its library, whoever brought it; what was lost on the way, and questions, are not drawn.";
  picture_setup setup = {.cards = cabinet.n, .rounds = cabinet.rounds, .unit = "tick", .title = title, .note = note};
  snprintf(title, sizeof title, "A cabinet: %d cards, f = %d may fail; fault %s, seed %u, %u rounds, a timeout of %u ticks", cabinet.n,
           cabinet.f, fault_names[cabinet.kind], cabinet.first_seed, cabinet.rounds, cabinet.timeout);
  memcpy(setup.rotation, cabinet.rotation, sizeof setup.rotation);
  drawing = picture_new(setup);
  if (!drawing) stop("no memory");
  picture_window(drawing, cabinet.from, cabinet.to);
  for (int i = 0; i < cabinet.n; i++) {
    char word[32];
    snprintf(word, sizeof word, "%s%s", lies(i) ? "lies: " : "", fault_names[cabinet.faults[i]]);
    picture_say(drawing, i, cabinet.faults[i] == NONE ? "" : word, keeps_rules(i));
  }
}

int end_picture(void) {
  const char *why = drawing ? picture_write(drawing, cabinet.path) : NULL;
  if (why) fprintf(stderr, "cabinet: no picture in %s: %s\n", cabinet.path, why);
  picture_free(drawing);
  return !why;
}
