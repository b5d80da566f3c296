/* picture.h: a picture of a run of cards, one SVG file that any browser shows and prints. Hand in the calls as they are made; then
 * write. It needs no library: of apollo.h it takes types and numbers alone. examples/draw.c and examples/cabinet use it.
 *
 * A lane for each card, time to the right: a column for each moment (a command, a tick). A long run goes on in parts below each other,
 * which fall on pages of A4 in print; a stretch in which nothing happens but ticks is folded, and the picture says so. */
#ifndef PICTURE_H
#define PICTURE_H

#include "apollo.h"

typedef struct picture picture;

/* The texts stay where they are until the picture is written. Any text will do: what is no UTF-8, or may not stand in XML, is written
 * as '?'. */
typedef struct {
  int cards;       /* 3 to 15 */
  uint32_t rounds; /* T, up to 4,096 */
  uint8_t rotation[APOLLO_MAX_REPLICAS];
  const char *unit; /* what a moment is: "command" or "tick" */
  const char *title;
  const char *note; /* sentences below the title */
} picture_setup;

typedef enum {
  PICTURE_OPEN,
  PICTURE_TICK,
  PICTURE_BRANCH,
  PICTURE_BLAMES, /* one or a set */
  PICTURE_EQUIVOCATION,
  PICTURE_FETCH,
  PICTURE_NOTHING /* no call: no frame waited */
} picture_kind;

/* A call that a card made and how it was answered. Nothing of it is kept by its address. */
typedef struct {
  int card;
  picture_kind kind;
  uint8_t number;
  uint32_t place;
  const apollo_replica *record; /* afterwards, and so the log */
  const uint8_t *log;
  const uint8_t *in, *out; /* frames handed in, and emitted or fetched, end to end */
  size_t ins, outs;
} picture_call;

/* NULL without memory, or with numbers outside these ranges. */
picture *picture_new(picture_setup setup);
void picture_free(picture *p);

/* What is said of a card in its header for the whole run ("dead"); and whether its list counts when lists are compared. */
void picture_say(picture *p, int card, const char *word, int counts);
/* The next moment, with what stands above its column besides its number. What follows is in it. */
void picture_moment(picture *p, uint32_t number, const char *label);
/* From this moment on the card is so ("deaf"), until another word comes; NULL: as ever. */
void picture_phase(picture *p, int card, const char *word);
/* Calls of a card that is none of these, or of a term with more rounds, are left out. */
void picture_add(picture *p, const picture_call *call);
/* A frame that a card signed though no call emitted it: a lie. Told again it is not drawn again. */
void picture_lie(picture *p, int card, const uint8_t *frame);
/* Only moments of these numbers are drawn. */
void picture_window(picture *p, uint32_t from, uint32_t to);

/* Writes the whole file or none: NULL, or why there is none. What stood at that path stays until the new file is whole. */
const char *picture_write(picture *p, const char *path);

#endif
