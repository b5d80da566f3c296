/* run.h: what is kept of a run, and what the picture is drawn from. Frames, calls and moments are named by their places in the lists.
 */
#ifndef RUN_H
#define RUN_H

#include "picture.h"

enum { NOWHERE = -1, WORD = 24, QUIET_KEPT = 3 };

typedef struct {
  void *at;
  size_t count, room;
} list;

/* A frame that was emitted, handed in or committed. */
typedef struct {
  uint8_t kind, signer;
  uint32_t round, height;
  uint8_t digest[APOLLO_DIGEST];
  int lie;     /* no call emitted it */
  int handed;  /* to some card */
  int emitted; /* the call in which it first was, or NOWHERE */
  int next;    /* another frame of that round, or NOWHERE */
} seen_frame;

/* Some of `picture.linked`: places of frames, or rounds. */
typedef struct {
  size_t at, count;
} links;

/* A call; or a lie, which is not one. */
typedef struct {
  int card, moment, is_lie;
  picture_kind kind;
  uint8_t number;
  uint32_t place;
  uint32_t was, round, tip, committed; /* R before and after, the newest block's round and the committed one */
  int leader;                          /* of R, or NOWHERE when the term is over */
  int again;                           /* opened a second time, or a tick that is refused as the card's last call was */
  links ins, outs, commits;            /* frames */
  links skips;                         /* rounds passed without a block */
  int marks;                           /* the card that it marks, or NOWHERE */
  int parts_from;                      /* the card from whose list this one's parts here, or NOWHERE */
  int column;                          /* where it is drawn, or NOWHERE */
} event;

typedef struct {
  uint32_t number;
  char label[WORD];
  size_t first;    /* of its events */
  int kept;        /* not folded, though nothing happens in it */
  uint32_t folded; /* moments that were left out after it */
} moment;

/* A card is so from one moment on, up to another or to the end. */
typedef struct {
  int card, from, to;
  char word[WORD];
} phase;

typedef struct {
  char word[WORD]; /* what is said of it */
  int counts, opened, phase;
  apollo_replica record; /* after its last call */
  int number;            /* and that call's, NOWHERE before the first */
  int parted;            /* whether its list has parted from another */
} lane_state;

/* At each height the first block that a card which counts has committed, and that card. */
typedef struct {
  int frame, card;
} first_commit;

struct picture {
  picture_setup setup;
  list frames, events, moments, phases, linked; /* seen_frame, event, moment, phase, int */
  int *by_round;                                /* the newest frame of each round, 0 for what is none */
  first_commit *first;                          /* by height */
  lane_state cards[APOLLO_MAX_REPLICAS];
  uint32_t from, to;
  int is_done; /* the run, and the picture is drawn */
  int failed;  /* no memory: nothing is written */
  event scratch;
  char why[80]; /* there is no picture */
};

static inline seen_frame *frame_at(const picture *p, int k) { return (seen_frame *)p->frames.at + k; }
static inline event *event_at(const picture *p, size_t k) { return (event *)p->events.at + k; }
static inline moment *moment_at(const picture *p, int k) { return (moment *)p->moments.at + k; }
static inline phase *phase_at(const picture *p, size_t k) { return (phase *)p->phases.at + k; }
static inline int linked_at(const picture *p, links l, size_t k) { return ((int *)p->linked.at)[l.at + k]; }

/* Who leads a round. */
static inline int leader_of(const picture *p, const uint8_t *rotation, uint32_t round) {
  return rotation[(round - 1) % (uint32_t)p->setup.cards];
}

/* The events of a moment: from its first up to this one. */
size_t events_end(const picture *p, int m);
/* Nothing comes of it: a tick without effect, or no frame that waited. */
int is_dot(const event *e);
/* No news: that, a tick that is refused as the card's last call was, or a lie that in the end was handed to no card. */
int is_quiet(const picture *p, const event *e);
int is_quiet_moment(const picture *p, int m);
/* Is a committed block another than the first that was committed at its height? */
int is_other(const picture *p, const event *e, int frame);

#endif
