/* cabinet.h: what the files of the cabinet share. */
#ifndef CABINET_H
#define CABINET_H

#include "../card.h"
#include "faults.h"

enum {
  RETRY = 4, /* ticks until a card sends again, on quick cables */
  IDLE = 2   /* ticks that a leader with nothing to propose waits */
};

typedef struct {
  /* As the options say. */
  int n, f, show_list;
  fault kind;
  uint32_t rounds, first_seed, timeout, delay, loss, tray;
  uint8_t rotation[APOLLO_MAX_REPLICAS];
  const char *path; /* of a picture of the run, if one is asked for, and the ticks to be drawn */
  uint32_t from, to;
  /* The run. */
  uint32_t seed, now;
  fault faults[APOLLO_MAX_REPLICAS];
  card cards[APOLLO_MAX_REPLICAS];
  int is_open[APOLLO_MAX_REPLICAS];
  uint32_t behind[APOLLO_MAX_REPLICAS]; /* how many rounds a card that was away was behind when it came back or began again, */
  int late[APOLLO_MAX_REPLICAS];        /* and whether the term was over then */
  uint32_t *acts[APOLLO_MAX_REPLICAS], acted[APOLLO_MAX_REPLICAS]; /* the rounds whose entries a card acted on */
  uint32_t alarms[ALARM_KINDS], lies;                              /* lies: packets made up, changed or withheld */
  uint16_t told[APOLLO_MAX_REPLICAS];    /* whom a card has named to the repairer for two blocks of a round, */
  uint32_t doubles[APOLLO_MAX_REPLICAS]; /* and the round for which it was named first */
} cabinet_state;
extern cabinet_state cabinet;

_Noreturn void stop(const char *why);
/* A small generator, so that a seed gives the same run everywhere. */
uint32_t chance(uint32_t below);

/* Ends the program with 2 where they are wrong. */
void read_options(int argc, char **argv);
/* The run, and what it has allocated given back. */
void run(void);
void end_run(void);
/* Prints how it went: 1 if all is in order. */
int report(void);

/* Longer on slow cables: a card that comes back waits nine times that for an answer. */
static inline uint32_t retry(void) { return cabinet.delay / 4 < RETRY ? RETRY : cabinet.delay / 4; }

static inline int leader_of(uint32_t round) { return cabinet.rotation[(round - 1) % (uint32_t)cabinet.n]; }
static inline const uint8_t *slot(int i, uint32_t round) { return cabinet.cards[i].log + (size_t)(round - 1) * APOLLO_FRAME; }
static inline uint16_t bit(int i) { return (uint16_t)(1u << i); }
static inline uint32_t get32(const uint8_t *p) { return (uint32_t)p[0] << 24 | (uint32_t)p[1] << 16 | (uint32_t)p[2] << 8 | p[3]; }

#endif
