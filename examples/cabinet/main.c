/* main.c: the cards of one cabinet in one process. ../card.c is the host of each card; this folder brings what a real program has round
 * it (cables, keys, a clock) as a simulation with a seed, lets cards fail, and says at the end whether all lists agree.
 *
 * options.c reads what is asked for. run.c has the clock, cables.c what travels, keys.c its signatures. faults.c says how cards fail,
 * liars.c what some of them send. entries.c looks after what the cards propose, lists.c whether their lists agree, marks.c who is
 * marked, and report.c sums up. draw_run.c has the run drawn. */
#include "cabinet.h"
#include "draw_run.h"

#include <stdio.h>
#include <stdlib.h>

cabinet_state cabinet;

_Noreturn void stop(const char *why) {
  fprintf(stderr, "cabinet: %s\n", why);
  exit(2);
}

uint32_t chance(uint32_t below) {
  cabinet.seed = cabinet.seed * 1664525u + 1013904223u;
  return (cabinet.seed >> 8) % below;
}

int main(int argc, char **argv) {
  if (apollo_version() != APOLLO_VERSION) stop("apollo.h and libhost.a are of different versions");
  read_options(argc, argv);
  run();
  int good = report(), drawn = end_picture();
  end_run();
  return !drawn ? 2 : good ? 0 : 1;
}
