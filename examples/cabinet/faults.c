/* faults.c: how cards fail. */
#include "cabinet.h"

const char *const fault_names[FAULTS] = {"none", "dead",   "deaf", "mute", "cut", "lost", "apart", "again", "worn",
                                         "two",  "blames", "junk", "hide", "all", "mask", "mixed", "misled"};

void choose_faults(void) {
  static const fault several[][APOLLO_MAX_F] = {{DEAD, DEAF, ALL, MUTE, LOST, TWO, HIDE}, {CUT, ALL, LOST, JUNK, DEAF, TWO, LOST}};
  uint32_t first = 1 + chance((uint32_t)cabinet.n);
  for (int k = 0; k < cabinet.f; k++)
    cabinet.faults[leader_of(first + (uint32_t)k)] = cabinet.kind < MIXED ? cabinet.kind : several[cabinet.kind - MIXED][k];
}

int is_cut(int i) { return cabinet.faults[i] == DEAF || cabinet.faults[i] == MUTE || cabinet.faults[i] == CUT; }
int is_cut_now(int i, fault how) {
  uint32_t from = CUT_FROM + (cabinet.faults[i] == CUT && how == DEAF ? DEAF_LATER : 0);
  return (cabinet.faults[i] == how || cabinet.faults[i] == CUT) && cabinet.now >= from && cabinet.now < CUT_FROM + CUT_FOR;
}
int was_away(int i) { return cabinet.faults[i] == DEAF || cabinet.faults[i] == CUT || cabinet.faults[i] == LOST; }
int lies(int i) { return cabinet.faults[i] >= TWO; }
int may_double(int i) { return lies(i) || cabinet.faults[i] == AGAIN || cabinet.faults[i] == WORN; }
int follows(int i) { return cabinet.faults[i] == LOST && cabinet.now >= CUT_FROM; }
int catches_up(int i) { return cabinet.faults[i] == NONE || cabinet.faults[i] == LOST || is_cut(i); }
int keeps_rules(int i) { return catches_up(i) || cabinet.faults[i] == APART; }
