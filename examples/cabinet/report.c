/* report.c: what is printed: the cards' alarms as they come, and at the end how it went. */
#include "cabinet.h"
#include "entries.h"
#include "lists.h"
#include "marks.h"

#include <stdio.h>

/* The first alarm of each kind is printed, of two blocks the first about each card; all are counted. */
void host_alarm(int id, alarm_kind kind, int other, uint32_t round) {
  static const char *const what[ALARM_KINDS] = {"its record, log or masks were changed (2)",
                                                "a block would undo what is committed (12)",
                                                "another block is committed there, or this card lies",
                                                "it signed two blocks for this round"};
  if (!keeps_rules(id)) return;
  int known = kind == ALARM_DOUBLE ? cabinet.doubles[other] > 0 : cabinet.alarms[kind] > 0;
  cabinet.alarms[kind]++;
  if (kind == ALARM_DOUBLE) cabinet.told[id] |= bit(other);
  if (known) return;
  if (kind == ALARM_DOUBLE) cabinet.doubles[other] = round;
  printf("tick %u: alarm of card %d: round %u, card %d: %s\n", cabinet.now, id, round, other, what[kind]);
}

/* Premise: no correct card blamed a correct one's round. Deaf, mute and cut cards are counted among the f. */
static int report_blames(void) {
  int count = 0, by = 0;
  uint32_t first = 0;
  for (uint32_t r = cabinet.rounds; r >= 1; r--)
    for (int i = 0; i < cabinet.n; i++)
      if (cabinet.faults[i] == NONE && cabinet.faults[leader_of(r)] == NONE && cabinet.cards[i].masks[r - 1] >> i & 1) {
        count++;
        by = i;
        first = r;
      }
  printf("correct cards blamed correct ones %d times\n", count);
  if (count > 0)
    printf("WHY: the timeout of %u ticks is too small for these cables: card %d blamed round %u though its leader, card %d, was only "
           "late.\n"
           "     A premise of the agreement is broken; where the lists are alike all the same, that is luck.\n",
           cabinet.timeout, by, first, leader_of(first));
  return count == 0;
}

/* How the library answered the cards that keep the rules. Some answers mean that the host made a mistake, whatever others sent. */
static int report_answers(void) {
  const uint32_t own = 1u << APOLLO_BAD_SETUP | 1u << APOLLO_OUT_TOO_SHORT | 1u << APOLLO_ENTRY_TOO_LONG | 1u << APOLLO_BAD_LENGTH |
                       1u << APOLLO_NOT_A_SET | 1u << APOLLO_BAD_ROTATION | 1u << APOLLO_NOT_EQUIVOCATION;
  int good = 1;
  printf("answers");
  for (int k = 0; k < NUMBERS; k++) {
    uint32_t count = 0;
    for (int i = 0; i < cabinet.n; i++) count += keeps_rules(i) ? cabinet.cards[i].answers[k] : 0;
    if (count > 0) printf("  %d: %u", k, count);
    if (count > 0 && own >> k & 1) good = 0;
  }
  puts(good ? "" : "  A MISTAKE OF THE HOST");
  return good;
}

int report(void) {
  int best = 0;
  for (int i = 0; i < cabinet.n; i++)
    if (catches_up(i) && (!catches_up(best) || cabinet.acted[i] > cabinet.acted[best])) best = i;
  if (cabinet.show_list) print_list(best);
  int answers = report_answers(), lists = report_lists(best), entries = report_entries(best), patient = report_blames();
  int marks = report_marks();
  int good = answers && lists && entries && patient && marks && !cabinet.alarms[ALARM_STATE] && !cabinet.alarms[ALARM_UNDONE];
  printf("%d cards, fault %s, %u lies, timeout %u, %u ticks: %s, %s\n", cabinet.n, fault_names[cabinet.kind], cabinet.lies,
         cabinet.timeout, cabinet.now, lists ? "all lists agree" : "the lists do NOT agree", good ? "all in order" : "NOT in order");
  return good;
}
