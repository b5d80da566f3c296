/* options.c: what is asked for in the arguments. `cabinet --help` shows it. */
#include "cabinet.h"

#include <stdio.h>
#include <stdlib.h>
#include <string.h>

enum { LEAST_ROUNDS = 30 }; /* so that entries can come on the list with 15 cards too */

static const char *asked; /* for the rotation */
static int has_window;    /* ticks to be drawn are asked for */

static const char usage[] =
    "usage: cabinet [OPTIONS] [CARDS [SEED [ROUNDS]]]\n"
    "  --cards N      3 to 15, odd (3)\n"
    "  --seed S       of the random numbers (1)\n"
    "  --rounds T     of the term, 30 to 4096 (120)\n"
    "  --rotation R   who leads: the number of every card, in turn, as in 2,0,1; or shuffled, by the seed (0,1,2 and so on)\n"
    "  --fault KIND   how f = (N - 1) / 2 cards fail (dead): none, dead, deaf or mute (for 900 ticks, then back), cut (mute, later\n"
    "                 deaf too), lost (the state: they follow), apart (set up with another rotation: they stand still), again (they\n"
    "                 lose their state and send all the same), worn (a second block for an old round, shown to one card), two (blocks\n"
    "                 for every round), blames (of everybody), junk, hide (a block shown to one card only), all (these four lies), mask\n"
    "                 (blocks with another's check), mixed (several of these), misled (cut, deaf and lost cards among liars)\n"
    "  --tray N       frames that a card asks for at once when it comes back, 2 to 16 (16)\n"
    "  --delay D      packets come after 1 to D ticks (6)\n"
    "  --loss K       one packet in K is lost, 0 for none (8)\n"
    "  --timeout W    ticks until a leader is blamed (by the rule of docs/HOSTS.md)\n"
    "  --impatient    no fault but a timeout of 2 ticks: correct cards blame each other, and the lists part\n"
    "  --list         print the committed list\n"
    "  --picture FILE draw the run, as an SVG file for a browser\n"
    "  --ticks A-B    draw the ticks A to B alone: a picture has room for some hundred calls\n"
    "Ends with 0 if all lists agree, no entry is lost or misses a turn, every premise was kept and all cards that signed two blocks for\n"
    "a round, and no other, are marked; with 1 if not; with 2 if it cannot run or draw: a wrong option, say, or no room on the disk.\n";

static _Noreturn void wrong_usage(void) {
  fputs(usage, stderr);
  exit(2);
}

static uint32_t number(const char *text, uint32_t low, uint32_t high) {
  char *end = NULL;
  unsigned long v = text ? strtoul(text, &end, 10) : 0;
  if (!text || end == text || *end || v < low || v > high) wrong_usage();
  return (uint32_t)v;
}

static fault fault_named(const char *text) {
  for (int k = 0; k < FAULTS && text; k++)
    if (strcmp(text, fault_names[k]) == 0) return (fault)k;
  wrong_usage();
}

/* A card's number in the rotation that was asked for. */
static uint8_t card_named(const char *text, size_t len) {
  unsigned long card = strtoul(text, NULL, 10);
  int is_number = len > 0 && strspn(text, "0123456789") == len;
  if (is_number && card < (unsigned long)cabinet.n) return (uint8_t)card;
  fprintf(stderr, "cabinet: --rotation %s: \"%.*s\" is no %s, cards are 0 to %d\n", asked, (int)len, text,
          is_number ? "card" : "number", cabinet.n - 1);
  exit(2);
}

/* Every card must be there once. Where that is not so, says all that is wrong. */
static void judge_rotation(int count, const int times[APOLLO_MAX_REPLICAS]) {
  int right = 1;
  for (int i = 0; i < cabinet.n; i++) right = right && times[i] == 1;
  if (right) return;
  fprintf(stderr, "cabinet: --rotation %s: %d numbers for %d cards", asked, count, cabinet.n);
  for (int i = 0; i < cabinet.n; i++)
    if (times[i] != 1) fprintf(stderr, ", card %d is %s", i, times[i] ? "there more than once" : "missing");
  fputc('\n', stderr);
  exit(2);
}

static void read_rotation(void) {
  int count = 0, times[APOLLO_MAX_REPLICAS] = {0};
  for (const char *at = asked; at; count++) {
    size_t len = strcspn(at, ",");
    uint8_t card = card_named(at, len);
    times[card]++;
    if (count < cabinet.n) cabinet.rotation[count] = card;
    at = at[len] ? at + len + 1 : NULL;
  }
  judge_rotation(count, times);
}

static void shuffle_rotation(void) {
  for (int k = cabinet.n - 1; k > 0; k--) {
    uint32_t with = chance((uint32_t)k + 1);
    uint8_t card = cabinet.rotation[k];
    cabinet.rotation[k] = cabinet.rotation[with];
    cabinet.rotation[with] = card;
  }
}

/* The rotation that was asked for, which is printed if it is another than 0, 1, 2 and so on. */
static void choose_rotation(void) {
  int other = 0;
  for (int k = 0; k < cabinet.n; k++) cabinet.rotation[k] = (uint8_t)k;
  if (asked && strcmp(asked, "shuffled") == 0) shuffle_rotation();
  else if (asked) read_rotation();
  for (int k = 0; k < cabinet.n; k++) other |= cabinet.rotation[k] != k;
  for (int k = 0; other && k < cabinet.n; k++)
    printf("%s%d%s", k ? "," : "rotation ", cabinet.rotation[k], k + 1 < cabinet.n ? "" : "\n");
}

static void read_ticks(const char *text) {
  char from[16] = "";
  size_t len = strcspn(text, "-");
  if (len >= sizeof from || !text[len]) wrong_usage();
  memcpy(from, text, len);
  cabinet.from = number(from, 0, UINT32_MAX);
  cabinet.to = number(text + len + 1, cabinet.from, UINT32_MAX);
  has_window = 1;
}

/* Reads one option; the count of words that it took. */
static int option(const char *word, const char *value) {
  if (strcmp(word, "--help") == 0) {
    fputs(usage, stdout);
    exit(0);
  }
  if (strcmp(word, "--list") == 0) return cabinet.show_list = 1;
  if (strcmp(word, "--impatient") == 0) {
    cabinet.kind = NONE;
    cabinet.timeout = 2;
    return 1;
  }
  if (strcmp(word, "--fault") == 0) cabinet.kind = fault_named(value);
  else if (strcmp(word, "--cards") == 0) cabinet.n = (int)number(value, 3, APOLLO_MAX_REPLICAS);
  else if (strcmp(word, "--seed") == 0) cabinet.seed = number(value, 0, UINT32_MAX);
  else if (strcmp(word, "--rounds") == 0) cabinet.rounds = number(value, LEAST_ROUNDS, APOLLO_MAX_ROUNDS);
  else if (strcmp(word, "--delay") == 0) cabinet.delay = number(value, 1, 1000);
  else if (strcmp(word, "--loss") == 0) cabinet.loss = number(value, 0, 1000);
  else if (strcmp(word, "--tray") == 0) cabinet.tray = number(value, 2, TRAY);
  else if (strcmp(word, "--timeout") == 0) cabinet.timeout = number(value, 1, APOLLO_MAX_TIMEOUT);
  else if (strcmp(word, "--rotation") == 0 && value) asked = value;
  else if (strcmp(word, "--picture") == 0 && value) cabinet.path = value;
  else if (strcmp(word, "--ticks") == 0 && value) read_ticks(value);
  else wrong_usage();
  return 2;
}

/* Four times the delay with three retries (to relay, to ask, to answer, to send the block), two ticks, and what a leader waits by
 * itself. */
static uint32_t safe_timeout(void) { return 4 * (cabinet.delay + 3 * retry()) + 2 + IDLE; }

void read_options(int argc, char **argv) {
  int plain = 0;
  cabinet.n = 3;
  cabinet.seed = 1;
  cabinet.kind = DEAD;
  cabinet.delay = 6;
  cabinet.loss = 8;
  cabinet.tray = TRAY;
  cabinet.to = UINT32_MAX;
  for (int i = 1; i < argc;) {
    static const char *const names[] = {"--cards", "--seed", "--rounds"};
    if (argv[i][0] == '-' || plain == 3) i += option(argv[i], i + 1 < argc ? argv[i + 1] : NULL);
    else option(names[plain++], argv[i++]);
  }
  if (cabinet.n % 2 == 0 || (!cabinet.path && has_window)) wrong_usage();
  cabinet.first_seed = cabinet.seed;
  cabinet.f = (cabinet.n - 1) / 2;
  choose_rotation();
  if (!cabinet.rounds) cabinet.rounds = 120;
  if (!cabinet.timeout) cabinet.timeout = safe_timeout();
  if (cabinet.timeout < safe_timeout())
    printf("warning: a timeout of %u ticks is below %u, which the rule asks for with these cables\n", cabinet.timeout, safe_timeout());
}
