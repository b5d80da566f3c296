/* draw.c: draws a rehearsal. It reads the commands of `rehearse`, makes the same calls with the same set-up and the same queues, prints
 * the same lines, and writes a picture of what happened: draw PICTURE.svg < examples/rehearsal.txt
 *
 * Three cards, f = 1, six rounds, a timeout of two ticks, empty entries; the cards lead in the order 0, 1, 2. `t i` is a tick at card
 * i, `d i` hands card i the oldest frame of its queue. A line that is neither is told; there is no picture then, since it would be one
 * of another rehearsal. */
#include "picture/picture.h"

#include <stdio.h>
#include <string.h>

enum { CARDS = 3, F = 1, T = 6, TIMEOUT = 2, MOST_SENT = 2 * CARDS * T };

typedef struct {
  apollo_replica record;
  uint8_t log[APOLLO_FRAME * T];
  uint16_t masks[T];
  int past, commands; /* frames that it is past, and commands for it */
} card;

static const uint8_t rotation[CARDS] = {0, 1, 2};
static card cards[CARDS];
static uint8_t sent[MOST_SENT][APOLLO_FRAME]; /* a blame and a block for each card and round at most */
static int sent_count;
static uint8_t out[APOLLO_OUT];

static const char note[] =
    "A lane for each card, time to the right (not to scale), a column for each command: t i is a tick at card i, d i hands card i the "
    "oldest block or blame that waits for it. Card 0 leads round 1, card 1 round 2, card 2 round 3, then card 0 again. A card for which "
    "there is no command does nothing: it is dead.";

/* After a call: keeps the record, and hands what the card emitted to the others' queues. */
static void settle(picture *p, int i, picture_kind kind, apollo_answer a, const uint8_t *in) {
  cards[i].record = a.replica;
  picture_add(p, &(picture_call){.card = i,
                                 .kind = kind,
                                 .number = a.number,
                                 .place = a.place,
                                 .record = &cards[i].record,
                                 .log = cards[i].log,
                                 .in = in,
                                 .ins = in != NULL,
                                 .out = out,
                                 .outs = a.frames});
  for (int k = 0; k < a.frames && sent_count < MOST_SENT; k++) memcpy(sent[sent_count++], out + k * APOLLO_FRAME, APOLLO_FRAME);
  if (kind != PICTURE_OPEN)
    printf("%d %d %u %u %u\n", i, a.number, a.replica.round.value, a.replica.tip_round.value, a.replica.committed_round.value);
}

static void tick(picture *p, int i) {
  card *c = &cards[i];
  settle(p, i, PICTURE_TICK, apollo_tick(c->record, c->log, sizeof c->log, c->masks, T, NULL, 0, out, sizeof out), NULL);
}

/* The oldest frame that another card emitted and that this one was not handed yet; none is no call. */
static void deliver(picture *p, int i) {
  card *c = &cards[i];
  while (c->past < sent_count && sent[c->past][1] == i) c->past++;
  if (c->past == sent_count) {
    picture_add(p, &(picture_call){.card = i, .kind = PICTURE_NOTHING, .record = &c->record, .log = c->log});
    return;
  }
  const uint8_t *frame = sent[c->past++];
  if (frame[0] == APOLLO_BLOCK)
    settle(p, i, PICTURE_BRANCH,
           apollo_branch(c->record, c->log, sizeof c->log, c->masks, T, frame, APOLLO_FRAME, NULL, 0, out, sizeof out), frame);
  else
    settle(p, i, PICTURE_BLAMES,
           apollo_blame(c->record, c->log, sizeof c->log, c->masks, T, frame, APOLLO_FRAME, NULL, 0, out, sizeof out), frame);
}

static void open_all(picture *p) {
  apollo_ticks timeout = {TIMEOUT};
  apollo_round last_round = {T};
  picture_moment(p, 0, "open");
  for (int i = 0; i < CARDS; i++) {
    card *c = &cards[i];
    settle(
        p, i, PICTURE_OPEN,
        apollo_open((uint8_t)i, F, timeout, last_round, rotation, CARDS, c->log, sizeof c->log, c->masks, T, NULL, 0, out, sizeof out),
        NULL);
  }
}

/* The next line, as far as a command goes, without its end; -1 when there is none. */
static int read_line(char line[5]) {
  int len = 0, byte;
  while ((byte = getchar()) != EOF && byte != '\n') {
    if (len < 4) line[len] = (char)byte;
    if (len < 5) len++;
  }
  if (byte == EOF && len == 0) return -1;
  if (len == 4 && line[3] == '\r') len = 3;
  line[len < 4 ? len : 4] = 0;
  return len;
}

/* Obeys all commands. How many lines were none, or -1 if there was no line at all. */
static int obey(picture *p) {
  char line[5] = "";
  int len, wrong = 0;
  uint32_t number = 0;
  while ((len = read_line(line)) >= 0) {
    number++;
    int i = line[2] - '0';
    if (len != 3 || (line[0] != 't' && line[0] != 'd') || line[1] != ' ' || i < 0 || i >= CARDS) {
      fprintf(stderr, "line %u: no command\n", number);
      wrong++;
      continue;
    }
    picture_moment(p, number, line);
    cards[i].commands++;
    if (line[0] == 't') tick(p, i);
    else deliver(p, i);
  }
  return number == 0 ? -1 : wrong;
}

static int fail(const char *path, const char *why) {
  fprintf(stderr, "draw: no picture in %s: %s\n", path, why);
  return 1;
}

static int draw(picture *p, const char *path) {
  int wrong = obey(p);
  if (fflush(stdout) != 0 || ferror(stdout)) return fail(path, "the numbers cannot be written to standard output");
  if (ferror(stdin)) return fail(path, "the commands cannot be read");
  if (wrong < 0) return fail(path, "there is no command");
  if (wrong > 0) return fail(path, "some lines are no commands (t or d, a space, and 0, 1 or 2)");
  for (int i = 0; i < CARDS; i++)
    if (cards[i].commands == 0) picture_say(p, i, "dead", 1);
  const char *why = picture_write(p, path);
  return why ? fail(path, why) : 0;
}

static const char usage[] =
    "usage: draw PICTURE.svg < COMMANDS\n"
    "Reads the commands of a rehearsal, prints what rehearse prints, and writes the picture.\n"
    "Ends with 0, or with 1 and no picture where a line is no command, there is none, or the file cannot be written.\n";

int main(int argc, char **argv) {
  int help = argc == 2 && strcmp(argv[1], "--help") == 0;
  if (argc != 2 || help) {
    fputs(usage, help ? stdout : stderr);
    return help ? 0 : 2;
  }
  if (apollo_version() != APOLLO_VERSION) {
    fputs("draw: apollo.h and libhost.a are of different versions\n", stderr);
    return 2;
  }
  picture_setup setup = {.cards = CARDS,
                         .rounds = T,
                         .unit = "command",
                         .title = "A rehearsal: three cards, of which one may fail (f = 1); six rounds; a timeout of two ticks",
                         .note = note};
  memcpy(setup.rotation, rotation, sizeof rotation);
  picture *p = picture_new(setup);
  if (!p) return fail(argv[1], "no memory");
  open_all(p);
  int status = draw(p, argv[1]);
  picture_free(p);
  return status;
}
