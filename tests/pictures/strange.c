/* strange.c: what no rehearsal and no cabinet hands to the drawing part: any bytes as texts, long words, moments without calls, windows
 * with nothing in them. Writes pictures, which tests/pictures/check judges, to a folder: strange FOLDER */
#define _POSIX_C_SOURCE 200809L
#include "../host/expect.h"
#include "../../examples/picture/picture.h"

#include <string.h>

enum { T = 30, MOST = APOLLO_MAX_REPLICAS };

static struct {
  apollo_replica record;
  uint8_t log[APOLLO_FRAME * T];
  uint16_t masks[T];
} cards[MOST];
static uint8_t rotation[MOST], sent[T][APOLLO_FRAME], out[APOLLO_OUT];
static int sent_count;
static const char *folder;

static const char hostile[] = "<&>\"' \x01\x1b\x7f \xff\xfe \xc3( \xed\xa0\x80 \xf0\x9f\x98\x80 ]]> &amp; <script>alert(1)</script>";
static const char escaped[] =
    "&lt;&amp;&gt;&quot;' \?\?\? \?\? \?( \?\?\? \xf0\x9f\x98\x80 ]]&gt; &amp;amp; &lt;script&gt;alert(1)&lt;/script&gt;";

static const char *path_of(const char *name) {
  static char path[4096];
  snprintf(path, sizeof path, "%s/%s", folder, name);
  return path;
}

/* ---- files */

static char *contents(const char *name) {
  FILE *from = fopen(path_of(name), "rb");
  static char text[1 << 21];
  if (!from) return NULL;
  text[fread(text, 1, sizeof text - 1, from)] = 0;
  fclose(from);
  return text;
}

static void keep_old(const char *name) {
  FILE *to = fopen(path_of(name), "wb");
  EXPECT(to && fputs("old", to) >= 0 && fclose(to) == 0);
}

static void expect_written(picture *p, const char *name) {
  const char *why = picture_write(p, path_of(name));
  if (why) printf("%s: %s\n", name, why);
  EXPECT(!why && contents(name));
  picture_free(p);
}

/* No picture, with this reason, and the old file as it was. */
static void expect_none(picture *p, const char *name, const char *reason) {
  keep_old(name);
  const char *why = picture_write(p, path_of(name));
  EXPECT(why && strncmp(why, reason, strlen(reason)) == 0);
  EXPECT(strcmp(contents(name), "old") == 0);
  EXPECT(remove(path_of(name)) == 0);
  EXPECT(picture_write(p, path_of(name)) && !contents(name));
  picture_free(p);
}

/* ---- a run */

static picture *fresh(int n, const char *title, const char *note) {
  picture_setup setup = {.cards = n, .rounds = T, .unit = "tick", .title = title, .note = note};
  for (int i = 0; i < MOST; i++) rotation[i] = setup.rotation[i] = (uint8_t)i;
  memset(cards, 0, sizeof cards);
  sent_count = 0;
  return picture_new(setup);
}

static void tell(picture *p, int i, picture_kind kind, apollo_answer a, const uint8_t *in, size_t ins) {
  cards[i].record = a.replica;
  picture_add(p, &(picture_call){.card = i, .kind = kind, .number = a.number, .place = a.place, .record = &cards[i].record,
                                 .log = cards[i].log, .in = in, .ins = ins, .out = out, .outs = a.frames});
  for (int k = 0; k < a.frames; k++)
    if (out[k * APOLLO_FRAME] == APOLLO_BLOCK) memcpy(sent[sent_count++], out + k * APOLLO_FRAME, APOLLO_FRAME);
}

static void open_all(picture *p, int n) {
  for (int i = 0; i < n; i++)
    tell(p, i, PICTURE_OPEN,
         apollo_open((uint8_t)i, (uint8_t)(n / 2), (apollo_ticks){2}, (apollo_round){T}, rotation, (size_t)n, cards[i].log,
                     sizeof cards[i].log, cards[i].masks, T, NULL, 0, out, sizeof out),
         NULL, 0);
}

static void branch(picture *p, int i, const uint8_t *frames, size_t count) {
  tell(p, i, PICTURE_BRANCH,
       apollo_branch(cards[i].record, cards[i].log, sizeof cards[i].log, cards[i].masks, T, frames, count * APOLLO_FRAME, NULL, 0, out,
                     sizeof out),
       frames, count);
}

static void tick(picture *p, int i) {
  tell(p, i, PICTURE_TICK,
       apollo_tick(cards[i].record, cards[i].log, sizeof cards[i].log, cards[i].masks, T, NULL, 0, out, sizeof out), NULL, 0);
}

/* The block of each round goes to the next round's leader alone, which so has the blocks before it and puts out its own; at last card 0
 * is handed all of them together. */
static void relay(picture *p, int n, const char *label, const char *word) {
  picture_moment(p, 0, label);
  open_all(p, n);
  for (uint32_t m = 1; m < (uint32_t)n; m++) {
    picture_moment(p, m, label);
    if (word && m == 2) picture_phase(p, 1, word);
    branch(p, (int)m, sent[0], m);
    tick(p, 0);
  }
  picture_moment(p, (uint32_t)n, label);
  if (word) picture_phase(p, 1, NULL);
  branch(p, 0, sent[1], (size_t)n - 1);
}

/* ---- cases */

static void refused_setups(void) {
  static const int wrong[] = {-1, 0, 1, 2, MOST + 1, 1000};
  for (size_t k = 0; k < sizeof wrong / sizeof *wrong; k++) EXPECT(!fresh(wrong[k], "", ""));
  EXPECT(!picture_new((picture_setup){.cards = 3, .rounds = APOLLO_MAX_ROUNDS + 1, .unit = "tick", .title = "", .note = ""}));
  picture_free(NULL);
}

/* Title and note are there as they are, escaped; so are labels and words, as far as they go. */
static void hostile_texts(int n, const char *name) {
  picture *p = fresh(n, hostile, hostile);
  char want[1024];
  for (int i = 0; i < n; i++) picture_say(p, i, i % 2 ? "<&\x02\xff" : "'\"", 1);
  relay(p, n, "<\"&\x03\xc0'>", "<&>\xe2\x82");
  expect_written(p, name);
  snprintf(want, sizeof want, "<title>%s</title>\n<desc>%s</desc>\n", escaped, escaped);
  EXPECT(strstr(contents(name), want));
  EXPECT(strstr(contents(name), ">&lt;&quot;&amp;\?\?'&gt;</text>") && strstr(contents(name), ">&lt;&amp;\?\?</text>"));
}

static void long_texts(void) {
  static char word[3001], label[1001], many[12001];
  memset(word, 'a', sizeof word - 1);
  memset(label, 'n', sizeof label - 1);
  for (size_t k = 0; k < sizeof many - 1; k++) many[k] = k % 7 ? (char)('a' + k % 26) : ' ';
  picture *p = fresh(3, word, word);
  relay(p, 3, "", NULL);
  expect_written(p, "long-title.svg");
  p = fresh(3, "A note of some pages", many);
  relay(p, 3, "", NULL);
  expect_written(p, "long-note.svg");
  p = fresh(5, "Long labels", "");
  relay(p, 5, label, label);
  expect_written(p, "long-label.svg");
  p = fresh(5, "Long words", "");
  for (int i = 0; i < 5; i++) picture_say(p, i, word, 1);
  relay(p, 5, "", word);
  expect_written(p, "long-word.svg");
}

/* The widest letters of a bold font, which are wider than the plain ones by more than others are. */
static void wide_texts(void) {
  picture *p = fresh(3, "WWWWWWWWWWWWWWWWWWWWWWWWWWWWWWWWWWWWWWWWWWWWWWWWWWWWWWWWWWWWWWWWWWWWWWWWWWWWWWWWWWWWWWWWWWWWWWWW", "");
  relay(p, 3, "WWWMMMWWWwwwWWW", NULL);
  expect_written(p, "wide.svg");
}

static void few_moments(void) {
  picture *p = fresh(3, "no moment", "");
  expect_none(p, "none.svg", "nothing happens that could be drawn");
  p = fresh(3, "calls before any moment", "");
  open_all(p, 3);
  picture_lie(p, 0, sent[0]);
  picture_phase(p, 0, "deaf");
  expect_none(p, "none.svg", "nothing happens that could be drawn");
  p = fresh(3, "a window with nothing in it", "");
  relay(p, 3, "", NULL);
  picture_window(p, 50, 60);
  expect_none(p, "none.svg", "the run ends with tick ");
  p = fresh(3, "one moment without a call", "");
  picture_moment(p, 0, "");
  expect_written(p, "one-moment.svg");
  p = fresh(3, "moments without calls", "");
  open_all(p, 3); /* before any moment: not drawn */
  for (uint32_t m = 0; m < 40; m++) picture_moment(p, m, "");
  expect_written(p, "no-calls.svg");
  EXPECT(strstr(contents("no-calls.svg"), ">40 ticks</text>") && !strstr(contents("no-calls.svg"), "<g>"));
  p = fresh(3, "a label or two of null", "");
  picture_moment(p, 0, NULL);
  picture_say(p, 1, NULL, 0);
  open_all(p, 3);
  expect_written(p, "null.svg");
}

/* Frames that are none, as a host may hand in: the library refuses them, and the picture shows that. */
static void junk_frames(void) {
  static uint8_t junk[8 * APOLLO_FRAME];
  picture *p = fresh(3, "Junk", "");
  memset(junk, 0xff, sizeof junk);
  for (int k = 0; k < 8; k++) junk[k * APOLLO_FRAME + 1] = 8 + 1; /* no card, with the colour of card 1 */
  picture_moment(p, 0, "");
  open_all(p, 3);
  for (uint32_t m = 1; m < 9; m++) {
    picture_moment(p, m, "");
    for (size_t k = 0; k < m; k++) junk[k * APOLLO_FRAME] = APOLLO_BLOCK;
    branch(p, 1, junk, m < 5 ? m : 4);
  }
  expect_written(p, "junk.svg");
  EXPECT(strstr(contents("junk.svg"), ": card 1: 7 check, R 1, tip 0, committed 0</title>"));
}

/* A lie is drawn once, and only if it was handed to a card. */
static void lies(void) {
  uint8_t frame[APOLLO_FRAME] = {APOLLO_BLAME, 2, 0, 0, 0, 0, 0, 1};
  apollo_digest(frame, 480, frame + 480);
  for (int handed = 0; handed < 2; handed++) {
    picture *p = fresh(3, "Lies", "");
    picture_say(p, 2, "lies", 0);
    picture_moment(p, 0, "");
    open_all(p, 3);
    for (uint32_t m = 1; m < 4; m++) {
      picture_moment(p, m, "");
      picture_lie(p, 2, frame);
    }
    picture_moment(p, 4, "");
    if (handed)
      tell(p, 1, PICTURE_BLAMES, apollo_blame(cards[1].record, cards[1].log, sizeof cards[1].log, cards[1].masks, T, frame,
                                              APOLLO_FRAME, NULL, 0, out, sizeof out), frame, 1);
    expect_written(p, handed ? "lie.svg" : "lie-unheard.svg");
    const char *first = strstr(contents(handed ? "lie.svg" : "lie-unheard.svg"), "card 2 lies");
    EXPECT(handed ? first && !strstr(first + 1, "card 2 lies") : !first);
  }
}

/* Written twice it is the same, */
static void expect_twice(picture *p, const char *name) {
  EXPECT(!picture_write(p, path_of(name)));
  char *first = strdup(contents(name));
  expect_written(p, name);
  EXPECT(first && strcmp(first, contents(name)) == 0);
  free(first);
}

/* also where it is too long, so that it ends before the run. */
static void twice(void) {
  picture *p = fresh(7, "Twice", "");
  relay(p, 7, "x", "deaf");
  expect_twice(p, "twice.svg");
  p = fresh(3, "Twice, and too long", "");
  for (uint32_t m = 0; m < 6000; m++) {
    picture_moment(p, m, "");
    if (m == 0) open_all(p, 3);
    picture_phase(p, 1, m % 2 ? "deaf" : NULL);
  }
  expect_twice(p, "too-long.svg");
  EXPECT(strstr(contents("too-long.svg"), ">TOO LONG: "));
}

/* A log that no call made, with a round in it that there is not. */
static void wrong_log(void) {
  static uint8_t log[APOLLO_FRAME * T];
  picture *p = fresh(3, "A wrong log", "");
  memset(log, APOLLO_BLOCK, sizeof log);
  picture_moment(p, 0, "");
  open_all(p, 3);
  apollo_replica record = cards[1].record;
  record.round.value = 9;
  record.committed_round.value = 7;
  picture_moment(p, 1, "");
  picture_add(p, &(picture_call){.card = 1, .kind = PICTURE_BRANCH, .record = &record, .log = log});
  EXPECT(!picture_write(p, path_of("wrong-log.svg")) && remove(path_of("wrong-log.svg")) == 0);
  picture_free(p);
}

int main(int argc, char **argv) {
  EXPECT(argc == 2);
  folder = argv[1];
  refused_setups();
  hostile_texts(3, "hostile.svg");
  hostile_texts(15, "hostile-15.svg");
  long_texts();
  wide_texts();
  few_moments();
  junk_frames();
  lies();
  twice();
  wrong_log();
  return 0;
}
