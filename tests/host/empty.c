/* NULL with length 0 is an empty buffer, for each pointer of each call: an empty entry is taken and proposed, any other empty buffer gets
 * the refusal of its length. Exits with 0 if all is so. */
#include "apollo.h"
#include "expect.h"

#include <string.h>

enum { T = 6, LOG = APOLLO_FRAME * T };

static const uint8_t rotation[3] = {0, 1, 2};
static uint8_t log_[LOG], out[APOLLO_OUT];
static uint16_t masks[T];

/* The call emitted, as its last frame, the block of that round with no entry. */
static int proposed(apollo_answer a, uint8_t round) {
  const uint8_t *frame = out + APOLLO_FRAME * (a.frames - 1);
  uint8_t digest[APOLLO_DIGEST], rest[436] = {0};
  apollo_digest(frame, 480, digest);
  return a.number == APOLLO_TAKEN && a.frames > 0 && frame[0] == APOLLO_BLOCK && frame[2] == 0 && frame[3] == 0 && frame[7] == round &&
         memcmp(frame + 44, rest, sizeof rest) == 0 && memcmp(frame + 480, digest, sizeof digest) == 0;
}

static apollo_answer open_card(uint8_t id) {
  return apollo_open(id, 1, (apollo_ticks){1}, (apollo_round){T}, rotation, 3, log_, LOG, masks, T, NULL, 0, out, sizeof out);
}

static uint8_t block[APOLLO_FRAME], blame[APOLLO_FRAME]; /* card 0's block of round 1 and blame of round 2 */

/* Card 2 waits for round 2. */
static apollo_replica second_round(void) {
  return apollo_branch(open_card(2).replica, log_, LOG, masks, T, block, sizeof block, NULL, 0, out, sizeof out).replica;
}

/* apollo_blame and apollo_blames */
typedef apollo_answer blame_call(apollo_replica, uint8_t *, size_t, uint16_t *, size_t, const uint8_t *, size_t, const uint8_t *,
                                 size_t, uint8_t *, size_t);

/* The blame comes before the own one, which then passes over round 2, and after it. The record at the end. */
static apollo_replica hand_in(blame_call *call) {
  apollo_replica r = second_round();
  EXPECT(call(r, NULL, 0, masks, T, blame, sizeof blame, NULL, 0, out, sizeof out).number == APOLLO_BAD_REPLICA);
  EXPECT(call(r, log_, LOG, NULL, 0, blame, sizeof blame, NULL, 0, out, sizeof out).number == APOLLO_BAD_REPLICA);
  EXPECT(call(r, log_, LOG, masks, T, NULL, 0, NULL, 0, out, sizeof out).number == APOLLO_BAD_LENGTH);
  EXPECT(call(r, log_, LOG, masks, T, blame, sizeof blame, NULL, 0, NULL, 0).number == APOLLO_OUT_TOO_SHORT);
  apollo_answer a = call(r, log_, LOG, masks, T, blame, sizeof blame, NULL, 0, out, sizeof out);
  EXPECT(a.number == APOLLO_TAKEN && a.frames == 0);
  a = apollo_tick(a.replica, log_, LOG, masks, T, NULL, 0, out, sizeof out);
  EXPECT(a.frames == 2 && proposed(a, 3));

  r = apollo_tick(second_round(), log_, LOG, masks, T, NULL, 0, out, sizeof out).replica;
  a = call(r, log_, LOG, masks, T, blame, sizeof blame, NULL, 0, out, sizeof out);
  EXPECT(a.frames == 1 && proposed(a, 3) && a.replica.committed_height.value == 1);
  return a.replica;
}

static void opening(void) {
  apollo_ticks one = {1};
  apollo_round last = {T};
  EXPECT(apollo_open(0, 1, one, last, rotation, 3, NULL, 0, masks, T, NULL, 0, out, sizeof out).number == APOLLO_BAD_SETUP);
  EXPECT(apollo_open(0, 1, one, last, rotation, 3, log_, LOG, NULL, 0, NULL, 0, out, sizeof out).number == APOLLO_BAD_SETUP);
  EXPECT(apollo_open(0, 1, one, last, NULL, 0, log_, LOG, masks, T, NULL, 0, out, sizeof out).number == APOLLO_BAD_ROTATION);
  EXPECT(apollo_open(0, 1, one, last, NULL, 0, NULL, 0, NULL, 0, NULL, 0, NULL, 0).number == APOLLO_BAD_SETUP);
  EXPECT(apollo_open(0, 1, one, last, NULL, 0, log_, LOG, masks, T, NULL, 0, NULL, 0).number == APOLLO_BAD_ROTATION);
  EXPECT(apollo_open(0, 1, one, last, rotation, 3, log_, LOG, masks, T, NULL, 0, NULL, 0).number == APOLLO_OUT_TOO_SHORT);
}

/* Card 0's block and blame, for the other cards. */
static void frames_of_card_0(void) {
  apollo_answer a = open_card(0);
  EXPECT(proposed(a, 1));
  memcpy(block, out, sizeof block);
  a = apollo_tick(a.replica, log_, LOG, masks, T, NULL, 0, out, sizeof out);
  EXPECT(a.number == APOLLO_TAKEN && a.frames == 1 && out[0] == APOLLO_BLAME);
  memcpy(blame, out, sizeof blame);
}

static void branch(void) {
  apollo_replica r = open_card(1).replica;
  EXPECT(apollo_branch(r, NULL, 0, masks, T, block, sizeof block, NULL, 0, out, sizeof out).number == APOLLO_BAD_REPLICA);
  EXPECT(apollo_branch(r, log_, LOG, NULL, 0, block, sizeof block, NULL, 0, out, sizeof out).number == APOLLO_BAD_REPLICA);
  EXPECT(apollo_branch(r, log_, LOG, masks, T, NULL, 0, NULL, 0, out, sizeof out).number == APOLLO_BAD_LENGTH);
  EXPECT(apollo_branch(r, log_, LOG, masks, T, block, sizeof block, NULL, 0, NULL, 0).number == APOLLO_OUT_TOO_SHORT);
  EXPECT(proposed(apollo_branch(r, log_, LOG, masks, T, block, sizeof block, NULL, 0, out, sizeof out), 2));
}

static void tick(void) {
  apollo_replica r = second_round();
  EXPECT(apollo_tick(r, NULL, 0, masks, T, NULL, 0, out, sizeof out).number == APOLLO_BAD_REPLICA);
  EXPECT(apollo_tick(r, log_, LOG, NULL, 0, NULL, 0, out, sizeof out).number == APOLLO_BAD_REPLICA);
  EXPECT(apollo_tick(r, log_, LOG, masks, T, NULL, 0, NULL, 0).number == APOLLO_OUT_TOO_SHORT);
}

/* read, fetch and equivocation, of a record with a committed block */
static void others(apollo_replica r) {
  apollo_height height = {1}, none = {0};
  EXPECT(apollo_read(r, NULL, 0, height).number == APOLLO_BAD_REPLICA);
  apollo_part p = apollo_read(r, log_, LOG, height);
  EXPECT(p.number == APOLLO_TAKEN && p.start == 44 && p.length == 0);
  EXPECT(apollo_fetch(r, NULL, 0, none, out, sizeof out).number == APOLLO_BAD_REPLICA);
  EXPECT(apollo_fetch(r, log_, LOG, none, NULL, 0).number == APOLLO_OUT_TOO_SHORT);
  EXPECT(apollo_equivocation(r, NULL, 0).number == APOLLO_BAD_LENGTH);
  EXPECT(apollo_equivocation((apollo_replica){0}, NULL, 0).number == APOLLO_BAD_REPLICA);
}

static void digest_of_nothing(void) {
  static const uint8_t empty[4] = {0xe3, 0xb0, 0xc4, 0x42}; /* it begins so */
  uint8_t digest[APOLLO_DIGEST];
  apollo_digest(NULL, 0, digest);
  EXPECT(memcmp(digest, empty, sizeof empty) == 0);
}

int main(void) {
  opening();
  frames_of_card_0();
  branch();
  tick();
  hand_in(apollo_blame);
  others(hand_in(apollo_blames));
  digest_of_nothing();
  puts("NULL with length 0 is an empty buffer in every call");
  return 0;
}
