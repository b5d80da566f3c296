/* What the header tells a host's engineer beyond each call is so: slots, masks and leaders; which frames may be needed again; what an
 * old term's frames do; what a blame is, and a set of them; which calls commit, and what; how many frames a fetch gives, and how a card
 * that was away comes back with them; what a rotation is, and what it decides; whom two blocks of one round mark, and what a mark
 * changes.
 * Three cards, f = 1, where nothing else is said. Exits with 0 if all is so. */
#include "apollo.h"
#include "expect.h"

#include <string.h>

enum { T = 9, LOG = APOLLO_FRAME * T };

typedef struct {
  apollo_replica record;
  uint8_t log[LOG];
  uint16_t masks[T];
} card;

static uint8_t out[APOLLO_OUT];

static apollo_answer open_in(card *c, uint8_t id, const uint8_t rotation[3], const char *entry) {
  apollo_answer a = apollo_open(id, 1, (apollo_ticks){2}, (apollo_round){T}, rotation, 3, c->log, LOG, c->masks, T,
                                (const uint8_t *)entry, strlen(entry), out, sizeof out);
  EXPECT(a.number == APOLLO_TAKEN);
  c->record = a.replica;
  return a;
}

static const uint8_t in_order[3] = {0, 1, 2};
static apollo_answer open_card(card *c, uint8_t id, const char *entry) { return open_in(c, id, in_order, entry); }

static apollo_answer branch(card *c, const uint8_t *frames, size_t count) {
  apollo_answer a =
      apollo_branch(c->record, c->log, LOG, c->masks, T, frames, count * APOLLO_FRAME, (const uint8_t *)"x", 1, out, sizeof out);
  c->record = a.replica;
  return a;
}

static apollo_answer tick(card *c) {
  apollo_answer a = apollo_tick(c->record, c->log, LOG, c->masks, T, NULL, 0, out, sizeof out);
  c->record = a.replica;
  return a;
}

/* A blame is a function of its round and its signer. */
static void make_blame(uint8_t round, uint8_t signer, uint8_t frame[APOLLO_FRAME]) {
  memset(frame, 0, APOLLO_FRAME);
  frame[0] = APOLLO_BLAME;
  frame[1] = signer;
  frame[7] = round;
  apollo_digest(frame, 480, frame + 480);
}

static apollo_answer blame(card *c, uint8_t round, uint8_t signer) {
  uint8_t frame[APOLLO_FRAME];
  make_blame(round, signer, frame);
  apollo_answer a = apollo_blame(c->record, c->log, LOG, c->masks, T, frame, sizeof frame, NULL, 0, out, sizeof out);
  c->record = a.replica;
  return a;
}

static uint8_t frames[(APOLLO_MAX_BLAMES + 1) * APOLLO_FRAME];
static uint8_t *nth(size_t k) { return frames + k * APOLLO_FRAME; }

static apollo_answer hand_in(card *c, const uint8_t *set, size_t len) {
  apollo_answer a = apollo_blames(c->record, c->log, LOG, c->masks, T, set, len, (const uint8_t *)"y", 1, out, sizeof out);
  c->record = a.replica;
  return a;
}

/* Some blames of a round as one set: those of the cards with a one in `signers`. */
static apollo_answer hand_in_set(card *c, uint8_t round, unsigned signers) {
  size_t count = 0;
  for (uint8_t i = 0; i < 3; i++)
    if (signers >> i & 1) make_blame(round, i, nth(count++));
  return hand_in(c, frames, count * APOLLO_FRAME);
}

static int same_record(apollo_replica a, apollo_replica b) {
  return a.id == b.id && a.f == b.f && a.timeout.value == b.timeout.value && a.last_round.value == b.last_round.value &&
         a.round.value == b.round.value && a.timer.value == b.timer.value && a.tip_round.value == b.tip_round.value &&
         a.tip_height.value == b.tip_height.value && a.committed_round.value == b.committed_round.value &&
         a.committed_height.value == b.committed_height.value && memcmp(a.rotation, b.rotation, sizeof a.rotation) == 0 &&
         a.equivocators == b.equivocators;
}

static card zero, other, one, two;

/* A lying card 0 has two blocks for round 1. Card 2 takes one and is answered 10 for the other, which block 2 then needs. */
static void stale_parent(void) {
  uint8_t first[APOLLO_FRAME], pair[2 * APOLLO_FRAME];
  open_card(&zero, 0, "A");
  memcpy(first, out, APOLLO_FRAME);
  open_card(&other, 0, "B");
  memcpy(pair, out, APOLLO_FRAME);
  open_card(&one, 1, "");
  open_card(&two, 2, "");
  EXPECT(branch(&one, pair, 1).frames == 1);
  memcpy(pair + APOLLO_FRAME, out, APOLLO_FRAME);
  EXPECT(branch(&two, first, 1).number == APOLLO_TAKEN);
  EXPECT(branch(&two, pair, 1).number == APOLLO_STALE);
  EXPECT(branch(&two, pair + APOLLO_FRAME, 1).number == APOLLO_UNATTACHED);
  EXPECT(branch(&two, pair, 2).number == APOLLO_TAKEN);
}

/* Slot r begins at byte 512 (r - 1), bit i of mask r - 1 is card i's blame, a part lies in its slot, the leader sits at (R - 1) mod n. */
static void layout_of_state(void) {
  uint8_t first[APOLLO_FRAME];
  apollo_answer a = open_card(&zero, 0, "A");
  memcpy(first, out, APOLLO_FRAME);
  EXPECT(a.leader == 1 && memcmp(zero.log, first, APOLLO_FRAME) == 0 && zero.log[0] == APOLLO_BLOCK && zero.log[APOLLO_FRAME] == 0);
  EXPECT(open_card(&one, 1, "").leader == 0);
  a = branch(&one, first, 1); /* it leads round 2 and proposes "x" in the same call */
  EXPECT(a.frames == 1 && a.leader == 2 && one.log[APOLLO_FRAME] == APOLLO_BLOCK && one.log[APOLLO_FRAME + 44] == 'x');
  EXPECT(memcmp(one.log + APOLLO_FRAME + 12, first + 480, APOLLO_DIGEST) == 0);
  apollo_part p = apollo_read(one.record, one.log, LOG, (apollo_height){1});
  EXPECT(p.number == APOLLO_TAKEN && p.start / APOLLO_FRAME + 1 == 1 && one.log[p.start] == 'A');
  EXPECT(blame(&one, 3, 2).number == APOLLO_TAKEN && one.masks[2] == 1u << 2 && one.masks[1] == 0);
}

/* A tick's blame is the one made by hand; with no ticks left nothing happens; a blame above R is early, one below only sets its bit. */
static void blames(void) {
  uint8_t frame[APOLLO_FRAME];
  open_card(&two, 2, "");
  EXPECT(tick(&two).frames == 0);
  EXPECT(tick(&two).frames == 1);
  make_blame(1, 2, frame);
  EXPECT(memcmp(out, frame, APOLLO_FRAME) == 0 && two.masks[0] == 1u << 2);
  apollo_replica before = two.record;
  apollo_answer a = tick(&two);
  EXPECT(a.number == APOLLO_TAKEN && a.frames == 0 && same_record(before, two.record));
  EXPECT(blame(&two, 2, 1).number == APOLLO_EARLY);
  EXPECT(blame(&two, 1, 1).number == APOLLO_TAKEN && two.record.round.value == 2);
  a = blame(&two, 1, 0);
  EXPECT(a.number == APOLLO_TAKEN && a.frames == 0 && two.record.round.value == 2 && two.masks[0] == 7);
}

/* A set is taken whole. Bits that stand are passed over, so all that is kept of a round may go in; with no new bit it is stale. R grows
 * once, though there are more than f + 1. Above R it is early until R has come, below R it sets bits and nothing else. */
static void sets(void) {
  open_card(&two, 2, "");
  EXPECT(hand_in_set(&two, 2, 3).number == APOLLO_EARLY && two.masks[1] == 0);
  EXPECT(hand_in_set(&two, 1, 1).number == APOLLO_TAKEN && two.masks[0] == 1 && two.record.round.value == 1);
  EXPECT(hand_in_set(&two, 1, 1).number == APOLLO_STALE);
  apollo_answer a = hand_in_set(&two, 1, 7);
  EXPECT(a.number == APOLLO_TAKEN && a.frames == 0 && a.leader == 1 && two.masks[0] == 7 && two.record.round.value == 2);
  EXPECT(hand_in_set(&two, 1, 7).number == APOLLO_STALE && blame(&two, 1, 0).number == APOLLO_STALE);
  a = hand_in_set(&two, 2, 3); /* it leads round 3 and proposes "y" in the same call */
  EXPECT(a.number == APOLLO_TAKEN && a.frames == 1 && two.masks[1] == 3 && two.record.round.value == 4);
  EXPECT(out[0] == APOLLO_BLOCK && out[7] == 3 && out[44] == 'y' && memcmp(out, two.log + 2 * APOLLO_FRAME, APOLLO_FRAME) == 0);
  a = hand_in_set(&two, 2, 6);
  EXPECT(a.number == APOLLO_TAKEN && a.frames == 0 && two.masks[1] == 7 && two.record.round.value == 4);
}

static void fill(size_t count, uint8_t round, uint8_t signer) {
  for (size_t k = 0; k < count; k++) make_blame(round, signer, nth(k));
}

/* Is card 2 answered so for the first few of `frames`, with no bit set? */
static int refused(size_t count, int number, uint32_t place) {
  uint16_t before[T];
  memcpy(before, two.masks, sizeof before);
  apollo_answer a = hand_in(&two, frames, count * APOLLO_FRAME);
  return a.number == number && a.place == place && a.leader == APOLLO_NO_LEADER && memcmp(before, two.masks, sizeof before) == 0;
}

/* A bad frame holds up its set, which goes in without it. Two rounds or a signer twice are no set: that comes after every frame's own
 * refusals, before early and stale. Up to 15 frames are no cut, for three cards either. */
static void bad_sets(void) {
  open_card(&two, 2, "");
  fill(APOLLO_MAX_BLAMES + 1, 1, 0);
  EXPECT(refused(APOLLO_MAX_BLAMES + 1, APOLLO_BAD_LENGTH, 0) && refused(0, APOLLO_BAD_LENGTH, 0));
  EXPECT(hand_in(&two, frames, APOLLO_FRAME + 1).number == APOLLO_BAD_LENGTH);
  EXPECT(refused(APOLLO_MAX_BLAMES, APOLLO_NOT_A_SET, 0) && refused(2, APOLLO_NOT_A_SET, 0));
  nth(2)[480] ^= 1;
  EXPECT(refused(3, APOLLO_BAD_DIGEST, 2));
  nth(2)[100] = 1; /* where a blame has zeros */
  apollo_digest(nth(2), 480, nth(2) + 480);
  EXPECT(refused(3, APOLLO_BAD_FORM, 2));
  make_blame(2, 1, nth(1));
  EXPECT(refused(2, APOLLO_NOT_A_SET, 0));
  EXPECT(hand_in(&two, frames, APOLLO_FRAME).number == APOLLO_TAKEN && two.masks[0] == 1);
  fill(2, 1, 0); /* stands already */
  EXPECT(refused(2, APOLLO_NOT_A_SET, 0));
  fill(2, 2, 1); /* above R */
  EXPECT(refused(2, APOLLO_NOT_A_SET, 0) && refused(1, APOLLO_EARLY, 0));
}

/* Two calls answered alike, a at card x into `out` and b at card y into this tray, and left the same. How they were answered. */
static uint8_t left_alike(apollo_answer a, const card *x, apollo_answer b, const card *y, const uint8_t *tray) {
  EXPECT(a.number == b.number && a.frames == b.frames && a.leader == b.leader && a.place == b.place);
  EXPECT(same_record(a.replica, b.replica) && memcmp(out, tray, sizeof out) == 0);
  EXPECT(memcmp(x->log, y->log, LOG) == 0 && memcmp(x->masks, y->masks, sizeof x->masks) == 0);
  return a.number;
}

/* Hands one buffer to both calls, on a state each, lent `entry` and `space` bytes: they answer the same and leave the same. */
static uint8_t alike(const card *c, const uint8_t *frame, size_t len, size_t entry, size_t space) {
  static const uint8_t text[APOLLO_ENTRY + 1] = "z";
  static uint8_t tray[APOLLO_OUT];
  card x = *c, y = *c;
  memset(out, 5, sizeof out);
  memset(tray, 5, sizeof tray);
  apollo_answer a = apollo_blame(x.record, x.log, LOG, x.masks, T, frame, len, text, entry, out, space);
  apollo_answer b = apollo_blames(y.record, y.log, LOG, y.masks, T, frame, len, text, entry, tray, space);
  return left_alike(a, &x, b, &y, tray);
}

/* A set of one is a blame: taken in R, below it and where it passes R over and the card proposes, and with each refusal. */
static void set_of_one(void) {
  uint8_t frame[APOLLO_FRAME];
  open_card(&two, 2, "");
  EXPECT(hand_in_set(&two, 1, 3).number == APOLLO_TAKEN && hand_in_set(&two, 2, 1).number == APOLLO_TAKEN);
  for (uint8_t round = 1; round < 4; round++)
    for (uint8_t signer = 0; signer < 4; signer++) {
      make_blame(round, signer, frame);
      int number = signer > 2 ? APOLLO_BAD_FORM : round > 2 ? APOLLO_EARLY : two.masks[round - 1] >> signer & 1 ? APOLLO_STALE : 0;
      EXPECT(alike(&two, frame, sizeof frame, 3, sizeof out) == number);
    }
  make_blame(2, 1, frame);
  EXPECT(alike(&two, frame, sizeof frame, APOLLO_ENTRY + 1, sizeof out) == APOLLO_ENTRY_TOO_LONG);
  EXPECT(alike(&two, frame, sizeof frame, 0, sizeof out - 1) == APOLLO_OUT_TOO_SHORT);
  EXPECT(alike(&two, frame, sizeof frame - 1, 0, sizeof out) == APOLLO_BAD_LENGTH);
  other = two;
  other.record.round.value = T + 1;
  EXPECT(alike(&other, frame, sizeof frame, 0, sizeof out) == APOLLO_ROUNDS_OVER);
  other.record.round.value = T + 2;
  EXPECT(alike(&other, frame, sizeof frame, 0, sizeof out) == APOLLO_BAD_REPLICA);
  frame[480] ^= 1;
  EXPECT(alike(&two, frame, sizeof frame, 0, sizeof out) == APOLLO_BAD_DIGEST);
}

/* 0 is no block. The timer is full on each new round. A block is taken after the own blame of its round. Block 1 is committed when R is
 * 3. A term of f rounds is opened. */
static void what_calls_leave(void) {
  uint8_t first[APOLLO_FRAME], second[APOLLO_FRAME];
  open_card(&zero, 0, "A");
  memcpy(first, out, APOLLO_FRAME);
  EXPECT(zero.record.tip_round.value == 1 && zero.record.committed_round.value == 0 && zero.record.round.value == 2);
  open_card(&one, 1, "");
  EXPECT(branch(&one, first, 1).frames == 1);
  memcpy(second, out, APOLLO_FRAME);
  open_card(&two, 2, "");
  EXPECT(two.record.tip_round.value == 0 && two.record.committed_round.value == 0 && two.record.timer.value == 2);
  EXPECT(tick(&two).number == APOLLO_TAKEN && tick(&two).frames == 1 && two.record.timer.value == 0 && two.record.round.value == 1);
  EXPECT(branch(&two, first, 1).number == APOLLO_TAKEN && two.record.round.value == 2 && two.record.timer.value == 2);
  EXPECT(branch(&zero, second, 1).number == APOLLO_TAKEN && zero.record.committed_round.value == 1);
  EXPECT(apollo_open(0, 1, (apollo_ticks){2}, (apollo_round){1}, in_order, 3, zero.log, APOLLO_FRAME, zero.masks, 1, NULL, 0, out,
                     sizeof out)
             .number == APOLLO_TAKEN);
}

/* Does the card wait for this round, with these rounds of its newest and its newest committed block? */
static int stands(const card *c, uint32_t round, uint32_t tip, uint32_t committed) {
  const apollo_replica *r = &c->record;
  return r->round.value == round && r->tip_round.value == tip && r->committed_round.value == committed;
}

/* Card 0 holds block 1 alone and waits for round 2, so that the limit R - 1 - f is 0. */
static void wait_for_second(void) {
  open_card(&zero, 0, "A");
  EXPECT(stands(&zero, 2, 1, 0));
}

/* f + 1 blames of round 2 make R 3 and the limit 1: block 1 is committed by a blame, by a set and by a tick, with no block after it. The
 * first of the blames, and one more when the round is passed, commit nothing. */
static void commit_by_blames(void) {
  wait_for_second();
  EXPECT(blame(&zero, 2, 1).number == APOLLO_TAKEN && stands(&zero, 2, 1, 0));
  EXPECT(apollo_read(zero.record, zero.log, LOG, (apollo_height){1}).number == APOLLO_ABSENT);
  EXPECT(blame(&zero, 2, 2).frames == 0 && stands(&zero, 3, 1, 1) && zero.record.committed_height.value == 1);
  apollo_part p = apollo_read(zero.record, zero.log, LOG, (apollo_height){1});
  EXPECT(p.number == APOLLO_TAKEN && p.length == 1 && zero.log[p.start] == 'A');
  wait_for_second();
  EXPECT(hand_in_set(&zero, 2, 6).frames == 0 && stands(&zero, 3, 1, 1) && zero.record.committed_height.value == 1);
  wait_for_second();
  EXPECT(blame(&zero, 2, 2).number == APOLLO_TAKEN && tick(&zero).frames == 0 && stands(&zero, 2, 1, 0));
  EXPECT(tick(&zero).frames == 1 && out[0] == APOLLO_BLAME && stands(&zero, 3, 1, 1) && zero.record.committed_height.value == 1);
  zero.record.committed_round.value = zero.record.committed_height.value = 0; /* to see that it stays so while R does */
  EXPECT(blame(&zero, 2, 1).number == APOLLO_TAKEN && blame(&zero, 3, 1).number == APOLLO_TAKEN && stands(&zero, 3, 1, 0));
  EXPECT(tick(&zero).number == APOLLO_TAKEN && stands(&zero, 3, 1, 0));
  EXPECT(hand_in_set(&zero, 3, 4).frames == 1 && stands(&zero, 5, 4, 1)); /* its own block 4; the limit is 3, 2 and 3 are empty */
}

/* One turn, rounds first to first + 2, of cards 0 and 1, who do not hear card 2 and blame its round. Card 0's block comes in `a` and its
 * next one goes there. Card 2 hears them, and its own blocks are for nobody. */
static void turn_without_two(uint8_t first, uint8_t a[APOLLO_FRAME]) {
  uint8_t b[APOLLO_FRAME];
  EXPECT(branch(&one, a, 1).frames == 1 && stands(&one, first + 2u, first + 1u, first));
  memcpy(b, out, APOLLO_FRAME);
  EXPECT(branch(&zero, b, 1).number == APOLLO_TAKEN && stands(&zero, first + 2u, first + 1u, first));
  EXPECT(branch(&two, a, 1).number == APOLLO_TAKEN && branch(&two, b, 1).frames == 1);
  EXPECT(stands(&two, first + 3u, first + 2u, first + 1u));
  EXPECT(hand_in_set(&two, first + 2, 3).number == (first + 2 < T ? APOLLO_TAKEN : APOLLO_ROUNDS_OVER));
  EXPECT(hand_in_set(&one, first + 2, 3).frames == 0 && stands(&one, first + 3u, first + 1u, first + 1u));
  int more = first + 3 <= T;
  EXPECT(hand_in_set(&zero, first + 2, 3).frames == more);
  EXPECT(more ? stands(&zero, first + 4u, first + 3u, first + 1u) : stands(&zero, first + 3u, first + 1u, first + 1u));
  memcpy(a, out, APOLLO_FRAME);
}

/* A whole term so: cards 0 and 1 hold blocks 1, 2, 4, 5, 7 and 8, with heights 1 to 6, and have passed over rounds 3, 6 and 9. */
static void term_without_two(void) {
  uint8_t block[APOLLO_FRAME];
  open_card(&one, 1, "");
  open_card(&two, 2, "");
  open_card(&zero, 0, "A");
  memcpy(block, out, APOLLO_FRAME);
  for (uint8_t first = 1; first <= T; first += 3) turn_without_two(first, block);
}

/* At R = T + 1 cards 0 and 1 have passed over round 9 and card 2 holds a block of it: all have committed what is up to T - f = 8. */
static void end_of_term(void) {
  term_without_two();
  EXPECT(stands(&zero, T + 1, 8, 8) && stands(&one, T + 1, 8, 8) && stands(&two, T + 1, 9, 8));
  EXPECT(memcmp(zero.log, one.log, LOG) == 0 && memcmp(zero.log, two.log, 8 * APOLLO_FRAME) == 0);
  EXPECT(zero.record.committed_height.value == 6 && tick(&zero).number == APOLLO_ROUNDS_OVER);
}

/* A first frame whose parent is in the log is loose if its height is wrong; so is one on the genesis. */
static void false_height(void) {
  uint8_t frame[APOLLO_FRAME];
  open_card(&zero, 0, "A");
  memcpy(frame, out, APOLLO_FRAME);
  open_card(&one, 1, "");
  EXPECT(branch(&one, frame, 1).frames == 1);
  memcpy(frame, out, APOLLO_FRAME);
  frame[11] = 1; /* block 2 on block 1, with block 1's height */
  apollo_digest(frame, 480, frame + 480);
  EXPECT(branch(&zero, frame, 1).number == APOLLO_UNATTACHED);
  memset(frame + 12, 0, APOLLO_DIGEST);
  frame[11] = 2; /* on the genesis */
  apollo_digest(frame, 480, frame + 480);
  EXPECT(branch(&zero, frame, 1).number == APOLLO_UNATTACHED);
}

/* A block over a skipped round is answered 13 with that round, until f + 1 of its blames are there. */
static void skipped_round(void) {
  uint8_t first[APOLLO_FRAME], third[APOLLO_FRAME];
  open_card(&zero, 0, "A");
  memcpy(first, out, APOLLO_FRAME);
  open_card(&two, 2, "");
  EXPECT(branch(&two, first, 1).number == APOLLO_TAKEN && blame(&two, 2, 0).number == APOLLO_TAKEN);
  EXPECT(blame(&two, 2, 2).frames == 1); /* round 2 is passed over, and card 2 leads round 3 */
  memcpy(third, out, APOLLO_FRAME);
  apollo_answer a = branch(&zero, third, 1);
  EXPECT(a.number == APOLLO_NOT_CERTIFIED && a.place == 2 && a.leader == APOLLO_NO_LEADER);
  EXPECT(blame(&zero, 2, 2).number == APOLLO_TAKEN && branch(&zero, third, 1).number == APOLLO_NOT_CERTIFIED);
  EXPECT(blame(&zero, 2, 0).number == APOLLO_TAKEN && branch(&zero, third, 1).number == APOLLO_TAKEN);
}

/* Frames carry no term: a new term takes the last one's block 1. And a card that is behind proposes in a round that others passed over.
 */
static void terms_and_lag(void) {
  uint8_t first[APOLLO_FRAME], late[APOLLO_FRAME];
  open_card(&zero, 0, "last term");
  memcpy(first, out, APOLLO_FRAME);
  open_card(&one, 1, "");
  open_card(&two, 2, "");
  EXPECT(branch(&two, first, 1).number == APOLLO_TAKEN && blame(&two, 2, 0).number == APOLLO_TAKEN);
  EXPECT(blame(&two, 2, 2).number == APOLLO_TAKEN && two.record.round.value == 4);
  apollo_answer a = branch(&one, first, 1);
  EXPECT(a.number == APOLLO_TAKEN && a.frames == 1 && out[1] == 1 && out[7] == 2);
  memcpy(late, out, APOLLO_FRAME);
  EXPECT(branch(&two, late, 1).number == APOLLO_STALE);
}

/* With every tray up to two frames more than the chain has, above every height: a fetch gives exactly the smaller of the chain's frames
 * above the height and the whole frames that the tray takes, lowest rounds first, and leaves the bytes after them. 4 comes before 15. */
static void fetch_counts(void) {
  enum { CHAIN = 6, MOST = (CHAIN + 2) * APOLLO_FRAME };
  static const size_t rounds[CHAIN] = {1, 2, 4, 5, 7, 8};
  static uint8_t tray[MOST], before[MOST];
  term_without_two();
  memset(before, 5, sizeof before);
  for (size_t len = 0; len <= MOST; len++)
    for (uint32_t height = 0; height <= CHAIN + 1; height++) {
      size_t above = height < CHAIN ? CHAIN - height : 0, room = len / APOLLO_FRAME, copied;
      int number = len < APOLLO_OUT ? APOLLO_OUT_TOO_SHORT : above == 0 ? APOLLO_ABSENT : APOLLO_TAKEN;
      memcpy(tray, before, sizeof tray);
      apollo_fetched got = apollo_fetch(zero.record, zero.log, LOG, (apollo_height){height}, tray, len);
      EXPECT(got.number == number && got.count == (number != APOLLO_TAKEN ? 0 : above < room ? above : room));
      for (copied = 0; copied < got.count; copied++)
        EXPECT(memcmp(tray + copied * APOLLO_FRAME, zero.log + (rounds[height + copied] - 1) * APOLLO_FRAME, APOLLO_FRAME) == 0);
      EXPECT(memcmp(tray + copied * APOLLO_FRAME, before, sizeof tray - copied * APOLLO_FRAME) == 0);
    }
  zero.record.round.value = 0;
  EXPECT(apollo_fetch(zero.record, zero.log, LOG, (apollo_height){CHAIN}, tray, 0).number == APOLLO_BAD_REPLICA);
}

static uint8_t run[LOG];
static uint8_t *run_from(size_t k) { return run + k * APOLLO_FRAME; }

/* All of card 0's chain above a height, by trays of two frames, each fetch going on from the height of the last frame. How many. */
static size_t fetch_all(apollo_height height) {
  size_t count = 0;
  apollo_fetched got;
  while ((got = apollo_fetch(zero.record, zero.log, LOG, height, run_from(count), APOLLO_OUT)).number == APOLLO_TAKEN) {
    count += got.count;
    height.value = run_from(count - 1)[11];
  }
  EXPECT(got.number == APOLLO_ABSENT && got.count == 0);
  return count;
}

/* Is the branch answered 13 with this round? */
static int lacks(card *c, const uint8_t *from, size_t count, uint32_t place) {
  apollo_answer a = branch(c, from, count);
  return a.number == APOLLO_NOT_CERTIFIED && a.place == place;
}

/* Card 2 was away for the whole term, and takes what card 0 has above its committed height. Round 3, which that skips, is above its R,
 * and the blames of it are early: what is below goes in first. Card 2 then proposes in round 3, and what is above the height of this
 * tip is loose. So with round 6. At the end it has the same list. */
static void comes_back(void) {
  term_without_two();
  open_card(&two, 2, "");
  EXPECT(fetch_all(two.record.committed_height) == 6 && lacks(&two, run, 6, 3) && stands(&two, 1, 0, 0));
  EXPECT(hand_in_set(&two, 3, 3).number == APOLLO_EARLY);
  EXPECT(branch(&two, run, 2).frames == 1 && stands(&two, 4, 3, 2));
  EXPECT(fetch_all(two.record.tip_height) == 3 && branch(&two, run, 3).number == APOLLO_UNATTACHED);
  EXPECT(fetch_all(two.record.committed_height) == 4 && lacks(&two, run, 4, 3) && lacks(&two, run, 1, 3));
  EXPECT(hand_in_set(&two, 3, 3).number == APOLLO_TAKEN && lacks(&two, run, 4, 6) && two.record.round.value == 4);
  EXPECT(hand_in_set(&two, 6, 3).number == APOLLO_EARLY);
  EXPECT(branch(&two, run, 2).frames == 1 && stands(&two, 7, 6, 5) && hand_in_set(&two, 6, 3).number == APOLLO_TAKEN);
  EXPECT(two.record.committed_height.value == 4 && branch(&two, run_from(2), 2).frames == 1 && stands(&two, T + 1, 9, 8));
  EXPECT(memcmp(two.log, zero.log, 8 * APOLLO_FRAME) == 0 && branch(&two, run_from(3), 1).number == APOLLO_ROUNDS_OVER);
}

/* Where the round is R, its blames go in at once, and then the whole run. A card that is not ahead has nothing to give: 10. */
static void comes_back_at_once(void) {
  uint8_t block[APOLLO_FRAME];
  open_card(&zero, 0, "A");
  memcpy(block, out, APOLLO_FRAME);
  open_card(&one, 1, "");
  EXPECT(branch(&one, block, 1).frames == 1);
  memcpy(block, out, APOLLO_FRAME);
  EXPECT(branch(&zero, block, 1).number == APOLLO_TAKEN && stands(&zero, 3, 2, 1) && stands(&one, 3, 2, 1));
  EXPECT(fetch_all(one.record.committed_height) == 1 && branch(&one, run, 1).number == APOLLO_STALE);
  EXPECT(hand_in_set(&zero, 3, 5).frames == 1 && stands(&zero, 5, 4, 2));
  EXPECT(fetch_all(one.record.committed_height) == 2 && lacks(&one, run, 2, 3) && one.record.round.value == 3);
  EXPECT(hand_in_set(&one, 3, 5).number == APOLLO_TAKEN && branch(&one, run, 2).frames == 1 && stands(&one, 6, 5, 4));
}

/* What open is lent, its rotation apart. */
typedef struct {
  uint8_t id, f;
  uint32_t timeout;
  size_t log_len, masks_len, entry_len, out_len;
} lent;

static const lent right = {0, 1, 2, LOG, T, 3, APOLLO_OUT};

/* How open answers. A refusal leaves the buffers as they were and gives a record of zeros. */
static int opens(lent l, const uint8_t *rotation, size_t rotation_len) {
  static const uint8_t entry[APOLLO_ENTRY + 1];
  static const apollo_replica zeros;
  static card before;
  static uint8_t tray[APOLLO_OUT];
  memset(&before, 5, sizeof before);
  memset(&other, 5, sizeof other);
  memset(tray, 5, sizeof tray);
  memset(out, 5, sizeof out);
  apollo_answer a = apollo_open(l.id, l.f, (apollo_ticks){l.timeout}, (apollo_round){T}, rotation, rotation_len, other.log, l.log_len,
                                other.masks, l.masks_len, entry, l.entry_len, out, l.out_len);
  if (a.number == APOLLO_TAKEN) return a.number;
  EXPECT(a.frames == 0 && a.leader == APOLLO_NO_LEADER && a.place == 0 && same_record(a.replica, zeros));
  EXPECT(memcmp(&other, &before, sizeof other) == 0 && memcmp(out, tray, sizeof out) == 0);
  return a.number;
}

/* A rotation has every card once: of all triples of numbers up to 3 the six orders of 0, 1, 2 are taken, and no other length is. */
static void rotations(void) {
  static const uint8_t five[APOLLO_MAX_REPLICAS + 2] = {1, 2, 0, 3, 4};
  uint8_t seats[APOLLO_MAX_REPLICAS];
  int taken = 0;
  for (int k = 0; k < 64; k++) {
    const uint8_t triple[3] = {(uint8_t)(k & 3), (uint8_t)(k >> 2 & 3), (uint8_t)(k >> 4)};
    int number = opens(right, triple, 3), has = 1 << triple[0] | 1 << triple[1] | 1 << triple[2];
    EXPECT(number == (has == 7 ? APOLLO_TAKEN : APOLLO_BAD_ROTATION));
    taken += number == APOLLO_TAKEN;
  }
  EXPECT(taken == 6);
  for (size_t len = 0; len <= sizeof five; len++) EXPECT(opens(right, five, len) == (len == 3 ? APOLLO_TAKEN : APOLLO_BAD_ROTATION));
  for (int seat = 0; seat < 3; seat++)
    for (int number = 3; number < 256; number++) {
      memcpy(seats, in_order, 3);
      seats[seat] = (uint8_t)number;
      EXPECT(opens(right, seats, 3) == APOLLO_BAD_ROTATION);
    }
}

/* 15 cards, with the last one first; no card may be there in place of another. */
static void most_cards(void) {
  uint8_t seats[APOLLO_MAX_REPLICAS];
  lent l = right;
  l.f = APOLLO_MAX_F;
  for (int k = 0; k < APOLLO_MAX_REPLICAS; k++) seats[k] = (uint8_t)(APOLLO_MAX_REPLICAS - 1 - k);
  apollo_answer a = apollo_open(14, 7, (apollo_ticks){2}, (apollo_round){T}, seats, sizeof seats, zero.log, LOG, zero.masks, T, NULL, 0,
                                out, sizeof out);
  EXPECT(a.number == APOLLO_TAKEN && a.frames == 1 && a.leader == 13 && memcmp(a.replica.rotation, seats, sizeof seats) == 0);
  EXPECT(opens(l, seats, sizeof seats) == APOLLO_TAKEN && opens(l, seats, sizeof seats - 1) == APOLLO_BAD_ROTATION);
  for (int k = 0; k < APOLLO_MAX_REPLICAS; k++) {
    seats[k] ^= 1; /* another card's number, or 15 */
    EXPECT(opens(l, seats, sizeof seats) == APOLLO_BAD_ROTATION);
    seats[k] ^= 1;
  }
}

/* 17 comes after 1 and before 4 and 5. */
static void order_of_refusals(void) {
  static const uint8_t twice[3] = {0, 1, 1};
  const lent wrong[] = {{3, 1, 2, LOG, T, 3, APOLLO_OUT},
                        {0, 0, 2, LOG, T, 3, APOLLO_OUT},
                        {0, 8, 2, LOG, T, 3, APOLLO_OUT},
                        {0, 1, 0, LOG, T, 3, APOLLO_OUT},
                        {0, 1, APOLLO_MAX_TIMEOUT + 1, LOG, T, 3, APOLLO_OUT},
                        {0, 1, 2, LOG - 1, T, 3, APOLLO_OUT},
                        {0, 1, 2, LOG, T - 1, 3, APOLLO_OUT}};
  for (size_t k = 0; k < sizeof wrong / sizeof *wrong; k++)
    EXPECT(opens(wrong[k], in_order, 3) == APOLLO_BAD_SETUP && opens(wrong[k], twice, 3) == APOLLO_BAD_SETUP);
  lent l = right;
  l.entry_len = APOLLO_ENTRY + 1;
  EXPECT(opens(l, twice, 3) == APOLLO_BAD_ROTATION && opens(l, in_order, 3) == APOLLO_ENTRY_TOO_LONG);
  l.out_len = APOLLO_OUT - 1;
  EXPECT(opens(l, twice, 3) == APOLLO_BAD_ROTATION && opens(l, in_order, 3) == APOLLO_OUT_TOO_SHORT);
}

/* A whole term by a rotation, without faults: its card proposes each round, and its card is told as the leader. The record keeps it. */
static void lead_by(const uint8_t rotation[3]) {
  static const uint8_t none[APOLLO_MAX_REPLICAS - 3];
  card *const cards[3] = {&zero, &one, &two};
  uint8_t block[APOLLO_FRAME] = {0}, next[APOLLO_FRAME] = {0};
  for (uint8_t i = 0; i < 3; i++) {
    apollo_answer a = open_in(cards[i], i, rotation, "A");
    EXPECT(a.frames == (i == rotation[0]) && a.leader == rotation[a.frames] && cards[i]->record.round.value == 1u + a.frames);
    if (a.frames) memcpy(block, out, APOLLO_FRAME);
  }
  EXPECT(block[44] == 'A');
  for (uint8_t round = 1; round <= T; round++) {
    EXPECT(block[1] == rotation[(round - 1) % 3] && block[7] == round);
    for (uint8_t i = 0; i < 3; i++) {
      if (i == block[1]) continue;
      apollo_answer a = branch(cards[i], block, 1);
      EXPECT(a.number == APOLLO_TAKEN && a.frames == (round < T && i == rotation[round % 3]));
      EXPECT(a.leader == (round + a.frames < T ? rotation[(round + a.frames) % 3] : APOLLO_NO_LEADER));
      if (a.frames) memcpy(next, out, APOLLO_FRAME);
    }
    memcpy(block, next, APOLLO_FRAME);
  }
  for (int i = 0; i < 3; i++)
    EXPECT(memcmp(cards[i]->record.rotation, rotation, 3) == 0 && memcmp(cards[i]->record.rotation + 3, none, sizeof none) == 0);
}

static void leaders(void) {
  static const uint8_t all[6][3] = {{0, 1, 2}, {0, 2, 1}, {1, 0, 2}, {1, 2, 0}, {2, 0, 1}, {2, 1, 0}};
  for (int k = 0; k < 6; k++) lead_by(all[k]);
}

/* Does every call with card 2's log and masks refuse this record with 2, and hand it back? */
static int is_no_record(apollo_replica r) {
  static uint8_t frame[APOLLO_FRAME];
  apollo_answer a[4];
  apollo_marked m = apollo_equivocation(r, frame, sizeof frame);
  card c = two;
  a[0] = apollo_branch(r, c.log, LOG, c.masks, T, frame, sizeof frame, NULL, 0, out, sizeof out);
  a[1] = apollo_blame(r, c.log, LOG, c.masks, T, frame, sizeof frame, NULL, 0, out, sizeof out);
  a[2] = apollo_blames(r, c.log, LOG, c.masks, T, frame, sizeof frame, NULL, 0, out, sizeof out);
  a[3] = apollo_tick(r, c.log, LOG, c.masks, T, NULL, 0, out, sizeof out);
  for (int k = 0; k < 4; k++)
    if (a[k].number != APOLLO_BAD_REPLICA || !same_record(a[k].replica, r)) return 0;
  if (m.number != APOLLO_BAD_REPLICA || m.place != 0 || !same_record(m.replica, r)) return 0;
  return apollo_read(r, c.log, LOG, (apollo_height){1}).number == APOLLO_BAD_REPLICA &&
         apollo_fetch(r, c.log, LOG, (apollo_height){0}, out, sizeof out).number == APOLLO_BAD_REPLICA;
}

/* A record whose rotation is none, is not zero past n or gives the card the round that it waits for is answered 2 by every call. That
 * the host put another rotation there no call can see. */
static void rotation_of_record(void) {
  apollo_replica r;
  open_card(&two, 2, "");
  for (int k = 0; k < APOLLO_MAX_REPLICAS; k++)
    for (int number = 1; number < 256; number++) {
      r = two.record;
      r.rotation[k] = (uint8_t)(r.rotation[k] + number);
      EXPECT(is_no_record(r));
    }
  r = two.record;
  memset(r.rotation, 0, sizeof r.rotation);
  EXPECT(is_no_record(r));
  memcpy(r.rotation, (const uint8_t[]){2, 1, 0}, 3); /* round 1 would be its own */
  EXPECT(is_no_record(r));
  memcpy(r.rotation, (const uint8_t[]){1, 0, 2}, 3);
  two.record = r;
  EXPECT(tick(&two).leader == 1 && two.record.timer.value == 1);
}

/* A card that was opened with another rotation takes no block of the others, and they none of its; but blames go both ways. */
static void another_rotation(void) {
  static const uint8_t exchanged[3] = {1, 0, 2};
  uint8_t ours[APOLLO_FRAME], its[APOLLO_FRAME];
  open_card(&zero, 0, "A");
  memcpy(ours, out, APOLLO_FRAME);
  open_card(&two, 2, "");
  open_in(&one, 1, exchanged, "B");
  memcpy(its, out, APOLLO_FRAME);
  EXPECT(its[1] == 1 && its[7] == 1 && branch(&two, its, 1).number == APOLLO_BAD_FORM && branch(&two, ours, 1).number == APOLLO_TAKEN);
  open_in(&one, 2, exchanged, "");
  apollo_answer a = branch(&one, ours, 1);
  EXPECT(a.number == APOLLO_BAD_FORM && a.place == 0 && branch(&one, its, 1).number == APOLLO_TAKEN);
  EXPECT(blame(&one, 2, 0).number == APOLLO_TAKEN && blame(&two, 2, 1).number == APOLLO_TAKEN);
}

/* Two cards with a rotation each, and nobody lies: both lead round 1, both pass over round 2, and their lists part (AGREEMENT.md). */
static void parted_by_rotations(void) {
  static const uint8_t first[3] = {0, 2, 1}, second[3] = {1, 2, 0};
  uint8_t blocks[2][APOLLO_FRAME];
  card *const cards[2] = {&zero, &one};
  for (uint8_t i = 0; i < 2; i++) {
    EXPECT(open_in(cards[i], i, i ? second : first, i ? "B" : "A").leader == 2);
    memcpy(blocks[i], out, APOLLO_FRAME);
  }
  for (uint8_t i = 0; i < 2; i++) EXPECT(branch(cards[i], blocks[1 - i], 1).number == APOLLO_BAD_FORM);
  for (uint8_t i = 0; i < 2; i++) EXPECT(tick(cards[i]).frames == 0 && tick(cards[i]).frames == 1 && out[0] == APOLLO_BLAME && out[1] == i);
  for (uint8_t i = 0; i < 2; i++) EXPECT(blame(cards[i], 2, (uint8_t)(1 - i)).number == APOLLO_TAKEN && stands(cards[i], 3, 1, 1));
  EXPECT(zero.log[44] == 'A' && one.log[44] == 'B');
}

static uint8_t pair[3 * APOLLO_FRAME]; /* two frames, and room for a wrong length */
static uint8_t *const second = pair + APOLLO_FRAME;

/* A block of a round on a parent that nobody has. */
static void make_block(uint8_t signer, uint8_t round, uint8_t height, uint8_t entry, uint8_t frame[APOLLO_FRAME]) {
  memset(frame, 0, APOLLO_FRAME);
  frame[0] = APOLLO_BLOCK;
  frame[1] = signer;
  frame[3] = 1;
  frame[7] = round;
  frame[11] = height;
  memset(frame + 12, 9, APOLLO_DIGEST);
  frame[44] = entry;
  apollo_digest(frame, 480, frame + 480);
}

static void make_pair(uint8_t signer, uint8_t round) {
  make_block(signer, round, 1, 'A', pair);
  make_block(signer, round, round, 'B', second);
}

/* Is the pair refused so, with the record as it was? */
static int unmarked(apollo_replica r, size_t len, int number, uint32_t place) {
  apollo_marked m = apollo_equivocation(r, pair, len);
  return m.number == number && m.place == place && same_record(m.replica, r);
}

/* Is it taken, so that these are all marks and nothing else has changed? Keeps the record. */
static int marks(card *c, uint16_t all) {
  apollo_replica want = c->record;
  apollo_marked m = apollo_equivocation(c->record, pair, 2 * APOLLO_FRAME);
  want.equivocators = all;
  c->record = m.replica;
  return m.number == APOLLO_TAKEN && m.place == 0 && same_record(m.replica, want);
}

/* What a card emitted that was opened twice in a term marks it, in either order; the second time nothing changes. */
static void opened_twice(void) {
  open_card(&zero, 0, "A");
  memcpy(pair, out, APOLLO_FRAME);
  open_card(&zero, 0, "B");
  memcpy(second, out, APOLLO_FRAME);
  open_card(&two, 2, "");
  EXPECT(two.record.equivocators == 0 && marks(&two, 1) && marks(&two, 1));
  memcpy(second + APOLLO_FRAME, pair, APOLLO_FRAME);
  memmove(pair, second, 2 * APOLLO_FRAME);
  open_card(&two, 2, "");
  EXPECT(two.record.equivocators == 0 && marks(&two, 1));
}

/* By the rotation the card is marked, not the seat: in any round, whatever the card waits for, on no parent and with any heights. A mark
 * more leaves those that stand; all three may be marked, the card itself too. */
static void marked_by_rotation(void) {
  static const uint8_t rotation[3] = {2, 0, 1};
  uint16_t all = 0;
  open_in(&one, 1, rotation, "");
  for (uint8_t round = 1; round <= T; round++) {
    uint8_t leader = rotation[(round - 1) % 3];
    make_pair(leader, round);
    all |= (uint16_t)(1u << leader);
    EXPECT(marks(&one, all));
    make_pair((uint8_t)((leader + 1) % 3), round);
    EXPECT(unmarked(one.record, 2 * APOLLO_FRAME, APOLLO_BAD_FORM, 0));
  }
  EXPECT(all == 7 && tick(&one).number == APOLLO_TAKEN && one.record.equivocators == 7);
}

/* Every length but 1,024 is 6, after 2. Every byte of the first frame counts for the check, and of the second. */
static void bad_pairs(void) {
  open_card(&two, 2, "");
  make_pair(0, 1);
  for (size_t len = 0; len <= sizeof pair; len++) EXPECT(len == 2 * APOLLO_FRAME || unmarked(two.record, len, APOLLO_BAD_LENGTH, 0));
  for (uint32_t k = 0; k < 2 * APOLLO_FRAME; k++) {
    pair[k] ^= 1;
    EXPECT(unmarked(two.record, 2 * APOLLO_FRAME, APOLLO_BAD_DIGEST, k / APOLLO_FRAME));
    pair[k] ^= 1;
  }
  other = two;
  other.record.round.value = 0;
  EXPECT(unmarked(other.record, 0, APOLLO_BAD_REPLICA, 0) && marks(&two, 1));
}

/* With the check made again all bytes but the entry's, its length's upper one and the parent's still count, for the form. */
static void bad_forms(void) {
  open_card(&two, 2, "");
  for (uint32_t k = 0; k < 2 * APOLLO_FRAME; k++) {
    uint32_t at = k % APOLLO_FRAME;
    make_pair(0, 1);
    if (at >= 480) continue;
    pair[k] ^= 1;
    apollo_digest(pair + k - at, 480, pair + k - at + 480);
    if (at == 2 || (at >= 12 && at <= 44)) EXPECT(apollo_equivocation(two.record, pair, 2 * APOLLO_FRAME).number == APOLLO_TAKEN);
    else EXPECT(unmarked(two.record, 2 * APOLLO_FRAME, APOLLO_BAD_FORM, k / APOLLO_FRAME));
  }
  make_blame(1, 0, pair);
  make_blame(1, 1, second);
  EXPECT(unmarked(two.record, 2 * APOLLO_FRAME, APOLLO_BAD_FORM, 0));
}

/* 7 and 8 of the first frame come before those of the second, and these before 18. */
static void order_in_pairs(void) {
  open_card(&two, 2, "");
  make_blame(1, 0, pair);
  memcpy(second, pair, APOLLO_FRAME);
  second[480] ^= 1;
  EXPECT(unmarked(two.record, 2 * APOLLO_FRAME, APOLLO_BAD_FORM, 0));
  pair[480] ^= 1;
  EXPECT(unmarked(two.record, 2 * APOLLO_FRAME, APOLLO_BAD_DIGEST, 0));
  make_block(0, 1, 1, 'A', pair);
  EXPECT(unmarked(two.record, 2 * APOLLO_FRAME, APOLLO_BAD_DIGEST, 1));
  make_block(1, 1, 1, 'A', second);
  EXPECT(unmarked(two.record, 2 * APOLLO_FRAME, APOLLO_BAD_FORM, 1));
  memcpy(second, pair, APOLLO_FRAME);
  EXPECT(unmarked(two.record, 2 * APOLLO_FRAME, APOLLO_NOT_EQUIVOCATION, 0));
  make_block(0, 4, 1, 'A', second);
  EXPECT(unmarked(two.record, 2 * APOLLO_FRAME, APOLLO_NOT_EQUIVOCATION, 0));
  make_block(1, 2, 1, 'A', second);
  EXPECT(unmarked(two.record, 2 * APOLLO_FRAME, APOLLO_NOT_EQUIVOCATION, 0));
  make_block(0, 1, 1, 'B', second);
  EXPECT(marks(&two, 1));
}

/* A whole term with marks at its cards goes as without; when it is over, marks are still made, and of committed rounds too. */
static void marks_stay(void) {
  uint8_t block[APOLLO_FRAME];
  open_card(&one, 1, "");
  open_card(&two, 2, "");
  open_card(&zero, 0, "A");
  memcpy(block, out, APOLLO_FRAME);
  make_pair(2, 6);
  EXPECT(marks(&zero, 4) && marks(&two, 4));
  make_pair(1, 2);
  EXPECT(marks(&zero, 6) && marks(&one, 2));
  for (uint8_t first = 1; first <= T; first += 3) turn_without_two(first, block);
  EXPECT(stands(&zero, T + 1, 8, 8) && zero.record.equivocators == 6 && one.record.equivocators == 2 && two.record.equivocators == 4);
  EXPECT(tick(&zero).number == APOLLO_ROUNDS_OVER && zero.record.equivocators == 6 && marks(&zero, 6));
  make_pair(0, 1);
  EXPECT(marks(&zero, 7) && marks(&one, 3));
  make_pair(2, T);
  EXPECT(marks(&one, 7) && marks(&two, 4));
}

/* One of the four calls that change a record. */
static apollo_answer call(int which, card *c, const uint8_t *lent, size_t len, uint8_t tray[APOLLO_OUT]) {
  memset(tray, 5, APOLLO_OUT);
  if (which == 0) return apollo_branch(c->record, c->log, LOG, c->masks, T, lent, len, NULL, 0, tray, APOLLO_OUT);
  if (which == 1) return apollo_blame(c->record, c->log, LOG, c->masks, T, lent, len, NULL, 0, tray, APOLLO_OUT);
  if (which == 2) return apollo_blames(c->record, c->log, LOG, c->masks, T, lent, len, NULL, 0, tray, APOLLO_OUT);
  return apollo_tick(c->record, c->log, LOG, c->masks, T, NULL, 0, tray, APOLLO_OUT);
}

/* A call with these marks and with none, on a state each and lent the same: the marks stay, and all else is alike. How it is answered. */
static uint8_t alike_but_marks(int which, const card *c, const uint8_t *lent, size_t len, uint16_t all) {
  static uint8_t tray[APOLLO_OUT];
  card x = *c, y = *c;
  x.record.equivocators = all;
  y.record.equivocators = 0;
  apollo_answer a = call(which, &x, lent, len, out), b = call(which, &y, lent, len, tray);
  EXPECT(a.replica.equivocators == all && b.replica.equivocators == 0);
  b.replica.equivocators = all;
  return left_alike(a, &x, b, &y, tray);
}

/* So with all marks and calls, taken and refused: a block, the last of f + 1 blames, a tick that blames. Read and fetch give the same. */
static void marks_change_nothing(void) {
  uint8_t block[APOLLO_FRAME];
  open_card(&zero, 0, "A");
  memcpy(block, out, APOLLO_FRAME);
  open_card(&two, 2, "");
  EXPECT(blame(&two, 1, 1).number == APOLLO_TAKEN && tick(&two).number == APOLLO_TAKEN);
  make_blame(1, 0, frames);
  for (int k = 0; k < 4 * 8; k++) {
    uint16_t all = (uint16_t)(k / 4);
    EXPECT(alike_but_marks(k % 4, &two, block, APOLLO_FRAME, all) == (k % 4 == 0 || k % 4 == 3 ? APOLLO_TAKEN : APOLLO_BAD_FORM));
    EXPECT(alike_but_marks(k % 4, &two, frames, APOLLO_FRAME, all) == (k % 4 == 0 ? APOLLO_BAD_FORM : APOLLO_TAKEN));
    EXPECT(alike_but_marks(k % 4, &two, frames, 1, all) == (k % 4 == 3 ? APOLLO_TAKEN : APOLLO_BAD_LENGTH));
  }
  term_without_two();
  zero.record.equivocators = 7;
  apollo_height last = {6};
  apollo_part p = apollo_read(zero.record, zero.log, LOG, last), q = apollo_read(one.record, one.log, LOG, last);
  EXPECT(p.number == APOLLO_TAKEN && p.start == q.start && p.length == q.length && fetch_all((apollo_height){0}) == 6);
}

/* Marks of cards that are not there are no card's record: 2 in every call. With 15 cards that is one bit. */
static void marks_of_nobody(void) {
  uint8_t seats[APOLLO_MAX_REPLICAS];
  open_card(&two, 2, "");
  for (unsigned all = 8; all <= UINT16_MAX; all++) {
    apollo_replica r = two.record;
    r.equivocators = (uint16_t)all;
    EXPECT(is_no_record(r));
  }
  for (int k = 0; k < APOLLO_MAX_REPLICAS; k++) seats[k] = (uint8_t)k;
  two.record = apollo_open(1, 7, (apollo_ticks){2}, (apollo_round){T}, seats, sizeof seats, two.log, LOG, two.masks, T, NULL, 0, out,
                           sizeof out)
                   .replica;
  make_block(3, 4, 1, 'A', pair);
  make_block(3, 4, 2, 'A', second);
  EXPECT(marks(&two, 8));
  two.record.equivocators = 0x7ff7;
  EXPECT(marks(&two, 0x7fff) && tick(&two).number == APOLLO_TAKEN && two.record.equivocators == 0x7fff);
  two.record.equivocators = 0x8000;
  EXPECT(is_no_record(two.record));
}

/* 2 goes by the record's own fields, each of them: no log or masks are lent. */
static void records_by_themselves(void) {
  open_card(&two, 2, "");
  make_pair(0, 1);
  apollo_replica wrong[14];
  for (int k = 0; k < 14; k++) wrong[k] = two.record;
  wrong[0].id = 3;
  wrong[1].id = 0; /* it would lead the round that it waits for */
  wrong[2].f = 0;
  wrong[3].f = 8;
  wrong[4].timeout.value = 0;
  wrong[5].timeout.value = APOLLO_MAX_TIMEOUT + 1;
  wrong[6].timer.value = 3;
  wrong[7].last_round.value = 0;
  wrong[8].last_round.value = APOLLO_MAX_ROUNDS + 1;
  wrong[9].round.value = 0;
  wrong[10].round.value = T + 2;
  wrong[11].tip_round.value = 1;
  wrong[12].tip_height.value = 1;
  wrong[13].committed_round.value = 1;
  for (int k = 0; k < 14; k++) EXPECT(is_no_record(wrong[k]) && unmarked(wrong[k], 2 * APOLLO_FRAME, APOLLO_BAD_REPLICA, 0));
  two.record.last_round.value = T - 1;
  EXPECT(tick(&two).number == APOLLO_BAD_REPLICA && marks(&two, 1));
}

int main(void) {
  EXPECT(apollo_version() == APOLLO_VERSION);
  stale_parent();
  layout_of_state();
  blames();
  sets();
  bad_sets();
  set_of_one();
  what_calls_leave();
  commit_by_blames();
  end_of_term();
  false_height();
  skipped_round();
  terms_and_lag();
  fetch_counts();
  comes_back();
  comes_back_at_once();
  rotations();
  most_cards();
  order_of_refusals();
  leaders();
  rotation_of_record();
  another_rotation();
  parted_by_rotations();
  opened_twice();
  marked_by_rotation();
  bad_pairs();
  bad_forms();
  order_in_pairs();
  marks_stay();
  marks_change_nothing();
  marks_of_nobody();
  records_by_themselves();
  puts("what the header tells a host is so");
  return 0;
}
