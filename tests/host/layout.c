/* Header and archive are of one version, and the structs lie alike on both sides of the C interface: what a call is handed comes back
 * field by field, and the sizes and offsets are those that the library's `#[repr(C)]` structs have by their fields. Exits with 0 if all
 * is so. */
#include "apollo.h"
#include "expect.h"

#include <string.h>

#define AT(type, field, offset) EXPECT(offsetof(type, field) == (offset))

static void sizes(void) {
  EXPECT(sizeof(apollo_round) == 4 && sizeof(apollo_height) == 4 && sizeof(apollo_ticks) == 4);
  EXPECT(sizeof(apollo_replica) == 56 && sizeof((apollo_replica){0}.rotation) == 15 && APOLLO_MAX_REPLICAS == 15);
  AT(apollo_replica, id, 0);
  AT(apollo_replica, f, 1);
  AT(apollo_replica, timeout, 4);
  AT(apollo_replica, last_round, 8);
  AT(apollo_replica, round, 12);
  AT(apollo_replica, timer, 16);
  AT(apollo_replica, tip_round, 20);
  AT(apollo_replica, tip_height, 24);
  AT(apollo_replica, committed_round, 28);
  AT(apollo_replica, committed_height, 32);
  AT(apollo_replica, rotation, 36);
  AT(apollo_replica, equivocators, 52);
  EXPECT(sizeof((apollo_replica){0}.equivocators) == 2 && sizeof(apollo_answer) == 64);
  AT(apollo_answer, number, 0);
  AT(apollo_answer, frames, 1);
  AT(apollo_answer, leader, 2);
  AT(apollo_answer, place, 4);
  AT(apollo_answer, replica, 8);
  EXPECT(sizeof(apollo_part) == 24);
  AT(apollo_part, start, 8);
  AT(apollo_part, length, 16);
  EXPECT(sizeof(apollo_fetched) == 16);
  AT(apollo_fetched, count, 8);
  EXPECT(sizeof(apollo_marked) == 64);
  AT(apollo_marked, number, 0);
  AT(apollo_marked, place, 4);
  AT(apollo_marked, replica, 8);
}

/* Open has these arguments, in this order: else this does not compile. */
static apollo_answer (*const open_)(uint8_t id, uint8_t f, apollo_ticks timeout, apollo_round last_round, const uint8_t *rotation,
                                    size_t rotation_len, uint8_t *log, size_t log_len, uint16_t *masks, size_t masks_len,
                                    const uint8_t *entry, size_t entry_len, uint8_t *out, size_t out_len) = apollo_open;

static void is_the_same(apollo_replica r) {
  EXPECT(r.id == 201 && r.f == 202 && r.timeout.value == 1000003 && r.last_round.value == 1000004);
  EXPECT(r.round.value == 1000005 && r.timer.value == 1000006 && r.tip_round.value == 1000007);
  EXPECT(r.tip_height.value == 1000008 && r.committed_round.value == 1000009 && r.committed_height.value == 1000010);
  for (int k = 0; k < 15; k++) EXPECT(r.rotation[k] == 211 + k);
  EXPECT(r.equivocators == 60011);
}

static void comes_back(apollo_answer a) {
  EXPECT(a.number == APOLLO_BAD_REPLICA && a.frames == 0 && a.leader == APOLLO_NO_LEADER && a.place == 0);
  is_the_same(a.replica);
}

/* A record that no call made comes back as it went in, with refusal 2. */
static void echoed(void) {
  apollo_replica r = {201, 202, {1000003}, {1000004}, {1000005}, {1000006}, {1000007}, {1000008}, {1000009}, {1000010}, {0}, 60011};
  uint8_t log[512] = {0}, out[1024] = {0}, entry[1] = {0}, frames[1024] = {0};
  uint16_t masks[1] = {0};
  for (int k = 0; k < 15; k++) r.rotation[k] = (uint8_t)(211 + k);
  comes_back(apollo_branch(r, log, sizeof log, masks, 1, frames, sizeof frames, entry, 0, out, sizeof out));
  comes_back(apollo_blame(r, log, sizeof log, masks, 1, frames, 512, entry, 0, out, sizeof out));
  comes_back(apollo_blames(r, log, sizeof log, masks, 1, frames, sizeof frames, entry, 0, out, sizeof out));
  comes_back(apollo_tick(r, log, sizeof log, masks, 1, entry, 0, out, sizeof out));
  apollo_part p = apollo_read(r, log, sizeof log, (apollo_height){1});
  EXPECT(p.number == APOLLO_BAD_REPLICA && p.start == 0 && p.length == 0);
  apollo_fetched f = apollo_fetch(r, log, sizeof log, (apollo_height){0}, out, sizeof out);
  EXPECT(f.number == APOLLO_BAD_REPLICA && f.count == 0);
  apollo_marked m = apollo_equivocation(r, frames, sizeof frames);
  EXPECT(m.number == APOLLO_BAD_REPLICA && m.place == 0);
  is_the_same(m.replica);
}

/* What calls make stands in the right fields: open fills the record, a branch of a bad second frame tells its place, read tells a part,
 * an equivocation marks. */
static void filled(void) {
  enum { T = 3 };
  static const uint8_t rotation[15] = {2, 1, 0}; /* and what the record has behind */
  uint8_t log[2][512 * T], out[2][1024], frames[1024] = {0}, entry[5] = {'n', 'i', 'g', 'h', 't'};
  uint16_t masks[2][T];
  apollo_ticks seven = {7}, nine = {9};
  apollo_round last = {T};
  apollo_answer a = open_(2, 1, seven, last, rotation, 3, log[0], sizeof log[0], masks[0], T, entry, 5, out[0], 1024);
  EXPECT(a.number == 0 && a.frames == 1 && a.leader == 1 && a.replica.id == 2 && a.replica.f == 1);
  EXPECT(a.replica.timeout.value == 7 && a.replica.timer.value == 7 && a.replica.last_round.value == T && a.replica.round.value == 2);
  EXPECT(a.replica.tip_round.value == 1 && a.replica.tip_height.value == 1 && a.replica.committed_round.value == 0);
  EXPECT(memcmp(a.replica.rotation, rotation, 15) == 0 && a.replica.equivocators == 0);
  apollo_answer b = open_(1, 1, nine, last, rotation, 3, log[1], sizeof log[1], masks[1], T, entry, 5, out[1], 1024);
  EXPECT(b.number == 0 && b.frames == 0 && b.leader == 2 && b.replica.id == 1 && b.replica.timeout.value == 9);
  memcpy(frames, out[0], 512);
  apollo_answer c = apollo_branch(b.replica, log[1], sizeof log[1], masks[1], T, frames, 1024, entry, 5, out[1], 1024);
  EXPECT(c.number == APOLLO_BAD_DIGEST && c.place == 1);
  c = apollo_branch(b.replica, log[1], sizeof log[1], masks[1], T, frames, 512, entry, 5, out[1], 1024);
  EXPECT(c.number == 0 && c.frames == 1 && c.leader == 0 && c.replica.committed_round.value == 1 && c.replica.committed_height.value == 1);
  EXPECT(memcmp(c.replica.rotation, rotation, 15) == 0);
  apollo_part p = apollo_read(c.replica, log[1], sizeof log[1], (apollo_height){1});
  EXPECT(p.number == 0 && p.start == 44 && p.length == 5 && memcmp(log[1] + p.start, "night", 5) == 0);
  apollo_fetched f = apollo_fetch(c.replica, log[1], sizeof log[1], (apollo_height){0}, out[0], 1024);
  EXPECT(f.number == 0 && f.count == 2 && memcmp(out[0], log[1], 1024) == 0);
  apollo_marked m = apollo_equivocation(c.replica, frames, 1024);
  EXPECT(m.number == APOLLO_BAD_DIGEST && m.place == 1 && m.replica.equivocators == 0);
  open_(2, 1, seven, last, rotation, 3, log[0], sizeof log[0], masks[0], T, entry, 4, out[0], 1024);
  memcpy(frames + 512, out[0], 512);
  m = apollo_equivocation(c.replica, frames, 1024);
  EXPECT(m.number == 0 && m.place == 0 && m.replica.equivocators == 1u << 2 && m.replica.committed_height.value == 1);
}

int main(void) {
  EXPECT(apollo_version() == APOLLO_VERSION && APOLLO_VERSION == 6u && APOLLO_NOT_EQUIVOCATION == 18);
  sizes();
  echoed();
  filled();
  puts("version, sizes, offsets and values agree");
  return 0;
}
