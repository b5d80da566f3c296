/* card.c: a host for one card. See card.h. The rules that it keeps are in docs/HOSTS.md; R is the round that the card waits for. */
#include "card.h"

#include <stdlib.h>
#include <string.h>

/* A card that comes back sends a question again after PAUSE * retry ticks, since the answers are long, and TRIES times in all. One
 * that stands still asks every STILL * retry ticks. */
enum { TRIES = 3, PAUSE = 3, STILL = 9 };
_Static_assert(TRAY <= WINDOW, "card.frames takes a tray too");

/* ---- frames, slots, rounds */

static uint32_t get32(const uint8_t *p) { return (uint32_t)p[0] << 24 | (uint32_t)p[1] << 16 | (uint32_t)p[2] << 8 | p[3]; }
static uint32_t round_of(const uint8_t *frame) { return get32(frame + 4); }
static uint32_t height_of(const uint8_t *frame) { return get32(frame + 8); }
static const uint8_t *parent_of(const uint8_t *frame) { return frame + 12; }
static const uint8_t *digest_of(const uint8_t *frame) { return frame + 480; }
static int same(const uint8_t *a, const uint8_t *b) { return memcmp(a, b, APOLLO_DIGEST) == 0; }

static int cards(const card *c) { return 2 * c->setup.f + 1; }
static int leader_of(const card *c, uint32_t round) { return c->setup.rotation[(round - 1) % (uint32_t)cards(c)]; }
static uint32_t waited(const card *c) { return c->record.round.value; }
static uint32_t committed(const card *c) { return c->record.committed_round.value; }
static uint32_t committed_height(const card *c) { return c->record.committed_height.value; }
static size_t log_len(const card *c) { return (size_t)c->setup.rounds * APOLLO_FRAME; }
static const uint8_t *slot(const card *c, uint32_t round) { return c->log + (size_t)(round - 1) * APOLLO_FRAME; }
static int filled(const card *c, uint32_t round) { return slot(c, round)[0] == APOLLO_BLOCK; }
int card_is_over(const card *c) { return waited(c) > c->setup.rounds; }

static uint16_t bit(int id) { return (uint16_t)(1u << id); }

static int certified(const card *c, uint32_t round) {
  int count = 0;
  for (int i = 0; i < cards(c); i++) count += c->masks[round - 1] >> i & 1;
  return count > c->setup.f;
}

/* A blame is a function of its round and its signer. */
static void make_blame(uint32_t round, int signer, uint8_t frame[APOLLO_FRAME]) {
  memset(frame, 0, APOLLO_FRAME);
  frame[0] = APOLLO_BLAME;
  frame[1] = (uint8_t)signer;
  for (int k = 0; k < 4; k++) frame[4 + k] = (uint8_t)(round >> (24 - 8 * k));
  apollo_digest(frame, 480, frame + 480);
}

/* ---- sending */

size_t packet_size(const packet *p) {
  size_t size = offsetof(packet, block);
  if (p->kind == PACKET_BLOCK) size += sizeof p->block;
  if (p->kind == PACKET_BLAMES) size += sizeof p->blames;
  if (p->kind == PACKET_STATUS) size += sizeof p->status;
  if (p->kind == PACKET_FETCH) size += sizeof p->fetch;
  if (p->kind == PACKET_TRAY) size += offsetof(card_tray, blocks);
  if (p->kind == PACKET_TRAY) size += sizeof *p->tray.blocks * (p->tray.count < TRAY ? p->tray.count : TRAY);
  if (p->kind == PACKET_EVIDENCE) size += sizeof p->evidence;
  return size;
}

static signed_block block_in(const card *c, uint32_t round) {
  signed_block b;
  memcpy(b.frame, slot(c, round), APOLLO_FRAME);
  memcpy(b.signature, c->signature[round - 1], SIGNATURE);
  return b;
}

static void send_block(const card *c, int to, uint32_t round) {
  packet p = {.kind = PACKET_BLOCK, .from = c->setup.id, .block = block_in(c, round)};
  host_send(c->setup.id, to, &p);
}

/* Those of the kept blames of a round whose signers are among the given ones. */
static void send_blames(const card *c, int to, uint32_t round, uint16_t signers) {
  packet p = {.kind = PACKET_BLAMES, .from = c->setup.id, .blames = c->blames[round - 1]};
  p.blames.signers &= signers;
  if (p.blames.signers) host_send(c->setup.id, to, &p);
}

static void send_own_blame(const card *c, uint32_t round) {
  for (int to = 0; to < cards(c); to++)
    if (to != c->setup.id) send_blames(c, to, round, bit(c->setup.id));
}

/* What leads from a round on up to R, lowest first, or the blames of it alone: every round below R has its block, or else the blames
 * that passed it over. */
static void send_rounds(const card *c, int to, uint32_t first, int with_blocks) {
  for (uint32_t r = first, left = WINDOW; r < waited(c) && left > 0; r++) {
    if (filled(c, r) && !with_blocks) continue;
    if (filled(c, r)) send_block(c, to, r);
    else send_blames(c, to, r, UINT16_MAX);
    left--;
  }
}

/* The newest block with its parent, and the blames of the rounds that were passed over on the way to it and since: to one card or,
 * where the block is the card's own, to all. */
static void send_tip(const card *c, int leader) {
  uint32_t tip = c->record.tip_round.value, first = tip > 1 ? tip - 1 : 1;
  int own = tip > 0 && slot(c, tip)[1] == c->setup.id;
  while (first > 1 && !filled(c, first)) first--;
  for (int to = 0; to < cards(c); to++)
    if (to != c->setup.id && (own || to == leader)) send_rounds(c, to, first, 1);
}

static void send_status(const card *c, int to) {
  packet p = {.kind = PACKET_STATUS, .from = c->setup.id};
  p.status.round = waited(c);
  p.status.signers = card_is_over(c) ? 0 : c->blames[waited(c) - 1].signers;
  p.status.equivocators = c->record.equivocators;
  p.status.committed = committed(c);
  if (committed(c) > 0) memcpy(p.status.digest, digest_of(slot(c, committed(c))), APOLLO_DIGEST);
  host_send(c->setup.id, to, &p);
}

/* As many of the own chain's frames above a height as there is room for, lowest first; none where there are none (15). */
static void send_tray(card *c, int to, uint32_t height, uint32_t room) {
  packet p = {.kind = PACKET_TRAY, .from = c->setup.id, .tray = {.height = height, .room = room < TRAY ? room : TRAY}};
  apollo_fetched got =
      apollo_fetch(c->record, c->log, log_len(c), (apollo_height){height}, c->frames, (size_t)p.tray.room * APOLLO_FRAME);
  if (got.number == APOLLO_BAD_REPLICA) host_alarm(c->setup.id, ALARM_STATE, c->setup.id, 0);
  p.tray.count = (uint32_t)got.count;
  host_note(c, &(card_call){.kind = CALL_FETCH, .out = c->frames, .outs = got.count, .number = got.number});
  for (uint32_t k = 0; k < p.tray.count; k++) {
    const uint8_t *frame = c->frames + k * APOLLO_FRAME;
    memcpy(p.tray.blocks[k].frame, frame, APOLLO_FRAME);
    memcpy(p.tray.blocks[k].signature, c->signature[round_of(frame) - 1], SIGNATURE);
  }
  host_send(c->setup.id, to, &p);
}

/* ---- how far the others are */

/* How many other cards are past a round: they signed frames of later ones, or say so. Of f + 1 one is correct. */
static int passed_by(const card *c, uint32_t round) {
  int past = 0;
  for (int i = 0; i < cards(c); i++) past += i != c->setup.id && c->seen[i] > round;
  return past;
}

/* The next round that the card leads: the rotation has its number once. */
static uint32_t next_led(const card *c) {
  uint32_t r = waited(c);
  while (leader_of(c, r) != c->setup.id) r++;
  return r;
}

/* A card that is behind needs frames, not time. */
static int is_behind(const card *c) { return passed_by(c, waited(c) + 1) > c->setup.f; }

/* Was the card's own turn passed over? Then it counts among the f, nobody waits for it, and it may lack much: it fetches. */
static int was_away(const card *c) { return passed_by(c, next_led(c)) > c->setup.f; }

/* ---- entries */

static proposal *next_proposal(card *c) {
  for (size_t i = 0; i < c->lined; i++)
    if (c->line[i].round == 0) return &c->line[i];
  return NULL;
}

/* What the next call may propose. Nothing while the card is behind: it may then come to lead a round that the others passed over long
 * ago. Nothing for the term's last f rounds, which are not committed: it is proposed in the next term. */
static proposal *lend(card *c) { return is_behind(c) || next_led(c) + c->setup.f > c->setup.rounds ? NULL : next_proposal(c); }

/* Hands on what was committed since the last call, whichever it was: blames and ticks commit too. An own entry leaves the line when its
 * block is among that; where the slot does not hold that block, it was passed over for good, and the entry is proposed again. */
static void act(card *c) {
  size_t left = 0;
  for (; c->acted < committed(c); c->acted++) {
    const uint8_t *block = slot(c, c->acted + 1);
    size_t len = (size_t)block[2] << 8 | block[3];
    if (block[0] == APOLLO_BLOCK && len > 0) host_act(c->setup.id, c->acted + 1, block + 44, len);
  }
  for (size_t i = 0; i < c->lined; i++) {
    proposal *p = &c->line[i];
    int decided = p->round > 0 && p->round <= committed(c);
    if (decided && same(digest_of(slot(c, p->round)), p->digest)) continue;
    if (decided) {
      p->round = 0;
      c->again++;
    }
    if (left < i) c->line[left] = *p;
    left++;
  }
  c->lined = left;
}

int card_propose(card *c, const uint8_t *entry, size_t len) {
  if (len < 1 || len > APOLLO_ENTRY || c->lined == LINE) return 0;
  proposal *p = &c->line[c->lined++];
  memcpy(p->entry, entry, len);
  p->len = len;
  p->round = 0;
  return 1;
}

/* ---- after each call */

/* Signs an emitted frame. */
static void sign(card *c, const uint8_t *frame, proposal *lent) {
  uint32_t r = round_of(frame);
  int me = c->setup.id;
  if (frame[0] == APOLLO_BLAME) {
    host_sign(&c->setup, frame, c->blames[r - 1].signature[me]);
    c->blames[r - 1].signers |= bit(me);
  } else {
    host_sign(&c->setup, frame, c->signature[r - 1]);
    if (!lent) return;
    lent->round = r;
    memcpy(lent->digest, digest_of(frame), APOLLO_DIGEST);
  }
}

/* Takes over a call's answer: keeps the record, signs and sends what was emitted, and tells a new round's leader what it needs. */
static void take(card *c, apollo_answer a, card_call call, proposal *lent) {
  const uint8_t *out = call.out;
  uint32_t before = waited(c);
  if (a.number < NUMBERS) c->answers[a.number]++;
  if (a.number == APOLLO_BAD_REPLICA) host_alarm(c->setup.id, ALARM_STATE, c->setup.id, 0);
  if (a.number == APOLLO_REVERTS_COMMITTED) host_alarm(c->setup.id, ALARM_UNDONE, c->setup.id, committed(c));
  call.number = a.number;
  call.place = a.place;
  call.outs = a.frames;
  if (a.number == APOLLO_TAKEN) c->record = a.replica;
  host_note(c, &call);
  if (a.number != APOLLO_TAKEN) return;
  for (int k = 0; k < a.frames; k++) sign(c, out + k * APOLLO_FRAME, lent);
  /* A card that is to live on after a restart writes its state, or the call with all that it was lent, to disk here: before it acts on
   * anything or sends it. */
  act(c);
  if (a.frames > 0 && out[0] == APOLLO_BLAME) send_own_blame(c, round_of(out));
  if (waited(c) == before) return;
  c->moved = c->now;
  c->progress++;
  send_tip(c, a.leader);
}

/* ---- handing in */

/* Hands in, as one set, the blames of a round that the library does not have yet. */
static void hand_in_set(card *c, uint32_t round) {
  int fresh = c->blames[round - 1].signers & ~c->masks[round - 1], count = 0;
  uint8_t out[APOLLO_OUT];
  if (!fresh) return;
  for (int i = 0; i < cards(c); i++)
    if (fresh >> i & 1) make_blame(round, i, c->frames + APOLLO_FRAME * count++);
  proposal *p = lend(c);
  apollo_answer a = apollo_blames(c->record, c->log, log_len(c), c->masks, c->setup.rounds, c->frames, (size_t)count * APOLLO_FRAME,
                                  p ? p->entry : NULL, p ? p->len : 0, out, sizeof out);
  take(c, a, (card_call){.kind = CALL_BLAMES, .in = c->frames, .ins = (size_t)count, .out = out}, p);
}

/* Those of passed rounds too: a block that skips these rounds needs them. */
static void hand_in_blames(card *c) {
  for (uint32_t r = committed(c) + 1; r <= waited(c) && !card_is_over(c); r++) hand_in_set(c, r);
}

/* Hands in a branch. If it is taken, the signatures of its frames go with them into the log. */
static apollo_answer hand_in_branch(card *c, const uint8_t *frames, uint8_t (*signature)[SIGNATURE], size_t count) {
  uint8_t out[APOLLO_OUT];
  proposal *p = lend(c);
  apollo_answer a = apollo_branch(c->record, c->log, log_len(c), c->masks, c->setup.rounds, frames, count * APOLLO_FRAME,
                                  p ? p->entry : NULL, p ? p->len : 0, out, sizeof out);
  for (size_t k = 0; k < count && a.number == APOLLO_TAKEN; k++)
    memcpy(c->signature[round_of(frames + k * APOLLO_FRAME) - 1], signature[k], SIGNATURE);
  take(c, a, (card_call){.kind = CALL_BRANCH, .in = frames, .ins = count, .out = out}, p);
  return a;
}

static kept_block *find_kept(card *c, const uint8_t *digest) {
  for (int i = 0; i < cards(c); i++)
    for (int k = 0; k < WINDOW; k++) {
      kept_block *b = &c->kept[i][k];
      if (b->used && round_of(b->block.frame) > committed(c) && same(digest_of(b->block.frame), digest)) return b;
    }
  return NULL;
}

/* Does the log hold a block of that digest below a round, or is it the genesis's? */
static int in_log(const card *c, const uint8_t *digest, uint32_t below) {
  static const uint8_t genesis[APOLLO_DIGEST];
  for (uint32_t r = below - 1; r > 0 && r >= committed(c); r--)
    if (filled(c, r) && same(digest_of(slot(c, r)), digest)) return 1;
  return same(digest, genesis);
}

/* The branch that ends in a kept block: down its parents to one that is in the log. Their count, lowest last. */
static int trace_branch(card *c, kept_block *top, kept_block *chain[WINDOW]) {
  int count = 0;
  for (kept_block *b = top; b && count < WINDOW;) {
    const uint8_t *frame = b->block.frame;
    chain[count++] = b;
    b = in_log(c, parent_of(frame), round_of(frame)) ? NULL : find_kept(c, parent_of(frame));
    if (b && round_of(b->block.frame) >= round_of(frame)) b = NULL;
  }
  return count;
}

/* Keeps what the answer says a block waits for, and asks its sender for it. A bad frame goes: `place` is its index in the branch. So
 * does one that is loose though its parent is there: its height is wrong. */
static void learn(card *c, int sender, kept_block *chain[WINDOW], int count, apollo_answer a) {
  kept_block *top = chain[0], *low = chain[count - 1];
  const uint8_t *parent = parent_of(low->block.frame);
  top->tried = c->progress;
  top->number = a.number;
  top->place = a.place;
  memcpy(top->missing, parent, APOLLO_DIGEST);
  if (a.number == APOLLO_BAD_DIGEST || a.number == APOLLO_BAD_FORM || a.number == APOLLO_NOT_CHILD)
    chain[count - 1 - (int)a.place]->used = 0;
  else if (a.number == APOLLO_UNATTACHED && in_log(c, parent, round_of(low->block.frame))) low->used = 0;
  else if (a.number == APOLLO_UNATTACHED || a.number == APOLLO_NOT_CERTIFIED) c->ask |= bit(sender);
  else if (a.number != APOLLO_TAKEN) top->used = 0;
}

static void hand_in_block(card *c, int sender, kept_block *top) {
  kept_block *chain[WINDOW];
  uint8_t signature[WINDOW][SIGNATURE];
  int count = trace_branch(c, top, chain);
  for (int k = 0; k < count; k++) {
    const signed_block *b = &chain[count - 1 - k]->block;
    memcpy(c->frames + k * APOLLO_FRAME, b->frame, APOLLO_FRAME);
    memcpy(signature[k], b->signature, SIGNATURE);
  }
  learn(c, sender, chain, count, hand_in_branch(c, c->frames, signature, (size_t)count));
}

/* Is a kept block better not handed in now? It was, since the last progress; its parent goes first; what it was refused for is still
 * missing, and to ask the library would check its whole branch again; or the card has nothing to propose and puts its round off. */
static int must_wait(card *c, const kept_block *b) {
  const uint8_t *frame = b->block.frame;
  if (b->tried == c->progress) return 1;
  const kept_block *parent = find_kept(c, parent_of(frame));
  if (parent && round_of(parent->block.frame) >= waited(c)) return 1;
  if (b->number == APOLLO_NOT_CERTIFIED) return !certified(c, b->place);
  if (b->number == APOLLO_UNATTACHED) return !in_log(c, b->missing, round_of(frame)) && !find_kept(c, b->missing);
  return round_of(frame) == waited(c) && leader_of(c, waited(c) + 1) == c->setup.id && c->now < c->moved + c->setup.idle &&
         !next_proposal(c) && !is_behind(c);
}

/* The lowest kept block that may be handed in, and its sender. */
static kept_block *lowest(card *c, int *sender) {
  kept_block *low = NULL;
  for (int i = 0; i < cards(c); i++)
    for (int k = 0; k < WINDOW; k++) {
      kept_block *b = &c->kept[i][k];
      uint32_t r = round_of(b->block.frame);
      if (!b->used || r < waited(c) || (low && r >= round_of(low->block.frame)) || must_wait(c, b)) continue;
      low = b;
      *sender = i;
    }
  return low;
}

/* Hands in what may be taken now, blames first, then the blocks, lowest first, until nothing more is. */
static void settle(card *c) {
  int sender = 0;
  kept_block *b;
  do {
    hand_in_blames(c);
    b = card_is_over(c) ? NULL : lowest(c, &sender);
    if (b) hand_in_block(c, sender, b);
  } while (b);
}

/* ---- what a block must be: the cheap checks, and those that one that is known does not need */

/* By the frame table of apollo.h. The library judges all this too; but what is no block must not take a block's place here. */
static int is_block(const card *c, const uint8_t *frame) {
  uint32_t r = round_of(frame), len = (uint32_t)frame[2] << 8 | frame[3];
  uint8_t rest = 0;
  if (frame[0] != APOLLO_BLOCK || len > APOLLO_ENTRY || r < 1 || r > c->setup.rounds || frame[1] != leader_of(c, r)) return 0;
  for (uint32_t k = 44 + len; k < 480; k++) rest |= frame[k];
  return rest == 0 && height_of(frame) >= 1 && height_of(frame) <= r;
}

static int is_genuine(const card *c, const signed_block *b) {
  uint8_t digest[APOLLO_DIGEST];
  apollo_digest(b->frame, 480, digest);
  return same(digest, digest_of(b->frame)) && host_verify(&c->setup, b->frame, b->signature);
}

/* ---- two blocks of one round: their leader is marked, and goes on leading: what it sends is judged as ever */

static int is_marked(const card *c, int i) { return c->record.equivocators >> i & 1; }

static void send_evidence(const card *c, int to, int against) {
  packet p = {.kind = PACKET_EVIDENCE, .from = c->setup.id, .evidence = c->evidence[against]};
  host_send(c->setup.id, to, &p);
}

/* Hands in two genuine blocks of one round if they differ. Taken, their leader is marked: keeps both as evidence, tells the repairer
 * and passes it on. Once for each leader. */
static void hand_in_pair(card *c, const signed_block *a, const signed_block *b) {
  uint8_t pair[2 * APOLLO_FRAME];
  int leader = b->frame[1];
  if (is_marked(c, leader) || same(digest_of(a->frame), digest_of(b->frame))) return;
  memcpy(pair, a->frame, APOLLO_FRAME);
  memcpy(pair + APOLLO_FRAME, b->frame, APOLLO_FRAME);
  apollo_marked m = apollo_equivocation(c->record, pair, sizeof pair);
  if (m.number < NUMBERS) c->answers[m.number]++;
  if (m.number == APOLLO_BAD_REPLICA) host_alarm(c->setup.id, ALARM_STATE, c->setup.id, 0);
  if (m.number == APOLLO_TAKEN) c->record = m.replica; /* to disk, with the evidence, as after any other call */
  host_note(c, &(card_call){.kind = CALL_EQUIVOCATION, .in = pair, .ins = 2, .number = m.number, .place = m.place});
  if (m.number != APOLLO_TAKEN) return;
  c->evidence[leader] = (card_evidence){{*a, *b}};
  host_alarm(c->setup.id, ALARM_DOUBLE, leader, round_of(b->frame));
  for (int to = 0; to < cards(c); to++)
    if (to != c->setup.id) send_evidence(c, to, leader);
}

/* A genuine block against those of its round that are there: the one in the log, and what each sender sent, also where it is no longer
 * of use. Not a block of the card's own: one that differs from the log's is from before a loss of its state. */
static void compare(card *c, const signed_block *b) {
  uint32_t r = round_of(b->frame);
  if (b->frame[1] == c->setup.id) return;
  signed_block held = block_in(c, r);
  if (filled(c, r)) hand_in_pair(c, &held, b);
  for (int i = 0; i < cards(c); i++) {
    const signed_block *kept = &c->kept[i][r % WINDOW].block;
    if (round_of(kept->frame) == r) hand_in_pair(c, kept, b);
  }
}

/* What another card found out: its word counts for nothing, the two blocks are checked as every block that is heard. */
static void hear_evidence(card *c, const card_evidence *e) {
  const signed_block *a = &e->blocks[0], *b = &e->blocks[1];
  if (!is_block(c, a->frame) || !is_block(c, b->frame) || round_of(a->frame) != round_of(b->frame)) return;
  if (is_marked(c, a->frame[1]) || same(digest_of(a->frame), digest_of(b->frame))) return;
  if (is_genuine(c, a) && is_genuine(c, b)) hand_in_pair(c, a, b);
}

/* Sends a card that asks evidence against one that it has not marked, since the first may be lost. Not more often than a card asks by
 * itself. */
static void show_evidence(card *c, int to, uint16_t marked) {
  int lacks = c->record.equivocators & ~marked, against = 0;
  if (!lacks || c->now < c->shown[to]) return;
  c->shown[to] = c->now + c->setup.retry;
  while (!(lacks >> against & 1)) against++;
  send_evidence(c, to, against);
}

/* ---- coming back by the recipe of docs/HOSTS.md: the chain of one card above the own committed height is fetched and handed in */

static const uint8_t *collected(const card *c, uint32_t k) { return c->run.frames + (size_t)k * APOLLO_FRAME; }

/* The height of the last frame that has come: the next question goes on from there. */
static uint32_t reached(const card *c) { return c->run.base + c->run.count; }

static void send_fetch(card *c) {
  card_run *run = &c->run;
  packet p = {.kind = PACKET_FETCH,
              .from = c->setup.id,
              .fetch = {.height = reached(c), .round = run->lacks, .room = c->setup.tray}};
  run->asked = c->now;
  run->tries++;
  host_send(c->setup.id, run->from, &p);
}

/* Asks for the blames of a round or, with 0, for frames. */
static void ask_for(card *c, uint32_t lacks) {
  c->run.lacks = lacks;
  c->run.tries = 0;
  send_fetch(c);
}

/* Begins with the next card that is past the own turn: of f + 1 such cards one is correct. From the committed height, not the tip's:
 * the own tip may be on another branch. There is such a card. */
static void begin_run(card *c) {
  card_run *run = &c->run;
  do run->from = (run->from + 1) % cards(c);
  while (run->from == c->setup.id || c->seen[run->from] <= next_led(c));
  run->active = 1;
  run->base = committed_height(c);
  run->count = 0;
  c->runs++;
  ask_for(c, 0);
}

/* The first round above the committed one that the frames from the k-th on skip and the masks do not certify: the library would answer
 * 13 with it. T + 1 if there is none. */
static uint32_t first_gap(const card *c, uint32_t k) {
  for (uint32_t r = committed(c) + 1; k < c->run.count; r++) {
    if (round_of(collected(c, k)) <= r) k++;
    else if (!certified(c, r)) return r;
  }
  return c->setup.rounds + 1;
}

/* Hands in what has come run by run: as one branch all frames above the height that is committed by now and below the next gap, then
 * the blames, since R has come to the gap. Frames that end below R (10) go in with the next run: the card has taken them, or proposed
 * in their last round. Asks for the blames of a gap that have not come: the other card has them. The run is over when all is in, or
 * with any refusal: that chain is a liar's, or has changed meanwhile. */
static void hand_in_run(card *c) {
  card_run *run = &c->run;
  while (!card_is_over(c) && committed_height(c) < reached(c)) {
    uint32_t first = committed_height(c) - run->base, end = first, gap = first_gap(c, first);
    while (end < run->count && round_of(collected(c, end)) < gap) end++;
    int reaches = end > first && round_of(collected(c, end - 1)) >= waited(c);
    if (reaches && hand_in_branch(c, collected(c, first), run->signature + first, end - first).number != APOLLO_TAKEN) break;
    if (gap > c->setup.rounds) break;
    hand_in_blames(c);
    if (certified(c, gap) || card_is_over(c)) continue;
    ask_for(c, gap);
    return;
  }
  run->active = 0;
}

/* The next frame of the run, checked as every block that is heard. Heights go up by one and rounds rise: there are T at most. */
static int collect(card *c, const signed_block *b) {
  card_run *run = &c->run;
  uint32_t last = run->count > 0 ? round_of(collected(c, run->count - 1)) : 0;
  if (!is_block(c, b->frame) || round_of(b->frame) <= last || height_of(b->frame) != reached(c) + 1) return 0;
  if (!is_genuine(c, b)) return 0;
  compare(c, b);
  memcpy(run->frames + (size_t)run->count * APOLLO_FRAME, b->frame, APOLLO_FRAME);
  memcpy(run->signature[run->count++], b->signature, SIGNATURE);
  return 1;
}

/* After a full tray there may be more; any other ends the chain of the card that is asked. What does not answer the open question is
 * dropped; with a frame that is not as it must be, the run is. */
static void hear_tray(card *c, int from, const card_tray *t) {
  card_run *run = &c->run;
  if (!run->active || from != run->from || run->lacks || t->height != reached(c)) return;
  if (t->room < 2 || t->room > c->setup.tray || t->count > t->room) return; /* with room 0 a liar would be asked for ever */
  c->frames_got++;
  for (uint32_t k = 0; k < t->count && run->active; k++) run->active = collect(c, &t->blocks[k]);
  if (!run->active) return;
  if (t->count == t->room) ask_for(c, 0);
  else hand_in_run(c);
}

/* Begins if the card was away, or now and then while it stands still and one card says that it is past the own turn: what comes is
 * checked. Goes on when the blames that were asked for are there, whoever sent them, and asks again what was not answered; a card that
 * does not answer is left after some tries. */
static void come_back(card *c) {
  card_run *run = &c->run;
  if (run->active && run->lacks && (certified(c, run->lacks) || run->lacks <= committed(c))) {
    c->blames_got += (uint32_t)certified(c, run->lacks);
    hand_in_run(c);
  }
  if (run->active && c->now >= run->asked + PAUSE * c->setup.retry) {
    run->active = run->tries < TRIES;
    c->asked_again += (uint32_t)run->active;
    if (run->active) send_fetch(c);
  }
  int stands = (c->now - c->moved) % (STILL * c->setup.retry) == 0 && passed_by(c, next_led(c)) > 0; /* by now: R may have moved */
  if (!run->active && (was_away(c) || stands)) begin_run(c);
}

/* Answers a card that comes back, each once in a tick, so that nobody can make the card send without end. */
static void hear_fetch(card *c, int from, const card_fetch *q) {
  if (q->round > c->setup.rounds || q->room < 2 || c->now < c->served[from]) return;
  c->served[from] = c->now + 1;
  if (q->round == 0) send_tray(c, from, q->height, q->room);
  else send_rounds(c, from, q->round, 0);
}

/* ---- hearing */

static void see(card *c, int signer, uint32_t round) {
  if (c->seen[signer] < round) c->seen[signer] = round;
  c->progress++;
}

/* Keeps a block until its round is committed, also one below R: it may be the parent that a later block needs. Blocks are found by
 * their checks, so the check is looked at here already. One of a committed round may show that its leader signed two. */
static void hear_block(card *c, int from, const signed_block *b) {
  uint32_t r = round_of(b->frame);
  if (!is_block(c, b->frame) || (r <= committed(c) && is_marked(c, b->frame[1]))) return;
  kept_block *k = &c->kept[from][r % WINDOW];
  if (memcmp(slot(c, r), b->frame, APOLLO_FRAME) == 0 || (k->used && memcmp(k->block.frame, b->frame, APOLLO_FRAME) == 0)) return;
  if (!is_genuine(c, b)) return;
  compare(c, b);
  if (r <= committed(c)) return;
  see(c, b->frame[1], r);
  if (r > committed(c) + WINDOW) c->ask |= bit(from); /* too far ahead: what comes before it is needed first */
  else *k = (kept_block){.block = *b, .used = 1};
}

static void hear_blames(card *c, const signed_blames *b) {
  if (b->round <= committed(c) || b->round > c->setup.rounds) return;
  signed_blames *set = &c->blames[b->round - 1];
  for (int i = 0; i < cards(c); i++) {
    uint8_t frame[APOLLO_FRAME];
    if (!((b->signers & ~set->signers) >> i & 1)) continue;
    make_blame(b->round, i, frame);
    if (!host_verify(&c->setup, frame, b->signature[i])) continue;
    memcpy(set->signature[i], b->signature[i], SIGNATURE);
    set->signers |= bit(i);
    see(c, i, b->round);
  }
}

/* Asks a card that is ahead. Answers one that is behind with all above its committed round, and one in the same round with the blames
 * that it lacks; one that is more than a turn behind was away, and is told how far the own card is, for it to fetch. Not more often
 * than a card asks by itself, so that nobody can make it send without end. What no card's record can say is dropped. */
static void hear_status(card *c, int from, const card_status *s) {
  if (s->round < 1 || s->round > c->setup.rounds + 1 || s->committed >= s->round) return;
  if (s->committed > 0 && s->committed <= committed(c) &&
      !(filled(c, s->committed) && same(digest_of(slot(c, s->committed)), s->digest)))
    host_alarm(c->setup.id, ALARM_PARTED, from, s->committed);
  show_evidence(c, from, s->equivocators);
  if (c->seen[from] < s->round - 1) c->seen[from] = s->round - 1;
  if (s->round > waited(c)) c->ask |= bit(from);
  if (s->round > waited(c) || c->now < c->closed[from]) return;
  c->closed[from] = c->now + c->setup.retry;
  if (s->round + (uint32_t)cards(c) < waited(c)) send_status(c, from);
  else if (s->round < waited(c)) send_rounds(c, from, s->committed + 1, 1);
  else if (!card_is_over(c)) send_blames(c, from, s->round, (uint16_t)~s->signers);
}

void card_hear(card *c, const packet *p) {
  if (p->from >= cards(c) || p->from == c->setup.id) return;
  uint32_t before = c->progress;
  c->heard |= bit(p->from);
  if (p->kind == PACKET_BLOCK) hear_block(c, p->from, &p->block);
  if (p->kind == PACKET_BLAMES) hear_blames(c, &p->blames);
  if (p->kind == PACKET_STATUS) hear_status(c, p->from, &p->status);
  if (p->kind == PACKET_FETCH) hear_fetch(c, p->from, &p->fetch);
  if (p->kind == PACKET_TRAY) hear_tray(c, p->from, &p->tray);
  if (p->kind == PACKET_EVIDENCE) hear_evidence(c, &p->evidence);
  if (c->progress != before) settle(c);
}

/* ---- time */

/* No time runs for a card that is behind, nor at the start of a term until all were heard or the grace is over: to withhold ticks costs
 * progress only, while to blame a card that keeps the rules breaks a premise. */
static int time_runs(const card *c) {
  uint16_t others = (uint16_t)(((1u << cards(c)) - 1u) & ~(unsigned)bit(c->setup.id));
  return !card_is_over(c) && !is_behind(c) && (c->heard == others || c->now > c->setup.grace);
}

static void call_tick(card *c) {
  uint8_t out[APOLLO_OUT];
  proposal *p = lend(c);
  apollo_answer a =
      apollo_tick(c->record, c->log, log_len(c), c->masks, c->setup.rounds, p ? p->entry : NULL, p ? p->len : 0, out, sizeof out);
  take(c, a, (card_call){.kind = CALL_TICK, .out = out}, p);
}

/* No new round for a while: sends again what others may lack, and asks f + 1 cards, one of them correct, and the leader. */
static void send_again(card *c) {
  int peers = card_is_over(c) ? 1 : c->setup.f + 1;
  for (; peers > 0; peers--) {
    do c->next_peer = (c->next_peer + 1) % cards(c);
    while (c->next_peer == c->setup.id);
    c->ask |= bit(c->next_peer);
  }
  if (card_is_over(c)) return; /* that one question compares the lists */
  c->ask |= bit(leader_of(c, waited(c)));
  send_tip(c, leader_of(c, waited(c)));
  send_own_blame(c, waited(c));
}

void card_tick(card *c) {
  c->now++;
  settle(c); /* what was put off */
  if (time_runs(c)) call_tick(c);
  settle(c);
  come_back(c);
  if (was_away(c)) c->ask = 0; /* it fetches, and asks by the clock alone */
  if ((c->now - c->moved) % c->setup.retry == 0) send_again(c);
  for (int to = 0; to < cards(c); to++)
    if (c->ask >> to & 1) send_status(c, to);
  c->ask = 0;
}

/* ---- opening and closing */

int card_open(card *c, card_setup setup) {
  size_t t = setup.rounds;
  uint8_t out[APOLLO_OUT];
  memset(c, 0, sizeof *c);
  c->setup = setup;
  if (apollo_version() != APOLLO_VERSION || t < 1 || t > APOLLO_MAX_ROUNDS || setup.f > APOLLO_MAX_F || setup.retry < 1 ||
      setup.tray < 2 || setup.tray > TRAY)
    return 0;
  c->log = malloc(t * APOLLO_FRAME);
  c->masks = malloc(t * sizeof *c->masks);
  c->signature = calloc(t, sizeof *c->signature);
  c->blames = calloc(t, sizeof *c->blames);
  c->run.frames = malloc(t * APOLLO_FRAME);
  c->run.signature = calloc(t, sizeof *c->run.signature);
  if (!c->log || !c->masks || !c->signature || !c->blames || !c->run.frames || !c->run.signature) return 0;
  for (uint32_t r = 1; r <= setup.rounds; r++) c->blames[r - 1].round = r;
  apollo_answer a = apollo_open(setup.id, setup.f, (apollo_ticks){setup.timeout}, (apollo_round){setup.rounds}, setup.rotation,
                                (size_t)cards(c), c->log, log_len(c), c->masks, t, NULL, 0, out, sizeof out);
  take(c, a, (card_call){.kind = CALL_OPEN, .out = out}, NULL);
  c->run.from = setup.id;
  return a.number == APOLLO_TAKEN;
}

void card_close(card *c) {
  free(c->log);
  free(c->masks);
  free(c->signature);
  free(c->blames);
  free(c->run.frames);
  free(c->run.signature);
}
