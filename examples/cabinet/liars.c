/* liars.c: lying cards run the code of card.c, and what they send is changed or made up here. */
#include "liars.h"

#include "cabinet.h"
#include "cables.h"
#include "draw_run.h"
#include "keys.h"

#include <string.h>

static void put32(uint8_t *p, uint32_t v) {
  for (int k = 0; k < 4; k++) p[k] = (uint8_t)(v >> (24 - 8 * k));
}

/* Makes a block's check and the liar's signature again, whoever's block it is. */
static void seal(int liar, signed_block *b) {
  apollo_digest(b->frame, 480, b->frame + 480);
  host_sign(&cabinet.cards[liar].setup, b->frame, b->signature);
  draw_lie(liar, b->frame);
}

static void make_twin(int liar, signed_block *b) {
  static const char other[] = "a twin";
  memset(b->frame + 44, 0, APOLLO_ENTRY);
  memcpy(b->frame + 44, other, sizeof other - 1);
  b->frame[2] = 0;
  b->frame[3] = sizeof other - 1;
  seal(liar, b);
}

/* Another entry in the first block, and the others made its children again, whoever's they are; and as if the chain ended there. */
static void forge_chain(int liar, card_tray *t) {
  if (t->count == t->room) t->count--;
  make_twin(liar, &t->blocks[0]);
  for (uint32_t k = 1; k < t->count; k++) {
    memcpy(t->blocks[k].frame + 12, t->blocks[k - 1].frame + 480, APOLLO_DIGEST);
    seal(liar, &t->blocks[k]);
  }
}

/* In place of the chain one made of the liar's own blocks alone: nothing is wrong with them, but the rounds between were not passed
 * over. */
static void make_own_chain(int liar, card_tray *t) {
  uint32_t count = 0;
  for (uint32_t round = get32(t->blocks[0].frame + 4); round <= cabinet.rounds && count < t->room; round++) {
    signed_block *b = &t->blocks[count];
    if (leader_of(round) != liar) continue;
    if (count > 0) memcpy(b->frame, b[-1].frame, APOLLO_FRAME);
    if (count > 0) memcpy(b->frame + 12, b[-1].frame + 480, APOLLO_DIGEST);
    b->frame[1] = (uint8_t)liar;
    put32(b->frame + 4, round);
    put32(b->frame + 8, t->height + ++count);
    make_twin(liar, b);
  }
  t->count = count;
}

/* What a liar answers a card that comes back, to each in one way all along, with the next seed in another. 0: nothing. */
static int twist_tray(int liar, int to, card_tray *t) {
  uint32_t way = (cabinet.first_seed + (uint32_t)((cabinet.n + liar - to) % cabinet.n)) % 8;
  if (t->count == 0) return 1;
  signed_block *one = &t->blocks[chance(t->count)];
  cabinet.lies++;
  if (way == 1) t->count = (uint32_t)(one - t->blocks); /* as if the chain ended there */
  if (way == 2) forge_chain(liar, t);
  if (way == 3) make_own_chain(liar, t);
  if (way == 4) one->frame[chance(APOLLO_FRAME)] ^= 1;
  if (way == 5) one->signature[0] ^= 1;
  if (way == 6) make_twin(liar, one);
  if (way == 7) t->room = t->count = 0; /* full, with nothing in it */
  return way > 0;
}

/* The liar's own blocks: one for its next neighbour, another for the one after that, and so on in turn; or hidden from all but one
 * card. Evidence it keeps for itself. 0: not sent. */
int twist(int from, int to, packet *p) {
  fault kind = cabinet.faults[from];
  if (p->kind == PACKET_TRAY) return twist_tray(from, to, &p->tray);
  if (p->kind == PACKET_EVIDENCE) return 0;
  if (p->kind != PACKET_BLOCK || p->block.frame[1] != from) return 1;
  uint32_t round = get32(p->block.frame + 4);
  if (kind == ALL) kind = round / (uint32_t)cabinet.n % 2 ? TWO : HIDE;
  int hidden = kind == HIDE && to != leader_of(round + 1 + round % 3);
  int doubled = kind == TWO && (cabinet.n + to - from) % cabinet.n % 2;
  if (doubled) make_twin(from, &p->block);
  cabinet.lies += (uint32_t)(hidden || doubled);
  return !hidden;
}

/* Blames the round waited for and the two after it, signed as itself, whoever leads them. */
static void blame_all(int from) {
  uint32_t first = cabinet.cards[from].record.round.value;
  for (uint32_t r = first; r < first + 3 && r <= cabinet.rounds; r++)
    for (int to = 0; to < cabinet.n; to++) {
      uint8_t frame[APOLLO_FRAME] = {APOLLO_BLAME, (uint8_t)from};
      packet p = {.kind = PACKET_BLAMES, .from = (uint8_t)from};
      put32(frame + 4, r);
      apollo_digest(frame, 480, frame + 480);
      p.blames.round = r;
      p.blames.signers = bit(from);
      host_sign(&cabinet.cards[from].setup, frame, p.blames.signature[from]);
      draw_lie(from, frame);
      if (to == from) continue;
      host_send(from, to, &p);
      cabinet.lies++;
    }
}

/* A block of the liar's next round, wrong in one of several ways, with its signature; or one of the round that all wait for, or of the
 * newest block's, in its leader's name, for which the liar has no signature. */
static void junk_block(int from, signed_block *b) {
  const apollo_replica *record = &cabinet.cards[from].record;
  uint32_t way = chance(8), round = record->round.value;
  if (way == 7 && record->tip_round.value > 0) {
    memcpy(b->frame, slot(from, record->tip_round.value), APOLLO_FRAME);
    make_twin(from, b);
    return;
  }
  while (way != 1 && leader_of(round) != from) round++;
  memset(b->frame, 0, APOLLO_FRAME);
  b->frame[0] = APOLLO_BLOCK;
  b->frame[1] = (uint8_t)leader_of(round);
  put32(b->frame + 4, round);
  put32(b->frame + 8, way == 2 ? round + 9 : record->tip_height.value + (way == 3 ? 2 : 1));
  if (record->tip_round.value > 0) memcpy(b->frame + 12, slot(from, record->tip_round.value) + 480, APOLLO_DIGEST);
  if (way == 4) b->frame[12] ^= 1; /* a parent that nobody has */
  if (way == 5) b->frame[450] = 1; /* not zero where it must be */
  apollo_digest(b->frame, 480, b->frame + 480);
  if (way == 6) b->frame[480] ^= 1; /* a wrong check */
  sign_in_term(&cabinet.cards[from].setup, from, way == 0 ? TERM - 1 : TERM, b->frame, b->signature);
  draw_lie(from, b->frame);
}

/* As evidence the newest block and a twin that its leader did not sign, or the same block, or that leader's block of a turn before. */
static void junk_evidence(int from, card_evidence *e) {
  const card *c = &cabinet.cards[from];
  uint32_t newest = c->record.tip_round.value, way = chance(3), n = (uint32_t)cabinet.n;
  uint32_t other = way == 2 && newest > n && slot(from, newest - n)[0] == APOLLO_BLOCK ? newest - n : newest;
  if (newest == 0) return;
  memcpy(e->blocks[0].frame, slot(from, newest), APOLLO_FRAME);
  memcpy(e->blocks[0].signature, c->signature[newest - 1], SIGNATURE);
  memcpy(e->blocks[1].frame, slot(from, other), APOLLO_FRAME);
  memcpy(e->blocks[1].signature, c->signature[other - 1], SIGNATURE);
  if (way == 0) make_twin(from, &e->blocks[1]);
}

static void send_junk(int from, int to) {
  packet p;
  memset(&p, 0, sizeof p);
  for (size_t k = 0; k < sizeof p.block; k++) ((uint8_t *)&p.block)[k] = (uint8_t)chance(256);
  p.kind = (uint8_t)chance(PACKET_KINDS + 1);
  p.from = (uint8_t)from;
  if (p.kind == PACKET_BLOCK && chance(4)) junk_block(from, &p.block);
  if (p.kind == PACKET_BLAMES) p.blames.round = cabinet.cards[from].record.round.value; /* in others' names */
  if (p.kind == PACKET_STATUS && chance(2)) /* asks for all, always, and says that it has marked some */
    p.status = (card_status){.round = 1, .equivocators = (uint16_t)chance(1u << cabinet.n)};
  if (p.kind == PACKET_FETCH && chance(2)) p.fetch = (card_fetch){.room = TRAY}; /* asks for all too */
  if (p.kind == PACKET_TRAY && chance(4)) {                                      /* as if it had been asked */
    p.tray.height = cabinet.cards[to].record.committed_height.value;
    p.tray.room = cabinet.tray;
    p.tray.count = chance(cabinet.tray);
  }
  if (p.kind == PACKET_EVIDENCE) junk_evidence(from, &p.evidence);
  carry(from, to, &p);
  cabinet.lies++;
}

/* To all a block of a later round that bears the newest block's check, as if it were its own parent: found by that check in place of
 * the true one, it bars the way to every child. */
static void mask_as_newest(int from) {
  const apollo_replica *record = &cabinet.cards[from].record;
  uint32_t newest = record->tip_round.value, round = record->round.value + (uint32_t)cabinet.n * chance(3);
  packet p = {.kind = PACKET_BLOCK, .from = (uint8_t)from};
  while (leader_of(round) != from) round++;
  if (newest == 0) return;
  memcpy(p.block.frame, slot(from, newest), APOLLO_FRAME);
  p.block.frame[1] = (uint8_t)from;
  put32(p.block.frame + 4, round);
  memcpy(p.block.frame + 12, slot(from, newest) + 480, APOLLO_DIGEST);
  host_sign(&cabinet.cards[from].setup, p.block.frame, p.block.signature);
  draw_lie(from, p.block.frame);
  for (int to = 0; to < cabinet.n; to++)
    if (to != from) carry(from, to, &p);
  cabinet.lies++;
}

/* Late in the term a twin of the first block that the card proposed, to the next correct card alone; often, since cables lose it. */
void slip(int from) {
  packet p = {.kind = PACKET_BLOCK, .from = (uint8_t)from};
  uint32_t round = 1, late = cabinet.cards[from].record.round.value + 2 * (uint32_t)cabinet.n;
  int to = from;
  while (leader_of(round) != from) round++;
  if (late <= cabinet.rounds || slot(from, round)[0] != APOLLO_BLOCK) return;
  while (cabinet.faults[to] != NONE) to = (to + 1) % cabinet.n;
  memcpy(p.block.frame, slot(from, round), APOLLO_FRAME);
  make_twin(from, &p.block);
  carry(from, to, &p);
  cabinet.lies++;
}

void lie(int from) {
  fault kind = cabinet.faults[from];
  if ((kind == BLAMES || kind == ALL) && cabinet.now % RETRY == 0) blame_all(from);
  if (kind == MASK && cabinet.now % RETRY == 1) mask_as_newest(from);
  if (kind != JUNK && kind != ALL) return;
  for (int to = 0; to < cabinet.n; to++)
    if (to != from && chance(4) == 0) send_junk(from, to);
}
