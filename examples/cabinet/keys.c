/* keys.c: signatures, simulated honestly: a frame travels with a signature that is made with its signer's key and checked when it comes
 * in. Liars sign with their own keys only, and pass on what others signed. In place of public keys the check looks up the signer's key;
 * a real program takes a signature scheme such as Ed25519. */
#include "keys.h"

#include "cabinet.h"
#include "entries.h"

#include <string.h>

static uint8_t keys[APOLLO_MAX_REPLICAS][APOLLO_DIGEST];

void make_key(int i) {
  for (int k = 0; k < APOLLO_DIGEST; k++) keys[i][k] = (uint8_t)chance(256);
}

/* A signature covers all that the cards share: n, f, T, the rotation and the term (and the public keys, where there are some). Without
 * the term an old term's block 1 would be taken again; without the rotation the blames of a card that goes by another one would count.
 */
void sign_in_term(const card_setup *shared, int signer, uint8_t term, const uint8_t *frame, uint8_t signature[SIGNATURE]) {
  uint8_t text[APOLLO_DIGEST + 5 + APOLLO_MAX_REPLICAS + APOLLO_FRAME] = {0};
  uint8_t *to = text + APOLLO_DIGEST;
  memcpy(text, keys[signer], APOLLO_DIGEST);
  to[0] = (uint8_t)(2 * shared->f + 1);
  to[1] = shared->f;
  to[2] = (uint8_t)(shared->rounds >> 8);
  to[3] = (uint8_t)shared->rounds;
  to[4] = term;
  memcpy(to + 5, shared->rotation, APOLLO_MAX_REPLICAS);
  memcpy(to + 5 + APOLLO_MAX_REPLICAS, frame, APOLLO_FRAME);
  apollo_digest(text, sizeof text, signature);
}

void host_sign(const card_setup *setup, const uint8_t frame[APOLLO_FRAME], uint8_t signature[SIGNATURE]) {
  sign_in_term(setup, setup->id, TERM, frame, signature);
  note_turn(setup->id, frame);
}

int host_verify(const card_setup *setup, const uint8_t frame[APOLLO_FRAME], const uint8_t signature[SIGNATURE]) {
  uint8_t right[SIGNATURE];
  if (frame[1] >= cabinet.n) return 0;
  sign_in_term(setup, frame[1], TERM, frame, right);
  return memcmp(signature, right, SIGNATURE) == 0;
}
