/* keys.h: the keys of the cards. */
#ifndef KEYS_H
#define KEYS_H

#include "../card.h"

enum { TERM = 2 }; /* this term's number; frames of term 1 are among the junk */

void make_key(int i);
void sign_in_term(const card_setup *shared, int signer, uint8_t term, const uint8_t *frame, uint8_t signature[SIGNATURE]);

#endif
