/* cables.h: what travels between the cards. */
#ifndef CABLES_H
#define CABLES_H

#include "../card.h"

/* One packet in `loss` is lost, one in `loss` comes twice, and all come late by a random time. */
void carry(int from, int to, const packet *p);
/* All that has come is heard before the tick. */
void deliver(int to);
/* Drops all that is under way to a card. */
void close_cable(int to);

#endif
