/* liars.h: what lying cards send. */
#ifndef LIARS_H
#define LIARS_H

#include "../card.h"

/* Changes what the card's own code sends. 0: it is not sent. */
int twist(int from, int to, packet *p);
/* Sends what is made up, once a tick. */
void lie(int from);
/* What a worn card does late in the term. */
void slip(int from);

#endif
