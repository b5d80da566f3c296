/* entries.h: what the cards are given to propose, and what becomes of it. */
#ifndef ENTRIES_H
#define ENTRIES_H

#include <stdint.h>

/* A client hands a card something to propose, until it has had its share. */
void give_entry(int i);
/* A frame that card i signs: is it an empty turn though an entry waits? */
void note_turn(int i, const uint8_t *frame);
/* Prints what became of all entries, by the list of card `best`: 1 if that is right. */
int report_entries(int best);

#endif
