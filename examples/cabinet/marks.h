/* marks.h: cards that sign two blocks for a round, and who has marked them. */
#ifndef MARKS_H
#define MARKS_H

#include "../card.h"

void begin_marks(int i);
void end_marks(int i);
/* A packet that card `to` is about to hear. */
void note_story(int to, const packet *p);
/* Card i after its tick. */
void watch_marks(int i);
/* Has every card that catches up marked all that it is to mark? */
int have_spread(void);
/* Prints all marks: 1 if they are right. */
int report_marks(void);

#endif
