/* faults.h: how cards fail, and what is asked of them all the same. */
#ifndef FAULTS_H
#define FAULTS_H

enum {
  CUT_FROM = 250, /* when deaf and mute cards fall so and others lose their state; and for how long the former are cut off */
  CUT_FOR = 900,
  DEAF_LATER = 300 /* so long a cut card still hears, though it is not heard */
};

/* How a card fails. A deaf one hears nothing for a while, a mute one is not heard, a cut one is mute and later deaf too, with a last
 * block that nobody else has. A lost one loses its state, is opened afresh and only follows: it asks, and sends no frame any more. One
 * that is set apart goes by another rotation. One that begins again loses its state too, and sends as if nothing had been. A worn one
 * signs a second block for an old round and shows it to one card. From TWO on a card lies. MIXED and MISLED are several of these. */
typedef enum { NONE, DEAD, DEAF, MUTE, CUT, LOST, APART, AGAIN, WORN, TWO, BLAMES, JUNK, HIDE, ALL, MASK, MIXED, MISLED, FAULTS } fault;
extern const char *const fault_names[FAULTS];

/* f cards in a row fail, so that their rounds follow each other. */
void choose_faults(void);

int is_cut(int i);
/* Is it DEAF or MUTE in this tick? */
int is_cut_now(int i, fault how);
int was_away(int i);
int lies(int i);
/* May it be marked? Every other card signs one block a round. */
int may_double(int i);
int follows(int i);
/* Deaf, mute, cut and lost cards do, though they are counted among the f that fail: they catch up. */
int catches_up(int i);
/* One with another rotation keeps all rules but that one, and neither hears the others nor is heard. All these lists must agree. */
int keeps_rules(int i);

#endif
