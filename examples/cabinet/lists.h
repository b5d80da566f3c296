/* lists.h: the lists of all cards. */
#ifndef LISTS_H
#define LISTS_H

/* Prints how far each card is and whether its list is right: 1 if all are. Those that catch up have the list of card `best`. */
int report_lists(int best);
void print_list(int i);

#endif
