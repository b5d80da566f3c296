/* draw_run.h: a picture of the run, if one is asked for. */
#ifndef DRAW_RUN_H
#define DRAW_RUN_H

#include <stdint.h>

void begin_picture(void);
/* Before each tick. */
void draw_tick(void);
/* A frame that a liar sends. */
void draw_lie(int liar, const uint8_t *frame);
/* Writes the picture: 0 if it cannot, which is told. */
int end_picture(void);

#endif
