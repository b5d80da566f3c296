/* drawing.h: what the files that draw share. A part has the columns from one up to another; its lanes have rows. */
#ifndef DRAWING_H
#define DRAWING_H

#include "run.h"
#include "svg.h"

/* In units of the file. The picture is as wide as a page of A4 without its margins, and a page so high. */
enum { WIDTH = 940, PAGE = 1361, LEFT = 92, RIGHT = 4, SAMPLE = 52, MOST_TOKENS = 4, MOST_PARTS = 100, TAG_SHIFT = 9, TEXT = 96 };

/* The rows of a lane, from above: a phase; what is said of a call; frames handed in and blames; the round that is waited for, with
 * blocks; the committed list. A part leaves out those that it does not need. */
typedef enum { ROW_PHASE, ROW_TAG, ROW_FRAMES, ROW_BAND, ROW_LIST, ROWS } row;

typedef struct {
  int moment, sub, x, width;
  uint32_t folded; /* so many quiet moments, if any */
} column;

/* How a card stands before a part, and after it. */
typedef struct {
  int open, leader;
  uint32_t round, listed;
} standing;

/* What the legend explains, as far as it is there. */
typedef enum {
  SIGN_BLOCK,
  SIGN_BLAME,
  SIGN_ARROWS,
  SIGN_HANDED,
  SIGN_MANY,
  SIGN_EARLIER,
  SIGN_BAND,
  SIGN_DOT,
  SIGN_NOTHING,
  SIGN_REFUSED,
  SIGN_SKIPPED,
  SIGN_LIST,
  SIGN_PARTED,
  SIGN_MARK,
  SIGN_LIE,
  SIGN_PHASE,
  SIGN_FOLD,
  SIGNS
} sign;

typedef struct {
  picture *p;
  svg s;
  list columns; /* column */
  standing cards[APOLLO_MAX_REPLICAS];
  uint16_t marked_by[APOLLO_MAX_REPLICAS]; /* by which cards, up to the part's end */
  int y;                                   /* how far down the drawing has come */
  int first, end, right;                   /* of the part: columns and right edge */
  int rows[APOLLO_MAX_REPLICAS][ROWS];     /* of its lanes: the upper edge, or NOWHERE */
  int foot;                                /* its lower edge */
  int parts;                               /* of the whole run */
  int used[SIGNS];
  char refused[8]; /* the number of a refusal that is there */
} drawing;

typedef struct {
  const char *fill, *ink, *dark, *pale;
} colour;
colour colour_of(int card);
extern const char dark_red[];  /* for what is wrong */
const char *edge_of(int card); /* the width of a block's edge */

static inline column *column_at(const drawing *d, int k) { return (column *)d->columns.at + k; }

/* columns.c */
uint32_t in_window(const picture *p, int m); /* how many it stands for there: 1, with those that were folded into it, or 0 */
void make_columns(drawing *d);
int tag_of(const drawing *d, const event *e, char text[TEXT]); /* what is said of a call, and the width with its sign; 0: nothing */
void token_text(const picture *p, const event *e, size_t k, char text[TEXT]);
const char *refusal_word(uint8_t number); /* of a refusal */
int tokens(const event *e);               /* how many: of many frames one for all */
void cell_text(const picture *p, const event *e, size_t k, char text[TEXT]);
int cells(const event *e);
void fold_text(const picture *p, uint32_t count, char text[TEXT]);
int token_width(const char *text);
int tokens_width(const picture *p, const event *e);             /* of all, with the space after them */
int box_width(const seen_frame *f);                             /* of a block or a blame where it was emitted */
int emitted_of(const picture *p, const event *e, uint8_t kind); /* the frame of that kind that it emitted, or NOWHERE */

/* lanes.c */
void pass_event(drawing *d, const event *e); /* how its card stands after it, */
void pass_mark(drawing *d, const event *e);  /* and whom it marks */
void draw_part(drawing *d, int first, int end);

/* signs.c */
void draw_block(drawing *d, int x, int y, const seen_frame *f, int lie);
void draw_blame(drawing *d, int x, int y, const seen_frame *f, int lie);
void draw_token(drawing *d, int x, int y, const seen_frame *f, const char *text);
void draw_bundle(drawing *d, int x, int y, const char *text);
void draw_cell(drawing *d, int x, int y, const seen_frame *f, int other, const char *text); /* NULL: of many */
void draw_cross(drawing *d, int x, int y);
void draw_skip(drawing *d, int x, int y, int card);
void draw_flag(drawing *d, int x, int y, int card);
void draw_arrow(drawing *d, int x1, int y1, int x2, int y2, const seen_frame *f);
void draw_legend(drawing *d);

/* fates.c */
void draw_fates(drawing *d);

#endif
