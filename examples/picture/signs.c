/* signs.c: the shapes, and the legend that explains them. */
#include "drawing.h"

#include <stdio.h>
#include <string.h>

const char dark_red[] = "#a00020";

/* Okabe and Ito's colours, which colour-blind readers tell apart, with the first three far apart in grey too. */
colour colour_of(int card) {
  static const colour colours[] = {{"#56b4e9", "#000", "#0a639a", "#c4e5f7"}, {"#d55e00", "#000", "#a34700", "#f0c6a6"},
                                   {"#f0e442", "#000", "#7d7300", "#faf6bd"}, {"#0072b2", "#fff", "#004f7c", "#a6cfe4"},
                                   {"#cc79a7", "#000", "#93406e", "#edcfdf"}, {"#009e73", "#000", "#006b4e", "#a6dcce"},
                                   {"#e69f00", "#000", "#8a5f00", "#f6dda6"}, {"#c0c0c0", "#000", "#595959", "#dedede"}};
  return colours[card % 8];
}

/* Cards 8 to 14 have the colours of 0 to 6 and a thick edge. */
const char *edge_of(int card) { return card < 8 ? "1" : "2.5"; }

static void put_rect(svg *s, int x, int y, int w, int h, int round, const char *fill, const char *stroke, const char *width,
                     int dashed) {
  svg_put(s, "<rect x=\"%d\" y=\"%d\" width=\"%d\" height=\"%d\"", x, y, w, h);
  if (round) svg_put(s, " rx=\"%d\"", round);
  svg_put(s, " fill=\"%s\" stroke=\"%s\" stroke-width=\"%s\"%s/>\n", fill, stroke, width, dashed ? " stroke-dasharray=\"3 2\"" : "");
}

void draw_block(drawing *d, int x, int y, const seen_frame *f, int lie) {
  colour c = colour_of(f->signer);
  char text[TEXT];
  d->used[lie ? SIGN_LIE : SIGN_BLOCK] = 1;
  put_rect(&d->s, x, y, box_width(f), 24, 3, c.fill, lie ? dark_red : c.dark, lie ? "2" : edge_of(f->signer), lie);
  snprintf(text, TEXT, "round %u", f->round);
  svg_text(&d->s, x + 3, y + 10, FONT_BOLD, c.ink, NULL, text);
  snprintf(text, TEXT, "height %u", f->height);
  svg_text(&d->s, x + 3, y + 21, FONT_PLAIN, c.ink, NULL, text);
}

/* Six corners, so that it is not taken for a block where there are no colours. */
static void put_hexagon(svg *s, int x, int y, int w, int h, const char *stroke, const char *width, int dashed) {
  svg_put(s, "<path d=\"M%d %dh%dl5 %dl-5 %dh%dl-5 -%dz\" fill=\"#fff\" stroke=\"%s\" stroke-width=\"%s\"%s/>\n", x + 5, y, w - 10,
          h / 2, h / 2, 10 - w, h / 2, stroke, width, dashed ? " stroke-dasharray=\"3 2\"" : "");
}

void draw_blame(drawing *d, int x, int y, const seen_frame *f, int lie) {
  char text[TEXT];
  d->used[lie ? SIGN_LIE : SIGN_BLAME] = 1;
  put_hexagon(&d->s, x, y, box_width(f), 16, lie ? dark_red : colour_of(f->signer).dark, lie ? "2" : "1.5", lie);
  snprintf(text, TEXT, "blame %u", f->round);
  svg_text(&d->s, x + 4, y + 12, FONT_BOLD, NULL, NULL, text);
}

void draw_token(drawing *d, int x, int y, const seen_frame *f, const char *text) {
  colour c = colour_of(f->signer);
  int w = token_width(text);
  d->used[SIGN_HANDED] = 1;
  const char *line = f->lie ? dark_red : c.dark;
  if (f->kind == APOLLO_BLOCK) put_rect(&d->s, x, y, w, 16, 8, c.fill, line, f->lie ? "2" : edge_of(f->signer), f->lie);
  else put_hexagon(&d->s, x, y, w, 16, line, f->lie ? "2" : "1.5", f->lie);
  svg_text(&d->s, x + (w - svg_width(FONT_BOLD, text)) / 2, y + 12, FONT_BOLD, f->kind == APOLLO_BLOCK ? c.ink : NULL, NULL, text);
}

void draw_bundle(drawing *d, int x, int y, const char *text) {
  d->used[SIGN_MANY] = 1;
  put_rect(&d->s, x, y, token_width(text), 16, 8, "#fff", "#000", "2", 0);
  svg_text(&d->s, x + 4, y + 12, FONT_BOLD, NULL, NULL, text);
}

void draw_cell(drawing *d, int x, int y, const seen_frame *f, int other, const char *text) {
  int w = token_width(text), lie = f && f->lie;
  const char *thin = lie ? "2" : "1", *edge = other || lie ? dark_red : "#000";
  d->used[SIGN_LIST] = 1;
  put_rect(&d->s, x, y, w, 14, 0, f ? colour_of(f->signer).fill : "#fff", edge, other ? "2.5" : thin, lie);
  svg_text(&d->s, x + (w - svg_width(FONT_BOLD, text)) / 2, y + 11, FONT_BOLD, f ? colour_of(f->signer).ink : NULL, NULL, text);
}

void draw_cross(drawing *d, int x, int y) {
  d->used[SIGN_REFUSED] = 1;
  svg_put(&d->s, "<path d=\"M%d %dl7 7m0 -7l-7 7\" stroke=\"%s\" stroke-width=\"2\" fill=\"none\"/>\n", x, y, dark_red);
}

void draw_skip(drawing *d, int x, int y, int card) {
  d->used[SIGN_SKIPPED] = 1;
  svg_put(&d->s, "<path d=\"M%d %dh8v8h-8zl8 8\" stroke=\"#000\" fill=\"%s\"/>\n", x, y, card < 0 ? "#fff" : colour_of(card).fill);
}

void draw_flag(drawing *d, int x, int y, int card) {
  d->used[SIGN_MARK] = 1;
  svg_put(&d->s, "<path d=\"M%d %dv-9l7 3l-7 3\" stroke=\"#000\" fill=\"%s\"/>\n", x, y + 9, colour_of(card).fill);
}

void draw_arrow(drawing *d, int x1, int y1, int x2, int y2, const seen_frame *f) {
  d->used[SIGN_ARROWS] = 1;
  svg_put(&d->s, "<path d=\"M%d %dL%d %d\" fill=\"none\" stroke=\"%s\" stroke-width=\"1.3\"%s marker-end=\"url(#to%d)\"/>\n", x1, y1,
          x2, y2, colour_of(f->signer).dark, f->kind == APOLLO_BLAME ? " stroke-dasharray=\"5 3\"" : "", f->signer % 8);
}

/* ---- the legend */

static const char *const meanings[SIGNS] = {"a block, put out by its round's leader; height: its place in the list",
                                            "a blame: this card got no block of that round in time",
                                            "a block, a blame: from where it was put out to where it came",
                                            "handed in to the card: a block, a blame of that round",
                                            "many blocks or blames in one call",
                                            "put out before this part: the arrow comes from its card's lane",
                                            "the round that the card waits for, in the colour of its leader",
                                            "a tick: time passes, and nothing comes of it",
                                            "nothing waited for the card",
                                            "refused; number and word say why; nothing changes",
                                            "skipped: more cards blamed the round than may fail",
                                            "SAFE: added to the card's list for good, once f more rounds are passed",
                                            "THE LISTS PART: that card has another block in this place",
                                            "marked: that card signed two blocks for one round",
                                            "a lie: signed, though no call put it out",
                                            "for a while the card is not as it should be",
                                            "folded: ticks without effect, or refused as before"};

static void put_sample_arrows(drawing *d, int x, int y) {
  for (int k = 0; k < 2; k++) {
    seen_frame f = {.kind = k ? APOLLO_BLAME : APOLLO_BLOCK, .signer = d->p->setup.rotation[k ? 0 : 2]};
    draw_arrow(d, x, y + 6 + 10 * k, x + SAMPLE, y + 6 + 10 * k, &f);
  }
}

/* A sign as it is drawn in the lanes. */
static void put_sample(drawing *d, sign which, int x, int y) {
  const uint8_t *leads = d->p->setup.rotation;
  seen_frame block = {.kind = APOLLO_BLOCK, .signer = leads[2], .round = 3, .height = 2};
  seen_frame blame = {.kind = APOLLO_BLAME, .signer = leads[0], .round = 2};
  svg *s = &d->s;
  if (which == SIGN_BLOCK) draw_block(d, x, y, &block, 0);
  if (which == SIGN_BLAME) draw_blame(d, x, y + 4, &blame, 0);
  if (which == SIGN_ARROWS) put_sample_arrows(d, x, y);
  if (which == SIGN_HANDED) draw_token(d, x, y + 4, &block, "3");
  if (which == SIGN_HANDED) draw_token(d, x + 22, y + 4, &blame, "2");
  if (which == SIGN_MANY) draw_bundle(d, x, y + 4, "7 blocks");
  if (which == SIGN_EARLIER) svg_put(s, "<path d=\"M%d %dv20\" stroke=\"#999\" fill=\"none\"/>\n", x, y + 2);
  if (which == SIGN_EARLIER) draw_arrow(d, x, y + 12, x + SAMPLE, y + 12, &block);
  if (which == SIGN_BAND) put_rect(s, x, y + 2, SAMPLE, 20, 0, colour_of(leads[3 % d->p->setup.cards]).pale, "#ccc", "1", 0);
  if (which == SIGN_BAND) svg_text(s, x + 3, y + 16, FONT_PLAIN, "#333", NULL, "waits: 4");
  if (which == SIGN_DOT || which == SIGN_NOTHING)
    svg_put(s, "<circle cx=\"%d\" cy=\"%d\" r=\"3\" fill=\"%s\" stroke=\"#333\"/>\n", x + 6, y + 12,
            which == SIGN_DOT ? "#333" : "#fff");
  if (which == SIGN_REFUSED) draw_cross(d, x, y + 8);
  if (which == SIGN_REFUSED) svg_text(s, x + 11, y + 16, FONT_BOLD, NULL, NULL, d->refused);
  if (which == SIGN_SKIPPED) draw_skip(d, x, y + 8, leads[1]);
  if (which == SIGN_SKIPPED) svg_text(s, x + 11, y + 16, FONT_BOLD, NULL, NULL, "skips 2");
  if (which == SIGN_LIST) draw_cell(d, x, y + 5, &block, 0, "3");
  if (which == SIGN_PARTED) draw_cell(d, x, y + 5, &block, 1, "3");
  if (which == SIGN_PARTED) svg_text(s, x + 21, y + 16, FONT_BOLD, dark_red, NULL, "\xE2\x89\xA0 ..");
  if (which == SIGN_MARK) draw_flag(d, x, y + 7, 0);
  if (which == SIGN_LIE) draw_block(d, x, y, &block, 1);
  if (which == SIGN_PHASE) put_rect(s, x, y + 6, SAMPLE, 12, 0, "url(#away)", "#555", "1", 0);
  if (which == SIGN_FOLD) svg_put(s, "<rect x=\"%d\" y=\"%d\" width=\"%d\" height=\"22\" fill=\"url(#fold)\"/>\n", x, y + 1, SAMPLE);
}

void draw_legend(drawing *d) {
  int count = 0, used[SIGNS], height = 26;
  memcpy(used, d->used, sizeof used);
  for (int k = 0; k < SIGNS; k++) count += used[k];
  int rows = (count + 1) / 2, at = 0;
  if (d->y % PAGE + rows * height > PAGE) d->y += PAGE - d->y % PAGE;
  for (int k = 0; k < SIGNS; k++) {
    if (!used[k]) continue;
    int x = at < rows ? 4 : WIDTH / 2, y = d->y + at % rows * height;
    put_sample(d, (sign)k, x, y);
    svg_text(&d->s, x + SAMPLE + 18, y + 16, FONT_PLAIN, NULL, NULL, meanings[k]);
    at++;
  }
  d->y += rows * height + 4;
}
