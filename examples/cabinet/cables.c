/* cables.c: packets on their way, which are lost, come twice, late and in any order. What a liar sends is changed here. */
#include "cables.h"

#include "cabinet.h"
#include "liars.h"
#include "marks.h"

#include <stdlib.h>
#include <string.h>

typedef struct {
  packet *p; /* as many bytes of it as travel */
  uint32_t due;
} message;

typedef struct {
  message *list;
  size_t count, room;
} cable; /* packets under way to one card */

static cable cables[APOLLO_MAX_REPLICAS];

static void put(cable *to, const packet *p) {
  if (to->count == to->room) {
    to->room = to->room ? 2 * to->room : 64;
    to->list = realloc(to->list, to->room * sizeof *to->list);
  }
  message m = {.p = malloc(packet_size(p)), .due = cabinet.now + 1 + chance(cabinet.delay)};
  if (!to->list || !m.p) stop("no memory");
  memcpy(m.p, p, packet_size(p));
  to->list[to->count++] = m;
}

static int is_question(const packet *p) { return p->kind == PACKET_STATUS || p->kind == PACKET_FETCH; }

void carry(int from, int to, const packet *p) {
  if (is_cut_now(from, MUTE) || cabinet.faults[to] == DEAD || (follows(from) && !is_question(p))) return;
  if (cabinet.loss && chance(cabinet.loss) == 0) return;
  put(&cables[to], p);
  if (cabinet.loss && chance(cabinet.loss) == 0) put(&cables[to], p);
}

static void send_twisted(int from, int to, packet p) {
  if (twist(from, to, &p)) carry(from, to, &p);
}

void host_send(int from, int to, const packet *p) {
  if (lies(from)) send_twisted(from, to, *p);
  else carry(from, to, p);
}

void deliver(int to) {
  cable *in = &cables[to];
  for (size_t i = 0; i < in->count;) {
    message m = in->list[i];
    if (m.due > cabinet.now) {
      i++;
      continue;
    }
    in->list[i] = in->list[--in->count]; /* packets overtake each other here */
    if (cabinet.is_open[to] && !is_cut_now(to, DEAF)) {
      note_story(to, m.p);
      card_hear(&cabinet.cards[to], m.p);
    }
    free(m.p);
  }
}

void close_cable(int to) {
  while (cables[to].count > 0) free(cables[to].list[--cables[to].count].p);
  free(cables[to].list);
}
