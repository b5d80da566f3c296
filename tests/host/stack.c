/* A call takes at most TOLD bytes of stack, as docs/HOSTS.md says, from its return address down. Each is made on a painted stack of its
 * own, and the lowest byte that is not as painted afterwards tells what it took: with frames to judge and a block to propose, where calls
 * go deepest.
 * To be linked with -z now: to bind memset at its first call takes stack too. Exits with 0 if all is so. */
#define _XOPEN_SOURCE 700
#include "apollo.h"
#include "expect.h"

#include <string.h>
#include <ucontext.h>

/* Seven cards in turn, f = 3: card 6 leads round 7. Six blocks or seven blames are four frames and some more. */
enum { N = 7, F = 3, T = 9, LOG = APOLLO_FRAME * T, BLOCKS = 6, ROOM = 65536 };

static const uint8_t rotation[N] = {0, 1, 2, 3, 4, 5, 6};
static uint8_t log_[LOG], out[APOLLO_OUT], blocks[BLOCKS * APOLLO_FRAME], blames[N * APOLLO_FRAME], digest[APOLLO_DIGEST];
static uint16_t masks[T];
static apollo_replica record;
static apollo_answer answer;

/* Blocks 1 to 6 as one branch, and all blames of round 6. */
static void make_frames(void) {
  for (uint8_t k = 0; k < BLOCKS; k++) {
    uint8_t *frame = blocks + k * APOLLO_FRAME;
    frame[0] = APOLLO_BLOCK;
    frame[1] = k;
    frame[7] = frame[11] = (uint8_t)(k + 1);
    if (k > 0) memcpy(frame + 12, frame - APOLLO_DIGEST, APOLLO_DIGEST);
    apollo_digest(frame, 480, frame + 480);
  }
  for (uint8_t k = 0; k < N; k++) {
    uint8_t *frame = blames + k * APOLLO_FRAME;
    frame[0] = APOLLO_BLAME;
    frame[1] = k;
    frame[7] = 6;
    apollo_digest(frame, 480, frame + 480);
  }
}

/* Each call by a pointer, which is to its function or to mark. */
static void (*volatile callee)(void);
#define BY_POINTER(function) ((__typeof__(&function))callee)

static void call_open(void) {
  answer = BY_POINTER(apollo_open)(0, F, (apollo_ticks){1}, (apollo_round){T}, rotation, N, log_, LOG, masks, T, NULL, 0, out, sizeof out);
}
static void call_branch(void) {
  answer = BY_POINTER(apollo_branch)(record, log_, LOG, masks, T, blocks, sizeof blocks, NULL, 0, out, sizeof out);
}
static void call_blame(void) {
  answer = BY_POINTER(apollo_blame)(record, log_, LOG, masks, T, blames + F * APOLLO_FRAME, APOLLO_FRAME, NULL, 0, out, sizeof out);
}
static void call_blames(void) {
  answer = BY_POINTER(apollo_blames)(record, log_, LOG, masks, T, blames, sizeof blames, NULL, 0, out, sizeof out);
}
static void call_tick(void) { answer = BY_POINTER(apollo_tick)(record, log_, LOG, masks, T, NULL, 0, out, sizeof out); }
static void call_read(void) { answer.number = BY_POINTER(apollo_read)(record, log_, LOG, (apollo_height){1}).number; }
static void call_fetch(void) { answer.number = BY_POINTER(apollo_fetch)(record, log_, LOG, (apollo_height){0}, out, sizeof out).number; }
static void call_equivocation(void) { answer.number = BY_POINTER(apollo_equivocation)(record, blocks, 2 * APOLLO_FRAME).number; }
static void call_digest(void) { BY_POINTER(apollo_digest)(blocks, 480, digest); }
static void call_version(void) { answer.place = BY_POINTER(apollo_version)(); }

static uint8_t stack[ROOM];
static const uint8_t *top; /* of what a call takes: the stack pointer before the return address is pushed */

static uint8_t paint(size_t k) { return (uint8_t)(k * 167 + (k >> 8) + 13); }

/* The frame pointer, which is saved first, and the return address are eight bytes each. */
static __attribute__((noinline)) void mark(void) { top = (const uint8_t *)__builtin_frame_address(0) + 16; }

static void on_painted_stack(void (*function)(void), void (*call)(void)) {
  static ucontext_t here, there;
  for (size_t k = 0; k < ROOM; k++) stack[k] = paint(k);
  EXPECT(getcontext(&there) == 0);
  there.uc_stack.ss_sp = stack;
  there.uc_stack.ss_size = ROOM;
  there.uc_link = &here;
  makecontext(&there, call, 0);
  callee = function;
  EXPECT(swapcontext(&here, &there) == 0);
}

static ptrdiff_t most;

/* A call, which is answered so and emits so many frames: the bytes that it takes. */
static void measure(const char *name, void (*function)(void), void (*call)(void), int number, int frames) {
  size_t k = 0;
  answer = (apollo_answer){0};
  on_painted_stack(mark, call);
  on_painted_stack(function, call);
  EXPECT(answer.number == number && answer.frames == frames);
  while (k < ROOM && stack[k] == paint(k)) k++;
  ptrdiff_t bytes = top - (stack + k);
  printf("%s: %td bytes\n", name, bytes);
  EXPECT(bytes >= 8 && bytes <= TOLD);
  if (bytes > most) most = bytes;
}
#define MEASURE(name, number, frames) measure("apollo_" #name, (void (*)(void))apollo_##name, call_##name, number, frames)

/* Card 6 waits for a round: 1, or 6 with the blames of three others, one less than it needs to be past it and to lead. */
static void wait_for(uint32_t round) {
  record = apollo_open(6, F, (apollo_ticks){1}, (apollo_round){T}, rotation, N, log_, LOG, masks, T, NULL, 0, out, sizeof out).replica;
  if (round == 1) return;
  record = apollo_branch(record, log_, LOG, masks, T, blocks, 5 * APOLLO_FRAME, NULL, 0, out, sizeof out).replica;
  record = apollo_blames(record, log_, LOG, masks, T, blames, F * APOLLO_FRAME, NULL, 0, out, sizeof out).replica;
  EXPECT(record.round.value == round && masks[5] == 7);
}

int main(void) {
  make_frames();
  MEASURE(open, APOLLO_TAKEN, 1);
  wait_for(1);
  MEASURE(branch, APOLLO_TAKEN, 1);
  wait_for(6);
  MEASURE(blame, APOLLO_TAKEN, 1);
  wait_for(6);
  MEASURE(blames, APOLLO_TAKEN, 1);
  wait_for(6);
  MEASURE(tick, APOLLO_TAKEN, 2);
  wait_for(6);
  MEASURE(read, APOLLO_TAKEN, 0);
  MEASURE(fetch, APOLLO_TAKEN, 0);
  MEASURE(equivocation, APOLLO_NOT_EQUIVOCATION, 0);
  MEASURE(digest, APOLLO_TAKEN, 0);
  MEASURE(version, APOLLO_TAKEN, 0);
  EXPECT(2 * most > TOLD); /* else it was not measured */
  printf("every call took at most %td bytes, and may take %d\n", most, TOLD);
  return 0;
}
