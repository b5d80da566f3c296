// Times SHA-256 implementations side by side: the proved one, C, Rust and libcrypto's, on a message of 480 bytes, on one of 16 MiB, and
// on the messages of four frames, in four lanes at once or one by one. All rows of a table run in turn within each pass, so that a
// slow moment of the machine hits them alike; the medians over the passes are printed, with the ratio of ours to each, and the aim of
// some ratios, which decides nothing. If no vectors are made of the proved lanes, they are no faster than one by one.
// usage: digest LABEL [all|ours]: LABEL names libcrypto's rows; with `ours`, for libcrypto without the CPU's features, only the proved
// code and libcrypto run.
#define OPENSSL_SUPPRESS_DEPRECATED
#include <openssl/sha.h>
#include <stdbool.h>
#include <stdint.h>
#include <stdio.h>
#include <stdlib.h>
#include <string.h>
#include <time.h>
#include <unistd.h>

enum { PASSES = 15, ROWS = 5, LARGE = 16 << 20, SMALL = 480, FRAME = 512, LANES = 4, DIGEST = 32 };

typedef struct {
  uint8_t d[LANES][DIGEST];
} digests4;

void apollo_digest(const uint8_t *bytes, size_t len, uint8_t digest[DIGEST]);
void c_digest(const uint8_t *m, size_t len, uint8_t *out);
void c_digest_loops(const uint8_t *m, size_t len, uint8_t *out);
void rust_digest(const uint8_t *m, size_t len, uint8_t *out);
// Its SHA256() would look the algorithm up by name at each call, longer than hashing 480 bytes takes with the CPU's features.
static void openssl_digest(const uint8_t *m, size_t len, uint8_t *out) {
  SHA256_CTX c;
  SHA256_Init(&c), SHA256_Update(&c, m, len), SHA256_Final(out, &c);
}

// Of the first 480 bytes of each of four frames.
digests4 apollo_digest4(const uint8_t *frames, size_t len);
void c_digest4(const uint8_t *frames, uint8_t *out);
void rust_digest4(const uint8_t *frames, uint8_t *out);

typedef void hash(const uint8_t *, size_t, uint8_t *);

typedef struct {
  const char *name;
  hash *run;
  double aim; // of ours over this; 0 for none
  double speed[PASSES];
} row;

// What the rows of a table are handed: one message, or as many frames; and how often in a pass.
typedef struct {
  const char *name;
  size_t message;
  int count, times;
} input;

static void ours_in_lanes(const uint8_t *frames, size_t len, uint8_t *out) {
  digests4 four = apollo_digest4(frames, len);
  memcpy(out, four.d, sizeof four.d);
}

static void c_in_lanes(const uint8_t *frames, size_t len, uint8_t *out) { (void)len, c_digest4(frames, out); }
static void rust_in_lanes(const uint8_t *frames, size_t len, uint8_t *out) { (void)len, rust_digest4(frames, out); }

static inline void each(hash *run, const uint8_t *frames, size_t len, uint8_t *out) {
  for (size_t i = 0; i < len / FRAME; i++) run(frames + FRAME * i, SMALL, out + DIGEST * i);
}

static void ours_each(const uint8_t *frames, size_t len, uint8_t *out) { each(apollo_digest, frames, len, out); }
static void openssl_each(const uint8_t *frames, size_t len, uint8_t *out) { each(openssl_digest, frames, len, out); }

static double now(void) {
  struct timespec t;
  clock_gettime(CLOCK_MONOTONIC, &t);
  return (double)t.tv_sec + (double)t.tv_nsec * 1e-9;
}

static size_t length(const input *in) { return in->count == 1 ? in->message : (size_t)in->count * FRAME; }

// Megabytes of messages a second; each result goes into the next message.
static double speed(const row *r, uint8_t *m, const input *in) {
  uint8_t out[LANES * DIGEST];
  double began = now();
  for (int i = 0; i < in->times; i++) {
    r->run(m, length(in), out);
    m[i % in->message] ^= out[0];
  }
  return (double)in->message * in->count * in->times / (now() - began) / 1e6;
}

static int by_size(const void *a, const void *b) {
  double x = *(const double *)a, y = *(const double *)b;
  return (x > y) - (x < y);
}

static double median(row *r) {
  qsort(r->speed, PASSES, sizeof(double), by_size);
  return r->speed[PASSES / 2];
}

// All rows give the same digests of this input, or the program ends.
static void compare(const row *rows, int count, const uint8_t *m, const input *in) {
  uint8_t want[LANES * DIGEST], got[LANES * DIGEST];
  rows[0].run(m, length(in), want);
  for (int i = 1; i < count; i++) {
    rows[i].run(m, length(in), got);
    if (memcmp(want, got, (size_t)in->count * DIGEST) != 0) {
      fprintf(stderr, "%s differs from %s at %d x %zu bytes\n", rows[i].name, rows[0].name, in->count, in->message);
      exit(1);
    }
  }
}

static void table(row *rows, int count, uint8_t *m, const input *in) {
  for (int p = 0; p < PASSES; p++) {
    if (isatty(2)) fprintf(stderr, "\r%s, pass %d of %d ", in->name, p + 1, PASSES);
    else if (p == 0) fprintf(stderr, "%s, %d passes\n", in->name, PASSES);
    for (int i = 0; i < count; i++) rows[i].speed[p] = speed(&rows[i], m, in);
  }
  if (isatty(2)) fprintf(stderr, "\r%40s\r", "");
  double ours = median(&rows[0]);
  for (int i = 0; i < count; i++) {
    double this = median(&rows[i]);
    printf("%16s  %-40s %7.0f MB/s   ours / this %5.2f", in->name, rows[i].name, this, ours / this);
    if (rows[i].aim > 0) printf(" (aim: %.2f)", rows[i].aim);
    printf("\n");
  }
}

// How many rows run: of five, or with `ours` the first and the last, which is put behind it.
static int chosen(row *rows, bool ours) {
  if (ours) rows[1] = rows[ROWS - 1];
  return ours ? 2 : ROWS;
}

static void one_message(const char *libcrypto, bool ours, uint8_t *m) {
  row rows[ROWS] = {{.name = "proved (ours)", .run = apollo_digest},
                    {.name = "C, same form, gcc -O3", .run = c_digest},
                    {.name = "C, textbook loops, gcc -O3", .run = c_digest_loops},
                    {.name = "Rust, same form, rustc -O3", .run = rust_digest},
                    {.name = libcrypto, .run = openssl_digest}};
  input small = {"480 bytes", SMALL, 1, 20000}, large = {"16 MiB", LARGE, 1, 1};
  int count = chosen(rows, ours);
  for (size_t len = 0; len <= 300; len++) compare(rows, count, m, &(input){.message = len, .count = 1});
  compare(rows, count, m, &large);
  table(rows, count, m, &small);
  table(rows, count, m, &large);
}

static void four_messages(const char *libcrypto, bool ours, uint8_t *m) {
  char one_by_one[80];
  snprintf(one_by_one, sizeof one_by_one, "%s, one by one", libcrypto);
  row rows[ROWS] = {{.name = "proved (ours), four lanes", .run = ours_in_lanes},
                    {.name = "proved (ours), one by one", .run = ours_each, .aim = 2.0},
                    {.name = "C, same four lanes, gcc -O3", .run = c_in_lanes, .aim = 0.9},
                    {.name = "Rust, same four lanes, rustc -O3", .run = rust_in_lanes, .aim = 0.9},
                    {.name = one_by_one, .run = openssl_each, .aim = ours ? 1.0 : 0}};
  input four = {"4 x 480 bytes", SMALL, LANES, 5000};
  int count = chosen(rows, ours);
  for (int i = 0; i < 300; i++) compare(rows, count, m + i * FRAME, &four);
  table(rows, count, m, &four);
}

int main(int argc, char **argv) {
  bool ours = argc > 2 && strcmp(argv[2], "ours") == 0;
  if (argc > 3 || (argc > 2 && !ours && strcmp(argv[2], "all") != 0)) {
    fprintf(stderr, "digest: unknown argument %s\nusage: digest LABEL [all|ours]\n", argv[argc - 1]);
    return 2;
  }
  const char *libcrypto = argc > 1 ? argv[1] : "libcrypto";
  uint8_t *m = malloc(LARGE);
  if (!m) return 1;
  for (size_t i = 0; i < LARGE; i++) m[i] = (uint8_t)(i * 167 + i / 256 * 89 + 13);
  one_message(libcrypto, ours, m);
  four_messages(libcrypto, ours, m);
  free(m);
  return fflush(stdout) != 0 || ferror(stdout) ? 1 : 0;
}
