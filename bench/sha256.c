// SHA-256 in C, to compare with. Of one message, in two forms: `c_digest` keeps sixteen words of the schedule and writes sixteen
// rounds out, as the proved code does; `c_digest_loops` is the textbook form, with the whole schedule in an array and a loop over the
// rounds. `c_digest4`, in the form of the proved code too, is of four frames' messages at once, each in a lane of its own.
#include <stddef.h>
#include <stdint.h>
#include <string.h>

static const uint32_t K[64] = {
    0x428a2f98, 0x71374491, 0xb5c0fbcf, 0xe9b5dba5, 0x3956c25b, 0x59f111f1, 0x923f82a4, 0xab1c5ed5, 0xd807aa98, 0x12835b01, 0x243185be,
    0x550c7dc3, 0x72be5d74, 0x80deb1fe, 0x9bdc06a7, 0xc19bf174, 0xe49b69c1, 0xefbe4786, 0x0fc19dc6, 0x240ca1cc, 0x2de92c6f, 0x4a7484aa,
    0x5cb0a9dc, 0x76f988da, 0x983e5152, 0xa831c66d, 0xb00327c8, 0xbf597fc7, 0xc6e00bf3, 0xd5a79147, 0x06ca6351, 0x14292967, 0x27b70a85,
    0x2e1b2138, 0x4d2c6dfc, 0x53380d13, 0x650a7354, 0x766a0abb, 0x81c2c92e, 0x92722c85, 0xa2bfe8a1, 0xa81a664b, 0xc24b8b70, 0xc76c51a3,
    0xd192e819, 0xd6990624, 0xf40e3585, 0x106aa070, 0x19a4c116, 0x1e376c08, 0x2748774c, 0x34b0bcb5, 0x391c0cb3, 0x4ed8aa4a, 0x5b9cca4f,
    0x682e6ff3, 0x748f82ee, 0x78a5636f, 0x84c87814, 0x8cc70208, 0x90befffa, 0xa4506ceb, 0xbef9a3f7, 0xc67178f2,
};

static inline uint32_t turned(uint32_t x, int n) { return x >> n | x << (32 - n); }
static inline uint32_t big0(uint32_t x) { return turned(x, 2) ^ turned(x, 13) ^ turned(x, 22); }
static inline uint32_t big1(uint32_t x) { return turned(x, 6) ^ turned(x, 11) ^ turned(x, 25); }
static inline uint32_t small0(uint32_t x) { return turned(x, 7) ^ turned(x, 18) ^ x >> 3; }
static inline uint32_t small1(uint32_t x) { return turned(x, 17) ^ turned(x, 19) ^ x >> 10; }
static inline uint32_t ch(uint32_t x, uint32_t y, uint32_t z) { return (x & y) ^ (~x & z); }
static inline uint32_t maj(uint32_t x, uint32_t y, uint32_t z) { return (x & y) ^ (x & z) ^ (y & z); }

static inline uint32_t word(const uint8_t *b) {
  return (uint32_t)b[0] << 24 | (uint32_t)b[1] << 16 | (uint32_t)b[2] << 8 | b[3];
}

static inline void put(uint8_t *b, uint32_t x) {
  b[0] = (uint8_t)(x >> 24), b[1] = (uint8_t)(x >> 16), b[2] = (uint8_t)(x >> 8), b[3] = (uint8_t)x;
}

#define ROUND(a, b, c, d, e, f, g, h, k, w)                       \
  do {                                                            \
    uint32_t t1 = (h) + big1(e) + ch(e, f, g) + (k) + (w);        \
    (d) += t1;                                                    \
    (h) = t1 + big0(a) + maj(a, b, c);                            \
  } while (0)

#define WORD(i) w[(i) % 16]
#define EXTENDED(W, i) (W(i) += small1(W((i) + 14)) + W((i) + 9) + small0(W((i) + 1)))
#define LOADED(i) (w[i] = word(block + 4 * (i)))
#define NEXT(i) EXTENDED(WORD, i)

#define EIGHT(W, t, i)                                            \
  ROUND(a, b, c, d, e, f, g, h, K[(t) + (i)], W(i));              \
  ROUND(h, a, b, c, d, e, f, g, K[(t) + (i) + 1], W((i) + 1));    \
  ROUND(g, h, a, b, c, d, e, f, K[(t) + (i) + 2], W((i) + 2));    \
  ROUND(f, g, h, a, b, c, d, e, K[(t) + (i) + 3], W((i) + 3));    \
  ROUND(e, f, g, h, a, b, c, d, K[(t) + (i) + 4], W((i) + 4));    \
  ROUND(d, e, f, g, h, a, b, c, K[(t) + (i) + 5], W((i) + 5));    \
  ROUND(c, d, e, f, g, h, a, b, K[(t) + (i) + 6], W((i) + 6));    \
  ROUND(b, c, d, e, f, g, h, a, K[(t) + (i) + 7], W((i) + 7))

static void compress(uint32_t *s, const uint8_t *block) {
  uint32_t a = s[0], b = s[1], c = s[2], d = s[3], e = s[4], f = s[5], g = s[6], h = s[7], w[16];
  EIGHT(LOADED, 0, 0);
  EIGHT(LOADED, 0, 8);
  for (int t = 16; t < 64; t += 16) {
    EIGHT(NEXT, t, 0);
    EIGHT(NEXT, t, 8);
  }
  s[0] += a, s[1] += b, s[2] += c, s[3] += d, s[4] += e, s[5] += f, s[6] += g, s[7] += h;
}

static void compress_loops(uint32_t *s, const uint8_t *block) {
  uint32_t a = s[0], b = s[1], c = s[2], d = s[3], e = s[4], f = s[5], g = s[6], h = s[7], w[64];
  for (int t = 0; t < 16; t++) w[t] = word(block + 4 * t);
  for (int t = 16; t < 64; t++) w[t] = small1(w[t - 2]) + w[t - 7] + small0(w[t - 15]) + w[t - 16];
  for (int t = 0; t < 64; t++) {
    uint32_t t1 = h + big1(e) + ch(e, f, g) + K[t] + w[t], t2 = big0(a) + maj(a, b, c);
    h = g, g = f, f = e, e = d + t1, d = c, c = b, b = a, a = t1 + t2;
  }
  s[0] += a, s[1] += b, s[2] += c, s[3] += d, s[4] += e, s[5] += f, s[6] += g, s[7] += h;
}

#define START {0x6a09e667, 0xbb67ae85, 0x3c6ef372, 0xa54ff53a, 0x510e527f, 0x9b05688c, 0x1f83d9ab, 0x5be0cd19}

static inline void digest(void (*block)(uint32_t *, const uint8_t *), const uint8_t *m, size_t len, uint8_t *out) {
  uint32_t s[8] = START;
  uint8_t last[128] = {0};
  size_t whole = len / 64 * 64, rest = len - whole, end = rest < 56 ? 64 : 128;
  for (size_t i = 0; i < whole; i += 64) block(s, m + i);
  memcpy(last, m + whole, rest);
  last[rest] = 0x80;
  for (int i = 0; i < 8; i++) last[end - 1 - i] = (uint8_t)((uint64_t)len * 8 >> 8 * i);
  for (size_t i = 0; i < end; i += 64) block(s, last + i);
  for (int i = 0; i < 8; i++) put(out + 4 * i, s[i]);
}

void c_digest(const uint8_t *m, size_t len, uint8_t *out) { digest(compress, m, len, out); }
void c_digest_loops(const uint8_t *m, size_t len, uint8_t *out) { digest(compress_loops, m, len, out); }

// Four lanes: word t of lane l stands at 4 * t + l, and so do its variables.
enum { LANES = 4, FRAME = 512, MESSAGE = 480 };

#define LANE(i) w[LANES * ((i) % 16) + l]
#define NEXT_LANE(i) EXTENDED(LANE, i)

// Sixteen rounds of every lane from t on. The loop over the lanes goes around them, and the compiler makes vectors of it.
#define SIXTEEN(name, W)                                                                            \
  static void name(uint32_t *restrict v, uint32_t *restrict w, int t) {                             \
    for (int l = 0; l < LANES; l++) {                                                               \
      uint32_t *s = v + l;                                                                          \
      uint32_t a = s[0], b = s[4], c = s[8], d = s[12], e = s[16], f = s[20], g = s[24], h = s[28]; \
      EIGHT(W, t, 0);                                                                               \
      EIGHT(W, t, 8);                                                                               \
      s[0] = a, s[4] = b, s[8] = c, s[12] = d, s[16] = e, s[20] = f, s[24] = g, s[28] = h;          \
    }                                                                                               \
  }
SIXTEEN(first_lanes, LANE)
SIXTEEN(next_lanes, NEXT_LANE)

// A block of each lane; the blocks stand `apart` bytes from one another. gcc's code is faster with the words loaded lane by lane than
// row by row, as the proved code loads them.
static void compress4(uint32_t *s, const uint8_t *blocks, size_t apart) {
  uint32_t v[8 * LANES], w[16 * LANES];
  for (int l = 0; l < LANES; l++)
    for (int t = 0; t < 16; t++) w[LANES * t + l] = word(blocks + apart * l + 4 * t);
  memcpy(v, s, sizeof v);
  first_lanes(v, w, 0);
  for (int t = 16; t < 64; t += 16) next_lanes(v, w, t);
  for (int i = 0; i < 8 * LANES; i++) s[i] += v[i];
}

// The digests of the messages of four frames, which stand end to end.
void c_digest4(const uint8_t *frames, uint8_t *out) {
  static const uint32_t start[8] = START;
  uint32_t s[8 * LANES];
  uint8_t last[LANES][64] = {{0}};
  for (int i = 0; i < 8 * LANES; i++) s[i] = start[i / LANES];
  for (int i = 0; i < MESSAGE / 64; i++) compress4(s, frames + 64 * i, FRAME);
  for (int l = 0; l < LANES; l++) {
    memcpy(last[l], frames + FRAME * l + MESSAGE / 64 * 64, MESSAGE % 64);
    last[l][MESSAGE % 64] = 0x80;
    last[l][62] = MESSAGE * 8 >> 8; // of the length in bits, 3,840, all other bytes are 0
  }
  compress4(s, last[0], 64);
  for (int i = 0; i < 8 * LANES; i++) put(out + i % LANES * 32 + i / LANES * 4, s[i]);
}
