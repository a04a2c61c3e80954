/* The examples in C. Prints, for some starts of each, what the function returns and leaves in memory: the lines of
   crates/all_examples/src/rows.rt. Memory is the words from byte 256 on.

   cc -O0 -fwrapv bench/twins.c -o /tmp/twins && /tmp/twins */
#include <stdint.h>
#include <stdio.h>

#define BASE 256
#define WORDS 8

static uint32_t memory[WORDS];
static int calls;

static uint32_t *at(uint32_t address) { return &memory[(address - BASE) / 4]; }

static uint32_t absolute(int32_t x) { return x < 0 ? (uint32_t)(-x) : (uint32_t)x; }

static uint32_t checksum(uint32_t from, int32_t n) {
  uint32_t sum = 0xffffffffu;
  for (; n > 0; n--, from += 4) sum = ((sum << 5) | (sum >> 27)) ^ *at(from);
  return sum;
}

static uint32_t copy(uint32_t to, uint32_t from, int32_t n) {
  for (; n > 0; n--, from += 4, to += 4) *at(to) = *at(from);
  return to;
}

static uint32_t dot(uint32_t x, uint32_t y, int32_t n) {
  uint32_t s = 0;
  do {
    s += *at(x) * *at(y);
    x += 4;
    y += 4;
  } while (--n > 0);
  return s;
}

static uint32_t gcd(uint32_t a, uint32_t b) {
  while (b != 0) {
    uint32_t rest = a % b;
    a = b;
    b = rest;
  }
  return a;
}

static uint32_t grade(int32_t points) {
  if (points >= 90) return 1;
  if (points >= 75) return 2;
  return points >= 50 ? 3 : 4;
}

static uint32_t maximum(int32_t a, int32_t b) { return (uint32_t)(a < b ? b : a); }

static uint32_t pass(uint32_t from, int32_t n) {
  for (; n > 1; n--, from += 4) {
    int32_t a = (int32_t)*at(from), b = (int32_t)*at(from + 4);
    if (a > b) {
      *at(from) = (uint32_t)b;
      *at(from + 4) = (uint32_t)a;
    }
  }
  return 0;
}

static uint32_t population(uint32_t x) { return (uint32_t)__builtin_popcount(x); }

static uint32_t search(uint32_t from, int32_t end, int32_t key) {
  for (int32_t low = 0; low < end;) {
    int32_t middle = (low + end) / 2, word = (int32_t)*at(from + 4 * (uint32_t)middle);
    if (word == key) return (uint32_t)middle;
    if (key > word) low = middle + 1;
    else end = middle;
  }
  return 0xffffffffu;
}

static uint32_t sum(void) { return 1 + 2; }

/* What the called function gives, call after call. */
static uint32_t price(uint32_t word) {
  static const uint32_t given[3] = {10, 4294967295u, 30};
  (void)word;
  return given[calls++];
}

static uint32_t total(uint32_t from, int32_t n) {
  uint32_t all = 0;
  for (; n > 0; n--, from += 4) all += price(*at(from));
  return all;
}

static void fill(const uint32_t *words) {
  for (int i = 0; i < WORDS; i++) memory[i] = words[i];
  calls = 0;
}

static void list(const uint32_t *words) {
  for (int i = 0; i < WORDS; i++) printf(" %u", words[i]);
}

#define RUN(name, a, b, c, returns, ...)                                                              \
  do {                                                                                                \
    static const uint32_t words[WORDS] = __VA_ARGS__;                                                 \
    fill(words);                                                                                      \
    uint32_t result = returns;                                                                        \
    printf("%s %u %u %u", name, (uint32_t)(a), (uint32_t)(b), (uint32_t)(c));                         \
    list(words);                                                                                      \
    printf(" %u", result);                                                                            \
    list(memory);                                                                                     \
    printf(" %d\n", calls);                                                                           \
  } while (0)

#define RISING {2, 3, 5, 7, 11, 13, 17, 19}
#define MIXED {9, 4294967295u, 65536, 7, 3, 65537, 0, 5}

int main(void) {
  RUN("absolute", 5, 0, 0, absolute(5), RISING);
  RUN("absolute", -5, 0, 0, absolute(-5), RISING);
  RUN("absolute", 2147483648u, 0, 0, absolute(INT32_MIN), RISING);
  RUN("checksum", 256, 8, 0, checksum(256, 8), MIXED);
  RUN("checksum", 256, 0, 0, checksum(256, 0), MIXED);
  RUN("copy", 256, 272, 4, copy(256, 272, 4), MIXED);
  RUN("copy", 260, 256, 3, copy(260, 256, 3), RISING);
  RUN("copy", 256, 272, -1, copy(256, 272, -1), RISING);
  RUN("dot", 256, 272, 4, dot(256, 272, 4), MIXED);
  RUN("dot", 256, 260, 0, dot(256, 260, 0), RISING);
  RUN("gcd", 12, 18, 0, gcd(12, 18), RISING);
  RUN("gcd", 7, 7, 0, gcd(7, 7), RISING);
  RUN("gcd", 35, 64, 0, gcd(35, 64), RISING);
  RUN("grade", 100, 0, 0, grade(100), RISING);
  RUN("grade", 89, 0, 0, grade(89), RISING);
  RUN("grade", 50, 0, 0, grade(50), RISING);
  RUN("grade", -1, 0, 0, grade(-1), RISING);
  RUN("maximum", 1, 2, 0, maximum(1, 2), RISING);
  RUN("maximum", 2, -1, 0, maximum(2, -1), RISING);
  RUN("pass", 256, 8, 0, pass(256, 8), MIXED);
  RUN("pass", 256, 1, 0, pass(256, 1), MIXED);
  RUN("population", 0, 0, 0, population(0), RISING);
  RUN("population", 4294967295u, 0, 0, population(4294967295u), RISING);
  RUN("population", 305419896, 0, 0, population(305419896), RISING);
  RUN("search", 256, 8, 13, search(256, 8, 13), RISING);
  RUN("search", 256, 8, 2, search(256, 8, 2), RISING);
  RUN("search", 256, 8, 18, search(256, 8, 18), RISING);
  RUN("sum", 0, 0, 0, sum(), RISING);
  RUN("total", 256, 3, 0, total(256, 3), RISING);
  RUN("total", 256, 0, 0, total(256, 0), RISING);
  return 0;
}
