/* What the fuzz targets share: the arguments of an input, choices, rules, and buffers next to pages that nothing may touch.
 * A broken rule ends the process.
 *
 * An input is 16 bytes of arguments, and then the bytes of a message or of a stream. Arguments of 0 are the defaults.
 *
 *   - Byte 0 has the form and the flags of the limits. Bits 0 and 3 are the form, bit 4 is an unknown flag, and bit 5 sets a reserved field.
 *   - Byte 1 says in bits 0 to 2 how far the bytes end before the page. The other bits choose a kind of test.
 *   - Bytes 2 and 3 are the depth limit and 1 more.
 *   - Bytes 4 to 7 are the limit of words of a message and 1 more.
 *   - Bytes 8 to 11 are the limit of charge and 1 more.
 *   - Bytes 12 to 15 are the seed of all other choices: paths, sizes of buffers, cuts. */
#ifndef CAPVET_FUZZ_H
#define CAPVET_FUZZ_H

#include <capvet.h>
#include <stdbool.h>
#include <stdio.h>
#include <stdlib.h>
#include <string.h>
#include <sys/mman.h>

enum { ARGUMENTS = 16, PAGE = 4096, CANARY = 0xa5 };

/* More charge than this isn't allowed for amplified messages, since a walk then takes seconds. */
enum { AMPLIFIED_CHARGE = 1 << 16 };

typedef struct fuzz_input {
  capvet_limits limits;
  unsigned kind;  /* 0 to 31 */
  size_t slack;   /* 0 to 7 */
  uint64_t state; /* of the choices */
  const uint8_t *bytes;
  size_t length;
} fuzz_input;

#define RULE(condition) ((condition) ? (void)0 : fuzz_broken(__FILE__, __LINE__, #condition))

static inline void fuzz_broken(const char *file, int line, const char *rule) {
  const char *name = strrchr(file, '/');
  fprintf(stderr, "RULE BROKEN %s:%d: %s\n", name != NULL ? name + 1 : file, line, rule);
  abort();
}

static inline uint64_t fuzz_number(const uint8_t *bytes, size_t length) {
  uint64_t number = 0;
  while (length-- > 0) number = number << 8 | bytes[length];
  return number;
}

/* A number below `below`, or 0 if that is 0. */
static inline uint64_t choose(fuzz_input *in, uint64_t below) {
  uint64_t mixed = in->state += UINT64_C(0x9e3779b97f4a7c15);
  mixed = (mixed ^ mixed >> 30) * UINT64_C(0xbf58476d1ce4e5b9);
  mixed = (mixed ^ mixed >> 27) * UINT64_C(0x94d049bb133111eb);
  return below != 0 ? (mixed ^ mixed >> 31) % below : 0;
}

static inline uint64_t fuzz_limit(const uint8_t *bytes, size_t length, uint64_t otherwise) {
  const uint64_t number = fuzz_number(bytes, length);
  return number != 0 ? number - 1 : otherwise;
}

/* The arguments and the bytes of an input. False if it has no arguments. */
static inline bool fuzz_read(fuzz_input *in, const uint8_t *data, size_t size) {
  if (size < ARGUMENTS) return false;
  const capvet_limits limits = CAPVET_LIMITS_INIT;
  in->limits = limits;
  in->limits.form = (data[0] & 1u) | (data[0] >> 2 & 2u);
  in->limits.flags = (data[0] >> 1 & 3u) | (data[0] >> 2 & 4u);
  in->limits.reserved[0] = data[0] >> 5 & 1;
  in->slack = data[1] & 7;
  in->kind = data[1] >> 3;
  in->limits.depth = (uint32_t)fuzz_limit(data + 2, 2, 64);
  in->limits.message_words = fuzz_limit(data + 4, 4, limits.message_words);
  in->limits.charge = fuzz_limit(data + 8, 4, limits.charge);
  if ((in->limits.flags & CAPVET_ALLOW_AMPLIFIED) != 0 && in->limits.charge > AMPLIFIED_CHARGE &&
      in->limits.charge <= CAPVET_MAX_CHARGE) {
    in->limits.charge = AMPLIFIED_CHARGE;
  }
  in->state = fuzz_number(data + 12, 4);
  in->bytes = data + ARGUMENTS;
  in->length = size - ARGUMENTS;
  return true;
}

/* Memory between two pages that nothing may touch. The archive is not built with the compiler's checks, so these pages find
 * what it reads or writes outside of its buffers. */
typedef struct fuzz_arena {
  uint8_t *begin;
  size_t size;
} fuzz_arena;

static inline fuzz_arena fuzz_arena_of(size_t size) {
  uint8_t *whole = (uint8_t *)mmap(NULL, size + 2 * PAGE, PROT_NONE, MAP_PRIVATE | MAP_ANONYMOUS, -1, 0);
  const fuzz_arena arena = {whole + PAGE, size};
  if (whole == MAP_FAILED || mprotect(arena.begin, size, PROT_READ | PROT_WRITE) != 0) abort();
  return arena;
}

/* An output buffer that ends `slack` bytes before the page. It and the bytes around it are canaries. */
static inline uint8_t *fuzz_place(const fuzz_arena *arena, size_t size, size_t slack) {
  if (size + slack + 8 > arena->size) abort();
  uint8_t *place = arena->begin + arena->size - slack - size;
  memset(place - 8, CANARY, size + slack + 8);
  return place;
}

/* A copy of an input buffer that ends `slack` bytes before the page. */
static inline uint8_t *fuzz_copy(const fuzz_arena *arena, const uint8_t *bytes, size_t length, size_t slack) {
  uint8_t *place = fuzz_place(arena, length, slack);
  if (length > 0) memcpy(place, bytes, length);
  return place;
}

/* libFuzzer counts no comparison of a function with this. */
#define UNCOUNTED __attribute__((noinline, unused, no_sanitize("coverage")))

/* Whether these bytes are still canaries. */
UNCOUNTED static bool is_untouched(const uint8_t *bytes, size_t length) {
  for (size_t at = 0; at < length; at++) {
    if (bytes[at] != CANARY) return false;
  }
  return true;
}

/* Whether an output buffer is unchanged from a length on, and around it. */
static inline bool is_untouched_after(const uint8_t *place, size_t length, size_t size, size_t slack) {
  return is_untouched(place - 8, 8) && is_untouched(place + length, size - length + slack);
}

/* libFuzzer searches for inputs that count further here, as for those that reach further in the code. So it sees what the
 * archive answers, which is built without its counters. */
__attribute__((used, section("__libfuzzer_extra_counters"))) static uint8_t fuzz_counters[2][32][64];

static inline void reached_answer(unsigned call, capvet_answer answer) { fuzz_counters[0][call & 31][(uint32_t)answer & 63]++; }

static inline void reached_number(unsigned kind, uint64_t number) {
  fuzz_counters[1][kind & 31][number == 0 ? 0 : 63 - __builtin_clzll(number)]++;
}

#endif
