/* Makes the calls that standard input describes, and writes what each one left: its answer, and the bytes that are asked for.
 * tests/machines/machines.py describes the form of the input. The same program for other processors has to write the same. */
#include <capvet.h>

#include <stdio.h>
#include <stdlib.h>
#include <string.h>

enum { ARENA = 1 << 24, FILLED = 0xee };

static uint8_t *arena;

static void get(void *to, size_t length) {
  if (fread(to, 1, length, stdin) != length) exit(2);
}

static uint32_t number(void) {
  uint32_t it;
  get(&it, sizeof it);
  return it;
}

/* The place in the arena, or nothing for all ones. */
static void *at(uint64_t place) { return place == UINT64_MAX ? NULL : arena + place; }

#define N(i) ((size_t)a[i])
#define P(i) at(a[i])

/* A size as the module returns it. */
static uint32_t least(size_t size) { return size < UINT32_MAX ? (uint32_t)size : UINT32_MAX; }

static uint32_t answer(uint32_t call, const uint64_t *a) {
  switch (call) {
    case 0: return capvet_version();
    case 1: capvet_limits_default(P(0)); return 0;
    case 2: return capvet_vet(P(0), N(1), P(2), P(3));
    case 3: return capvet_vet_exclusive(P(0), N(1), P(2), P(3), N(4), P(5), P(6));
    case 4: return capvet_vet_segments(P(0), N(1), P(2), P(3));
    case 5: return capvet_frame(P(0), N(1), P(2), P(3));
    case 6: return capvet_segments(P(0), N(1), P(2), P(3), N(4), P(5), P(6));
    case 7: return capvet_canonical(P(0), N(1), P(2), P(3), N(4), P(5), P(6));
    case 8: return capvet_check_canonical(P(0), N(1), P(2), P(3));
    case 9: return capvet_get(P(0), N(1), P(2), P(3), N(4), P(5), P(6));
    case 10: return capvet_get_range(P(0), N(1), P(2), P(3), N(4), N(5), P(6), N(7), P(8), P(9));
    case 11: return capvet_pack_words(P(0), N(1), P(2), N(3), P(4));
    case 12: return capvet_unpack_words(P(0), N(1), P(2), N(3), P(4));
    case 13: return capvet_pack_message(P(0), N(1), P(2), P(3), N(4), P(5), P(6));
    case 14: return capvet_unpack_message(P(0), N(1), P(2), P(3), N(4), P(5), P(6), P(7), P(8));
    case 15: return capvet_pointer_path(P(0), N(1), P(2), a[3], P(4), N(5), P(6), P(7));
    case 16: return capvet_explain(P(0), N(1), P(2), P(3), N(4), P(5), P(6));
    case 17: return least(capvet_marks_bound(N(0)));
    case 18: return least(capvet_frame_bound(N(0)));
    case 19: return least(capvet_canonical_bound(N(0)));
    case 20: return least(capvet_pack_bound(N(0)));
    case 21: return capvet_earlier_pointer(P(0), N(1), P(2), a[3], P(4));
    case 22: return capvet_check_canonical_words(P(0), N(1), P(2), P(3));
    case 23: return capvet_explain_overlap(P(0), N(1), P(2), (uint32_t)a[3], (uint32_t)a[4], a[5], P(6), N(7), P(8), P(9));
    case 24: return capvet_first_difference(P(0), N(1), P(2), P(3));
  }
  exit(2);
}

/* Writes bytes to the arena, and addresses of places in it. */
static void prepare(void) {
  for (uint32_t left = number(); left > 0; left--) {
    const uint32_t place = number(), length = number();
    get(arena + place, length);
  }
  for (uint32_t left = number(); left > 0; left--) {
    const uint32_t place = number();
    const void *address = arena + number();
    memcpy(arena + place, &address, sizeof address);
  }
}

static void make_call(void) {
  uint64_t arguments[10];
  const uint32_t call = number(), count = number();
  if (count > 10) exit(2);
  get(arguments, count * sizeof *arguments);
  const uint32_t start = number(), end = number();
  memset(arena + start, FILLED, end - start);
  prepare();
  const uint32_t got = answer(call, arguments);
  fwrite(&got, 1, sizeof got, stdout);
  fwrite(arena + start, 1, end - start, stdout);
}

int main(void) {
  arena = malloc(ARENA);
  if (arena == NULL) return 3;
  int kind;
  while ((kind = getchar()) != EOF) {
    if (kind == 'w') prepare();
    else if (kind == 'c') make_call();
    else return 2;
  }
  return fflush(stdout) != 0;
}
