/* Times capvet_vet of a message that is refused, and capvet_pointer_path of the pointer that it names.
 *
 *     paths SHAPE COUNT ROUNDS
 *
 * SHAPE is `chain`: structs of one pointer, each to the next one. Or it is `tree`: a binary tree of structs of two
 * pointers. Or it is `list`: a list of structs, each of a text and a null pointer. Or it is `far`: a struct of far
 * pointers, each to a pad of one word before a struct of a data word. Or it is `caps`: a struct of capabilities. Or it
 * is `nulls`: a list of null pointers. COUNT is the number of structs, of capabilities or of null pointers, at most 2047.
 * The last pointer in preorder leads out of its segment. The line has the least times of both calls over the rounds, in
 * nanoseconds. In each round they are timed in turn. The status is 1 where a call doesn't answer what it has to. */
#define _POSIX_C_SOURCE 199309L
#include <capvet.h>
#include <stdio.h>
#include <stdlib.h>
#include <string.h>
#include <time.h>

#define MOST 2047

static uint64_t frame[4 + 4 * MOST];
static capvet_step steps[CAPVET_MAX_DEPTH];

static double now(void) {
  struct timespec time;
  clock_gettime(CLOCK_PROCESS_CPUTIME_ID, &time);
  return (double)time.tv_sec * 1e9 + (double)time.tv_nsec;
}

/* The pointer word at one place of the segment to a struct of pointers at another. */
static uint64_t to_struct(uint64_t at, uint64_t start, uint64_t pointers) {
  return (start - at - 1) << 2 | pointers << 48;
}

/* Writes the words of structs whose pointers lead to structs, `each` of them in one. Gives how many words. */
static uint64_t write_structs(uint64_t each, uint64_t count, uint64_t *segment) {
  segment[0] = to_struct(0, 1, each);
  for (uint64_t k = 0; k < count; k++) {
    for (uint64_t i = 0; i < each; i++) {
      const uint64_t at = 1 + each * k + i, child = each * k + i + 1;
      segment[at] = child < count ? to_struct(at, 1 + each * child, each) : 0;
    }
  }
  return 1 + each * count;
}

/* Writes the words of a list of structs: first its pointer, then its tag, the structs, and their texts of one word. */
static uint64_t write_list(uint64_t count, uint64_t *segment) {
  const uint64_t first = 3, texts = first + 2 * count;
  segment[0] = to_struct(0, 1, 1);
  segment[1] = 1 | (uint64_t)7 << 32 | 2 * count << 35;
  segment[2] = count << 2 | (uint64_t)2 << 48;
  for (uint64_t k = 0; k < count; k++) {
    const uint64_t at = first + 2 * k;
    segment[at] = 1 | (texts + k - at - 1) << 2 | (uint64_t)2 << 32 | (uint64_t)8 << 35;
    segment[at + 1] = 0;
  }
  return texts + count;
}

/* Writes the words of a list of null pointers and of one more pointer. Gives how many words. */
static uint64_t write_nulls(uint64_t count, uint64_t *segment) {
  memset(segment, 0, 8 * (2 + count));
  segment[0] = 1 | (uint64_t)6 << 32 | (1 + count) << 35;
  return 2 + count;
}

/* Writes the words of a struct of pointers, each far to its pad in the second segment or a capability. */
static void write_row(int is_far, uint64_t count, uint64_t *segment) {
  uint64_t *second = segment + 1 + count;
  segment[0] = to_struct(0, 1, count);
  for (uint64_t k = 0; k < count; k++) {
    segment[1 + k] = is_far ? 2 | 2 * k << 3 | (uint64_t)1 << 32 : 3 | k << 32;
    second[2 * k] = (uint64_t)1 << 32;
    second[2 * k + 1] = k;
  }
}

/* Writes the frame of such a message. Gives its length in bytes. */
static size_t write_segments(int is_far, uint64_t count) {
  write_row(is_far, count, frame + 2);
  frame[0] = 1 | (1 + count) << 32;
  frame[1] = 2 * count;
  frame[2 + count] = to_struct(count, 3 * count + 2, 1);
  return 8 * (3 + 3 * count);
}

/* Writes the frame. Gives its length in bytes. */
static size_t write_frame(const char *shape, uint64_t count) {
  const int is_list = strcmp(shape, "list") == 0, is_far = strcmp(shape, "far") == 0;
  const int is_nulls = strcmp(shape, "nulls") == 0;
  if (is_far || strcmp(shape, "caps") == 0) return write_segments(is_far, count);
  const uint64_t each = strcmp(shape, "tree") == 0 ? 2 : 1;
  const uint64_t words = is_list    ? write_list(count, frame + 1)
                         : is_nulls ? write_nulls(count, frame + 1)
                                    : write_structs(each, count, frame + 1);
  const uint64_t last = is_list ? 2 + 2 * count : words - 1;
  frame[0] = words << 32;
  frame[1 + last] = to_struct(last, words + 1, 1);
  return 8 * (words + 1);
}

int main(int argc, char **argv) {
  if (argc != 4 || strtoull(argv[2], NULL, 10) > MOST) return 2;
  const int rounds = atoi(argv[3]);
  const uint64_t count = strtoull(argv[2], NULL, 10);
  const size_t length = write_frame(argv[1], count);
  const int calls = (int)(400000 / length) + 1;
  capvet_limits limits = CAPVET_LIMITS_INIT;
  capvet_report report;
  double vet = 1e18, path = 1e18;
  /* (only a chain has more levels than the default limit) */
  if (strcmp(argv[1], "chain") == 0 && count > limits.depth) limits.depth = CAPVET_MAX_DEPTH;
  for (int round = 0; round < rounds; round++) {
    const double begin = now();
    for (int call = 0; call < calls; call++) {
      if (capvet_vet((const uint8_t *)frame, length, &limits, &report) != CAPVET_OUT_OF_SEGMENT) return 1;
    }
    const double middle = now();
    const uint64_t number = report.pointers;
    for (int call = 0; call < calls; call++) {
      size_t required;
      if (capvet_pointer_path((const uint8_t *)frame, length, &limits, number, steps, CAPVET_MAX_DEPTH, &required,
                              &report) != CAPVET_OK) return 1;
    }
    const double end = now();
    vet = middle - begin < vet ? middle - begin : vet;
    path = end - middle < path ? end - middle : path;
  }
  printf("%.1f %.1f\n", vet / calls, path / calls);
  return 0;
}
