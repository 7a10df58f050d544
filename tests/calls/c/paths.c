/* paths REQUESTS: gets the paths that a file asks for, and writes what each call answers and reports.
 *
 * A request is the limits, the number of a pointer in 8 bytes, the capacity in steps, the alignment and the length of the
 * input, in 4 bytes each, and the input. A reply is the answer in 4 bytes, `required` in 8, the report and the steps of
 * the path. Then come the answer and the report of capvet_earlier_pointer for this number. Each buffer is a block of its
 * own of exactly its length, and an empty one is NULL.
 *
 * The status is 4 if a call changed a step after those of the path, 5 if capvet_get finds nothing at a path without its
 * last step, and 6 if 256 steps are not enough. */
#include "shared.h"

#include <inttypes.h>

static capvet_limits limits;
static uint64_t number;
static uint32_t capacity, odd, length;
static capvet_step *steps;
static uint8_t *bytes;
static const uint8_t *input;

/* Reads a part of a request. */
static int request(FILE *file) {
  uint32_t numbers[3];
  if (!take(file, &limits, sizeof limits)) return 0;
  if (!take(file, &number, sizeof number) || !take(file, numbers, sizeof numbers)) exit(3);
  capacity = numbers[0];
  odd = numbers[1];
  length = numbers[2];
  steps = block(capacity * sizeof *steps);
  bytes = block(length == 0 ? 0 : length + odd);
  input = length == 0 ? NULL : bytes + odd;
  if (length != 0 && !take(file, bytes + odd, length)) exit(3);
  if (capacity != 0) memset(steps, 0xa5, capacity * sizeof *steps);
  return 1;
}

/* The path without its last step leads to an object. Its pointers are followed within the depth limit alone, so other
 * limits and words without a table are left to the model. */
static void leads_on(size_t count) {
  static char text[16 * 256 + 2];
  capvet_limits own = limits;
  capvet_node node;
  capvet_report report;
  size_t at, end = 0;
  if (count == 0 || limits.form == CAPVET_FORM_WORDS) return;
  own.charge = CAPVET_MAX_CHARGE;
  own.flags |= CAPVET_ALLOW_NONSTRICT | CAPVET_ALLOW_AMPLIFIED;
  text[0] = '/';
  text[1] = 0;
  for (at = 0; at + 1 < count; at++)
    end += (size_t)sprintf(text + end, "/%c%" PRIu32, "pi"[steps[at].kind], steps[at].number);
  if (capvet_get(input, length, &own, text, strlen(text), &node, &report) != CAPVET_OK) exit(5);
}

int main(int count, char **words) {
  FILE *file = count == 2 ? fopen(words[1], "rb") : NULL;
  if (file == NULL) return 2;
  while (request(file)) {
    capvet_report report;
    size_t required = 77, at, written;
    uint64_t reported;
    uint32_t answer;
    memset(&report, 0xa5, sizeof report);
    answer = capvet_pointer_path(input, length, &limits, number, steps, capacity, &required, &report);
    if (required > 256) return 6;
    written = answer == CAPVET_OK ? required : 0;
    for (at = written * sizeof *steps; at < capacity * sizeof *steps; at++)
      if (((const uint8_t *)steps)[at] != 0xa5) return 4;
    leads_on(written);
    reported = required;
    put(&answer, sizeof answer);
    put(&reported, sizeof reported);
    put(&report, sizeof report);
    put(steps, written * sizeof *steps);
    memset(&report, 0xa5, sizeof report);
    answer = capvet_earlier_pointer(input, length, &limits, number, &report);
    put(&answer, sizeof answer);
    put(&report, sizeof report);
    free(steps);
    free(bytes);
  }
  fclose(file);
  return 0;
}
