/* explain REQUESTS: explains the messages of a file, and writes what each call answers, reports and writes.
 *
 * A request is the limits, the size of the output, the alignment and the length of the input, in 4 bytes each, and the input.
 * A reply is the answer in 4 bytes, `required` in 8, the report and the text. Each buffer is a block of its own of exactly its
 * length, and an empty one is NULL.
 *
 * The status is 4 if a call changed a byte after the text, and 5 if the path in the text isn't that of capvet_pointer_path.
 * It is 6 if CAPVET_EXPLANATION_BOUND bytes are not enough, and 7 if the answer or the report isn't that of capvet_vet. */
#include "shared.h"

#include <inttypes.h>

static capvet_limits limits;
static uint32_t size, odd, length;
static char *text;
static uint8_t *bytes;
static const uint8_t *input;

/* Reads a part of a request. */
static int request(FILE *file) {
  uint32_t numbers[3];
  if (!take(file, &limits, sizeof limits)) return 0;
  if (!take(file, numbers, sizeof numbers)) exit(3);
  size = numbers[0];
  odd = numbers[1];
  length = numbers[2];
  text = block(size);
  bytes = block(length == 0 ? 0 : length + odd);
  input = length == 0 ? NULL : bytes + odd;
  if (length != 0 && !take(file, bytes + odd, length)) exit(3);
  if (size != 0) memset(text, 0xa5, size);
  return 1;
}

/* The line of the path, as capvet_pointer_path gives it by the number of the pointer. No pointer has number 0. Of more than 24 steps it
 * has the first and the last 8. */
static size_t path_line(uint64_t number, char *line) {
  capvet_step steps[CAPVET_MAX_DEPTH];
  capvet_report report;
  size_t count, at, end = 0;
  if (number == 0) return 0;
  if (capvet_pointer_path(input, length, &limits, number, steps, CAPVET_MAX_DEPTH, &count, &report) != CAPVET_OK) exit(5);
  end += (size_t)sprintf(line, "  path %s", count == 0 ? "/" : "");
  for (at = 0; at < count; at++) {
    if (count > 24 && at == 8) {
      end += (size_t)sprintf(line + end, "/.. %u steps ..", (unsigned)(count - 16));
      at = count - 8;
    }
    end += (size_t)sprintf(line + end, "/%c%" PRIu32, "pi"[steps[at].kind], steps[at].number);
  }
  return end + (size_t)sprintf(line + end, "\n");
}

int main(int count, char **words) {
  static char line[16 * CAPVET_MAX_DEPTH + 16];
  FILE *file = count == 2 ? fopen(words[1], "rb") : NULL;
  if (file == NULL) return 2;
  while (request(file)) {
    capvet_report report, verdict;
    size_t required = 77, at, written, head;
    uint64_t reported;
    uint32_t answer;
    memset(&report, 0xa5, sizeof report);
    answer = capvet_explain(input, length, &limits, text, size, &required, &report);
    if (required > CAPVET_EXPLANATION_BOUND) return 6;
    written = required <= size ? required : 0;
    for (at = written; at < size; at++)
      if ((uint8_t)text[at] != 0xa5) return 4;
    if (answer >= CAPVET_NOT_CANONICAL && written != 0) {
      head = path_line(report.pointers, line);
      if (head > written || memcmp(line, text, head) != 0) return 5;
    }
    if (capvet_vet(input, length, &limits, &verdict) != (capvet_answer)answer) return 7;
    if (memcmp(&verdict, &report, sizeof report) != 0) return 7;
    reported = required;
    put(&answer, sizeof answer);
    put(&reported, sizeof reported);
    put(&report, sizeof report);
    put(text, written);
    free(text);
    free(bytes);
  }
  fclose(file);
  return 0;
}
