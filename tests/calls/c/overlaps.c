/* overlaps REQUESTS: explains pointers of the messages of a file as overlaps, and writes what each call answers, reports and writes.
 *
 * A request has the limits, and the number of the pointer in 8 bytes. Then come its segment, its word, the size of the output, the
 * alignment and the length of the input, in 4 bytes each, and the input. A reply has the answer in 4 bytes, `required` in 8, the
 * report and the text. Each buffer is a block of its own of exactly its length, and an empty one is NULL.
 *
 * The status is 4 if a call changed a byte after the text, and 6 if CAPVET_OVERLAP_BOUND bytes are not enough. */
#include "shared.h"

static int explain(FILE *file) {
  capvet_limits limits;
  capvet_report report;
  uint64_t number, reported;
  uint32_t numbers[5], answer;
  size_t required = 77, at, written;
  uint8_t *bytes;
  char *text;
  if (!take(file, &limits, sizeof limits)) return 0;
  if (!take(file, &number, sizeof number) || !take(file, numbers, sizeof numbers)) exit(3);
  text = block(numbers[2]);
  bytes = block(numbers[4] == 0 ? 0 : numbers[4] + numbers[3]);
  if (numbers[4] != 0 && !take(file, bytes + numbers[3], numbers[4])) exit(3);
  if (numbers[2] != 0) memset(text, 0xa5, numbers[2]);
  memset(&report, 0xa5, sizeof report);
  answer = capvet_explain_overlap(numbers[4] == 0 ? NULL : bytes + numbers[3], numbers[4], &limits, numbers[0], numbers[1], number,
                                  text, numbers[2], &required, &report);
  if (required > CAPVET_OVERLAP_BOUND) exit(6);
  written = answer == CAPVET_OK ? required : 0;
  for (at = written; at < numbers[2]; at++)
    if ((uint8_t)text[at] != 0xa5) exit(4);
  reported = required;
  put(&answer, sizeof answer);
  put(&reported, sizeof reported);
  put(&report, sizeof report);
  put(text, written);
  free(text);
  free(bytes);
  return 1;
}

int main(int count, char **words) {
  FILE *file = count == 2 ? fopen(words[1], "rb") : NULL;
  if (file == NULL) return 2;
  while (explain(file)) continue;
  return fclose(file);
}
