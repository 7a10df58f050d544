/* differences REQUESTS: finds the first differences of the messages of a file, and writes what each call answers and reports.
 *
 * A request is the length of a message in 4 bytes, and its bytes. A reply is the answer in 4 bytes and the report of
 * capvet_first_difference, and then those of capvet_check_canonical. The name of the reason follows, in 16 bytes that end in
 * zeros. Then come the answer of capvet_pointer_path for report.pointers, in 4 bytes, how many steps the path has, in 4
 * bytes, and its steps. Each message is in a block of its own of exactly its length. The limits are the greatest of all
 * messages: both flags are set. */
#include "shared.h"

int main(int count, char **words) {
  FILE *file = count == 2 ? fopen(words[1], "rb") : NULL;
  static const capvet_limits limits = {CAPVET_MAX_MESSAGE_WORDS, CAPVET_MAX_CHARGE, CAPVET_MAX_DEPTH,
                                       CAPVET_ALLOW_NONSTRICT | CAPVET_ALLOW_AMPLIFIED, CAPVET_FORM_WHOLE, 0, {0, 0, 0, 0, 0, 0}};
  static capvet_step steps[CAPVET_MAX_DEPTH];
  uint32_t length;
  if (file == NULL) return 2;
  while (fread(&length, 1, sizeof length, file) == sizeof length) {
    capvet_report first, check, other;
    char name[16] = {0};
    size_t required = 0;
    uint32_t answer, many;
    uint8_t *bytes = malloc(length + 1);
    if (bytes == NULL || fread(bytes + 1, 1, length, file) != length) return 3;
    memset(&first, 0xa5, sizeof first);
    memset(&check, 0xa5, sizeof check);
    answer = capvet_first_difference(bytes + 1, length, &limits, &first);
    put(&answer, sizeof answer);
    put(&first, sizeof first);
    answer = capvet_check_canonical(bytes + 1, length, &limits, &check);
    put(&answer, sizeof answer);
    put(&check, sizeof check);
    strncpy(name, capvet_difference_name(first.detail), sizeof name - 1);
    put(name, sizeof name);
    answer = capvet_pointer_path(bytes + 1, length, &limits, first.pointers, steps, CAPVET_MAX_DEPTH, &required, &other);
    many = (uint32_t)required;
    put(&answer, sizeof answer);
    put(&many, sizeof many);
    put(steps, many * sizeof *steps);
    free(bytes);
  }
  fclose(file);
  return 0;
}
