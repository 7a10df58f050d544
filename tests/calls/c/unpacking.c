/* unpacking REQUESTS: makes the calls of capvet_unpack_message that a file asks for, and writes what each of them
 * returns, reports and leaves.
 *
 * A request is the limits, the state, the length of the input, the size of the buffer, the input and the buffer. A reply
 * is the answer, how many bytes were consumed, the required size, the state, the report and the buffer. The answer and
 * lengths have four bytes, the other two numbers eight. The input and the buffer are blocks of their own of exactly their
 * length, each at an odd address. */
#include "shared.h"

/* A block of one byte and the next `length` bytes of the file after it. */
static uint8_t *read_block(FILE *file, size_t length) {
  uint8_t *whole = odd_block(length);
  if (!take(file, whole + 1, length)) exit(3);
  return whole;
}

int main(int count, char **words) {
  FILE *file = count == 2 ? fopen(words[1], "rb") : NULL;
  capvet_limits limits;
  if (file == NULL) return 2;
  while (take(file, &limits, sizeof limits)) {
    capvet_unpacking state;
    capvet_report report;
    uint32_t lengths[2], answer;
    size_t consumed = 77, required = 77;
    uint8_t *bytes, *out;
    if (!take(file, &state, sizeof state) || !take(file, lengths, sizeof lengths)) return 3;
    bytes = read_block(file, lengths[0]);
    out = read_block(file, lengths[1]);
    memset(&report, 0xa5, sizeof report);
    answer = capvet_unpack_message(bytes + 1, lengths[0], &limits, out + 1, lengths[1], &state, &consumed, &required, &report);
    put(&answer, sizeof answer);
    put(&consumed, sizeof consumed);
    put(&required, sizeof required);
    put(&state, sizeof state);
    put(&report, sizeof report);
    put(out + 1, lengths[1]);
    free(bytes);
    free(out);
  }
  fclose(file);
  return 0;
}
