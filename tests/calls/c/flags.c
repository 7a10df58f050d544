/* flags REQUESTS: makes the calls that a file asks for, and writes what each of them answers and reports.
 *
 * The calls are 0 capvet_frame, 1 capvet_vet, 2 capvet_vet_exclusive, 3 capvet_canonical, 4 capvet_check_canonical,
 * 5 capvet_segments, 6 capvet_vet_segments, 7 capvet_check_canonical_words, 8 capvet_first_difference. A request is the
 * number of a call, the size or count of its output buffer, the limits, the length of the input and the input. Separate
 * segments come after their lengths, and the number before the limits is how many they are. The size 0xffffffff of a copy
 * is CAPVET_CANONICAL_BOUND of the input's length.
 *
 * A reply is the answer, `required` in 8 bytes, the report, and the bytes that capvet_canonical or capvet_segments
 * wrote. The other numbers have four bytes. Each buffer is a block of its own of exactly its length, and an empty
 * one is NULL. The status is 4 if a call changed anything of an output buffer that it may not. */
#include "shared.h"

enum { FRAME, VET, EXCLUSIVE, CANONICAL, CHECK, SEGMENTS, VET_SEGMENTS, CHECK_WORDS, DIFFERENCE };

/* Stops if one of these bytes isn't as it was before the call. */
static void are_kept(const uint8_t *bytes, size_t from, size_t to) {
  for (; from < to; from++)
    if (bytes[from] != 0xee) exit(4);
}

/* Vets separate segments, each in a block of its own of exactly its length, or NULL if it is empty. */
static uint32_t separate(const uint8_t *input, uint32_t count, const capvet_limits *limits, capvet_report *report) {
  capvet_segment *segments = count == 0 ? NULL : malloc(count * sizeof *segments);
  const uint8_t *from = input + 4 * (size_t)count;
  uint32_t answer, i, length;
  if (count != 0 && segments == NULL) exit(3);
  for (i = 0; i < count; i++) {
    uint8_t *own;
    memcpy(&length, input + 4 * (size_t)i, 4);
    own = length == 0 ? NULL : malloc(length);
    if (length != 0) memcpy(own, from, length);
    segments[i].bytes = own;
    segments[i].length = length;
    from += length;
  }
  answer = capvet_vet_segments(segments, count, limits, report);
  for (i = 0; i < count; i++) free((void *)segments[i].bytes);
  free(segments);
  return answer;
}

int main(int count, char **words) {
  FILE *file = count == 2 ? fopen(words[1], "rb") : NULL;
  uint32_t head[2], length;
  if (file == NULL) return 2;
  while (take(file, head, sizeof head)) {
    const uint8_t *input;
    uint8_t *buffer;
    capvet_limits limits;
    capvet_report report;
    size_t required = 77, item = head[0] == EXCLUSIVE ? 8 : head[0] == SEGMENTS ? 16 : 1, size, written = 0;
    uint8_t *bytes, *out;
    uint64_t reported;
    uint32_t answer;
    if (!take(file, &limits, sizeof limits) || !take(file, &length, sizeof length)) return 3;
    size = head[0] == VET_SEGMENTS ? 0 : head[1] * item;
    if (head[0] == CANONICAL && head[1] == UINT32_MAX) size = CAPVET_CANONICAL_BOUND(length);
    out = malloc(size + item);
    bytes = malloc(length + 1);
    if (bytes == NULL || out == NULL || !take(file, bytes + 1, length)) return 3;
    input = length == 0 ? NULL : bytes + 1;
    buffer = size == 0 ? NULL : out;
    memset(out, 0xee, size + item);
    memset(&report, 0xa5, sizeof report);
    switch (head[0]) {
      case FRAME: answer = capvet_frame(input, length, &limits, &report); break;
      case VET: answer = capvet_vet(input, length, &limits, &report); break;
      case EXCLUSIVE:
        answer = capvet_vet_exclusive(input, length, &limits, (uint64_t *)(void *)buffer, head[1], &required, &report);
        if (answer == CAPVET_OK || answer == CAPVET_OVERLAP) written = 8 * required;
        break;
      case CANONICAL:
        answer = capvet_canonical(input, length, &limits, buffer, size, &required, &report);
        if (answer == CAPVET_OK) written = required;
        break;
      case SEGMENTS:
        answer = capvet_segments(input, length, &limits, (capvet_extent *)(void *)buffer, head[1], &required, &report);
        if (answer == CAPVET_OK) written = 16 * required;
        break;
      case VET_SEGMENTS: answer = separate(bytes + 1, head[1], &limits, &report); break;
      case CHECK_WORDS: answer = capvet_check_canonical_words(input, length, &limits, &report); break;
      case DIFFERENCE: answer = capvet_first_difference(input, length, &limits, &report); break;
      default: answer = capvet_check_canonical(input, length, &limits, &report); break;
    }
    if (written > size) return 4;
    are_kept(out, written, size + item);
    reported = head[0] == EXCLUSIVE || head[0] == CANONICAL || head[0] == SEGMENTS ? required : 0;
    put(&answer, sizeof answer);
    put(&reported, sizeof reported);
    put(&report, sizeof report);
    if (head[0] != EXCLUSIVE) put(out, written);
    free(bytes);
    free(out);
  }
  fclose(file);
  return 0;
}
