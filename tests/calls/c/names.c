/* names: writes the number and the name of each answer below 256 that has a name, after the word "answer". So it does for
 * each reason of a first difference, after the word "difference". Then it looks at the macros of capvet.h, at the calls that are beside them, and at the limits that capvet_limits_default sets. */
#define CAPVET_LINK_CHECK
#include <capvet.h>

#include <stdio.h>
#include <string.h>

static int failures = 0;

static void expect(int holds, const char *what) {
  if (!holds) {
    failures++;
    fprintf(stderr, "names: %s\n", what);
  }
}

int main(void) {
  const capvet_limits usual = CAPVET_LIMITS_INIT;
  capvet_limits limits;
  unsigned answer;
  for (answer = 0; answer < 256; answer++)
    if (strcmp(capvet_answer_name((capvet_answer)answer), "Unknown") != 0)
      printf("answer %u %s\n", answer, capvet_answer_name((capvet_answer)answer));
  for (answer = 0; answer < 256; answer++)
    if (strcmp(capvet_difference_name(answer), "Unknown") != 0)
      printf("difference %u %s\n", answer, capvet_difference_name(answer));
  expect(strcmp(capvet_difference_name(UINT64_MAX), "Unknown") == 0, "a difference that never comes");
  expect(strcmp(capvet_answer_name(CAPVET_ANSWER_32_BITS), "Unknown") == 0, "an answer that never comes");
  expect(sizeof(capvet_answer) == 4, "the size of an answer");
  memset(&limits, 0xa5, sizeof limits);
  capvet_limits_default(&limits);
  expect(memcmp(&limits, &usual, sizeof limits) == 0, "the default limits");
  expect(usual.message_words == 8388608 && usual.charge == 8388608 && usual.depth == 64 && usual.flags == 0, "their values");
  expect(capvet_version() == CAPVET_VERSION, "the version");
  expect(capvet_cpu_supported() == 1, "a processor that runs the calls");
#if CAPVET_VERSION < 131072
  expect(0, "the version in #if");
#endif
  expect(capvet_frame_bound(0) == 2056 && capvet_frame_bound(usual.message_words) == CAPVET_FRAME_BOUND(usual.message_words) &&
             capvet_frame_bound(UINT64_MAX) == CAPVET_FRAME_BOUND(CAPVET_MAX_MESSAGE_WORDS), "the bound of a frame, as a call");
  expect(capvet_marks_bound(511) == 1 && capvet_marks_bound(512) == 2 && capvet_marks_bound(0) == 1, "that of marks");
  expect(capvet_canonical_bound(16) == 32792 && capvet_canonical_bound(SIZE_MAX) == SIZE_MAX, "that of a canonical form");
  expect(capvet_pack_bound(7) == 0 && capvet_pack_bound(16) == 20 && capvet_pack_bound(SIZE_MAX) == SIZE_MAX, "that of packed words");
  expect(CAPVET_FRAME_BOUND(0) == 2056 && CAPVET_FRAME_BOUND(usual.message_words) == 67110920, "the bound of a frame");
  expect(CAPVET_MARKS_BOUND(511) == 1 && CAPVET_MARKS_BOUND(512) == 2, "the bound of marks");
  expect(CAPVET_CANONICAL_BOUND(16) == 32792, "the bound of a canonical form");
  expect(CAPVET_PACK_BOUND(7) == 0 && CAPVET_PACK_BOUND(16) == 20, "the bound of packed words");
  return failures != 0;
}
