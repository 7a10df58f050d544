/* Times the calls of capvet.h over one message, in microseconds.
 *
 *     amplified ROUNDS FILE
 *
 * Each round calls each of them once, in turn, by the default limits and with CAPVET_ALLOW_AMPLIFIED. The time of a call is
 * the least of its rounds. The lines are the name of a call and these two times. */
#define _POSIX_C_SOURCE 199309L
#include <capvet.h>
#include <stdio.h>
#include <stdlib.h>
#include <time.h>

enum { MOST = 1 << 16, CALLS = 4 };

static const char *const NAMES[CALLS] = {"capvet_vet", "capvet_vet_exclusive", "capvet_check_canonical", "capvet_canonical"};
static uint8_t bytes[MOST];
static uint64_t marks[MOST / 512 + 1];

static uint32_t call(int which, size_t length, const capvet_limits *limits, uint8_t *out, size_t size) {
  capvet_report report;
  size_t required;
  switch (which) {
    case 0:
      return capvet_vet(bytes, length, limits, &report);
    case 1:
      return capvet_vet_exclusive(bytes, length, limits, marks, sizeof marks / sizeof *marks, &required, &report);
    case 2:
      return capvet_check_canonical(bytes, length, limits, &report);
    default:
      return capvet_canonical(bytes, length, limits, out, size, &required, &report);
  }
}

static double now(void) {
  struct timespec time;
  clock_gettime(CLOCK_PROCESS_CPUTIME_ID, &time);
  return (double)time.tv_sec * 1e6 + (double)time.tv_nsec / 1e3;
}

int main(int count, char **words) {
  static const uint32_t flags[2] = {0, CAPVET_ALLOW_AMPLIFIED};
  double least[CALLS][2];
  FILE *file = count == 3 ? fopen(words[2], "rb") : NULL;
  size_t length = file ? fread(bytes, 1, MOST, file) : 0, size = (size_t)8 * (8388608 + 1);
  uint8_t *out = malloc(size);
  long round;
  int which, more;
  if (length == 0 || out == NULL) return 2;
  for (round = 0; round < atol(words[1]); round++)
    for (which = 0; which < CALLS; which++)
      for (more = 0; more < 2; more++) {
        capvet_limits limits = CAPVET_LIMITS_INIT;
        double before = now(), took;
        limits.flags = flags[more];
        (void)!call(which, length, &limits, out, size);
        took = now() - before;
        if (round == 0 || took < least[which][more]) least[which][more] = took;
      }
  for (which = 0; which < CALLS; which++) printf("%s %.1f %.1f\n", NAMES[which], least[which][0], least[which][1]);
  return 0;
}
