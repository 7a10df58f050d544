/* Times calls of the archive over the messages of a file: calls FILE SECONDS. Writes how many there are, and for
 * capvet_vet and capvet_canonical the least nanoseconds a message. It passes over the file so often that reading the clock counts
 * for little. calls.mjs does the same with the module. */
#include <capvet.h>

#include <stdio.h>
#include <stdlib.h>
#include <time.h>

/* The least nanoseconds between two looks at the clock. */
#define SPAN 1e5

static const capvet_limits LIMITS = {CAPVET_MAX_MESSAGE_WORDS, CAPVET_MAX_CHARGE, CAPVET_MAX_DEPTH,
                                     CAPVET_ALLOW_NONSTRICT | CAPVET_ALLOW_AMPLIFIED, CAPVET_FORM_PREFIX, 0, {0, 0, 0, 0, 0, 0}};

static double now(void) {
  struct timespec it;
  clock_gettime(CLOCK_MONOTONIC, &it);
  return (double)it.tv_sec * 1e9 + (double)it.tv_nsec;
}

int main(int count, char **words) {
  if (count != 3) return 2;
  FILE *file = fopen(words[1], "rb");
  if (file == NULL || fseek(file, 0, SEEK_END) != 0) return 2;
  const size_t length = (size_t)ftell(file), size = 2 * length + 64;
  uint8_t *bytes = malloc(length), *out = malloc(size);
  rewind(file);
  if (bytes == NULL || out == NULL || fread(bytes, 1, length, file) != length) return 2;
  double least[2] = {1e18, 1e18};
  size_t messages = 0, at, required;
  capvet_report report;
  for (int call = 0; call < 2; call++) {
    double begin, end, first = now();
    size_t passes = 1;
    do {
      begin = now();
      for (size_t pass = 0; pass < passes; pass++)
        for (at = 0, messages = 0; at < length; at += report.length, messages++)
          if ((call == 0 ? capvet_vet(bytes + at, length - at, &LIMITS, &report)
                         : capvet_canonical(bytes + at, length - at, &LIMITS, out, size, &required, &report)) != CAPVET_OK)
            return 1;
      end = now();
      const double each = (end - begin) / (double)(passes * messages);
      if (each < least[call]) least[call] = each;
      if (end - begin < SPAN) passes *= 2;
    } while (end - first < 1e9 * atof(words[2]));
  }
  printf("%zu %.1f %.1f\n", messages, least[0], least[1]);
  return 0;
}
