/* Checks that the message in a file is canonical, or looks for its first difference from its canonical copy, as many times as
 * asked: comparing check|difference FILE COUNT. */
#include <capvet.h>
#include <stdio.h>
#include <stdlib.h>
#include <string.h>

int main(int count, char **words) {
  const capvet_limits limits = CAPVET_LIMITS_INIT;
  const size_t size = (size_t)1 << 20;
  uint8_t *bytes = malloc(size);
  FILE *file = count == 4 ? fopen(words[2], "rb") : NULL;
  size_t length;
  int left, differing = 0, is_check;
  if (bytes == NULL || file == NULL) return 2;
  length = fread(bytes, 1, size, file);
  fclose(file);
  is_check = strcmp(words[1], "check") == 0;
  for (left = atoi(words[3]); left > 0; left--) {
    capvet_report report;
    differing += (is_check ? capvet_check_canonical(bytes, length, &limits, &report)
                           : capvet_first_difference(bytes, length, &limits, &report)) != CAPVET_OK;
  }
  free(bytes);
  return differing > 0;
}
