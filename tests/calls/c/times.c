/* Vets the message in a file as many times as asked: times FILE COUNT. */
#include <capvet.h>
#include <stdio.h>
#include <stdlib.h>

int main(int count, char **words) {
  const capvet_limits limits = CAPVET_LIMITS_INIT;
  const size_t size = (size_t)32 << 20;
  uint8_t *bytes = malloc(size);
  FILE *file = count == 3 ? fopen(words[1], "rb") : NULL;
  if (bytes == NULL || file == NULL) return 2;
  const size_t length = fread(bytes, 1, size, file);
  int refused = 0;
  for (int left = atoi(words[2]); left > 0; left--) {
    capvet_report report;
    refused += capvet_vet(bytes, length, &limits, &report) != CAPVET_OK;
  }
  return refused > 0;
}
