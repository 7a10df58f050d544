/* nodes REQUESTS: gets the nodes that a file asks for, and writes what each call answers and reports.
 *
 * A request is the limits, the length of the path, the length of the input, the path and the input. A reply is
 * the answer, the node and the report. Lengths have four bytes. The path and the input are blocks of their own
 * of exactly their length, the input at an odd address. */
#include "shared.h"

int main(int count, char **words) {
  FILE *file = count == 2 ? fopen(words[1], "rb") : NULL;
  capvet_limits limits;
  if (file == NULL) return 2;
  while (take(file, &limits, sizeof limits)) {
    capvet_node node;
    capvet_report report;
    uint32_t lengths[2], answer;
    uint8_t *bytes;
    char *path;
    if (!take(file, lengths, sizeof lengths)) return 3;
    path = malloc(lengths[0] + (lengths[0] == 0));
    bytes = malloc(lengths[1] + 1);
    if (path == NULL || bytes == NULL) return 3;
    if (!take(file, path, lengths[0]) || !take(file, bytes + 1, lengths[1])) return 3;
    memset(&node, 0xa5, sizeof node);
    memset(&report, 0xa5, sizeof report);
    answer = capvet_get(bytes + 1, lengths[1], &limits, path, lengths[0], &node, &report);
    put(&answer, sizeof answer);
    put(&node, sizeof node);
    put(&report, sizeof report);
    free(path);
    free(bytes);
  }
  fclose(file);
  return 0;
}
