/* ranges REQUESTS: gets the nodes of the ranges that a file asks for, and writes what each call answers and reports.
 *
 * A request is the limits, `varying` in 8 bytes, the counts of steps and of nodes, the alignment and the length of the
 * input, the steps and the input. A reply is the answer, `found` in 8 bytes, the nodes that were found and the report.
 * The other numbers have four bytes. Each buffer is a block of its own of exactly its length, and an empty one is NULL.
 *
 * The status is 4 if a call changed a node after those that it found, and 5 if capvet_get has another answer, node or
 * report for one of the paths. */
#include "shared.h"

#include <inttypes.h>

static capvet_limits limits;
static uint64_t varying;
static uint32_t step_count, node_count, odd, length;
static capvet_step *steps;
static capvet_node *nodes;
static uint8_t *bytes;
static const uint8_t *input;

/* Reads a part of a request. */
static int request(FILE *file) {
  uint32_t numbers[4];
  if (!take(file, &limits, sizeof limits)) return 0;
  if (!take(file, &varying, sizeof varying) || !take(file, numbers, sizeof numbers)) exit(3);
  step_count = numbers[0];
  node_count = numbers[1];
  odd = numbers[2];
  length = numbers[3];
  steps = block(step_count * sizeof *steps);
  nodes = block(node_count * sizeof *nodes);
  bytes = block(length == 0 ? 0 : length + odd);
  input = length == 0 ? NULL : bytes + odd;
  if (!take(file, steps, step_count * sizeof *steps)) exit(3);
  if (length != 0 && !take(file, bytes + odd, length)) exit(3);
  if (node_count != 0) memset(nodes, 0xa5, node_count * sizeof *nodes);
  return 1;
}

/* The text of path k, with each number at most the highest that a text may have. */
static size_t written(char *text, uint64_t k) {
  size_t at, end = 0;
  for (at = 0; at < step_count; at++) {
    const uint64_t most = steps[at].kind == CAPVET_STEP_POINTER ? 65535 : UINT32_MAX;
    const uint64_t number = steps[at].number + (at == varying ? k : 0);
    end += (size_t)sprintf(text + end, "/%c%" PRIu64, "pi"[steps[at].kind], number < most ? number : most);
  }
  return end;
}

/* capvet_get has the same node for each path, and for the first without a node the same answer and report. */
static void are_single(uint32_t answer, size_t found, const capvet_report *report) {
  char *text = block(13 * (size_t)step_count);
  const size_t count = found + (answer != CAPVET_OK);
  size_t k;
  for (k = 0; k < count; k++) {
    capvet_node node;
    capvet_report own;
    const uint32_t got = capvet_get(input, length, &limits, text, written(text, k), &node, &own);
    if (got != (k < found ? (uint32_t)CAPVET_OK : answer)) exit(5);
    if (k < found && memcmp(&node, &nodes[k], sizeof node) != 0) exit(5);
    if (k + 1 == count && memcmp(&own, report, sizeof own) != 0) exit(5);
  }
  free(text);
}

int main(int count, char **words) {
  FILE *file = count == 2 ? fopen(words[1], "rb") : NULL;
  if (file == NULL) return 2;
  while (request(file)) {
    capvet_report report;
    size_t found = 77, at;
    uint64_t reported;
    uint32_t answer;
    memset(&report, 0xa5, sizeof report);
    answer = capvet_get_range(input, length, &limits, steps, step_count, (size_t)varying, nodes, node_count, &found, &report);
    if (found > node_count) return 4;
    for (at = found * sizeof *nodes; at < node_count * sizeof *nodes; at++)
      if (((const uint8_t *)nodes)[at] != 0xa5) return 4;
    if (answer != CAPVET_BAD_PATH && answer != CAPVET_BAD_LIMITS) are_single(answer, found, &report);
    reported = found;
    put(&answer, sizeof answer);
    put(&reported, sizeof reported);
    put(nodes, found * sizeof *nodes);
    put(&report, sizeof report);
    free(steps);
    free(nodes);
    free(bytes);
  }
  fclose(file);
  return 0;
}
