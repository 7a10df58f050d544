/* Times the calls of capvet.h that read nodes.
 *
 *     nodes MODE FILE ROUNDS
 *
 * MODE is `vet` or `get` over the messages of a file, each of one segment: capvet_vet, or capvet_get of /p0. Or it is
 * `elements`, `structs`, `lists`, `nulls` or `texts`: one call of capvet_get_range over all elements of a list, of which
 * FILE is the number. Those of a list of structs, the struct, the list of structs or the null that the first pointer of
 * each leads to, or those of a list of texts. The line has the mode, and the least time of the rounds, in nanoseconds for
 * a message or a node. The status is 1 where a call doesn't answer CAPVET_OK. */
#define _POSIX_C_SOURCE 199309L
#include <capvet.h>
#include <stdio.h>
#include <stdlib.h>
#include <string.h>
#include <time.h>

static const capvet_limits LIMITS = CAPVET_LIMITS_INIT;

static double now(void) {
  struct timespec time;
  clock_gettime(CLOCK_PROCESS_CPUTIME_ID, &time);
  return (double)time.tv_sec * 1e9 + (double)time.tv_nsec;
}

static uint64_t to_struct(uint64_t offset, uint64_t data_words, uint64_t pointers) {
  return offset << 2 | data_words << 32 | pointers << 48;
}

static uint64_t to_list(uint64_t offset, uint64_t element, uint64_t size) {
  return 1 | offset << 2 | element << 32 | size << 35;
}

/* A frame whose root has one pointer, to the list that the mode asks for. */
static uint64_t *made(const char *mode, uint64_t count, size_t *length) {
  const int is_texts = strcmp(mode, "texts") == 0;
  uint64_t *words = calloc(4 + 4 * count, sizeof *words);
  if (words == NULL) return NULL;
  const uint64_t first = is_texts ? 3 : 4, each = is_texts ? 1 : 2;
  uint64_t end = first + each * count;
  words[1] = to_struct(0, 0, 1);
  words[2] = is_texts ? to_list(0, 6, count) : to_list(0, 7, 2 * count);
  if (!is_texts) words[3] = count << 2 | (uint64_t)1 << 32 | (uint64_t)1 << 48;
  for (uint64_t i = 0; i < count; i++) {
    const uint64_t at = first + each * i + each - 1;
    if (is_texts) {
      words[at] = to_list(end++ - at - 1, 2, 5);
    } else if (strcmp(mode, "lists") == 0) {
      words[at] = to_list(end - at - 1, 7, 1);
      words[end] = (uint64_t)1 << 2 | (uint64_t)1 << 32;
      end += 2;
    } else if (strcmp(mode, "nulls") != 0) {
      words[at] = to_struct(end++ - at - 1, 1, 0);
    }
  }
  words[0] = (end - 1) << 32;
  *length = 8 * end;
  return words;
}

/* Calls capvet_get_range over all elements. */
static capvet_answer range(const char *mode, const uint64_t *words, size_t length, capvet_node *nodes, size_t count) {
  const capvet_step steps[] = {{CAPVET_STEP_POINTER, 0}, {CAPVET_STEP_ELEMENT, 0}, {CAPVET_STEP_POINTER, 0}};
  const size_t many = strcmp(mode, "elements") == 0 || strcmp(mode, "texts") == 0 ? 2 : 3;
  capvet_report report;
  size_t found;
  return capvet_get_range((const uint8_t *)words, length, &LIMITS, steps, many, 1, nodes, count, &found, &report);
}

static int time_range(const char *mode, uint64_t count, int rounds) {
  size_t length;
  uint64_t *words = made(mode, count, &length);
  capvet_node *nodes = calloc(count, sizeof *nodes);
  if (words == NULL || nodes == NULL) return 2;
  double least = 1e18;
  while (rounds-- > 0) {
    const double start = now();
    if (range(mode, words, length, nodes, count) != CAPVET_OK) return 1;
    const double took = now() - start;
    if (took < least) least = took;
  }
  printf("%s %.1f\n", mode, least / (double)count);
  return 0;
}

/* Calls capvet_get or capvet_vet for each message of a file, and counts them. */
static size_t calls(int is_get, const uint8_t *bytes, size_t length, int *refused) {
  size_t count = 0;
  for (size_t at = 0; at + 8 <= length; count++) {
    uint32_t size;
    memcpy(&size, bytes + at + 4, sizeof size);
    const size_t frame = 8 + 8 * (size_t)size;
    capvet_node node;
    capvet_report report;
    *refused += (is_get ? capvet_get(bytes + at, frame, &LIMITS, "/p0", 3, &node, &report)
                        : capvet_vet(bytes + at, frame, &LIMITS, &report)) != CAPVET_OK;
    at += frame;
  }
  return count;
}

static int time_messages(const char *mode, const char *name, int rounds) {
  const size_t most = (size_t)64 << 20;
  uint8_t *bytes = malloc(most);
  FILE *file = fopen(name, "rb");
  if (bytes == NULL || file == NULL) return 2;
  const size_t length = fread(bytes, 1, most, file);
  double least = 1e18;
  size_t count = 1;
  int refused = 0;
  while (rounds-- > 0) {
    const double start = now();
    count = calls(strcmp(mode, "get") == 0, bytes, length, &refused);
    const double took = now() - start;
    if (took < least) least = took;
  }
  printf("%s %.1f\n", mode, least / (double)count);
  return refused > 0;
}

int main(int count, char **words) {
  if (count != 4 || atoi(words[3]) < 1) return 2;
  if (strcmp(words[1], "vet") == 0 || strcmp(words[1], "get") == 0) return time_messages(words[1], words[2], atoi(words[3]));
  return time_range(words[1], strtoull(words[2], NULL, 10), atoi(words[3]));
}
