/* say FILE WORDS CHARGE DEPTH FLAGS EXCLUSIVE: writes a JSON object for each message of a file. FLAGS are the number of
 * capvet_limits, and EXCLUSIVE is 1 if no word may be used twice. The four bytes before a message are its length, the lowest
 * byte first. tests/bindings/languages.py has the members of the object. */
#include <capvet.h>

#include <inttypes.h>
#include <stdio.h>
#include <stdlib.h>
#include <string.h>

static void *allocated(size_t size) {
  void *block = malloc(size + 1);
  if (block == NULL) exit(3);
  return block;
}

static void put_path(const char *name, const uint8_t *bytes, size_t length, const capvet_limits *limits, uint64_t number) {
  capvet_step steps[CAPVET_MAX_DEPTH];
  capvet_report report;
  size_t count, at;
  if (capvet_pointer_path(bytes, length, limits, number, steps, CAPVET_MAX_DEPTH, &count, &report) != CAPVET_OK) exit(4);
  printf(",\"%s\":\"%s", name, count == 0 ? "/" : "");
  for (at = 0; at < count; at++) {
    printf("/%c%" PRIu32, steps[at].kind == CAPVET_STEP_ELEMENT ? 'i' : 'p', steps[at].number);
  }
  putchar('"');
}

static void put_lines(const uint8_t *bytes, size_t length, const capvet_limits *limits, capvet_answer refused,
                      const capvet_report *its) {
  char text[CAPVET_OVERLAP_BOUND];
  capvet_report report;
  size_t count, at;
  if (refused != CAPVET_OVERLAP) {
    if (capvet_explain(bytes, length, limits, text, sizeof text, &count, &report) != refused) exit(4);
  } else if (capvet_explain_overlap(bytes, length, limits, its->segment, its->word, its->pointers, text, sizeof text, &count,
                                    &report) != CAPVET_OK) {
    exit(4);
  }
  fputs(",\"explain\":\"", stdout);
  for (at = 0; at < count; at++) {
    if (text[at] == '\n') fputs("\\n", stdout);
    else putchar(text[at]);
  }
  putchar('"');
}

static void broken(capvet_answer answer, const capvet_report *report) {
  printf("\"verdict\":\"broken\",\"reason\":\"%s\"", capvet_answer_name(answer));
  if (answer == CAPVET_NO_MESSAGE || answer == CAPVET_TRUNCATED) printf(",\"required\":%" PRIu64, report->input_required);
  if (answer == CAPVET_TOO_MANY_SEGMENTS) printf(",\"segments\":%" PRIu64, report->detail);
  if (answer == CAPVET_TOO_LARGE) printf(",\"words\":%" PRIu64, report->detail);
  if (answer == CAPVET_TRAILING) printf(",\"trailing_bytes\":%" PRIu64, report->detail);
}

static void refused(const uint8_t *bytes, size_t length, const capvet_limits *limits, capvet_answer answer,
                    const capvet_report *report) {
  capvet_report earlier;
  printf("\"length\":%" PRIu64 ",\"verdict\":\"refused\",\"reason\":\"%s\"", report->length, capvet_answer_name(answer));
  if (report->pointers > 0) {
    printf(",\"segment\":%" PRIu32 ",\"word\":%" PRIu32 ",\"pointer\":%" PRIu64, report->segment, report->word, report->pointers);
    put_path("path", bytes, length, limits, report->pointers);
  }
  if (answer == CAPVET_OVERLAP &&
      capvet_earlier_pointer(bytes, length, limits, report->pointers, &earlier) == CAPVET_OK) {
    put_path("earlier_path", bytes, length, limits, earlier.pointers);
  }
  put_lines(bytes, length, limits, answer, report);
}

static void put_difference(const uint8_t *bytes, size_t length, const capvet_limits *limits) {
  capvet_report report;
  if (capvet_first_difference(bytes, length, limits, &report) != CAPVET_NOT_CANONICAL) return;
  printf(",\"difference\":{\"reason\":\"%s\",\"segment\":%" PRIu32 ",\"word\":%" PRIu32 ",\"pointers\":%" PRIu64,
         capvet_difference_name(report.detail), report.segment, report.word, report.pointers);
  if (report.detail != CAPVET_DIFFERENCE_SEGMENTS && report.detail != CAPVET_DIFFERENCE_TRAILING) {
    put_path("path", bytes, length, limits, report.pointers);
  }
  putchar('}');
}

static void accepted(const uint8_t *bytes, size_t length, const capvet_report *report) {
  capvet_limits limits = CAPVET_LIMITS_INIT;
  capvet_report ignored;
  uint32_t low = 1, high = 0;
  size_t count = 0, at;
  uint8_t *words;
  limits.message_words = CAPVET_MAX_MESSAGE_WORDS;
  limits.charge = CAPVET_MAX_CHARGE;
  limits.depth = CAPVET_MAX_DEPTH;
  limits.flags = CAPVET_ALLOW_NONSTRICT | CAPVET_ALLOW_AMPLIFIED;
  printf("\"length\":%" PRIu64 ",\"verdict\":\"accepted\",\"segments\":%" PRIu32 ",\"words\":%" PRIu64 ",\"charge\":%" PRIu64,
         report->length, report->segments, report->words, report->charge);
  printf(",\"depth\":%" PRIu32 ",\"pointers\":%" PRIu64 ",\"capabilities\":%" PRIu64, report->depth, report->pointers,
         report->capabilities);
  words = allocated((size_t)(8 * (report->charge + 1)));
  if (capvet_canonical(bytes, length, &limits, words, (size_t)(8 * (report->charge + 1)), &count, &ignored) == CAPVET_OK) {
    for (at = 0; at < count; at++) {
      low = (low + words[at]) % 65521;
      high = (high + low) % 65521;
    }
    printf(",\"canonical\":%" PRIu32, high << 16 | low);
  }
  free(words);
  printf(",\"is_canonical\":%s",
         capvet_check_canonical(bytes, length, &limits, &ignored) == CAPVET_OK ? "true" : "false");
  put_difference(bytes, length, &limits);
}

static void say(unsigned long number, const uint8_t *bytes, size_t length, const capvet_limits *limits, int exclusive) {
  capvet_report report;
  capvet_answer answer;
  printf("{\"message\":%lu,", number);
  if (exclusive) {
    size_t count = capvet_marks_bound(length), required;
    uint64_t *marks = allocated(count * sizeof *marks);
    answer = capvet_vet_exclusive(bytes, length, limits, marks, count, &required, &report);
    free(marks);
  } else {
    answer = capvet_vet(bytes, length, limits, &report);
  }
  if (answer == CAPVET_OK) accepted(bytes, length, &report);
  else if (answer < CAPVET_BAD_LIMITS) broken(answer, &report);
  else refused(bytes, length, limits, answer, &report);
  puts("}");
}

int main(int count, char **words) {
  FILE *file = count == 7 ? fopen(words[1], "rb") : NULL;
  capvet_limits limits = CAPVET_LIMITS_INIT;
  unsigned long number = 0;
  uint8_t head[4];
  if (file == NULL) return fputs("usage: say FILE WORDS CHARGE DEPTH FLAGS EXCLUSIVE\n", stderr), 2;
  limits.message_words = strtoul(words[2], NULL, 10);
  limits.charge = strtoul(words[3], NULL, 10);
  limits.depth = (uint32_t)strtoul(words[4], NULL, 10);
  limits.flags = (uint32_t)strtoul(words[5], NULL, 10);
  while (fread(head, 1, 4, file) == 4) {
    const size_t length = head[0] | (size_t)head[1] << 8 | (size_t)head[2] << 16 | (size_t)head[3] << 24;
    uint8_t *bytes = allocated(length);
    if (fread(bytes, 1, length, file) != length) return 3;
    say(number++, bytes, length, &limits, words[6][0] == '1');
    free(bytes);
  }
  return fclose(file);
}
