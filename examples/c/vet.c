/* Vets the messages of a file in process, and prints for each the line that `capvet vet --strict --unamplified` prints.
 *
 *     export PKG_CONFIG_PATH=PREFIX/lib/pkgconfig
 *     cc vet.c $(pkg-config --cflags --libs capvet) -o vet
 *     ./vet FILE
 *
 * The status is 0 if all are accepted, 1 if one isn't, 2 for a wrong command line, and 3 if the file can't be read. */
#include <capvet.h>
#include <inttypes.h>
#include <stdio.h>
#include <stdlib.h>

/* The whole file, in a block of its own, or NULL. One byte more than it has, since malloc(0) may return NULL. */
static uint8_t *contents(const char *name, size_t *length) {
  FILE *file = fopen(name, "rb");
  uint8_t *bytes = NULL;
  long end;
  if (file == NULL) return NULL;
  if (fseek(file, 0, SEEK_END) == 0 && (end = ftell(file)) >= 0 && fseek(file, 0, SEEK_SET) == 0) {
    bytes = malloc((size_t)end + 1);
    *length = (size_t)end;
    if (bytes != NULL && fread(bytes, 1, *length, file) != *length) {
      free(bytes);
      bytes = NULL;
    }
  }
  fclose(file);
  return bytes;
}

/* Prints the line of a message, and returns whether the message is accepted. */
static int is_accepted(unsigned number, capvet_answer answer, const capvet_report *report) {
  if (answer == CAPVET_OK) {
    printf("message %u: accepted charge %" PRIu64 " depth %" PRIu32 " pointers %" PRIu64 " caps %" PRIu64 "\n", number,
           report->charge, report->depth, report->pointers, report->capabilities);
    return 1;
  }
  printf("message %u: refused %s at %" PRIu32 ":%" PRIu32 " pointers %" PRIu64 "\n", number, capvet_answer_name(answer),
         report->segment, report->word, report->pointers);
  return 0;
}

int main(int count, char **words) {
  capvet_limits limits = CAPVET_LIMITS_INIT;
  int status = 0;
  unsigned number = 0;
  size_t length = 0, at = 0;
  uint8_t *bytes;
  if (count != 2) return fputs("usage: vet FILE\n", stderr), 2;
  bytes = contents(words[1], &length);
  if (bytes == NULL) return fprintf(stderr, "vet: cannot read %s\n", words[1]), 3;
  /* The file may have several messages, so bytes may follow each. */
  limits.form = CAPVET_FORM_PREFIX;
  while (at < length) {
    capvet_report report;
    capvet_answer answer = capvet_vet(bytes + at, length - at, &limits, &report);
    if (report.length == 0) {
      /* The start of the next message is unknown. */
      fprintf(stderr, "vet: message %u: no frame, %s\n", number, capvet_answer_name(answer));
      status = 1;
      break;
    }
    if (!is_accepted(number, answer, &report)) status = 1;
    at += report.length;
    number++;
  }
  free(bytes);
  return status;
}
