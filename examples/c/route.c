/* Sorts the messages of a stream into files by two of their fields, and reads nothing else of them.
 *
 *     export PKG_CONFIG_PATH=PREFIX/lib/pkgconfig
 *     cc route.c $(pkg-config --cflags --libs capvet) -o route
 *     mkdir routed
 *     ./route routed ../contacts.bin
 *
 * The messages are Books of ../contacts.capnp. One field is the job of the owner, and the other is whether there are tags. So
 * ../contacts.bin is appended to routed/employer-tagged.bin. A message goes to routed/refused.bin if a pointer to one of its
 * fields is refused. So does one whose field is of another kind than the schema says, since a reader may find a value there.
 * No name of a file is made from the bytes of a message.
 *
 * Only the pointers to the two fields are checked. The readers of the files still have to vet what they read.
 *
 * The status is 0 if every message is sorted by its fields. It is 1 if one went to refused.bin, or if the stream goes on with
 * bytes that are no message. It is 2 for a wrong command line, and 3 if a file can't be read or written. */
#include <capvet.h>
#include <stdio.h>
#include <stdlib.h>
#include <string.h>

#define REFUSED "refused.bin"

/* The whole file, in a block of its own, or NULL. One byte more than it has, since malloc(0) may return NULL. */
static uint8_t *contents(const char *name, size_t *length) {
  FILE *file = fopen(name, "rb");
  uint8_t *bytes = NULL;
  long end;
  if (file == NULL) return NULL;
  if (fseek(file, 0, SEEK_END) == 0 && (end = ftell(file)) >= 0 && fseek(file, 0, SEEK_SET) == 0) {
    bytes = malloc((size_t)end + 1);
    *length = (size_t)end;
    if (bytes != NULL && fread(bytes, 1, *length, file) != *length) {
      free(bytes);
      bytes = NULL;
    }
  }
  fclose(file);
  return bytes;
}

/* Reads the node at a path of the first message. A path that leads to nothing is no error: the node is then null, and its
 * fields have their defaults. Returns 0 if a pointer on the path is refused, or if the node is neither null nor of the kind
 * that the schema has. */
static int get(const uint8_t *bytes, size_t length, const char *path, uint32_t kind, capvet_node *node,
               capvet_report *report) {
  capvet_limits limits = CAPVET_LIMITS_INIT;
  capvet_answer answer;
  limits.form = CAPVET_FORM_PREFIX;
  answer = capvet_get(bytes, length, &limits, path, strlen(path), node, report);
  if (answer != CAPVET_OK && answer != CAPVET_NO_NODE) return 0;
  return node->kind == CAPVET_KIND_NULL || node->kind == kind;
}

/* The number of 16 bits at a byte of a struct. Data that ends before it means the default, which is 0. */
static unsigned number_at(const uint8_t *bytes, const capvet_node *node, uint64_t at) {
  if (node->length < at + 2) return 0;
  return bytes[node->offset + at] | (unsigned)bytes[node->offset + at + 1] << 8;
}

/* The file for the first message of these bytes. The report has the message's length, or 0 if there is no message. */
static const char *file_of(const uint8_t *bytes, size_t length, capvet_report *report) {
  static const char *const files[5][2] = {{"none.bin", "none-tagged.bin"},
                                          {"employer.bin", "employer-tagged.bin"},
                                          {"school.bin", "school-tagged.bin"},
                                          {"self.bin", "self-tagged.bin"},
                                          {"other.bin", "other-tagged.bin"}};
  capvet_node root, owner, tags;
  unsigned job;
  if (!get(bytes, length, "/", CAPVET_KIND_STRUCT, &root, report) ||
      !get(bytes, length, "/p1", CAPVET_KIND_STRUCT, &owner, report) ||
      !get(bytes, length, "/p2", CAPVET_KIND_POINTERS, &tags, report)) {
    return REFUSED;
  }
  job = number_at(bytes, &owner, 4);
  return files[job < 4 ? job : 4][tags.count > 0];
}

/* Appends a message to a file of the folder, and returns whether it was written. */
static int append(const char *folder, const char *name, const uint8_t *bytes, size_t length) {
  char path[4096];
  int size = snprintf(path, sizeof path, "%s/%s", folder, name);
  FILE *file = size < 0 || (size_t)size >= sizeof path ? NULL : fopen(path, "ab");
  int good;
  if (file == NULL) return 0;
  good = fwrite(bytes, 1, length, file) == length;
  return fclose(file) == 0 && good;
}

/* Sorts the messages of a stream, and returns the exit status. */
static int route(const char *folder, const uint8_t *bytes, size_t length) {
  size_t at = 0;
  unsigned number;
  int status = 0;
  for (number = 0; at < length; number++) {
    capvet_report report;
    const char *name = file_of(bytes + at, length - at, &report);
    if (report.length == 0) return fprintf(stderr, "route: message %u: no frame\n", number), 1;
    if (!append(folder, name, bytes + at, report.length)) return fprintf(stderr, "route: cannot write %s\n", name), 3;
    printf("message %u: %s\n", number, name);
    if (strcmp(name, REFUSED) == 0) status = 1;
    at += report.length;
  }
  return status;
}

int main(int count, char **words) {
  size_t length = 0;
  uint8_t *bytes;
  int status;
  if (count != 3) return fputs("usage: route FOLDER FILE\n", stderr), 2;
  bytes = contents(words[2], &length);
  if (bytes == NULL) return fprintf(stderr, "route: cannot read %s\n", words[2]), 3;
  status = route(words[1], bytes, length);
  free(bytes);
  return status;
}
