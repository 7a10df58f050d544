/* What the programs of this folder share: they read requests from a file, and write answers as bytes. A program that lacks memory, or
 * can't write, ends with status 3. */
#include <capvet.h>

#include <stdio.h>
#include <stdlib.h>
#include <string.h>

/* Whether the file has so many bytes more, which are read then. */
static inline int take(FILE *file, void *to, size_t size) { return size == 0 || fread(to, 1, size, file) == size; }

static inline void put(const void *from, size_t size) {
  if (size != 0 && fwrite(from, 1, size, stdout) != size) exit(3);
}

/* Writes four bytes of a number, the lowest first. */
static inline void put_number(unsigned long number) {
  int at;
  for (at = 0; at < 4; at++) putchar((int)(number >> (8 * at) & 0xff));
}

/* A block of this size, or NULL if it is 0. */
static inline void *block(size_t size) {
  void *made = size == 0 ? NULL : malloc(size);
  if (size != 0 && made == NULL) exit(3);
  return made;
}

/* A block of one byte and `length` bytes after it, which start at an odd address. */
static inline uint8_t *odd_block(size_t length) {
  uint8_t *whole = malloc(length + 1);
  if (whole == NULL) exit(3);
  return whole;
}
