/* What the program needs of C beside the C library, where Rattle's kit has no archive for the target: the heap, the error
 * number, and the arguments. Each function does what the contract of the same name in the kit says, in libc/src/heap.rt and
 * os/src/c.rt. No proof covers this file. */
#include <errno.h>
#include <stdbool.h>
#include <stddef.h>
#include <stdint.h>
#include <stdlib.h>

/* An answer about memory. Without memory `p` is the address of some byte, which nobody owns. */
typedef struct {
  bool ok;
  uint8_t *p;
} Tried;

enum { LINE = 64, LARGE = 4096 };

static uint8_t nothing;
static int argument_count;
static char **arguments;

static Tried tried(void *p) {
  const Tried answer = {p != NULL, p != NULL ? p : &nothing};
  return answer;
}

/* Every alignment that is asked for divides 16, and malloc's blocks are aligned to 16. A block is never empty, since
 * malloc(0) may return NULL. */
_Static_assert(_Alignof(max_align_t) == 16, "malloc aligns to 16 bytes");

Tried rattle_alloc(size_t size, size_t alignment) {
  /* A large block begins at a cache line, since the system copies to one faster. (docs/internals/speed.md has the times.) */
  if (size >= LARGE && size <= SIZE_MAX - LINE) return tried(aligned_alloc(LINE, (size + LINE - 1) / LINE * LINE));
  return tried(malloc(size != 0 ? size : alignment));
}

/* The first `kept` bytes stay as they are. Without memory the block stays whole. */
Tried rattle_realloc(uint8_t *p, size_t kept, size_t size, size_t alignment) {
  (void)kept;
  return tried(realloc(p, size != 0 ? size : alignment));
}

void rattle_dealloc(uint8_t *p) { free(p); }

int32_t rattle_errno(void) { return errno; }

void rattle_set_errno(int32_t error) { errno = error; }

/* glibc calls this before main, with main's arguments. */
__attribute__((constructor)) static void keep(int count, char **words) {
  argument_count = count;
  arguments = words;
}

size_t rattle_arg_count(void) { return (size_t)argument_count; }

/* Copies argument `index` to the start of the buffer, without its final 0, and returns its length. Returns -1 if there is no
 * such argument, and -2 if it does not fit; then the buffer is full. */
intptr_t rattle_arg(size_t index, uint8_t *buffer, size_t capacity) {
  if (index >= (size_t)argument_count || arguments[index] == NULL) return -1;
  const char *word = arguments[index];
  size_t length = 0;
  for (; word[length] != 0; length++) {
    if (length == capacity) return -2;
    buffer[length] = (uint8_t)word[length];
  }
  return (intptr_t)length;
}
