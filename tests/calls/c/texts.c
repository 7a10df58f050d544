/* texts FILE: unpacks each packed text of a file. The four bytes before a text are its length, the
 * lowest byte first. For each text it writes how many bytes its words have, in the same way, and these
 * bytes. For a cut text it writes the length 0xffffffff, and no bytes. Each text is in a block of its
 * own, which ends with it, and so are its words, so that a tool that watches memory sees a read or a
 * write after them. */
#include "shared.h"

#define CUT 0xfffffffful

/* One text, whose block is given. */
static void text(const uint8_t *bytes, size_t length) {
  size_t needed = 77, written = 77;
  uint32_t answer = capvet_unpack_words(bytes, length, NULL, 0, &needed);
  uint8_t *out;
  if (answer == CAPVET_TRUNCATED && needed == 0) {
    put_number(CUT);
    return;
  }
  if (answer != (needed == 0 ? (uint32_t)CAPVET_OK : (uint32_t)CAPVET_BUFFER_TOO_SMALL)) exit(4);
  out = odd_block(needed);
  if (capvet_unpack_words(bytes, length, out + 1, needed, &written) != CAPVET_OK || written != needed) exit(4);
  put_number((unsigned long)needed);
  if (fwrite(out + 1, 1, needed, stdout) != needed) exit(3);
  free(out);
}

int main(int count, char **words) {
  FILE *file = count == 2 ? fopen(words[1], "rb") : NULL;
  uint8_t size[4];
  if (file == NULL) return 2;
  while (fread(size, 1, 4, file) == 4) {
    size_t length = size[0] | (size_t)size[1] << 8 | (size_t)size[2] << 16 | (size_t)size[3] << 24;
    uint8_t *bytes = odd_block(length);
    if (fread(bytes + 1, 1, length, file) != length) return 3;
    text(bytes + 1, length);
    free(bytes);
  }
  fclose(file);
  return 0;
}
