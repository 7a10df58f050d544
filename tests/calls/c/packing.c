/* packing: what capvet_pack_words answers for known words, with each length of the output buffer.
 *
 * packing FILE: packs each list of bytes of a file. The four bytes before a list are its length, the lowest byte
 * first. For each list it writes the length of its packed text, in the same way, and then that text. For a list
 * that ends inside a word it writes the length 0xffffffff, and no text.
 *
 * Each list and each text is in a block of its own, which ends with it, so that a tool that watches memory sees a
 * read or a write after it. */
#include "shared.h"

#define CUT 0xfffffffful

static int failures = 0;

static void expect(int holds, const char *what, size_t got) {
  if (!holds) {
    failures++;
    fprintf(stderr, "packing: %s (got %lu)\n", what, (unsigned long)got);
  }
}

/* Three zero words, a word by its tag, a word as it is and one that doesn't go on with it, and their text. */
static const uint8_t WORDS[48] = {0, 0, 0, 0, 0, 0, 0, 0, 0, 0, 0, 0, 0, 0, 0, 0, 0,    0, 0,    0, 0, 0, 0, 0,
                                  8, 0, 0, 0, 3, 0, 2, 0, 1, 2, 3, 4, 5, 6, 7, 8, 0x11, 0, 0x33, 0, 0, 0, 0, 0};
static const uint8_t TEXT[19] = {0, 2, 0x51, 8, 3, 2, 255, 1, 2, 3, 4, 5, 6, 7, 8, 0, 5, 0x11, 0x33};

/* The answer for a prefix of WORDS, with an output buffer of `capacity` bytes. `got` has the buffer's bytes then. */
static uint32_t packed(size_t length, size_t capacity, size_t *written, uint8_t *got) {
  uint8_t *from = odd_block(length), *out = odd_block(capacity);
  uint32_t answer;
  memcpy(from + 1, WORDS, length);
  memset(out, 0xee, capacity + 1);
  *written = 77;
  answer = capvet_pack_words(from + 1, length, out + 1, capacity, written);
  expect(memcmp(from + 1, WORDS, length) == 0, "the words stay", length);
  memcpy(got, out + 1, capacity);
  free(out);
  free(from);
  return answer;
}

/* Each prefix, and each length of the output buffer. */
static void known(void) {
  /* how many bytes the texts of the first words have */
  static const size_t texts[] = {0, 2, 2, 2, 6, 16, 19};
  uint8_t got[24];
  size_t length, capacity, written, k;
  for (length = 0; length <= sizeof WORDS; length++) {
    int whole = length % 8 == 0;
    size_t text = whole ? texts[length / 8] : 0;
    uint32_t answer = packed(length, sizeof got, &written, got);
    expect(answer == (whole ? (uint32_t)CAPVET_OK : (uint32_t)CAPVET_TRUNCATED), "the answer of a front", answer);
    expect(written == text, "the length of a front's text", written);
    if (text == 2)
      expect(got[0] == 0 && got[1] == length / 8 - 1, "a run of zero words", got[1]);
    else
      expect(memcmp(got, TEXT, text) == 0, "the text of a front", length);
    for (k = text; k < sizeof got; k++) expect(got[k] == 0xee, "what is after the text", k);
    expect(packed(length, 0, &written, got) == (text > 0 ? (uint32_t)CAPVET_BUFFER_TOO_SMALL : answer), "no capacity", length);
    expect(written == text, "the length that is reported without capacity", written);
  }
  for (capacity = 0; capacity <= sizeof TEXT; capacity++) {
    int fits = capacity == sizeof TEXT;
    uint32_t answer = packed(sizeof WORDS, capacity, &written, got);
    expect(answer == (fits ? (uint32_t)CAPVET_OK : (uint32_t)CAPVET_BUFFER_TOO_SMALL), "the answer of a capacity", answer);
    expect(written == sizeof TEXT, "the length that it takes", written);
    for (k = 0; !fits && k < capacity; k++) expect(got[k] == 0xee, "the buffer stays where it is too small", k);
  }
}

/* The text of a list of bytes, whose block is given. */
static void text(const uint8_t *bytes, size_t length) {
  uint8_t *out;
  size_t needed = 77, written = 77;
  uint32_t answer = capvet_pack_words(bytes, length, NULL, 0, &needed);
  if (answer == CAPVET_TRUNCATED && needed == 0) {
    put_number(CUT);
    return;
  }
  if (answer != (needed == 0 ? (uint32_t)CAPVET_OK : (uint32_t)CAPVET_BUFFER_TOO_SMALL) || needed > length / 8 * 10) exit(4);
  out = odd_block(needed);
  if (capvet_pack_words(bytes, length, out + 1, needed, &written) != CAPVET_OK || written != needed) exit(4);
  put_number((unsigned long)needed);
  if (fwrite(out + 1, 1, needed, stdout) != needed) exit(3);
  free(out);
}

int main(int count, char **words) {
  FILE *file;
  uint8_t size[4];
  if (count == 1) {
    known();
    return failures != 0;
  }
  file = count == 2 ? fopen(words[1], "rb") : NULL;
  if (file == NULL) return 2;
  while (fread(size, 1, 4, file) == 4) {
    size_t length = size[0] | (size_t)size[1] << 8 | (size_t)size[2] << 16 | (size_t)size[3] << 24;
    uint8_t *bytes = odd_block(length);
    if (fread(bytes + 1, 1, length, file) != length) return 3;
    text(bytes + 1, length);
    free(bytes);
  }
  fclose(file);
  return 0;
}
