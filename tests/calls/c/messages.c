/* messages FILE: packs each framed message of a file with capvet_pack_message. The four bytes before a message are
 * its length, the lowest byte first. For each message it writes the length of its packed text, in the same way, and
 * then that text.
 *
 * It also looks at the answers for each message: of a buffer that is too small, of bytes after the message, and of a
 * message that is cut. The text has to unpack to the message. Each message and each text is in a block of its own,
 * which ends with it, so that a tool that watches memory sees a read or a write after it. The status is 4 where an
 * answer is wrong. */
#include "shared.h"

static void expect(int holds, const char *what, size_t got) {
  if (!holds) {
    fprintf(stderr, "messages: %s (got %lu)\n", what, (unsigned long)got);
    exit(4);
  }
}

/* What the call answers for a buffer of `size` bytes. Its bytes from `end` on have to stay. */
static uint32_t packed(const uint8_t *bytes, size_t length, uint32_t form, uint8_t *out, size_t size, size_t *required,
                       capvet_report *report) {
  capvet_limits limits = CAPVET_LIMITS_INIT;
  uint32_t answer;
  size_t k, end;
  limits.form = form;
  memset(out, 0xee, size);
  memset(report, 0xa5, sizeof *report);
  *required = 77;
  answer = capvet_pack_message(bytes, length, &limits, out, size, required, report);
  end = answer == CAPVET_OK ? *required : 0;
  expect(end <= size, "the text is in the buffer", end);
  for (k = end; k < size; k++) expect(out[k] == 0xee, "the bytes after the text stay", k);
  return answer;
}

/* The packed text of a message, and the answers beside it. */
static void message(const uint8_t *bytes, size_t length) {
  capvet_report report;
  size_t required, words, size;
  uint8_t none[1], *out, *more, *back;
  uint32_t answer = packed(bytes, length, 0, none, 0, &size, &report);
  expect(answer == CAPVET_BUFFER_TOO_SMALL, "the answer without a buffer", answer);
  expect(size <= length / 8 * 10, "the length of the text", size);
  expect(report.length == length && report.segments > 0 && report.input_required == 0, "the report", report.length);
  out = odd_block(size);
  answer = packed(bytes, length, 0, out + 1, size - 1, &required, &report);
  expect(answer == CAPVET_BUFFER_TOO_SMALL && required == size, "the answer for a byte too few", answer);
  answer = packed(bytes, length, 0, out + 1, size, &required, &report);
  expect(answer == CAPVET_OK && required == size && report.length == length, "the answer", answer);
  /* the text */
  put_number((unsigned long)size);
  if (fwrite(out + 1, 1, size, stdout) != size) exit(3);
  back = odd_block(length);
  expect(capvet_unpack_words(out + 1, size, back + 1, length, &words) == CAPVET_OK && words == length, "it unpacks", words);
  expect(memcmp(back + 1, bytes, length) == 0, "it unpacks to the message", length);
  /* more bytes, and one less */
  more = odd_block(length + 3);
  memcpy(more + 1, bytes, length);
  memset(more + 1 + length, 0, 3);
  answer = packed(more + 1, length + 3, 0, out + 1, size, &required, &report);
  expect(answer == CAPVET_TRAILING && report.detail == 3 && required == 0, "the answer for trailing bytes", answer);
  answer = packed(more + 1, length + 3, CAPVET_FORM_PREFIX, out + 1, size, &required, &report);
  expect(answer == CAPVET_OK && required == size && report.length == length, "the answer if they may follow", answer);
  answer = packed(bytes, length - 1, 0, out + 1, size, &required, &report);
  expect(answer == CAPVET_TRUNCATED && report.input_required == length && required == 0, "a cut message", answer);
  answer = packed(bytes, length, 8u << 20, out + 1, size, &required, &report);
  expect(answer == CAPVET_BAD_LIMITS && required == 0, "an unknown flag", answer);
  answer = packed(bytes, length, CAPVET_FORM_WORDS, out + 1, size, &required, &report);
  expect(answer == CAPVET_BAD_LIMITS && required == 0 && report.length == 0, "no table", answer);
  free(more);
  free(back);
  free(out);
}

int main(int count, char **words) {
  FILE *file = count == 2 ? fopen(words[1], "rb") : NULL;
  uint8_t size[4];
  if (file == NULL) return 2;
  while (fread(size, 1, 4, file) == 4) {
    size_t length = size[0] | (size_t)size[1] << 8 | (size_t)size[2] << 16 | (size_t)size[3] << 24;
    uint8_t *bytes = odd_block(length);
    if (fread(bytes + 1, 1, length, file) != length) return 3;
    message(bytes + 1, length);
    free(bytes);
  }
  fclose(file);
  return 0;
}
