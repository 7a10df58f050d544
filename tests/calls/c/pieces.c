/* pieces FILE: reads packed streams of messages with capvet_unpack_message, a piece at a time. For each stream the file
 * has the length of a piece and the length of the stream, each in four bytes, the lowest first, and then the stream.
 *
 * The output buffer begins with no bytes, and gets as many as a call requires. For each message the output has the
 * length of its frame, in four bytes, and then the frame. At the end of a stream it has 0xffffffff and the last answer.
 *
 * Each piece is in a block of its own, with the bytes that earlier calls left. It ends with the piece, and so does the
 * output buffer, so that a tool that watches memory sees a read or a write after it. The status is 4 where something
 * that a call returns does not fit the rest. */
#include "shared.h"

#define END 0xfffffffful

static void expect(int holds, const char *what, size_t got) {
  if (!holds) {
    fprintf(stderr, "pieces: %s (got %lu)\n", what, (unsigned long)got);
    exit(4);
  }
}

/* A stream, of which a call gets `piece` bytes more than the one before. */
static void stream(const uint8_t *text, size_t length, size_t piece) {
  const capvet_limits limits = CAPVET_LIMITS_INIT;
  capvet_unpacking state = {0, 0, 0, {0, 0}};
  uint8_t *out = odd_block(0);
  size_t from = 0, end = piece < length ? piece : length, size = 0;
  for (;;) {
    size_t consumed = 77, required = 77;
    uint64_t before = state.written;
    capvet_report report;
    uint8_t *in = odd_block(end - from);
    uint32_t answer;
    memcpy(in + 1, text + from, end - from);
    memset(&report, 0xa5, sizeof report);
    answer = capvet_unpack_message(in + 1, end - from, &limits, out + 1, size, &state, &consumed, &required, &report);
    free(in);
    expect(consumed <= end - from, "no more bytes are consumed than there are", consumed);
    expect(state.zero_words <= 255 && state.literal_words <= 255, "the rest of a run", state.zero_words);
    from += consumed;
    if (answer == CAPVET_OK) {
      expect(required == report.length && required <= size && required > before, "the length of a frame", required);
      expect(state.written == 0, "the state after a message", (size_t)state.written);
      put_number((unsigned long)required);
      if (fwrite(out + 1, 1, required, stdout) != required) exit(3);
      continue;
    }
    expect(state.written >= before && state.written <= size && report.length == 0, "the state", (size_t)state.written);
    if (answer == CAPVET_BUFFER_TOO_SMALL) {
      uint8_t *more = odd_block(required);
      expect(required > size, "the required size", required);
      memcpy(more + 1, out + 1, (size_t)state.written);
      free(out);
      out = more;
      size = required;
      continue;
    }
    expect(required == 0, "nothing is required", required);
    if (answer == CAPVET_TRUNCATED || answer == CAPVET_NO_MESSAGE) {
      expect(report.input_required > end - from && report.input_required <= 10, "the bytes that are needed", (size_t)report.input_required);
      expect(answer == CAPVET_TRUNCATED || (state.written == 0 && from == end), "nothing is pending", end - from);
      if (end < length) {
        end = end + piece < length ? end + piece : length;
        continue;
      }
    }
    put_number(END);
    put_number(answer);
    free(out);
    return;
  }
}

/* States that no call leaves. */
static void bad_states(void) {
  const capvet_limits limits = CAPVET_LIMITS_INIT;
  const capvet_unpacking states[] = {{12, 0, 0, {0, 0}}, {24, 0, 0, {0, 0}},  {0, 256, 0, {0, 0}}, {0, 0, 256, {0, 0}},
                                     {0, 1, 1, {0, 0}},  {0, 0, 0, {1, 0}},   {0, 0, 0, {0, 1}},   {8, 0, 0, {0, 0}}};
  const uint8_t text[2] = {0, 3};
  size_t k;
  for (k = 0; k < sizeof states / sizeof states[0]; k++) {
    capvet_unpacking state = states[k];
    capvet_report report;
    uint8_t out[16] = {0};
    size_t consumed = 77, required = 77;
    uint32_t answer = capvet_unpack_message(text, sizeof text, &limits, out, sizeof out, &state, &consumed, &required, &report);
    expect(answer == CAPVET_BAD_LIMITS && consumed == 0 && required == 0, "the answer of a bad state", answer);
    expect(memcmp(&state, &states[k], sizeof state) == 0, "a bad state stays", k);
  }
}

int main(int count, char **words) {
  FILE *file = count == 2 ? fopen(words[1], "rb") : NULL;
  uint8_t head[8];
  if (file == NULL) return 2;
  bad_states();
  while (fread(head, 1, 8, file) == 8) {
    size_t piece = head[0] | (size_t)head[1] << 8 | (size_t)head[2] << 16 | (size_t)head[3] << 24;
    size_t length = head[4] | (size_t)head[5] << 8 | (size_t)head[6] << 16 | (size_t)head[7] << 24;
    uint8_t *text = odd_block(length);
    if (fread(text + 1, 1, length, file) != length) return 3;
    stream(text + 1, length, piece);
    free(text);
  }
  fclose(file);
  return 0;
}
