/* Answers calls by the native library, for the fuzz target of the package for JavaScript.
 *
 * A record on standard input is the limits as capvet.h has them, the length of the data, the data, and how many asks follow. An ask
 * is the number of a call, two arguments, the length of a text and the text. For each record there is the length of the lines
 * on standard output, and then the lines of each ask, which a form feed ends. asks.mjs writes the same lines by the package. */
#include <capvet.h>
#include <inttypes.h>
#include <stdbool.h>
#include <stdio.h>
#include <stdlib.h>
#include <string.h>

enum { VET, EXCLUSIVE, SEGMENTS, FRAME, IS_CANONICAL, CANONICAL, POINTER_PATH, GET, RANGE, PACK, PACK_MESSAGE, UNPACK, PLAIN,
       PLAIN_EXCLUSIVE, PACKED, PACKED_EXCLUSIVE, EXPLAIN, FIRST_DIFFERENCE };
/* The most messages of a stream that are looked at. (a short packed stream may have many) */
enum { MESSAGES = 300, STEPS_MOST = 256 };

typedef struct {
  uint32_t call, first, second, length;
} head;

typedef struct {
  head of;
  char *text;
} ask;

static capvet_limits limits;
static uint8_t *data, *out;
static size_t length, out_size;
static FILE *lines;

/* A buffer for a result. */
static uint8_t *space(size_t size) {
  if (size > out_size && (out = realloc(out, out_size = size)) == NULL) abort();
  return out;
}

static void read_all(void *to, size_t size) {
  if (size != 0 && fread(to, size, 1, stdin) != 1) exit(feof(stdin) ? 0 : 1);
}

static uint32_t read_number(void) {
  uint32_t number;
  read_all(&number, sizeof number);
  return number;
}

/* A hash of a result, to compare it by. */
static void print_bytes(const uint8_t *bytes, size_t count) {
  uint32_t hash = 2166136261u;
  for (size_t at = 0; at < count; at++) hash = (hash ^ bytes[at]) * 16777619u;
  fprintf(lines, " %zu:%" PRIu32, count, hash);
}

static void print_tree(const capvet_report *it) {
  fprintf(lines, " %" PRIu64 " %" PRIu32 " %" PRIu64 " %" PRIu32 " %" PRIu64 " %" PRIu64, it->length, it->segments, it->charge,
          it->depth, it->pointers, it->capabilities);
  if (it->capabilities > 0) fprintf(lines, " %" PRIu32 ":%" PRIu32, it->segment, it->word);
}

/* An answer, with what the package says of it. */
static void print_answer(capvet_answer answer, const capvet_report *it) {
  fprintf(lines, "%s", capvet_answer_name(answer));
  if (answer == CAPVET_OK || answer == CAPVET_HAS_CAPABILITY) {
    print_tree(it);
  } else if (answer == CAPVET_BAD_PATH) {
    fprintf(lines, " %" PRIu64, it->detail);
  } else if (answer <= CAPVET_TRAILING || answer == CAPVET_BAD_SEGMENT) {
    fprintf(lines, " %" PRIu64 " %" PRIu64 " %" PRIu64, it->input_required, it->detail, it->length);
  } else if (answer != CAPVET_BAD_LIMITS && answer != CAPVET_NO_NODE) {
    fprintf(lines, " %" PRIu32 ":%" PRIu32 " %" PRIu64 " %" PRIu64, it->segment, it->word, it->pointers, it->length);
  }
}

static capvet_answer vet(const uint8_t *bytes, size_t count, bool is_exclusive, capvet_report *report) {
  size_t required;
  if (!is_exclusive) return capvet_vet(bytes, count, &limits, report);
  const size_t marks = CAPVET_MARKS_BOUND(count);
  uint64_t *scratch = malloc(marks * sizeof *scratch);
  const capvet_answer answer = capvet_vet_exclusive(bytes, count, &limits, scratch, marks, &required, report);
  free(scratch);
  return answer;
}

static void print_frame(void) {
  capvet_extent extents[CAPVET_MAX_SEGMENTS];
  capvet_report report;
  size_t count;
  const capvet_answer answer = capvet_segments(data, length, &limits, extents, CAPVET_MAX_SEGMENTS, &count, &report);
  if (answer != CAPVET_OK) {
    print_answer(answer, &report);
    return;
  }
  fprintf(lines, "Ok %" PRIu64, report.length);
  for (size_t at = 0; at < count; at++) fprintf(lines, " %" PRIu64 "+%" PRIu64, extents[at].offset, extents[at].length);
}

/* The segments are those of the frame, or pieces of the data of a size. */
static void print_segments(size_t piece) {
  capvet_segment segments[CAPVET_MAX_SEGMENTS + 1];
  capvet_report report;
  size_t count = 0;
  capvet_extent extents[CAPVET_MAX_SEGMENTS];
  if (piece == 0 && capvet_segments(data, length, &limits, extents, CAPVET_MAX_SEGMENTS, &count, &report) == CAPVET_OK) {
    for (size_t at = 0; at < count; at++) segments[at] = (capvet_segment){data + extents[at].offset, extents[at].length};
  } else {
    for (size_t at = 0; piece > 0 && at < length && count <= CAPVET_MAX_SEGMENTS; at += piece) {
      segments[count].bytes = data + at;
      segments[count++].length = length - at < piece ? length - at : piece;
    }
  }
  print_answer(capvet_vet_segments(segments, count, &limits, &report), &report);
}

static void print_canonical(void) {
  capvet_report report;
  size_t required;
  capvet_answer answer = capvet_canonical(data, length, &limits, NULL, 0, &required, &report);
  if (answer == CAPVET_BUFFER_TOO_SMALL) {
    answer = capvet_canonical(data, length, &limits, space(required), required, &required, &report);
  }
  if (answer != CAPVET_OK) {
    print_answer(answer, &report);
    return;
  }
  fprintf(lines, "Ok");
  print_bytes(out, required);
}

static void print_pointer_path(uint64_t number) {
  capvet_step steps[STEPS_MOST];
  capvet_report report;
  size_t required;
  const capvet_answer answer = capvet_pointer_path(data, length, &limits, number, steps, STEPS_MOST, &required, &report);
  if (answer != CAPVET_OK) {
    print_answer(answer, &report);
    return;
  }
  fprintf(lines, "Ok /");
  for (size_t at = 0; at < required; at++) {
    fprintf(lines, "%s%c%" PRIu32, at > 0 ? "/" : "", steps[at].kind == CAPVET_STEP_POINTER ? 'p' : 'i', steps[at].number);
  }
}

static void print_difference(void) {
  capvet_report report;
  const capvet_answer answer = capvet_first_difference(data, length, &limits, &report);
  if (answer == CAPVET_OK) {
    fprintf(lines, "Ok");
  } else if (answer != CAPVET_NOT_CANONICAL) {
    print_answer(answer, &report);
  } else {
    fprintf(lines, "%s %" PRIu32 ":%" PRIu32 " %" PRIu64 " ", capvet_difference_name(report.detail), report.segment, report.word,
            report.pointers);
    if (report.detail == CAPVET_DIFFERENCE_SEGMENTS || report.detail == CAPVET_DIFFERENCE_TRAILING) fprintf(lines, "NoNode");
    else print_pointer_path(report.pointers);
  }
}

static void print_explanation(void) {
  capvet_report report;
  size_t required;
  char text[CAPVET_EXPLANATION_BOUND];
  const capvet_answer answer = capvet_explain(data, length, &limits, text, sizeof text, &required, &report);
  if (answer != CAPVET_OK && answer < CAPVET_NOT_CANONICAL) {
    print_answer(answer, &report);
    return;
  }
  fprintf(lines, "Ok");
  print_bytes((const uint8_t *)text, required);
}

static void print_node(const char *text, size_t text_length) {
  capvet_report report;
  capvet_node node;
  const capvet_answer answer = capvet_get(data, length, &limits, text, text_length, &node, &report);
  if (answer != CAPVET_OK) {
    print_answer(answer, &report);
    return;
  }
  fprintf(lines, "Ok %" PRIu32 " %" PRIu32 " %" PRIu32 " %" PRIu32 " %" PRIu32 " %" PRIu32 " %" PRIu64, node.kind, node.element,
          node.count, node.data_words, node.pointers, node.capability, node.offset);
  print_bytes(data + node.offset, node.length);
}

/* A node for each of some numbers, by a text that has '*' in place of it. */
static void print_range(const ask *it) {
  const char *star = memchr(it->text, '*', it->of.length);
  const size_t before = (size_t)(star - it->text), most = it->of.length + 16;
  char *text = malloc(most);
  for (uint32_t at = 0; at < it->of.second; at++) {
    const int width = snprintf(text, most, "%.*s%" PRIu32 "%.*s", (int)before, it->text, it->of.first + at,
                               (int)(it->of.length - before - 1), star + 1);
    print_node(text, (size_t)width);
    fputc('\n', lines);
  }
  free(text);
}

static void print_pack(bool is_message) {
  capvet_report report = {0};
  size_t required;
  const size_t size = CAPVET_PACK_BOUND(length);
  const capvet_answer answer = is_message ? capvet_pack_message(data, length, &limits, space(size), size, &required, &report)
                                          : capvet_pack_words(data, length, space(size), size, &required);
  if (answer == CAPVET_OK) {
    fprintf(lines, "Ok");
    print_bytes(out, required);
  } else if (is_message) {
    print_answer(answer, &report);
  } else {
    fprintf(lines, "%s", capvet_answer_name(answer));
  }
}

static void print_unpack(size_t most) {
  size_t required;
  capvet_answer answer = capvet_unpack_words(data, length, NULL, 0, &required);
  if (answer == CAPVET_BUFFER_TOO_SMALL && required > most) answer = CAPVET_TOO_LARGE;
  if (answer == CAPVET_BUFFER_TOO_SMALL) answer = capvet_unpack_words(data, length, space(required), required, &required);
  fprintf(lines, "%s", capvet_answer_name(answer));
  if (answer == CAPVET_OK) print_bytes(out, required);
}

/* A message of a stream, and where it starts. */
static bool print_message(size_t number, size_t offset, const uint8_t *bytes, size_t count, bool is_exclusive) {
  capvet_report report;
  fprintf(lines, "%zu %zu ", number, offset);
  print_answer(vet(bytes, count, is_exclusive, &report), &report);
  print_bytes(bytes, count);
  fputc('\n', lines);
  return number + 1 < MESSAGES;
}

static void print_end(capvet_answer answer, size_t offset) {
  if (answer == CAPVET_NO_MESSAGE) {
    fprintf(lines, "end");
  } else {
    fprintf(lines, "%s %zu", capvet_answer_name(answer), offset);
  }
}

static void print_plain(bool is_exclusive) {
  capvet_report report;
  size_t offset = 0;
  for (size_t number = 0;; number++) {
    const capvet_answer answer = capvet_frame(data + offset, length - offset, &limits, &report);
    if (answer != CAPVET_OK) {
      print_end(answer, offset);
      return;
    }
    if (!print_message(number, offset, data + offset, report.length, is_exclusive)) return;
    offset += report.length;
  }
}

static void print_packed(bool is_exclusive) {
  capvet_unpacking state = {0};
  capvet_report report;
  size_t begin = 0, offset = 0, number = 0;
  for (;;) {
    size_t consumed, required;
    const capvet_answer answer = capvet_unpack_message(data + offset, length - offset, &limits, out, out_size, &state, &consumed,
                                                       &required, &report);
    offset += consumed;
    if (answer == CAPVET_OK) {
      if (!print_message(number++, begin, out, report.length, is_exclusive)) return;
      begin = offset;
    } else if (answer == CAPVET_BUFFER_TOO_SMALL) {
      space(required);
    } else {
      print_end(answer, begin);
      return;
    }
  }
}

static void answer_ask(const ask *it) {
  capvet_report report;
  switch (it->of.call) {
    case VET:
    case EXCLUSIVE: print_answer(vet(data, length, it->of.call == EXCLUSIVE, &report), &report); break;
    case SEGMENTS: print_segments(it->of.first); break;
    case FRAME: print_frame(); break;
    case IS_CANONICAL: {
      const capvet_answer answer = capvet_check_canonical(data, length, &limits, &report);
      if (answer == CAPVET_OK || answer == CAPVET_NOT_CANONICAL) fprintf(lines, "%s", capvet_answer_name(answer));
      else print_answer(answer, &report);
      break;
    }
    case CANONICAL: print_canonical(); break;
    case POINTER_PATH: print_pointer_path(it->of.first); break;
    case GET: print_node(it->text, it->of.length); break;
    case RANGE: print_range(it); break;
    case PACK:
    case PACK_MESSAGE: print_pack(it->of.call == PACK_MESSAGE); break;
    case UNPACK: print_unpack(it->of.first); break;
    case PLAIN:
    case PLAIN_EXCLUSIVE: print_plain(it->of.call == PLAIN_EXCLUSIVE); break;
    case PACKED:
    case PACKED_EXCLUSIVE: print_packed(it->of.call == PACKED_EXCLUSIVE); break;
    case EXPLAIN: print_explanation(); break;
    case FIRST_DIFFERENCE: print_difference(); break;
    default: abort();
  }
}

int main(void) {
  for (;;) {
    read_all(&limits, sizeof limits);
    length = read_number();
    free(data);
    data = malloc(length + 1);
    read_all(data, length);
    char *text = NULL;
    size_t size;
    lines = open_memstream(&text, &size);
    for (uint32_t count = read_number(); count > 0; count--) {
      ask it;
      read_all(&it.of, sizeof it.of);
      it.text = malloc(it.of.length + 1);
      read_all(it.text, it.of.length);
      answer_ask(&it);
      fputs("\n\f", lines);
      free(it.text);
    }
    fclose(lines);
    const uint32_t written = (uint32_t)size;
    fwrite(&written, sizeof written, 1, stdout);
    fwrite(text, 1, size, stdout);
    fflush(stdout);
    free(text);
  }
}
