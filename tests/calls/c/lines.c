/* lines vet FILE, lines exclusive FILE, lines check FILE: the lines that the program writes for a stream of
 * messages, and that of its fault. They come from the calls of capvet.h, and the stream is in a buffer. The
 * lines of `exclusive` are those of `vet --exclusive`. The calls allow what the program does. Each message is vetted in a block of its own, which ends
 * with the message, so that a tool that watches memory sees a read after it. A cut message takes all bytes left.
 *
 * lines canon FILE: the canonical copies of the messages, each after its table, up to the first message that
 * is refused or has a capability. Each is written into a block that ends with it.
 *
 * Of a message of one segment, the calls have to report the same of its words alone, by CAPVET_FORM_WORDS, apart
 * from their length, and capvet_vet_segments of the segments of each message. A canonical copy has to be
 * canonical without a table. Otherwise the status is 5.
 *
 * lines unpack FILE: the words of a packed text, or the program's line where it is cut. They are written
 * into a block that ends with them. */
#include <capvet.h>

#include <stdio.h>
#include <stdlib.h>
#include <string.h>

/* It runs thousands of times, and looking for leaks takes longer than all else. `calls` and `texts` are run
 * with that. */
const char *__asan_default_options(void) { return "detect_leaks=0"; }

/* The line of a message, by its number in the stream. */
static void line(int check, unsigned long n, uint32_t answer, const capvet_report *r) {
  if (answer >= CAPVET_NO_ROOT || answer == CAPVET_OVERLAP)
    printf("message %lu: refused %s at %lu:%lu pointers %llu\n", n, capvet_answer_name(answer), (unsigned long)r->segment,
           (unsigned long)r->word, (unsigned long long)r->pointers);
  else if (check)
    printf("message %lu: %s\n", n, answer == CAPVET_OK ? "canonical" : "not canonical");
  else
    printf("message %lu: accepted charge %llu depth %lu pointers %llu caps %llu\n", n, (unsigned long long)r->charge,
           (unsigned long)r->depth, (unsigned long long)r->pointers, (unsigned long long)r->capabilities);
}

/* The line of a fault of the frame, where the stream has `length` bytes. */
static void fault(unsigned long n, uint32_t answer, const capvet_report *r, size_t length) {
  const char *name = capvet_answer_name(answer);
  if (answer == CAPVET_TOO_MANY_SEGMENTS || answer == CAPVET_TOO_LARGE)
    fprintf(stderr, "capvet: message %lu: %s %llu\n", n, name, (unsigned long long)r->detail);
  else if (answer == CAPVET_TRUNCATED)
    fprintf(stderr, "capvet: message %lu: %s at byte %llu\n", n, name, (unsigned long long)length);
  else
    fprintf(stderr, "capvet: message %lu: answer %lu\n", n, (unsigned long)answer);
}

/* All bytes of a file. */
static uint8_t *contents(const char *name, size_t *length) {
  FILE *file = fopen(name, "rb");
  uint8_t *bytes;
  long end;
  if (file == NULL || fseek(file, 0, SEEK_END) != 0 || (end = ftell(file)) < 0) exit(3);
  rewind(file);
  bytes = malloc((size_t)end + 1);
  if (bytes == NULL || fread(bytes, 1, (size_t)end, file) != (size_t)end) exit(3);
  fclose(file);
  *length = (size_t)end;
  return bytes;
}

/* The words of a packed text, once their length was asked for. */
static int unpack(const uint8_t *bytes, size_t length) {
  uint8_t *block = malloc(length + 1), *out;
  size_t needed = 77, written = 77;
  uint32_t answer;
  if (block == NULL) return 3;
  memcpy(block + 1, bytes, length);
  answer = capvet_unpack_words(block + 1, length, NULL, 0, &needed);
  if (answer == CAPVET_TRUNCATED && needed == 0) {
    free(block);
    fprintf(stderr, "capvet: Truncated at byte %lu\n", (unsigned long)length);
    return 1;
  }
  if (answer != (needed == 0 ? (uint32_t)CAPVET_OK : (uint32_t)CAPVET_BUFFER_TOO_SMALL)) return 4;
  out = malloc(needed + 1);
  if (out == NULL) return 3;
  if (capvet_unpack_words(block + 1, length, out + 1, needed, &written) != CAPVET_OK || written != needed) return 4;
  if (fwrite(out + 1, 1, written, stdout) != written) return 3;
  free(out);
  free(block);
  return 0;
}

/* Writes the canonical copy of a message, by its number in the stream, once its length was asked for. 1 where
 * it has none. `found` is why, or CAPVET_OK. */
static int copy(unsigned long n, const uint8_t *bytes, size_t length, const capvet_limits *limits,
                capvet_report *report, uint32_t *found) {
  uint8_t table[8] = {0}, *out;
  size_t needed = 77, written = 77, k;
  capvet_report again;
  uint32_t answer = capvet_canonical(bytes, length, limits, NULL, 0, &needed, report);
  *found = answer == CAPVET_BUFFER_TOO_SMALL ? (uint32_t)CAPVET_OK : answer;
  if (answer != CAPVET_BUFFER_TOO_SMALL) {
    if (needed != 0) return 4;
    if (report->length == 0) return 1;
    if (answer == CAPVET_HAS_CAPABILITY)
      fprintf(stderr, "capvet: message %lu: %s at %lu:%lu\n", n, capvet_answer_name(answer),
              (unsigned long)report->segment, (unsigned long)report->word);
    else
      fprintf(stderr, "capvet: message %lu: refused %s at %lu:%lu\n", n, capvet_answer_name(answer),
              (unsigned long)report->segment, (unsigned long)report->word);
    return 1;
  }
  if (needed > 8 * (report->charge + 1)) return 4;
  out = malloc(needed + 1);
  if (out == NULL) return 3;
  if (capvet_canonical(bytes, length, limits, out + 1, needed, &written, &again) != CAPVET_OK) return 4;
  if (written != needed || memcmp(report, &again, sizeof again) != 0) return 4;
  if (capvet_check_canonical_words(out + 1, written, limits, &again) != CAPVET_OK) return 5;
  for (k = 0; k < 4; k++) table[4 + k] = (uint8_t)(written / 8 >> (8 * k));
  if (fwrite(table, 1, 8, stdout) != 8 || fwrite(out + 1, 1, written, stdout) != written) return 3;
  free(out);
  return 0;
}

/* The answer with `capacity` numbers for the marks. These numbers and one more are all ones before. The numbers
 * that aren't needed stay so, and so does the one more. */
static uint32_t marked(const uint8_t *bytes, size_t length, const capvet_limits *limits, size_t capacity, size_t *needed,
                       capvet_report *report) {
  uint64_t *marks = malloc(8 * capacity + 8);
  uint32_t answer;
  size_t k, from;
  if (marks == NULL) exit(3);
  memset(marks, 0xff, 8 * capacity + 8);
  *needed = 77;
  memset(report, 0xa5, sizeof *report);
  answer = capvet_vet_exclusive(bytes, length, limits, marks, capacity, needed, report);
  from = answer == CAPVET_OK || answer == CAPVET_OVERLAP ? *needed : 0;
  if (from > capacity) exit(4);
  for (k = from; k <= capacity; k++)
    if (marks[k] != UINT64_MAX) exit(4);
  free(marks);
  return answer;
}

/* Vets a message exclusively without numbers for its marks, with one less than it needs, with as many, and with
 * more. The last two calls have the same answer and the same report. */
static uint32_t exclusive(const uint8_t *bytes, size_t length, const capvet_limits *limits, capvet_report *report) {
  capvet_report vetted, less, more;
  size_t none, needed, short_of, again;
  uint32_t answer, other = capvet_vet(bytes, length, limits, &vetted);
  answer = marked(bytes, length, limits, 0, &none, report);
  if (answer != CAPVET_BUFFER_TOO_SMALL) {
    if (other == CAPVET_OK || answer != other || none != 0 || memcmp(report, &vetted, sizeof vetted) != 0) exit(4);
    return answer;
  }
  if (other != CAPVET_OK || none == 0 || none > report->length / 512 + 1) exit(4);
  if (memcmp(report, &vetted, sizeof vetted) != 0) exit(4);
  if (marked(bytes, length, limits, none - 1, &short_of, &less) != CAPVET_BUFFER_TOO_SMALL) exit(4);
  answer = marked(bytes, length, limits, none, &needed, report);
  if (marked(bytes, length, limits, none + 2, &again, &more) != answer) exit(4);
  if (short_of != none || needed != none || again != none) exit(4);
  if (memcmp(&less, &vetted, sizeof less) != 0 || memcmp(report, &more, sizeof more) != 0) exit(4);
  if (answer == CAPVET_OK && memcmp(report, &vetted, sizeof vetted) != 0) exit(4);
  return answer;
}

/* Stops unless the answer and the report are those of the same segments, each in a block of its own that starts at
 * an odd address. */
static void separate(const uint8_t *frame, const capvet_limits *limits, uint32_t answer, const capvet_report *report) {
  capvet_segment segments[CAPVET_MAX_SEGMENTS];
  uint8_t *blocks[CAPVET_MAX_SEGMENTS];
  static capvet_extent extents[CAPVET_MAX_SEGMENTS];
  capvet_report again;
  size_t at, size, count, end = 8 * ((size_t)report->segments / 2 + 1);
  uint32_t i;
  if (capvet_segments(frame, (size_t)report->length, limits, extents, CAPVET_MAX_SEGMENTS, &count, &again) != CAPVET_OK) exit(5);
  if (count != report->segments) exit(5);
  for (i = 0; i < report->segments; i++) {
    at = (size_t)extents[i].offset;
    size = (size_t)extents[i].length;
    if (at != end) exit(5);
    blocks[i] = malloc(size + 1);
    if (blocks[i] == NULL) exit(3);
    memcpy(blocks[i] + 1, frame + at, size);
    segments[i].bytes = size == 0 ? NULL : blocks[i] + 1;
    segments[i].length = size;
    end = at + size;
  }
  if (end != report->length) exit(5);
  memset(&again, 0xa5, sizeof again);
  if (capvet_vet_segments(segments, report->segments, limits, &again) != (capvet_answer)answer) exit(5);
  again.length += 8 * (report->segments / 2 + 1);
  if (memcmp(&again, report, sizeof again) != 0) exit(5);
  for (i = 0; i < report->segments; i++) free(blocks[i]);
}

/* Stops unless the answer and the report are those of the words of a segment, without a table before them. */
static void without_table(int check, int twice, const uint8_t *frame, const capvet_limits *limits, uint32_t answer,
                          const capvet_report *report) {
  capvet_limits of_words = *limits;
  capvet_report again;
  size_t length = (size_t)report->length - 8;
  uint8_t *words = malloc(length + 1);
  uint32_t got;
  if (words == NULL) exit(3);
  of_words.form = CAPVET_FORM_WORDS;
  memcpy(words + 1, frame + 8, length);
  memset(&again, 0xa5, sizeof again);
  got = check ? capvet_check_canonical(words + 1, length, &of_words, &again)
        : twice ? exclusive(words + 1, length, &of_words, &again)
              : capvet_vet(words + 1, length, &of_words, &again);
  again.length += 8;
  if (got != answer || memcmp(&again, report, sizeof again) != 0) exit(5);
  free(words);
}

int main(int count, char **words) {
  capvet_limits limits = CAPVET_LIMITS_INIT;
  size_t length = 0, at = 0;
  unsigned long n;
  int status = 0, check, canon, twice;
  uint8_t *bytes;
  if (count != 3) return 2;
  limits.flags = CAPVET_ALLOW_NONSTRICT | CAPVET_ALLOW_AMPLIFIED;
  check = strcmp(words[1], "check") == 0;
  canon = strcmp(words[1], "canon") == 0;
  twice = strcmp(words[1], "exclusive") == 0;
  bytes = contents(words[2], &length);
  if (strcmp(words[1], "unpack") == 0) {
    status = unpack(bytes, length);
    free(bytes);
    return status;
  }
  for (n = 0;; n++) {
    capvet_report framed, report;
    size_t size;
    uint8_t *block;
    uint32_t answer = capvet_frame(bytes + at, length - at, &limits, &framed);
    if (answer == CAPVET_NO_MESSAGE) break;
    /* a message that isn't whole is shown as it is */
    size = answer == CAPVET_OK ? (size_t)framed.length : length - at;
    block = malloc(size + 1);
    if (block == NULL) return 3;
    memcpy(block + 1, bytes + at, size);
    memset(&report, 0xa5, sizeof report);
    if (canon) {
      uint32_t found;
      status = copy(n, block + 1, size, &limits, &report, &found);
      answer = framed.length == 0 ? answer : found;
    } else {
      answer = check ? capvet_check_canonical(block + 1, size, &limits, &report)
               : twice ? exclusive(block + 1, size, &limits, &report)
                     : capvet_vet(block + 1, size, &limits, &report);
      if (report.segments == 1 && report.length > 8) without_table(check, twice, block + 1, &limits, answer, &report);
      if (!check && !twice && report.length != 0) separate(block + 1, &limits, answer, &report);
    }
    free(block);
    if (status > 1) return status;
    if (report.length != framed.length || report.detail != (answer == CAPVET_WORD_LIMIT ? limits.charge : framed.detail) || report.input_required != framed.input_required || report.segments != framed.segments)
      return 4;
    if (report.length == 0) {
      fault(n, answer, &report, length);
      status = 1;
      break;
    }
    if (canon && status != 0) break;
    if (!canon) line(check, n, answer, &report);
    if (answer != CAPVET_OK) status = 1;
    at += (size_t)report.length;
  }
  free(bytes);
  return status;
}
