/* allocations FILE..: counts how often the calls of capvet.h take memory of the C library, over parts of each
 * file and by several limits. They may never do so. The functions that give memory are this program's own
 * here: they count, and ask those of the C library by their other names. */
#include <capvet.h>

#include <stdio.h>
#include <stdlib.h>
#include <string.h>

void *__libc_malloc(size_t);
void *__libc_calloc(size_t, size_t);
void *__libc_realloc(void *, size_t);
void *__libc_memalign(size_t, size_t);

static unsigned long taken;
static unsigned long failures;

void *malloc(size_t size) {
  taken++;
  return __libc_malloc(size);
}

void *calloc(size_t count, size_t size) {
  taken++;
  return __libc_calloc(count, size);
}

void *realloc(void *old, size_t size) {
  taken++;
  return __libc_realloc(old, size);
}

void *memalign(size_t alignment, size_t size) {
  taken++;
  return __libc_memalign(alignment, size);
}

void *aligned_alloc(size_t alignment, size_t size) { return memalign(alignment, size); }

int posix_memalign(void **place, size_t alignment, size_t size) {
  *place = memalign(alignment, size);
  return *place == NULL ? 12 : 0;
}

static void expect(int holds, const char *what, unsigned long got) {
  if (!holds) {
    failures++;
    fprintf(stderr, "allocations: %s (got %lu)\n", what, got);
  }
}

/* What is taken is counted, what the C library takes for itself too. */
static void counted(const char *name) {
  /* (volatile, so that no compiler leaves one out) */
  void *volatile some[5];
  void *place = NULL;
  unsigned long before = taken;
  size_t i;
  FILE *file;
  some[0] = malloc(8);
  some[1] = calloc(1, 8);
  some[2] = realloc(NULL, 8);
  some[3] = aligned_alloc(64, 64);
  some[4] = posix_memalign(&place, 64, 64) == 0 ? place : NULL;
  expect(taken == before + 5, "each that is made is counted", taken - before);
  for (i = 0; i < 5; i++) free(some[i]);
  before = taken;
  file = fopen(name, "rb");
  expect(file != NULL && taken > before, "those of an open file are counted", taken - before);
  if (file != NULL) fclose(file);
}

typedef capvet_answer (*reporting)(const uint8_t *, size_t, const capvet_limits *, capvet_report *);

static const struct {
  const char *name;
  reporting call;
} CALLS[] = {{"capvet_frame", capvet_frame}, {"capvet_vet", capvet_vet}, {"capvet_check_canonical", capvet_check_canonical},
             {"capvet_first_difference", capvet_first_difference}};

enum {
  FRAME, VET, IS_CANONICAL, DIFFERENCE, UNPACK, PACK, EXCLUSIVE, SEGMENTS, VET_SEGMENTS, GET, GET_RANGE, POINTER_PATH, EARLIER,
  EXPLAIN, OVERLAP, PACK_MESSAGE, UNPACK_MESSAGE, COUNT
};

/* How often each call gave each answer. */
static unsigned long seen[COUNT][64];

static void answered(int call, unsigned long before, uint32_t answer) {
  static const char *const others[] = {"capvet_unpack_words", "capvet_pack_words", "capvet_vet_exclusive", "capvet_segments",
                                       "capvet_vet_segments", "capvet_get", "capvet_get_range",
                                       "capvet_pointer_path", "capvet_earlier_pointer", "capvet_explain",
                                       "capvet_explain_overlap",
                                       "capvet_pack_message", "capvet_unpack_message"};
  const char *name = call >= UNPACK ? others[call - UNPACK] : CALLS[call].name;
  expect(taken == before, name, taken - before);
  if (answer < 64) seen[call][answer]++;
}

static const capvet_limits LIMITS[] = {
    CAPVET_LIMITS_INIT,
    {8388608, 8388608, 64, 0, CAPVET_FORM_PREFIX, 0, {0, 0, 0, 0, 0, 0}},
    {8388608, 100, 64, CAPVET_ALLOW_NONSTRICT, CAPVET_FORM_PREFIX, 0, {0, 0, 0, 0, 0, 0}},
    {8388608, 8388608, 3, CAPVET_ALLOW_AMPLIFIED, CAPVET_FORM_PREFIX, 0, {0, 0, 0, 0, 0, 0}},
    {100, 100, 64, 0, CAPVET_FORM_WHOLE, 0, {0, 0, 0, 0, 0, 0}},
    {8388608, 8388608, 257, 0, CAPVET_FORM_WHOLE, 0, {0, 0, 0, 0, 0, 0}}};

/* Each call that reports. */
static void reports(const uint8_t *bytes, size_t length) {
  size_t limits;
  int call;
  for (limits = 0; limits < sizeof LIMITS / sizeof *LIMITS; limits++)
    for (call = 0; call < UNPACK; call++) {
      capvet_report report;
      unsigned long before = taken;
      uint32_t answer = CALLS[call].call(bytes, length, &LIMITS[limits], &report);
      answered(call, before, answer);
    }
}

/* A struct of two pointers to one struct: words of it are used twice. */
static const uint8_t SHARED[40] = {0, 0, 0, 0, 4, 0, 0, 0, 0, 0, 0, 0, 0, 0, 2, 0, 4, 0, 0, 0,
                                   1, 0, 0, 0, 0, 0, 0, 0, 1, 0, 0, 0, 7, 0, 0, 0, 0, 0, 0, 0};

/* A null root, which is its own canonical form. */
static const uint8_t NULL_ROOT[16] = {0, 0, 0, 0, 1};

/* Without numbers for the marks, and with as many as are needed. */
static void marks(const uint8_t *bytes, size_t length) {
  static uint64_t buffer[1 << 12];
  capvet_report report;
  size_t needed, again;
  unsigned long before = taken;
  uint32_t answer = capvet_vet_exclusive(bytes, length, &LIMITS[1], buffer, 0, &needed, &report);
  answered(EXCLUSIVE, before, answer);
  if (needed <= sizeof buffer / sizeof *buffer) {
    before = taken;
    answer = capvet_vet_exclusive(bytes, length, &LIMITS[1], buffer, needed, &again, &report);
    answered(EXCLUSIVE, before, answer);
  }
}

/* A few paths, and a text that is none. */
static void nodes(const uint8_t *bytes, size_t length) {
  static const char *const PATHS[] = {"/", "/p0/i1/p4", "/p9", "/p"};
  size_t i;
  for (i = 0; i < sizeof PATHS / sizeof *PATHS; i++) {
    capvet_report report;
    capvet_node node;
    unsigned long before = taken;
    uint32_t answer = capvet_get(bytes, length, &LIMITS[1], PATHS[i], strlen(PATHS[i]), &node, &report);
    answered(GET, before, answer);
  }
}

/* The first elements of a list, one field of each, and a step that is none. */
static void ranges(const uint8_t *bytes, size_t length) {
  static const capvet_step STEPS[] = {{CAPVET_STEP_POINTER, 0}, {CAPVET_STEP_ELEMENT, 0}, {CAPVET_STEP_POINTER, 0}, {2, 0}};
  size_t count;
  for (count = 2; count <= sizeof STEPS / sizeof *STEPS; count++) {
    capvet_report report;
    capvet_node some[3];
    size_t found;
    unsigned long before = taken;
    uint32_t answer = capvet_get_range(bytes, length, &LIMITS[1], STEPS, count, 1, some, 3, &found, &report);
    answered(GET_RANGE, before, answer);
  }
}

/* The pointer that a verdict names or the last one, with and without capacity, and one that there isn't. Then the earlier
 * pointer that shares a word with it. */
static void paths(const uint8_t *bytes, size_t length) {
  static char text[CAPVET_OVERLAP_BOUND];
  capvet_step steps[CAPVET_MAX_DEPTH];
  capvet_report report;
  size_t required, capacity;
  uint64_t number;
  unsigned long before;
  uint32_t answer = capvet_vet(bytes, length, &LIMITS[1], &report);
  number = report.pointers;
  for (capacity = 0; capacity <= CAPVET_MAX_DEPTH; capacity += CAPVET_MAX_DEPTH) {
    before = taken;
    answer = capvet_pointer_path(bytes, length, &LIMITS[1], capacity == 0 ? number : number + 1, steps, capacity, &required, &report);
    answered(POINTER_PATH, before, answer);
    before = taken;
    answer = capvet_pointer_path(bytes, length, &LIMITS[1], number, steps, capacity, &required, &report);
    answered(POINTER_PATH, before, answer);
  }
  before = taken;
  answer = capvet_earlier_pointer(bytes, length, &LIMITS[1], number, &report);
  answered(EARLIER, before, answer);
  for (capacity = 0; capacity <= sizeof text; capacity += sizeof text) {
    before = taken;
    answer = capvet_explain_overlap(bytes, length, &LIMITS[1], 0, 0, number, text, capacity, &required, &report);
    answered(OVERLAP, before, answer);
  }
}

/* Within each of the limits, without a buffer, and with one. */
static void explanations(const uint8_t *bytes, size_t length) {
  static char text[CAPVET_EXPLANATION_BOUND];
  size_t limits, capacity, required;
  for (limits = 0; limits < sizeof LIMITS / sizeof *LIMITS; limits++)
    for (capacity = 0; capacity <= sizeof text; capacity += sizeof text) {
      capvet_report report;
      unsigned long before = taken;
      uint32_t answer = capvet_explain(bytes, length, &LIMITS[limits], text, capacity, &required, &report);
      answered(EXPLAIN, before, answer);
    }
}

/* Each of the first two segments, and these as separate ones. */
static void segments(const uint8_t *bytes, size_t length) {
  capvet_segment parts[2] = {{NULL, 0}, {NULL, 0}};
  capvet_report report;
  static capvet_extent extents[CAPVET_MAX_SEGMENTS];
  size_t index, count, capacity;
  uint32_t answer = CAPVET_NO_MESSAGE;
  unsigned long before;
  for (capacity = 0; capacity <= CAPVET_MAX_SEGMENTS; capacity += CAPVET_MAX_SEGMENTS) {
    before = taken;
    answer = capvet_segments(bytes, length, &LIMITS[0], extents, capacity, &count, &report);
    answered(SEGMENTS, before, answer);
  }
  for (index = 0; index < 2 && answer == CAPVET_OK && index < count; index++) {
    parts[index].bytes = bytes + extents[index].offset;
    parts[index].length = (size_t)extents[index].length;
  }
  before = taken;
  answer = capvet_vet_segments(parts, 2, &LIMITS[0], &report);
  answered(VET_SEGMENTS, before, answer);
}

typedef capvet_answer (*encoder)(const uint8_t *, size_t, uint8_t *, size_t, size_t *);

/* With an output buffer of length 0, and of the length that is needed. */
static void encodes(int number, encoder call, const uint8_t *bytes, size_t length) {
  static uint8_t out[1 << 16];
  size_t written, needed;
  unsigned long before = taken;
  uint32_t answer = call(bytes, length, out, 0, &needed);
  answered(number, before, answer);
  if (needed <= sizeof out) {
    before = taken;
    answer = call(bytes, length, out, needed, &written);
    answered(number, before, answer);
  }
}

/* Packed as a message, and unpacked as one of a stream: without a buffer, and then with one. */
static void messages(const uint8_t *bytes, size_t length) {
  static uint8_t out[1 << 16];
  static const size_t SIZES[] = {0, sizeof out};
  capvet_unpacking state = {0, 0, 0, {0, 0}};
  size_t i, from = 0;
  for (i = 0; i < sizeof SIZES / sizeof *SIZES; i++) {
    capvet_report report;
    size_t required, consumed;
    unsigned long before = taken;
    uint32_t answer = capvet_pack_message(bytes, length, &LIMITS[1], out, SIZES[i], &required, &report);
    answered(PACK_MESSAGE, before, answer);
    before = taken;
    answer = capvet_unpack_message(bytes + from, length - from, &LIMITS[0], out, SIZES[i], &state, &consumed, &required, &report);
    answered(UNPACK_MESSAGE, before, answer);
    from += consumed;
  }
}

/* Each prefix of the bytes, and the bytes from the start of each of their words on. */
static void parts(const uint8_t *bytes, size_t length) {
  size_t at;
  for (at = 0; at <= length; at++) {
    reports(bytes, at);
    marks(bytes, at);
    segments(bytes, at);
    nodes(bytes, at);
    ranges(bytes, at);
    paths(bytes, at);
    explanations(bytes, at);
    messages(bytes, at);
    encodes(UNPACK, capvet_unpack_words, bytes, at);
    encodes(PACK, capvet_pack_words, bytes, at);
  }
  for (at = 0; at <= length; at += 8) {
    reports(bytes + at, length - at);
    marks(bytes + at, length - at);
  }
}

/* The answers that have to come, so that more is gone through than the first lines of a call. */
static const struct {
  int call;
  uint32_t answer;
} EXPECTED[] = {{FRAME, CAPVET_OK},
              {FRAME, CAPVET_TOO_LARGE},
              {FRAME, CAPVET_TRUNCATED},
              {VET, CAPVET_OK},
              {VET, CAPVET_NO_MESSAGE},
              {VET, CAPVET_TRAILING},
              {VET, CAPVET_BAD_LIMITS},
              {VET, CAPVET_DEPTH_LIMIT},
              {VET, CAPVET_WORD_LIMIT},
              {IS_CANONICAL, CAPVET_OK},
              {IS_CANONICAL, CAPVET_NOT_CANONICAL},
              {DIFFERENCE, CAPVET_OK},
              {DIFFERENCE, CAPVET_NOT_CANONICAL},
              {DIFFERENCE, CAPVET_TRAILING},
              {EXCLUSIVE, CAPVET_OK},
              {EXCLUSIVE, CAPVET_BUFFER_TOO_SMALL},
              {EXCLUSIVE, CAPVET_OVERLAP},
              {EXCLUSIVE, CAPVET_TRUNCATED},
              {SEGMENTS, CAPVET_OK},
              {SEGMENTS, CAPVET_BUFFER_TOO_SMALL},
              {SEGMENTS, CAPVET_TRUNCATED},
              {VET_SEGMENTS, CAPVET_OK},
              {VET_SEGMENTS, CAPVET_NO_ROOT},
              {GET, CAPVET_OK},
              {GET, CAPVET_NO_NODE},
              {GET, CAPVET_BAD_PATH},
              {GET, CAPVET_TRUNCATED},
              {GET_RANGE, CAPVET_OK},
              {GET_RANGE, CAPVET_NO_NODE},
              {GET_RANGE, CAPVET_BAD_PATH},
              {GET_RANGE, CAPVET_TRUNCATED},
              {POINTER_PATH, CAPVET_OK},
              {POINTER_PATH, CAPVET_NO_NODE},
              {POINTER_PATH, CAPVET_BUFFER_TOO_SMALL},
              {POINTER_PATH, CAPVET_TRUNCATED},
              {EARLIER, CAPVET_OK},
              {EARLIER, CAPVET_NO_NODE},
              {EARLIER, CAPVET_TRUNCATED},
              {EXPLAIN, CAPVET_OK},
              {EXPLAIN, CAPVET_BAD_LIMITS},
              {EXPLAIN, CAPVET_DEPTH_LIMIT},
              {EXPLAIN, CAPVET_TRAILING},
              {EXPLAIN, CAPVET_TRUNCATED},
              {PACK_MESSAGE, CAPVET_OK},
              {PACK_MESSAGE, CAPVET_BUFFER_TOO_SMALL},
              {PACK_MESSAGE, CAPVET_TRUNCATED},
              {UNPACK_MESSAGE, CAPVET_OK},
              {UNPACK_MESSAGE, CAPVET_NO_MESSAGE},
              {UNPACK_MESSAGE, CAPVET_TRUNCATED},
              {UNPACK_MESSAGE, CAPVET_BUFFER_TOO_SMALL},
              {UNPACK, CAPVET_OK},
              {UNPACK, CAPVET_BUFFER_TOO_SMALL},
              {UNPACK, CAPVET_TRUNCATED},
              {PACK, CAPVET_OK},
              {PACK, CAPVET_BUFFER_TOO_SMALL},
              {PACK, CAPVET_TRUNCATED}};

int main(int count, char **names) {
  static uint8_t bytes[1 << 16];
  unsigned long before = taken;
  uint32_t version = capvet_version();
  size_t i, length;
  int at;
  expect(taken == before, "capvet_version", version);
  marks(SHARED, sizeof SHARED);
  paths(SHARED, sizeof SHARED);
  reports(NULL_ROOT, sizeof NULL_ROOT);
  for (at = 1; at < count; at++) {
    FILE *file;
    counted(names[at]);
    file = fopen(names[at], "rb");
    if (file == NULL) return 3;
    length = fread(bytes, 1, sizeof bytes, file);
    fclose(file);
    parts(bytes, length);
  }
  for (i = 0; i < sizeof EXPECTED / sizeof *EXPECTED; i++)
    expect(seen[EXPECTED[i].call][EXPECTED[i].answer] > 0, "an answer never came, of a call by this number", (unsigned long)i);
  return failures != 0;
}
