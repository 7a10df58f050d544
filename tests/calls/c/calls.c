/* What the calls of capvet.h answer, over the built archive. Each buffer is a block of its own of
 * exactly its length, so that a tool that watches memory sees a read or write beside it. */
#include <capvet.h>

#include <stdio.h>
#include <stdlib.h>
#include <string.h>

static int failures = 0;

static void expect(int holds, const char *what, unsigned long long got) {
  if (!holds) {
    failures++;
    fprintf(stderr, "calls: %s (got %llu)\n", what, got);
  }
}

#define EXPECT(holds, what, got) expect((holds), (what), (unsigned long long)(got))

/* A block with these bytes from `odd` bytes after its start on. */
static uint8_t *block(const uint8_t *bytes, size_t length, size_t odd) {
  uint8_t *whole = malloc(length + odd + (length + odd == 0));
  if (whole == NULL) exit(3);
  if (length != 0) memcpy(whole + odd, bytes, length);
  return whole;
}

/* The default limits, and bytes may follow the message. */
static const capvet_limits LIMITS = {8388608, 8388608, 64, 0, CAPVET_FORM_PREFIX, 0, {0, 0, 0, 0, 0, 0}};
static const capvet_limits WHOLE = CAPVET_LIMITS_INIT;

/* A report that no call has written. */
static capvet_report unwritten(void) {
  capvet_report r;
  memset(&r, 0xa5, sizeof r);
  return r;
}

/* A message of two segments, whose tree has three pointers, the third a capability, and 8 bytes after it. */
static const uint8_t TWO[64] = {
    1, 0, 0, 0, 1, 0, 0, 0, 4, 0, 0, 0, 0, 0, 0, 0, 2, 0, 0, 0, 1, 0, 0, 0, 0, 0, 0, 0, 1, 0, 2, 0,
    7, 0, 0, 0, 0, 0, 0, 0, 0, 0, 0, 0, 0, 0, 0, 0, 3, 0, 0, 0, 5, 0, 0, 0, 9, 9, 9, 9, 9, 9, 9, 9};

/* The places of the fields, by numbers. */
static void layout(void) {
  EXPECT(sizeof(capvet_limits) == 80, "size of limits", sizeof(capvet_limits));
  EXPECT(offsetof(capvet_limits, charge) == 8, "limits.charge", offsetof(capvet_limits, charge));
  EXPECT(offsetof(capvet_limits, depth) == 16, "limits.depth", offsetof(capvet_limits, depth));
  EXPECT(offsetof(capvet_limits, flags) == 20, "limits.flags", offsetof(capvet_limits, flags));
  EXPECT(offsetof(capvet_limits, form) == 24, "limits.form", offsetof(capvet_limits, form));
  EXPECT(offsetof(capvet_limits, padding) == 28, "limits.padding", offsetof(capvet_limits, padding));
  EXPECT(offsetof(capvet_limits, reserved) == 32, "limits.reserved", offsetof(capvet_limits, reserved));
  EXPECT(sizeof(capvet_segment) == 16 && offsetof(capvet_segment, length) == 8, "a segment", sizeof(capvet_segment));
  EXPECT(sizeof(capvet_report) == 120, "size of a report", sizeof(capvet_report));
  EXPECT(offsetof(capvet_report, capabilities) == 40, "report.capabilities", offsetof(capvet_report, capabilities));
  EXPECT(offsetof(capvet_report, depth) == 48, "report.depth", offsetof(capvet_report, depth));
  EXPECT(offsetof(capvet_report, word) == 60, "report.word", offsetof(capvet_report, word));
  EXPECT(offsetof(capvet_report, words) == 64, "report.words", offsetof(capvet_report, words));
  EXPECT(offsetof(capvet_report, reserved) == 72, "report.reserved", offsetof(capvet_report, reserved));
  EXPECT(sizeof(capvet_node) == 56, "size of a node", sizeof(capvet_node));
  EXPECT(offsetof(capvet_node, capability) == 20, "node.capability", offsetof(capvet_node, capability));
  EXPECT(offsetof(capvet_node, offset) == 24, "node.offset", offsetof(capvet_node, offset));
  EXPECT(offsetof(capvet_node, reserved) == 40, "node.reserved", offsetof(capvet_node, reserved));
  EXPECT(sizeof(capvet_step) == 8 && offsetof(capvet_step, number) == 4, "a step", sizeof(capvet_step));
}

/* Each field of an accepted message's report, at each alignment. */
static void fields(void) {
  size_t odd;
  for (odd = 0; odd < 8; odd++) {
    uint8_t *whole = block(TWO, sizeof TWO, odd);
    capvet_report r = unwritten();
    EXPECT(capvet_vet(whole + odd, sizeof TWO, &LIMITS, &r) == CAPVET_OK, "vet", odd);
    EXPECT(r.length == 56, "length", r.length);
    EXPECT(r.input_required == 0 && r.detail == 0, "required and detail", r.input_required);
    EXPECT(r.charge == 4, "charge", r.charge);
    EXPECT(r.pointers == 3, "pointers", r.pointers);
    EXPECT(r.capabilities == 1, "capabilities", r.capabilities);
    EXPECT(r.depth == 1, "depth", r.depth);
    EXPECT(r.segment == 1, "segment", r.segment);
    EXPECT(r.word == 3, "word", r.word);
    EXPECT(r.segments == 2, "segments", r.segments);
    EXPECT((r.reserved[0] | r.reserved[1] | r.reserved[2] | r.reserved[3] | r.reserved[4] | r.reserved[5]) == 0, "reserved",
           r.reserved[0]);
    EXPECT(memcmp(whole + odd, TWO, sizeof TWO) == 0, "the bytes stay", odd);
    free(whole);
  }
}

/* The nodes of TWO, at each alignment, and texts that are no paths. */
static void nodes(void) {
  static const struct {
    const char *path;
    uint32_t answer, kind, pointers, capability;
    uint64_t offset, detail;
  } ROWS[] = {
      {"/", CAPVET_OK, CAPVET_KIND_STRUCT, 2, 0, 32, 0},   {"/p0", CAPVET_OK, CAPVET_KIND_NULL, 0, 0, 0, 0},
      {"/p1", CAPVET_OK, CAPVET_KIND_CAPABILITY, 0, 5, 0, 0}, {"/p2", CAPVET_NO_NODE, 0, 0, 0, 0, 0},
      {"/i0", CAPVET_NO_NODE, 0, 0, 0, 0, 0},              {"/p0/p0", CAPVET_NO_NODE, 0, 0, 0, 0, 0},
      {"", CAPVET_BAD_PATH, 0, 0, 0, 0, 0},                {"/p00", CAPVET_BAD_PATH, 0, 0, 0, 0, 3},
      {"/p0/", CAPVET_BAD_PATH, 0, 0, 0, 0, 4},            {"/p65536", CAPVET_BAD_PATH, 0, 0, 0, 0, 6}};
  size_t odd, i;
  for (odd = 0; odd < 8; odd++) {
    uint8_t *whole = block(TWO, sizeof TWO, odd);
    for (i = 0; i < sizeof ROWS / sizeof *ROWS; i++) {
      capvet_report r = unwritten();
      capvet_node n;
      size_t length = strlen(ROWS[i].path);
      char *path = (char *)block((const uint8_t *)ROWS[i].path, length, 0);
      uint32_t got;
      memset(&n, 0xa5, sizeof n);
      got = capvet_get(whole + odd, sizeof TWO, &LIMITS, path, length, &n, &r);
      EXPECT(got == ROWS[i].answer, ROWS[i].path, got);
      EXPECT(n.kind == ROWS[i].kind && n.pointers == ROWS[i].pointers, "kind and pointers of a node", i);
      EXPECT(n.capability == ROWS[i].capability && n.offset == ROWS[i].offset, "capability and offset of a node", i);
      EXPECT(n.data_words == (i == 0) && n.length == 8 * n.data_words, "data words of a node", i);
      EXPECT((n.element | n.count | n.reserved[0] | n.reserved[1]) == 0, "the rest of a node", i);
      EXPECT(r.detail == ROWS[i].detail, "the first bad byte", r.detail);
      EXPECT(r.length == (got == CAPVET_BAD_PATH ? 0u : 56u), "length of the frame", r.length);
      EXPECT((r.input_required | r.charge | r.pointers | r.capabilities | r.depth | r.segment | r.word) == 0, "the rest", i);
      free(path);
    }
    free(whole);
  }
}

/* How many bytes a report asks for, where the buffer ends after `length` bytes of TWO. */
static uint64_t expected(size_t length) { return length < 8 ? 8 : length < 16 ? 16 : 56; }

/* A message that arrives byte by byte. */
static void arriving(void) {
  size_t length;
  for (length = 0; length <= sizeof TWO; length++) {
    uint8_t *whole = block(TWO, length, 0);
    capvet_report framed = unwritten(), vetted = unwritten();
    uint32_t f = capvet_frame(whole, length, &LIMITS, &framed);
    uint32_t v = capvet_vet(whole, length, &LIMITS, &vetted);
    uint32_t answer = length == 0 ? CAPVET_NO_MESSAGE : length < 56 ? CAPVET_TRUNCATED : CAPVET_OK;
    EXPECT(f == answer, "frame of a front", length);
    EXPECT(v == answer, "vet of a front", length);
    EXPECT(framed.input_required == (length < 56 ? expected(length) : 0), "required", framed.input_required);
    EXPECT(vetted.input_required == framed.input_required && vetted.detail == 0, "required by vet", vetted.input_required);
    EXPECT(framed.length == (length < 56 ? 0u : 56u), "length of a frame", framed.length);
    EXPECT(framed.segments == (length < 56 ? 0u : 2u), "segments of a frame", framed.segments);
    EXPECT(framed.charge == 0 && framed.pointers == 0 && framed.capabilities == 0, "a frame vets nothing", 1);
    free(whole);
  }
}

/* What is answered for a buffer, where the report has these numbers. */
static void answers(const uint8_t *bytes, size_t length, capvet_limits limits, uint32_t answer, uint64_t required,
                    uint64_t detail) {
  uint8_t *whole = block(bytes, length, 0);
  capvet_report r = unwritten();
  uint32_t got = capvet_vet(whole, length, &limits, &r);
  EXPECT(got == answer, "answer", got);
  EXPECT(r.input_required == required, "required", r.input_required);
  EXPECT(r.detail == detail, "detail", r.detail);
  free(whole);
}

/* Limits above their maximum, unknown flags, reserved fields, and faults of the frame. */
static void faults(void) {
  capvet_limits l = LIMITS;
  uint8_t many[8] = {0, 2, 0, 0, 0, 0, 0, 0};
  l.message_words = CAPVET_MAX_MESSAGE_WORDS;
  l.charge = CAPVET_MAX_CHARGE;
  l.depth = CAPVET_MAX_DEPTH;
  l.flags = CAPVET_ALLOW_NONSTRICT | CAPVET_ALLOW_AMPLIFIED;
  answers(TWO, sizeof TWO, l, CAPVET_OK, 0, 0);
  l.message_words++;
  answers(TWO, sizeof TWO, l, CAPVET_BAD_LIMITS, 0, 0);
  l.message_words--;
  l.charge++;
  answers(TWO, sizeof TWO, l, CAPVET_BAD_LIMITS, 0, 0);
  l.charge--;
  l.flags += 16;
  answers(TWO, sizeof TWO, l, CAPVET_BAD_LIMITS, 0, 0);
  l.flags -= 16;
  l.reserved[5] = 1;
  answers(TWO, sizeof TWO, l, CAPVET_BAD_LIMITS, 0, 0);
  l.reserved[5] = 0;
  l.depth++;
  answers(many, 0, l, CAPVET_BAD_LIMITS, 0, 0);
  answers(many, 0, LIMITS, CAPVET_NO_MESSAGE, 8, 0);
  answers(many, 8, LIMITS, CAPVET_TOO_MANY_SEGMENTS, 0, 513);
  l = LIMITS;
  l.message_words = 4;
  answers(TWO, sizeof TWO, l, CAPVET_TOO_LARGE, 0, 5);
  l.message_words = 5;
  answers(TWO, sizeof TWO, l, CAPVET_OK, 0, 0);
  answers(TWO, sizeof TWO, WHOLE, CAPVET_TRAILING, 0, 8);
  answers(TWO, 57, WHOLE, CAPVET_TRAILING, 0, 1);
  answers(TWO, 56, WHOLE, CAPVET_OK, 0, 0);
}

/* A message of one segment. */
struct refused {
  uint32_t answer;
  size_t words;
  uint64_t word[4];
};

/* A message of each refusal, worked by hand. */
static const struct refused REFUSED[] = {
    {CAPVET_NO_ROOT, 0, {0}},
    {CAPVET_RESERVED, 1, {0x0000000000000007}},
    {CAPVET_SEGMENT_MISSING, 1, {0x0000000100000002}},
    {CAPVET_PAD_OUTSIDE, 1, {0x000000000000000a}},
    {CAPVET_PAD_IS_FAR, 2, {0x000000000000000a, 0x0000000000000002}},
    {CAPVET_PAD_NOT_FAR, 3, {0x000000000000000e, 0x0000000000000000, 0x0000000000000000}},
    {CAPVET_TAG_KIND, 3, {0x000000000000000e, 0x0000000000000002, 0x0000000000000003}},
    {CAPVET_TAG_OFFSET, 3, {0x000000000000000e, 0x0000000000000002, 0x0000000000000004}},
    {CAPVET_OUT_OF_SEGMENT, 1, {0x0000000100000000}},
    {CAPVET_COMPOSITE_TAG, 2, {0x0000000700000001, 0x0000000000000001}},
    {CAPVET_COMPOSITE_OVERRUN, 2, {0x0000000700000001, 0x0000000100000004}},
    {CAPVET_DEPTH_LIMIT, 1, {0x00010000fffffffc}},
    {CAPVET_WORD_LIMIT, 3, {0x0000000200000000, 0, 0}},
};

static void refusals(void) {
  size_t i, w, b;
  for (i = 0; i < sizeof REFUSED / sizeof REFUSED[0]; i++) {
    const struct refused *m = &REFUSED[i];
    uint8_t bytes[40] = {0};
    size_t length = 8 + 8 * m->words;
    capvet_limits l = LIMITS;
    capvet_report r = unwritten();
    uint8_t *whole;
    uint32_t got;
    bytes[4] = (uint8_t)m->words;
    for (w = 0; w < m->words; w++)
      for (b = 0; b < 8; b++) bytes[8 + 8 * w + b] = (uint8_t)(m->word[w] >> (8 * b));
    if (m->answer == CAPVET_WORD_LIMIT) l.charge = 1;
    whole = block(bytes, length, 1);
    got = capvet_vet(whole + 1, length, &l, &r);
    EXPECT(got == m->answer, "a refusal", got);
    EXPECT(r.length == length, "length of a refused message", r.length);
    EXPECT(r.segments == 1, "segments of a refused message", r.segments);
    EXPECT(r.charge == 0 && r.capabilities == 0 && r.depth == 0, "nothing else of a refused message", i);
    EXPECT(r.pointers == (m->answer == CAPVET_NO_ROOT ? 0u : m->answer == CAPVET_DEPTH_LIMIT ? 65u : 1u),
           "pointers that were looked at", r.pointers);
    free(whole);
  }
}

/* A packed text of a run of 3 zero words, a word by its tag, and two words as they are. */
static const uint8_t PACKED[] = {0,    2, 0x51, 8, 3, 2, 255, 1, 2, 3, 4, 5, 6, 7, 8, 1,
                                 0x11, 0, 0x33, 0, 0, 0, 0,   0};
static const uint8_t UNPACKED[48] = {0, 0, 0, 0, 0, 0, 0, 0, 0, 0, 0, 0, 0, 0, 0, 0, 0,    0, 0,    0, 0, 0, 0, 0,
                                     8, 0, 0, 0, 3, 0, 2, 0, 1, 2, 3, 4, 5, 6, 7, 8, 0x11, 0, 0x33, 0, 0, 0, 0, 0};

/* The answer for a prefix of PACKED, with an output buffer of `capacity` bytes. The byte after it stays as it is. */
static uint32_t unpacked(size_t length, size_t capacity, size_t *written, uint8_t *after) {
  uint8_t *from = block(PACKED, length, 1);
  uint8_t *out = malloc(capacity + 1);
  uint32_t answer;
  if (out == NULL) exit(3);
  memset(out, 0xee, capacity + 1);
  *written = 77;
  answer = capvet_unpack_words(from + 1, length, out, capacity, written);
  EXPECT(out[capacity] == 0xee, "a byte after the capacity", capacity);
  memset(after, 0, 64);
  memcpy(after, out, capacity < 64 ? capacity : 64);
  free(out);
  free(from);
  return answer;
}

/* Each prefix, and each length of the output buffer. */
static void unpacking(void) {
  /* the prefixes that end between groups, and how many words each of them unpacks to */
  static const struct {
    size_t length, words;
  } whole[] = {{0, 0}, {2, 3}, {6, 4}, {24, 6}};
  uint8_t got[64];
  size_t length, capacity, written, next = 0, k;
  for (length = 0; length <= sizeof PACKED; length++) {
    int ends = next < 4 && whole[next].length == length;
    size_t words = ends ? whole[next].words : 0;
    uint32_t answer = unpacked(length, 48, &written, got);
    EXPECT(answer == (ends ? (uint32_t)CAPVET_OK : (uint32_t)CAPVET_TRUNCATED), "a front of packed bytes", length);
    EXPECT(written == 8 * words, "written of a front", written);
    EXPECT(memcmp(got, UNPACKED, 8 * words) == 0, "the words of a front", length);
    for (k = 8 * words; k < 48; k++) EXPECT(got[k] == 0xee, "what is after the words", k);
    if (ends) next++;
  }
  for (capacity = 0; capacity <= 48; capacity++) {
    uint32_t answer = unpacked(sizeof PACKED, capacity, &written, got);
    EXPECT(answer == (capacity < 48 ? (uint32_t)CAPVET_BUFFER_TOO_SMALL : (uint32_t)CAPVET_OK), "too little capacity", capacity);
    EXPECT(written == 48, "the capacity that it takes", written);
    for (k = 0; capacity < 48 && k < capacity; k++) EXPECT(got[k] == 0xee, "the buffer stays", k);
  }
}

/* A message of two segments with 8 bytes after it, and its canonical copy. The root is a struct of two words,
 * the second of them zeros, and a pointer to a list of three bytes. The byte after these three isn't zero. */
static const uint8_t LOOSE[72] = {1, 0, 0, 0, 1, 0, 0, 0, 5, 0, 0, 0, 0, 0, 0, 0, 2, 0, 0, 0, 1, 0, 0, 0,
                                  0, 0, 0, 0, 2, 0, 1, 0, 7, 0, 0, 0, 0, 0, 0, 0, 0, 0, 0, 0, 0, 0, 0, 0,
                                  1, 0, 0, 0, 26, 0, 0, 0, 1, 2, 3, 4, 0, 0, 0, 0, 9, 9, 9, 9, 9, 9, 9, 9};
static const uint8_t COPIED[32] = {0, 0, 0, 0, 1, 0, 1, 0, 7, 0, 0, 0, 0, 0, 0, 0,
                                   1, 0, 0, 0, 26, 0, 0, 0, 1, 2, 3, 0, 0, 0, 0, 0};

/* The answer for a message, with an output buffer of `capacity` bytes. The byte after it stays as it is. */
static uint32_t copied(const uint8_t *bytes, size_t length, size_t capacity, size_t *written, uint8_t *got,
                       capvet_report *report) {
  uint8_t *from = block(bytes, length, 1);
  uint8_t *out = malloc(capacity + 1);
  uint32_t answer;
  if (out == NULL) exit(3);
  memset(out, 0xee, capacity + 1);
  *written = 77;
  *report = unwritten();
  answer = capvet_canonical(from + 1, length, &LIMITS, out, capacity, written, report);
  EXPECT(out[capacity] == 0xee, "a byte after the capacity of a copy", capacity);
  EXPECT(length == 0 || memcmp(from + 1, bytes, length) == 0, "the bytes of a message stay", length);
  memcpy(got, out, capacity);
  free(out);
  free(from);
  return answer;
}

/* Each length of the output buffer, each prefix, and a capability. */
static void copying(void) {
  uint8_t got[40];
  capvet_report r;
  size_t length, capacity, written, k;
  for (capacity = 0; capacity <= sizeof got; capacity++) {
    uint32_t answer = copied(LOOSE, sizeof LOOSE, capacity, &written, got, &r);
    size_t from = capacity < sizeof COPIED ? 0 : sizeof COPIED;
    EXPECT(answer == (from == 0 ? (uint32_t)CAPVET_BUFFER_TOO_SMALL : (uint32_t)CAPVET_OK), "the capacity of a copy", capacity);
    EXPECT(written == sizeof COPIED, "the capacity that a copy takes", written);
    EXPECT(memcmp(got, COPIED, from) == 0, "the words of a copy", capacity);
    for (k = from; k < capacity; k++) EXPECT(got[k] == 0xee, "what is after a copy", k);
    EXPECT(r.length == 64 && r.segments == 2 && r.detail == 0, "the frame of a copied message", r.length);
    EXPECT(r.charge == 5 && r.pointers == 2 && r.depth == 2, "the tree of a copied message", r.charge);
    EXPECT(r.capabilities == 0 && r.segment == 0 && r.word == 0, "no capability", r.capabilities);
  }
  for (length = 0; length < 64; length++) {
    uint32_t answer = copied(LOOSE, length, sizeof got, &written, got, &r);
    EXPECT(answer == (length == 0 ? (uint32_t)CAPVET_NO_MESSAGE : (uint32_t)CAPVET_TRUNCATED), "a copy of a front",
           length);
    EXPECT(written == 0 && r.length == 0, "nothing of a front", written);
    for (k = 0; k < sizeof got; k++) EXPECT(got[k] == 0xee, "the buffer stays of a front", k);
  }
  for (capacity = 0; capacity <= sizeof got; capacity++) {
    uint32_t answer = copied(TWO, sizeof TWO, capacity, &written, got, &r);
    EXPECT(answer == CAPVET_HAS_CAPABILITY, "a copy of a capability", answer);
    EXPECT(written == 0 && r.capabilities == 1 && r.segment == 1 && r.word == 3, "the first capability", r.word);
    for (k = 0; k < capacity; k++) EXPECT(got[k] == 0xee, "the buffer stays of a capability", k);
  }
}

/* A struct of one word, which is its own copy, and the same with a word of zeros, which is not. */
static const uint8_t OWN_COPY[24] = {0, 0, 0, 0, 2, 0, 0, 0, 0, 0, 0, 0, 1, 0, 0, 0, 7, 0, 0, 0, 0, 0, 0, 0};
static const uint8_t ZERO_WORD[24] = {0, 0, 0, 0, 2, 0, 0, 0, 0, 0, 0, 0, 1, 0, 0, 0, 0, 0, 0, 0, 0, 0, 0, 0};

/* A struct of two pointers to one struct: a message that is accepted, and of which words are used twice. */
static const uint8_t SHARED[40] = {0, 0, 0, 0, 4, 0, 0, 0, 0, 0, 0, 0, 0, 0, 2, 0, 4, 0, 0, 0,
                                   1, 0, 0, 0, 0, 0, 0, 0, 1, 0, 0, 0, 7, 0, 0, 0, 0, 0, 0, 0};

/* Whether a message is canonical: the answer, and the fields of its report. */
static void checks(const uint8_t *bytes, size_t length, uint32_t answer, uint64_t whole, uint64_t charge,
                   uint32_t segments) {
  uint8_t *from = block(bytes, length, 1);
  capvet_report r = unwritten();
  uint32_t got = capvet_check_canonical(from + 1, length, &LIMITS, &r);
  EXPECT(got == answer, "whether a message is canonical", got);
  EXPECT(r.length == whole && r.detail == 0, "the frame of a checked message", r.length);
  EXPECT(r.charge == charge && r.segments == segments, "the tree of a checked message", r.charge);
  free(from);
}

/* Why a message isn't canonical: the fields of its report that differ from those of the check. */
static void differs(const uint8_t *bytes, size_t length, uint64_t reason, uint32_t word, uint64_t pointers) {
  uint8_t *from = block(bytes, length, 1);
  capvet_report r = unwritten(), check = unwritten();
  EXPECT(capvet_first_difference(from + 1, length, &LIMITS, &r) == CAPVET_NOT_CANONICAL, "a first difference", reason);
  EXPECT(capvet_check_canonical(from + 1, length, &LIMITS, &check) == CAPVET_NOT_CANONICAL, "no canonical message", reason);
  EXPECT(r.detail == reason, "the reason of a first difference", r.detail);
  EXPECT(r.segment == 0 && r.word == word, "the place of a first difference", r.word);
  EXPECT(r.pointers == pointers, "the number of a first difference", r.pointers);
  check.detail = r.detail;
  check.segment = r.segment;
  check.word = r.word;
  check.pointers = r.pointers;
  EXPECT(memcmp(&r, &check, sizeof r) == 0, "the other fields of a first difference", reason);
  free(from);
}

static void checking(void) {
  checks(OWN_COPY, sizeof OWN_COPY, CAPVET_OK, 24, 1, 1);
  checks(ZERO_WORD, sizeof ZERO_WORD, CAPVET_NOT_CANONICAL, 24, 1, 1);
  checks(TWO, 56, CAPVET_NOT_CANONICAL, 56, 4, 2);
  differs(ZERO_WORD, sizeof ZERO_WORD, CAPVET_DIFFERENCE_DATA_ZERO, 0, 1);
  differs(TWO, 56, CAPVET_DIFFERENCE_SEGMENTS, 0, 0);
  differs(SHARED, sizeof SHARED, CAPVET_DIFFERENCE_PLACE, 2, 3);
}

/* A struct whose pointer leads back to itself: a message that is refused. */
static const uint8_t REFUSING[16] = {0, 0, 0, 0, 1, 0, 0, 0, 0xfc, 0xff, 0xff, 0xff, 0, 0, 1, 0};

/* The answer for a message, with `capacity` numbers for its marks. These numbers and one more are all ones before.
 * `kept` is how many of them still are, counted back from the last. */
static uint32_t marked(const uint8_t *bytes, size_t length, size_t capacity, size_t *needed, size_t *kept,
                       capvet_report *report) {
  uint8_t *from = block(bytes, length, 1);
  uint64_t *marks = malloc(8 * (capacity + 1));
  uint32_t answer;
  if (marks == NULL) exit(3);
  memset(marks, 0xff, 8 * (capacity + 1));
  *needed = 77;
  *report = unwritten();
  answer = capvet_vet_exclusive(from + 1, length, &LIMITS, marks, capacity, needed, report);
  EXPECT(length == 0 || memcmp(from + 1, bytes, length) == 0, "the bytes of a marked message stay", length);
  for (*kept = 0; *kept <= capacity && marks[capacity - *kept] == UINT64_MAX; ++*kept) continue;
  free(marks);
  free(from);
  return answer;
}

/* Up to three numbers for the marks, for a message of which no word is used twice, for one of which some are,
 * and for one that is refused. Each prefix. Then messages of 63 words, whose marks take one number, and of 64. */
static void marking(void) {
  static uint8_t wide[8 + 8 * 64];
  capvet_report r;
  size_t capacity, needed, kept, length, words;
  for (capacity = 0; capacity <= 3; capacity++) {
    uint32_t enough = capacity == 0 ? CAPVET_BUFFER_TOO_SMALL : CAPVET_OK;
    size_t used = capacity == 0 ? 0 : 1;
    EXPECT(marked(TWO, sizeof TWO, capacity, &needed, &kept, &r) == enough, "an exclusive message", capacity);
    EXPECT(needed == 1 && kept == capacity + 1 - used, "the numbers that it takes", needed);
    EXPECT(r.length == 56 && r.segments == 2 && r.detail == 0, "its frame", r.length);
    EXPECT(r.charge == 4 && r.pointers == 3 && r.depth == 1, "its tree", r.charge);
    EXPECT(r.capabilities == 1 && r.segment == 1 && r.word == 3, "its capability", r.word);
    enough = capacity == 0 ? CAPVET_BUFFER_TOO_SMALL : CAPVET_OVERLAP;
    EXPECT(marked(SHARED, sizeof SHARED, capacity, &needed, &kept, &r) == enough, "words that are used twice", capacity);
    EXPECT(needed == 1 && kept == capacity + 1 - used, "the numbers that their marks take", needed);
    EXPECT(r.length == 40 && r.segments == 1 && r.detail == 0, "the frame of an overlap", r.length);
    EXPECT(r.charge == (capacity == 0 ? 4u : 0u) && r.capabilities == 0, "the charge of an overlap", r.charge);
    EXPECT(r.depth == (capacity == 0 ? 2u : 0u), "the depth of an overlap", r.depth);
    EXPECT(r.pointers == 3 && r.segment == 0 && r.word == (capacity == 0 ? 0u : 2u), "the pointer that overlaps", r.word);
    EXPECT(marked(SHARED, 32, capacity, &needed, &kept, &r) == CAPVET_TRUNCATED, "marks of a cut message", capacity);
    EXPECT(needed == 0 && kept == capacity + 1 && r.input_required == 40, "no marks of a cut message", needed);
    enough = marked(REFUSING, sizeof REFUSING, capacity, &needed, &kept, &r);
    EXPECT(enough == CAPVET_DEPTH_LIMIT, "marks of a refused message", enough);
    EXPECT(needed == 0 && kept == capacity + 1 && r.length == 16, "no marks of a refused message", needed);
  }
  for (length = 0; length < 56; length++) {
    uint32_t answer = length == 0 ? CAPVET_NO_MESSAGE : CAPVET_TRUNCATED;
    EXPECT(marked(TWO, length, 2, &needed, &kept, &r) == answer, "marks of a front", length);
    EXPECT(needed == 0 && kept == 3 && r.length == 0, "no marks of a front", needed);
  }
  for (words = 63; words <= 64; words++) {
    wide[4] = (uint8_t)words;
    for (capacity = 0; capacity <= 3; capacity++) {
      size_t takes = words == 63 ? 1 : 2;
      uint32_t answer = capacity < takes ? CAPVET_BUFFER_TOO_SMALL : CAPVET_OK;
      EXPECT(marked(wide, 8 + 8 * words, capacity, &needed, &kept, &r) == answer, "a number that is full", capacity);
      EXPECT(needed == takes && kept == capacity + 1 - (capacity < takes ? 0 : takes), "the numbers that are reported", needed);
    }
  }
}

/* Where the segments of a message are, of which bytes follow the frame. */
static void places(void) {
  capvet_extent all[3] = {{7, 7}, {7, 7}, {7, 7}};
  capvet_report r;
  size_t required = 77, length;
  uint8_t *whole = block(TWO, sizeof TWO, 1);
  EXPECT(capvet_segments(whole + 1, sizeof TWO, &LIMITS, all, 1, &required, &r) == CAPVET_BUFFER_TOO_SMALL && required == 2 &&
             all[0].offset == 7 && r.segments == 2 && r.length == 56,
         "segments for one", required);
  EXPECT(capvet_segments(whole + 1, sizeof TWO, &LIMITS, all, 3, &required, &r) == CAPVET_OK && required == 2, "segments",
         required);
  EXPECT(all[0].offset == 16 && all[0].length == 8 && all[1].offset == 24 && all[1].length == 32 && all[2].offset == 7 &&
             all[2].length == 7 && r.segments == 2 && r.length == 56,
         "where they are", (size_t)all[1].offset);
  for (length = 1; length < 56; length++) {
    required = 77;
    EXPECT(capvet_segments(whole + 1, length, &LIMITS, all, 3, &required, &r) == CAPVET_TRUNCATED && required == 0,
           "segments of a front", length);
  }
  free(whole);
}

/* The words of one segment, without a table before them. */
static void words(void) {
  capvet_limits l = WHOLE;
  capvet_report r = unwritten();
  uint8_t *whole = block(COPIED, sizeof COPIED, 1);
  size_t required = 77;
  l.form = CAPVET_FORM_WORDS;
  EXPECT(capvet_vet(whole + 1, 32, &l, &r) == CAPVET_OK && r.length == 32 && r.segments == 1, "vet of words", r.length);
  EXPECT(capvet_check_canonical(whole + 1, 32, &l, &r) == CAPVET_OK && r.charge == 3, "check_canonical of words", r.charge);
  EXPECT(capvet_first_difference(whole + 1, 32, &l, &r) == CAPVET_OK && r.charge == 3, "first_difference of words", r.charge);
  EXPECT(capvet_check_canonical_words(whole + 1, 32, &WHOLE, &r) == CAPVET_OK && r.charge == 3 && r.length == 32,
         "check_canonical_words", r.charge);
  EXPECT(capvet_vet_exclusive(whole + 1, 32, &l, NULL, 0, &required, &r) == CAPVET_BUFFER_TOO_SMALL && required == 1,
         "vet_exclusive of words", required);
  EXPECT(capvet_pack_words(NULL, 0, NULL, 0, &required) == CAPVET_OK && required == 0, "an empty result", required);
  EXPECT(capvet_unpack_words(NULL, 0, NULL, 0, &required) == CAPVET_OK && required == 0, "no words of nothing", required);
  EXPECT(capvet_canonical(whole + 1, 32, &l, NULL, 0, &required, &r) == CAPVET_BUFFER_TOO_SMALL && required == 32,
         "canonical of words", required);
  EXPECT(capvet_vet(whole + 1, 31, &l, &r) == CAPVET_TRUNCATED && r.input_required == 32, "a part of a word", r.input_required);
  l.message_words = 3;
  EXPECT(capvet_vet(whole + 1, 25, &l, &r) == CAPVET_TOO_LARGE && r.detail == 4, "too many words", r.detail);
  EXPECT(capvet_vet(whole + 1, 23, &l, &r) == CAPVET_TRUNCATED && r.input_required == 24, "words up to the limit",
         r.input_required);
  EXPECT(capvet_vet(NULL, 0, &l, &r) == CAPVET_NO_MESSAGE, "no words", r.input_required);
  /* the words of a canonical form may be one more than its charge, whatever the limit of words is */
  l.charge = 3;
  EXPECT(capvet_check_canonical_words(whole + 1, 32, &l, &r) == CAPVET_OK, "words within the charge", r.detail);
  l.charge = 2;
  EXPECT(capvet_check_canonical_words(whole + 1, 32, &l, &r) == CAPVET_TOO_LARGE && r.detail == 4, "words past the charge",
         r.detail);
  l.charge = WHOLE.charge;
  EXPECT(capvet_frame(whole + 1, 32, &l, &r) == CAPVET_BAD_LIMITS, "a frame without a table", r.length);
  l.form = CAPVET_FORM_WORDS + 1;
  EXPECT(capvet_vet(whole + 1, 32, &l, &r) == CAPVET_BAD_LIMITS, "an unknown form", r.length);
  EXPECT(capvet_check_canonical_words(whole + 1, 32, &l, &r) == CAPVET_BAD_LIMITS, "an unknown form of words", r.length);
  free(whole);
}

/* Separate segments. */
static void separate(void) {
  capvet_segment parts[513] = {{NULL, 0}};
  capvet_report r = unwritten();
  uint8_t *first = block(TWO + 16, 8, 1), *second = block(TWO + 24, 32, 3);
  parts[0].bytes = first + 1;
  parts[0].length = 8;
  parts[1].bytes = second + 3;
  parts[1].length = 32;
  EXPECT(capvet_vet_segments(parts, 2, &WHOLE, &r) == CAPVET_OK && r.length == 40 && r.segments == 2, "two segments",
         r.length);
  EXPECT(r.charge == 4 && r.pointers == 3 && r.capabilities == 1 && r.segment == 1 && r.word == 3, "their tree", r.charge);
  EXPECT(r.words == 5 && capvet_reader_words(&r, 1) == 14 && capvet_reader_words(&r, 3) == 42 && capvet_reader_words(&r, 0) == 0,
         "words for a reader", r.words);
  EXPECT(capvet_reader_nesting(&r) == 2 * r.depth + 1, "levels for a reader", r.depth);
  r.words = 15;
  EXPECT(capvet_reader_words(&r, 2) == 30, "a reader of words that nothing leads to", r.words);
  r.charge = UINT64_MAX / 3 + 1;
  r.depth = UINT32_MAX / 2 + 1;
  EXPECT(capvet_reader_words(&r, 1) == UINT64_MAX && capvet_reader_words(&r, 0) == 0, "the most words for a reader", r.charge);
  EXPECT(capvet_reader_nesting(&r) == UINT32_MAX, "the most levels for a reader", r.depth);
  EXPECT(capvet_vet_segments(parts, 1, &WHOLE, &r) == CAPVET_SEGMENT_MISSING && r.length == 8, "one of them", r.length);
  EXPECT(capvet_vet_segments(parts, 512, &LIMITS, &r) == CAPVET_MANY_SEGMENTS && r.segments == 512, "512 segments",
         r.segments);
  EXPECT(capvet_vet_segments(parts, 513, &WHOLE, &r) == CAPVET_TOO_MANY_SEGMENTS && r.detail == 513, "513 segments",
         r.detail);
  EXPECT(capvet_vet_segments(parts + 2, 1, &WHOLE, &r) == CAPVET_NO_ROOT && r.segments == 1, "a segment at NULL",
         r.segments);
  parts[1].length = 31;
  EXPECT(capvet_vet_segments(parts, 2, &WHOLE, &r) == CAPVET_BAD_SEGMENT && r.detail == 1, "a part of a word", r.detail);
  parts[1].length = (size_t)INT64_MAX - 7;
  parts[1].length -= parts[1].length % 8;
  EXPECT(capvet_vet_segments(parts, 2, &WHOLE, &r) == CAPVET_TOO_LARGE && r.detail == parts[1].length / 8 + 1,
         "words past the limit", r.detail);
  r = unwritten();
  EXPECT(capvet_vet_segments(NULL, 0, &WHOLE, &r) == CAPVET_NO_MESSAGE && r.input_required == 0, "no segments", r.input_required);
  free(first);
  free(second);
}

/* Each buffer of each call may be NULL if it is empty. */
static void nulls(void) {
  capvet_report r;
  size_t required;
  r = unwritten();
  EXPECT(capvet_frame(NULL, 0, &LIMITS, &r) == CAPVET_NO_MESSAGE && r.input_required == 8, "frame of NULL", r.input_required);
  r = unwritten();
  EXPECT(capvet_vet(NULL, 0, &LIMITS, &r) == CAPVET_NO_MESSAGE && r.input_required == 8, "vet of NULL", r.input_required);
  r = unwritten();
  EXPECT(capvet_first_difference(NULL, 0, &LIMITS, &r) == CAPVET_NO_MESSAGE && r.input_required == 8, "first_difference of NULL",
         r.input_required);
  EXPECT(capvet_check_canonical(NULL, 0, &LIMITS, &r) == CAPVET_NO_MESSAGE && r.input_required == 8, "check_canonical of NULL",
         r.input_required);
  required = 77;
  EXPECT(capvet_segments(NULL, 0, &LIMITS, NULL, 0, &required, &r) == CAPVET_NO_MESSAGE && required == 0, "segments of NULL",
         required);
  required = 77;
  EXPECT(capvet_vet_exclusive(NULL, 0, &LIMITS, NULL, 0, &required, &r) == CAPVET_NO_MESSAGE && required == 0,
         "vet_exclusive of NULL", required);
  EXPECT(capvet_vet_exclusive(SHARED, sizeof SHARED, &LIMITS, NULL, 0, &required, &r) == CAPVET_BUFFER_TOO_SMALL &&
             required == 1,
         "marks in NULL", required);
  required = 77;
  EXPECT(capvet_canonical(NULL, 0, &LIMITS, NULL, 0, &required, &r) == CAPVET_NO_MESSAGE && required == 0,
         "canonical of NULL", required);
  EXPECT(capvet_canonical(LOOSE, sizeof LOOSE, &LIMITS, NULL, 0, &required, &r) == CAPVET_BUFFER_TOO_SMALL &&
             required == sizeof COPIED,
         "a copy in NULL", required);
  required = 77;
  EXPECT(capvet_pack_words(NULL, 0, NULL, 0, &required) == CAPVET_OK && required == 0, "pack of NULL", required);
  EXPECT(capvet_pack_words(COPIED, 8, NULL, 0, &required) == CAPVET_BUFFER_TOO_SMALL && required == 3, "packed in NULL",
         required);
  required = 77;
  EXPECT(capvet_unpack_words(NULL, 0, NULL, 0, &required) == CAPVET_OK && required == 0, "unpack of NULL", required);
  EXPECT(capvet_unpack_words(PACKED, sizeof PACKED, NULL, 0, &required) == CAPVET_BUFFER_TOO_SMALL && required == 48,
         "unpacked in NULL", required);
}

/* The same of the calls for a node and for packed messages. */
static void more_nulls(void) {
  static const capvet_step FIRST = {CAPVET_STEP_POINTER, 0};
  capvet_report r = unwritten();
  capvet_node n;
  capvet_unpacking state = {0, 0, 0, {0, 0}};
  size_t required = 77, consumed = 77;
  EXPECT(capvet_get(NULL, 0, &LIMITS, "/", 1, &n, &r) == CAPVET_NO_MESSAGE && r.input_required == 8 && n.kind == 0, "get of NULL",
         r.input_required);
  r = unwritten();
  EXPECT(capvet_get(TWO, sizeof TWO, &LIMITS, NULL, 0, &n, &r) == CAPVET_BAD_PATH && r.detail == 0 && r.length == 0,
         "a path at NULL", r.detail);
  EXPECT(capvet_get_range(NULL, 0, &LIMITS, &FIRST, 1, 0, NULL, 0, &required, &r) == CAPVET_NO_MESSAGE && required == 0 &&
             r.input_required == 8,
         "a range of NULL", required);
  required = 77;
  EXPECT(capvet_get_range(TWO, sizeof TWO, &LIMITS, &FIRST, 1, 0, NULL, 0, &required, &r) == CAPVET_OK && required == 0 &&
             r.length == 56,
         "a range in NULL", required);
  required = 77;
  EXPECT(capvet_get_range(TWO, sizeof TWO, &LIMITS, NULL, 0, 0, &n, 1, &required, &r) == CAPVET_BAD_PATH && required == 0 &&
             r.detail == 0,
         "steps at NULL", required);
  required = 77;
  EXPECT(capvet_pack_message(NULL, 0, &LIMITS, NULL, 0, &required, &r) == CAPVET_NO_MESSAGE && required == 0 &&
             r.input_required == 8,
         "pack_message of NULL", required);
  EXPECT(capvet_pack_message(TWO, sizeof TWO, &LIMITS, NULL, 0, &required, &r) == CAPVET_BUFFER_TOO_SMALL && required == 18 &&
             r.length == 56,
         "a message packed in NULL", required);
  required = 77;
  EXPECT(capvet_unpack_message(NULL, 0, &LIMITS, NULL, 0, &state, &consumed, &required, &r) == CAPVET_NO_MESSAGE &&
             consumed == 0 && required == 0 && r.input_required == 1,
         "unpack_message of NULL", required);
  EXPECT(capvet_unpack_message(PACKED, sizeof PACKED, &LIMITS, NULL, 0, &state, &consumed, &required, &r) ==
                 CAPVET_BUFFER_TOO_SMALL &&
             consumed == 0 && required == 8 && state.written == 0,
         "a message unpacked in NULL", required);
}

int main(void) {
  EXPECT(capvet_version() == 65536ul * CAPVET_VERSION_MAJOR + 256ul * CAPVET_VERSION_MINOR + CAPVET_VERSION_PATCH, "version",
         capvet_version());
  layout();
  fields();
  nodes();
  arriving();
  faults();
  refusals();
  unpacking();
  copying();
  checking();
  marking();
  places();
  words();
  separate();
  nulls();
  more_nulls();
  if (failures == 0) printf("calls: all as promised\n");
  return failures != 0;
}
