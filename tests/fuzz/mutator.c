/* Changes inputs by words, as messages have them: pointers of few sizes, words that are copied, put in or left out, and
 * other sizes of segments. The table mostly fits the words afterwards. libFuzzer's own changes, of bytes, take turns. */
#include <stdint.h>
#include <stdlib.h>
#include <string.h>

enum { ARGUMENTS = 16, WORD = 8, SEGMENTS_MOST = 8 };

size_t LLVMFuzzerMutate(uint8_t *data, size_t size, size_t max_size);
size_t LLVMFuzzerCustomMutator(uint8_t *data, size_t size, size_t max_size, unsigned int seed);

/* A frame that is being changed: its segments, and its words after the table. */
typedef struct {
  uint8_t *table, *words;
  uint32_t segments;
  size_t count, most;
} frame;

static uint64_t chance;

static uint32_t below(uint32_t most) {
  chance = chance * UINT64_C(6364136223846793005) + UINT64_C(1442695040888963407);
  return (uint32_t)((chance >> 33) % most);
}

static uint32_t number_at(const uint8_t *bytes) {
  uint32_t number;
  memcpy(&number, bytes, sizeof number);
  return number;
}

static void put(uint8_t *bytes, uint32_t number) { memcpy(bytes, &number, sizeof number); }

/* The frame that the bytes start with, if its table is whole. Its words are what comes after that. */
static int is_frame(frame *it, uint8_t *bytes, size_t size, size_t max_size) {
  if (size < WORD || number_at(bytes) >= SEGMENTS_MOST) return 0;
  it->table = bytes;
  it->segments = number_at(bytes) + 1;
  const size_t table = WORD * (it->segments / 2 + 1);
  if (size < table) return 0;
  it->words = bytes + table;
  it->count = (size - table) / WORD;
  it->most = (max_size - table) / WORD;
  return 1;
}

/* A pointer of small numbers, such as leads to a place nearby. */
static void make_pointer(uint8_t *word) {
  const uint32_t kind = below(4), ahead = (below(16) != 0 ? below(12) : below(1u << 29)) - (below(4) == 0 ? 6 : 0);
  if (kind == 2) {
    put(word, 2u | (below(3) == 0 ? 4u : 0u) | (below(8) == 0 ? below(64) : below(6)) << 3);
    put(word + 4, below(4));
  } else if (kind == 1) {
    put(word, 1 | ahead << 2);
    put(word + 4, below(8) | (below(8) == 0 ? below(1u << 29) : below(24)) << 3);
  } else {
    put(word, kind | (kind == 3 && below(4) != 0 ? 0 : ahead) << 2);
    put(word + 4, (below(8) == 0 ? below(1 << 16) : below(4)) | (below(8) == 0 ? below(1 << 16) : below(4)) << 16);
  }
}

static void change_word(frame *it) {
  uint8_t *word = it->words + WORD * below((uint32_t)it->count);
  const uint8_t *another = it->words + WORD * below((uint32_t)it->count);
  switch (below(7)) {
    case 0: word[below(WORD)] ^= (uint8_t)(1u << below(8)); break;
    case 1: memcpy(word, another, WORD); break;
    case 2: memset(word, 0, WORD); break;
    case 3: put(word, number_at(word) + (below(2) != 0 ? 4 : -4u)); break;
    case 4: put(word + 4, number_at(word + 4) + (below(2) != 0 ? 1u : -1u) * (below(2) != 0 ? 1u : 8u)); break;
    default: make_pointer(word);
  }
}

/* Puts some words in at a place, or takes some away. */
static void change_count(frame *it) {
  const size_t at = below((uint32_t)it->count + 1), some = 1 + below(4);
  uint8_t *place = it->words + WORD * at;
  if (below(2) != 0 && it->count + some <= it->most) {
    memmove(place + WORD * some, place, WORD * (it->count - at));
    it->count += some;
    for (size_t more = 0; more < some; more++) make_pointer(place + WORD * more);
  } else if (at + some <= it->count) {
    memmove(place, place + WORD * some, WORD * (it->count - at - some));
    it->count -= some;
  }
}

/* Gives the segments other sizes, or makes other numbers of them. */
static void change_segments(frame *it) {
  const uint32_t segments = 1 + below(4);
  const size_t table = WORD * (segments / 2 + 1);
  uint8_t *words = it->table + table;
  const size_t capacity = it->most * WORD + (size_t)(it->words - it->table);
  if (table + WORD * it->count > capacity) return;
  memmove(words, it->words, WORD * it->count);
  memset(it->table, 0, table);
  put(it->table, segments - 1);
  uint32_t left = (uint32_t)it->count;
  for (uint32_t at = 0; at < segments; at++) {
    const uint32_t size = below(left + 1);
    put(it->table + 4 + 4 * at, size);
    left -= size;
  }
  it->segments = segments;
  it->words = words;
  it->most = (capacity - table) / WORD;
}

/* Makes the last segment take what the others leave. */
static void fit_table(const frame *it) {
  uint32_t left = (uint32_t)it->count;
  for (uint32_t at = 0; at < it->segments; at++) {
    uint8_t *size = it->table + 4 + 4 * at;
    if (at + 1 == it->segments || number_at(size) > left) put(size, left);
    left -= number_at(size);
  }
}

static size_t change_frame(frame *it, size_t size) {
  for (uint32_t times = 1 + below(4); times > 0; times--) {
    const uint32_t kind = below(10);
    if (kind == 0) change_segments(it);
    else if (kind <= 2) change_count(it);
    else if (it->count > 0) change_word(it);
  }
  if (below(8) == 0) return size;
  fit_table(it);
  return (size_t)(it->words - it->table) + WORD * it->count;
}

size_t LLVMFuzzerCustomMutator(uint8_t *data, size_t size, size_t max_size, unsigned int seed) {
  frame it;
  chance = seed;
  const uint32_t kind = below(8);
  if (size <= ARGUMENTS || max_size < ARGUMENTS + 64 || kind < 2) return LLVMFuzzerMutate(data, size, max_size);
  if (kind == 2) {
    const size_t left = LLVMFuzzerMutate(data, ARGUMENTS, ARGUMENTS);
    memset(data + left, 0, ARGUMENTS - left);
    return size;
  }
  if (!is_frame(&it, data + ARGUMENTS, size - ARGUMENTS, max_size - ARGUMENTS)) {
    return LLVMFuzzerMutate(data, size, max_size);
  }
  return ARGUMENTS + change_frame(&it, size - ARGUMENTS);
}
