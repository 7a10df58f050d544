/* Fuzz target: the C of packaging/host.c beside libc. Blocks keep their bytes, allocations that fail leave them whole, and
 * arguments are those that were passed, whatever the size of the buffer. */
#include "fuzz.h"

static bool fails;

static void *fuzz_malloc(size_t size) { return fails ? NULL : malloc(size); }

static void *fuzz_realloc(void *block, size_t size) { return fails ? NULL : realloc(block, size); }

#define malloc fuzz_malloc
#define realloc fuzz_realloc
#include "../../packaging/host.c"
#undef malloc
#undef realloc

enum { BLOCKS = 4, WORDS_MOST = 16, SIZE_MOST = 300 };

/* A block, and what each of its bytes has to be. */
typedef struct {
  uint8_t *bytes;
  size_t size;
  uint8_t fill;
} block;

static void check_block(const block *it, size_t size) {
  for (size_t at = 0; at < size; at++) RULE(it->bytes[at] == it->fill);
}

static void give(block *it, Tried tried, size_t size, size_t kept, uint8_t fill) {
  RULE(tried.ok == !fails && tried.p != NULL);
  if (!tried.ok) {
    RULE(*tried.p == 0);
    check_block(it, it->size);
    return;
  }
  RULE((uintptr_t)tried.p % 16 == 0);
  it->bytes = tried.p;
  check_block(it, kept);
  memset(it->bytes, fill, size);
  it->size = size;
  it->fill = fill;
}

/* Blocks are allocated, get other sizes, and are freed. */
static void check_blocks(fuzz_input *in) {
  block blocks[BLOCKS] = {{NULL, 0, 0}};
  for (size_t times = 2 + choose(in, 30); times > 0; times--) {
    block *it = &blocks[choose(in, BLOCKS)];
    const size_t size = choose(in, choose(in, 2) != 0 ? 3 : SIZE_MOST), alignment = (size_t)1 << choose(in, 5);
    const uint8_t fill = (uint8_t)choose(in, 256);
    fails = choose(in, 5) == 0;
    if (it->bytes == NULL) {
      give(it, rattle_alloc(size, alignment), size, 0, fill);
    } else if (choose(in, 3) != 0) {
      const size_t kept = choose(in, (size < it->size ? size : it->size) + 1);
      give(it, rattle_realloc(it->bytes, kept, size, alignment), size, kept, fill);
    } else {
      check_block(it, it->size);
      rattle_dealloc(it->bytes);
      *it = (block){NULL, 0, 0};
    }
  }
  fails = false;
  for (size_t at = 0; at < BLOCKS; at++) rattle_dealloc(blocks[at].bytes);
}

/* The arguments are the input's bytes, cut at each zero. */
static void check_arguments(fuzz_input *in, const fuzz_arena *arena) {
  char *texts[WORDS_MOST + 1] = {NULL}, *whole = malloc(in->length + 1), *at = whole;
  int count = 0;
  memcpy(whole, in->bytes, in->length);
  whole[in->length] = 0;
  for (; count < WORDS_MOST && at <= whole + in->length; at += strlen(at) + 1) texts[count++] = at;
  keep(count, texts);
  RULE(rattle_arg_count() == (size_t)count);
  for (size_t index = 0; index < (size_t)count + 2; index++) {
    const size_t length = index < (size_t)count ? strlen(texts[index]) : 0, capacity = choose(in, length + 4);
    uint8_t *buffer = fuzz_place(arena, capacity, in->slack);
    const intptr_t got = rattle_arg(index, buffer, capacity);
    const bool fits = length <= capacity;
    RULE(got == (index >= (size_t)count ? -1 : fits ? (intptr_t)length : -2));
    const size_t written = fits ? length : capacity;
    RULE(written == 0 || memcmp(buffer, texts[index], written) == 0);
    RULE(is_untouched_after(buffer, written, capacity, in->slack));
    reached_number(0, (uint64_t)(got + 3));
  }
  texts[0] = NULL;
  RULE(rattle_arg(0, NULL, 0) == -1 && rattle_arg(SIZE_MAX, NULL, 0) == -1);
  free(whole);
}

int LLVMFuzzerTestOneInput(const uint8_t *data, size_t size);
int LLVMFuzzerTestOneInput(const uint8_t *data, size_t size) {
  static fuzz_arena arena;
  fuzz_input in;
  if (!fuzz_read(&in, data, size) || in.length > 1 << 12) return 0;
  if (arena.begin == NULL) arena = fuzz_arena_of(1 << 16);
  check_blocks(&in);
  check_arguments(&in, &arena);
  const int error = (int)choose(&in, UINT32_MAX);
  rattle_set_errno(error);
  RULE(rattle_errno() == error && errno == error);
  errno = 0;
  return 0;
}
