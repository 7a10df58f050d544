/* stack MESSAGES: how much of the stack each call of capvet.h takes at most, over the messages of a file.
 * stack --thread BYTES MESSAGES: vets the first message by capvet_vet_exclusive on a thread with a stack of BYTES bytes,
 * below which no memory can be written, and writes the name of the answer.
 *
 * A message of the file comes after its flags, the length of a path, the length of the message, each in 4 bytes, and the
 * path. Each call runs on a stack of its own that is painted before. A line has the name of a call and the distance in bytes
 * between the frame that makes the call and the lowest byte that is no longer painted. */
#define _GNU_SOURCE
#include <capvet.h>

#include <pthread.h>
#include <stdio.h>
#include <stdlib.h>
#include <string.h>
#include <sys/mman.h>
#include <ucontext.h>

enum { STACK = 1 << 16, PAINT = 0xa5, OUT = 1 << 20, NODES = 8 };

enum {
  FRAME, EXTENTS, VET, EXCLUSIVE, SEGMENTS, CANONICAL, CHECK, CHECK_WORDS, DIFFERENCE, GET, RANGE, POINTER_PATH, EARLIER, EXPLAIN,
  OVERLAP, PACK, UNPACK, PACK_MESSAGE, UNPACK_MESSAGE, READER_WORDS, READER_NESTING, BOUNDS, OTHER, CALLS
};
static const char *const NAMES[CALLS] = {
    "capvet_frame", "capvet_segments", "capvet_vet", "capvet_vet_exclusive", "capvet_vet_segments", "capvet_canonical",
    "capvet_check_canonical", "capvet_check_canonical_words", "capvet_first_difference", "capvet_get", "capvet_get_range",
    "capvet_pointer_path", "capvet_earlier_pointer", "capvet_explain", "capvet_explain_overlap", "capvet_pack_words", "capvet_unpack_words",
    "capvet_pack_message", "capvet_unpack_message", "capvet_reader_words", "capvet_reader_nesting", "capvet_..._bound", "capvet_version"};

/* The input of the calls, and what they fill in. */
static uint8_t bytes[OUT], out[OUT], packed[OUT];
static char path[1 << 12];
static size_t length, path_length, packed_length;
static uint64_t marks[OUT / 64];
static capvet_limits limits;
static capvet_segment segments[CAPVET_MAX_SEGMENTS + 1];
static capvet_extent extents[CAPVET_MAX_SEGMENTS];
static size_t segment_count, step_count;
static capvet_step steps[1 << 10];
static capvet_node nodes[NODES];
static capvet_step found_steps[OUT / sizeof(capvet_step)];
static char text[OUT / 64];
/* That of the pointer that capvet_vet names, or of the last one. */
static uint64_t number;
static capvet_report report, place;
static capvet_unpacking state;
static size_t required, other;
/* The size of output buffers: all of them, or nothing. */
static size_t capacity;
static uint32_t answer;

static int called;
static uintptr_t entered;
static ucontext_t here, there;
static uint8_t stack[STACK] __attribute__((aligned(4096)));

static __attribute__((noinline)) void make_call(void) {
  entered = (uintptr_t)__builtin_frame_address(0);
  switch (called) {
    case FRAME: answer = capvet_frame(bytes, length, &limits, &report); break;
    case EXTENTS: answer = capvet_segments(bytes, length, &limits, extents, CAPVET_MAX_SEGMENTS, &required, &report); break;
    case VET: answer = capvet_vet(bytes, length, &limits, &report); break;
    case EXCLUSIVE:
      answer = capvet_vet_exclusive(bytes, length, &limits, marks, capacity / 64, &required, &report);
      break;
    case SEGMENTS: answer = capvet_vet_segments(segments, segment_count, &limits, &report); break;
    case CANONICAL: answer = capvet_canonical(bytes, length, &limits, out, capacity, &required, &report); break;
    case CHECK: answer = capvet_check_canonical(bytes, length, &limits, &report); break;
    case CHECK_WORDS: answer = capvet_check_canonical_words(bytes, length, &limits, &report); break;
    case DIFFERENCE: answer = capvet_first_difference(bytes, length, &limits, &report); break;
    case GET: answer = capvet_get(bytes, length, &limits, path, path_length, nodes, &report); break;
    case RANGE:
      answer = capvet_get_range(bytes, length, &limits, steps, step_count, step_count ? step_count - 1 : 0, nodes, NODES,
                                &required, &report);
      break;
    case POINTER_PATH:
      answer = capvet_pointer_path(bytes, length, &limits, number, found_steps, capacity / sizeof *found_steps, &required, &report);
      break;
    case EARLIER: answer = capvet_earlier_pointer(bytes, length, &limits, number, &report); break;
    case EXPLAIN: answer = capvet_explain(bytes, length, &limits, text, capacity / 64, &required, &report); break;
    case OVERLAP:
      answer = capvet_explain_overlap(bytes, length, &limits, place.segment, place.word, number, text, capacity / 64, &required,
                                      &report);
      break;
    case PACK: answer = capvet_pack_words(bytes, length, packed, capacity, &required); break;
    case UNPACK: answer = capvet_unpack_words(packed, packed_length, out, capacity, &required); break;
    case PACK_MESSAGE: answer = capvet_pack_message(bytes, length, &limits, packed, capacity, &required, &report); break;
    case UNPACK_MESSAGE:
      answer = capvet_unpack_message(packed, packed_length, &limits, out, capacity, &state, &other, &required, &report);
      break;
    case READER_WORDS: required = (size_t)capvet_reader_words(&report, 2); break;
    case READER_NESTING: required = capvet_reader_nesting(&report); break;
    case BOUNDS:
      required = capvet_marks_bound(length) + capvet_canonical_bound(length) + capvet_pack_bound(length) +
                 capvet_frame_bound(length);
      break;
    default: answer = capvet_version(); capvet_abi_2(); capvet_limits_default(&limits);
  }
}

/* How far below make_call's frame a call has written. */
static size_t taken(int call, size_t size) {
  size_t at = 0;
  capacity = size;
  memset(&state, 0, sizeof state);
  memset(stack, PAINT, STACK);
  called = call;
  if (getcontext(&there) != 0) exit(3);
  there.uc_stack.ss_sp = stack;
  there.uc_stack.ss_size = STACK;
  there.uc_link = &here;
  makecontext(&there, make_call, 0);
  if (swapcontext(&here, &there) != 0) exit(3);
  while (stack[at] == PAINT) at++;
  if (at == 0) exit(4);
  return entered - (uintptr_t)(stack + at);
}

static void read_whole(FILE *file, void *to, size_t size) {
  if (size != 0 && fread(to, 1, size, file) != size) exit(3);
}

/* The segments of the frame, or the input as one of them, and the steps of the path. */
static void find_parts(void) {
  const capvet_limits most = {CAPVET_MAX_MESSAGE_WORDS, 0, 0, 0, 0, 0, {0, 0, 0, 0, 0, 0}};
  size_t at;
  segment_count = step_count = 0;
  if (capvet_segments(bytes, length, &most, extents, CAPVET_MAX_SEGMENTS, &segment_count, &report) != CAPVET_OK) segment_count = 0;
  for (at = 0; at < segment_count; at++) {
    segments[at].bytes = bytes + extents[at].offset;
    segments[at].length = (size_t)extents[at].length;
  }
  if (segment_count == 0) {
    segments[0].bytes = bytes;
    segments[segment_count++].length = length;
  }
  for (at = 0; at < path_length; at++)
    if (path[at] == 'p' || path[at] == 'i') {
      steps[step_count].kind = path[at] == 'p' ? CAPVET_STEP_POINTER : CAPVET_STEP_ELEMENT;
      steps[step_count++].number = (uint32_t)strtoul(path + at + 1, NULL, 10);
    }
}

static int take_message(FILE *file) {
  uint32_t head[3];
  if (fread(head, 1, sizeof head, file) != sizeof head) return 0;
  path_length = head[1];
  length = head[2];
  if (path_length >= sizeof path || length > OUT / 2) exit(3);
  read_whole(file, path, path_length);
  path[path_length] = 0;
  read_whole(file, bytes, length);
  capvet_limits_default(&limits);
  limits.depth = CAPVET_MAX_DEPTH;
  /* (as tests/shared/model.py has them) */
  limits.form = (head[0] & 1) | (head[0] >> 2 & 2);
  limits.flags = head[0] >> 1 & 3;
  find_parts();
  answer = capvet_vet(bytes, length, &limits, &report);
  number = report.pointers;
  place = report;
  return 1;
}

static void *vet_exclusive(void *unused) {
  answer = capvet_vet_exclusive(bytes, length, &limits, marks, sizeof marks / sizeof *marks, &required, &report);
  return unused;
}

/* Vets the message that was read on a thread whose stack has this size, with a page below it that faults. */
static int on_thread(size_t size) {
  pthread_attr_t attributes;
  pthread_t thread;
  uint8_t *memory = mmap(NULL, 4096 + size, PROT_NONE, MAP_PRIVATE | MAP_ANONYMOUS, -1, 0);
  if (memory == MAP_FAILED || mprotect(memory + 4096, size, PROT_READ | PROT_WRITE) != 0) return 3;
  if (pthread_attr_init(&attributes) != 0 || pthread_attr_setstack(&attributes, memory + 4096, size) != 0 ||
      pthread_create(&thread, &attributes, vet_exclusive, NULL) != 0 || pthread_join(thread, NULL) != 0)
    return 3;
  puts(capvet_answer_name(answer));
  return 0;
}

int main(int count, char **words) {
  FILE *file = fopen(words[count - 1], "rb");
  size_t most[CALLS] = {0}, size;
  int call;
  if (file == NULL) return 2;
  if (count == 4) return take_message(file) ? on_thread(strtoul(words[2], NULL, 10)) : 2;
  while (take_message(file)) {
    for (call = 0; call < CALLS; call++) {
      if (call == UNPACK) {
        const uint32_t flags = limits.flags;
        limits.flags = 0;
        if (capvet_pack_words(bytes, length, packed, OUT, &packed_length) != CAPVET_OK) packed_length = length < 64 ? length : 64;
        limits.flags = flags;
      }
      for (size = OUT; ; size = 0) {
        const size_t bytes_taken = taken(call, size);
        if (bytes_taken > most[call]) most[call] = bytes_taken;
        if (size == 0) break;
      }
    }
  }
  fclose(file);
  for (call = 0; call < CALLS; call++) printf("%s %zu\n", NAMES[call], most[call]);
  return 0;
}
