/* The calls of capvet.h in the form that cgo passes best. Structs are passed and returned by value, so Go
 * allocates none of them. */
#ifndef CAPVET_GO_CALLS_H
#define CAPVET_GO_CALLS_H

#define CAPVET_LINK_CHECK
#include <capvet.h>

/* What a call answers. */
typedef struct capvet_go_result {
  capvet_report report;
  uint64_t required;
  capvet_answer answer;
} capvet_go_result;

static inline capvet_go_result capvet_go_vet(const uint8_t *bytes, size_t length, capvet_limits limits) {
  capvet_go_result result = {0};
  result.answer = capvet_vet(bytes, length, &limits, &result.report);
  return result;
}

/* What a call for all messages of a buffer answers: how many are accepted, the bytes of their frames, and the result of
 * the next one. */
typedef struct capvet_go_frames {
  capvet_go_result result;
  size_t count;
  size_t length;
} capvet_go_frames;

static inline capvet_go_frames capvet_go_vet_all(const uint8_t *bytes, size_t length, capvet_limits limits) {
  capvet_go_frames frames = {0};
  for (;;) {
    const uint8_t *rest = length == 0 ? bytes : bytes + frames.length;
    frames.result.answer = capvet_vet(rest, length - frames.length, &limits, &frames.result.report);
    if (frames.result.answer != CAPVET_OK) {
      return frames;
    }
    frames.count++;
    frames.length += frames.result.report.length;
  }
}

static inline capvet_go_result capvet_go_vet_exclusive(const uint8_t *bytes, size_t length, capvet_limits limits,
                                                       uint64_t *marks, size_t marks_count) {
  capvet_go_result result = {0};
  result.answer =
      capvet_vet_exclusive(bytes, length, &limits, marks, marks_count, &result.required, &result.report);
  return result;
}

static inline capvet_go_result capvet_go_frame(const uint8_t *bytes, size_t length, capvet_limits limits) {
  capvet_go_result result = {0};
  result.answer = capvet_frame(bytes, length, &limits, &result.report);
  return result;
}

static inline capvet_go_result capvet_go_check_canonical(const uint8_t *bytes, size_t length, capvet_limits limits) {
  capvet_go_result result = {0};
  result.answer = capvet_check_canonical(bytes, length, &limits, &result.report);
  return result;
}

static inline capvet_go_result capvet_go_first_difference(const uint8_t *bytes, size_t length, capvet_limits limits) {
  capvet_go_result result = {0};
  result.answer = capvet_first_difference(bytes, length, &limits, &result.report);
  return result;
}

static inline capvet_go_result capvet_go_check_words(const uint8_t *words, size_t length, capvet_limits limits) {
  capvet_go_result result = {0};
  result.answer = capvet_check_canonical_words(words, length, &limits, &result.report);
  return result;
}

static inline capvet_go_result capvet_go_canonical(const uint8_t *bytes, size_t length, capvet_limits limits,
                                                   uint8_t *out, size_t out_size) {
  capvet_go_result result = {0};
  result.answer = capvet_canonical(bytes, length, &limits, out, out_size, &result.required, &result.report);
  return result;
}

static inline capvet_go_result capvet_go_pack(const uint8_t *bytes, size_t length, uint8_t *out, size_t out_size) {
  capvet_go_result result = {0};
  result.answer = capvet_pack_words(bytes, length, out, out_size, &result.required);
  return result;
}

static inline capvet_go_result capvet_go_unpack(const uint8_t *bytes, size_t length, uint8_t *out, size_t out_size) {
  capvet_go_result result = {0};
  result.answer = capvet_unpack_words(bytes, length, out, out_size, &result.required);
  return result;
}

static inline capvet_go_result capvet_go_pack_message(const uint8_t *bytes, size_t length, capvet_limits limits,
                                                      uint8_t *out, size_t out_size) {
  capvet_go_result result = {0};
  result.answer = capvet_pack_message(bytes, length, &limits, out, out_size, &result.required, &result.report);
  return result;
}

static inline capvet_report capvet_go_report(uint64_t charge, uint64_t words, uint32_t depth) {
  capvet_report report = {0};
  report.charge = charge;
  report.words = words;
  report.depth = depth;
  return report;
}

static inline uint64_t capvet_go_reader_words(uint64_t charge, uint64_t words, uint32_t readings) {
  const capvet_report report = capvet_go_report(charge, words, 0);
  return capvet_reader_words(&report, readings);
}

static inline uint32_t capvet_go_reader_nesting(uint32_t depth) {
  const capvet_report report = capvet_go_report(0, 0, depth);
  return capvet_reader_nesting(&report);
}

static inline capvet_go_result capvet_go_segments(const uint8_t *bytes, size_t length, capvet_limits limits,
                                                  capvet_extent *extents, size_t count) {
  capvet_go_result result = {0};
  result.answer = capvet_segments(bytes, length, &limits, extents, count, &result.required, &result.report);
  return result;
}

/* What a call for a node answers. */
typedef struct capvet_go_found {
  capvet_go_result result;
  capvet_node node;
} capvet_go_found;

static inline capvet_go_found capvet_go_get(const uint8_t *bytes, size_t length, capvet_limits limits,
                                            const char *path, size_t path_length) {
  capvet_go_found found = {0};
  found.result.answer =
      capvet_get(bytes, length, &limits, path, path_length, &found.node, &found.result.report);
  return found;
}

/* What a call for the nodes of a range answers. */
typedef struct capvet_go_counted {
  capvet_go_result result;
  size_t found;
} capvet_go_counted;

static inline capvet_go_counted capvet_go_get_range(const uint8_t *bytes, size_t length, capvet_limits limits,
                                                    const capvet_step *steps, size_t step_count, size_t varying,
                                                    capvet_node *nodes, size_t node_count) {
  capvet_go_counted counted = {0};
  counted.result.answer = capvet_get_range(bytes, length, &limits, steps, step_count, varying, nodes, node_count,
                                           &counted.found, &counted.result.report);
  return counted;
}

static inline capvet_go_result capvet_go_pointer_path(const uint8_t *bytes, size_t length, capvet_limits limits,
                                                      uint64_t number, capvet_step *steps, size_t step_count) {
  capvet_go_result result = {0};
  result.answer = capvet_pointer_path(bytes, length, &limits, number, steps, step_count, &result.required, &result.report);
  return result;
}

static inline capvet_go_result capvet_go_earlier_pointer(const uint8_t *bytes, size_t length, capvet_limits limits,
                                                         uint64_t number) {
  capvet_go_result result = {0};
  result.answer = capvet_earlier_pointer(bytes, length, &limits, number, &result.report);
  return result;
}

static inline capvet_go_result capvet_go_explain(const uint8_t *bytes, size_t length, capvet_limits limits, char *text,
                                                 size_t text_size) {
  capvet_go_result result = {0};
  result.answer = capvet_explain(bytes, length, &limits, text, text_size, &result.required, &result.report);
  return result;
}

static inline capvet_go_result capvet_go_explain_overlap(const uint8_t *bytes, size_t length, capvet_limits limits,
                                                         uint32_t segment, uint32_t word, uint64_t number, char *text,
                                                         size_t text_size) {
  capvet_go_result result = {0};
  result.answer = capvet_explain_overlap(bytes, length, &limits, segment, word, number, text, text_size, &result.required,
                                         &result.report);
  return result;
}

/* What a call for a message of a packed stream answers, and the state after it. */
typedef struct capvet_go_unpacked {
  capvet_go_result result;
  capvet_unpacking state;
  size_t consumed;
} capvet_go_unpacked;

static inline capvet_go_unpacked capvet_go_unpack_message(const uint8_t *bytes, size_t length, capvet_limits limits,
                                                          uint8_t *out, size_t out_size, capvet_unpacking state) {
  capvet_go_unpacked unpacked = {0};
  unpacked.state = state;
  unpacked.result.answer =
      capvet_unpack_message(bytes, length, &limits, out, out_size, &unpacked.state, &unpacked.consumed,
                            &unpacked.result.required, &unpacked.result.report);
  return unpacked;
}

#endif
