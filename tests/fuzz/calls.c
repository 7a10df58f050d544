/* Fuzz target: each call of the header, with any bytes, limits, flags, sizes of buffers and addresses. The rules hold for all
 * inputs; they are those of capvet.h.
 *
 *   - A report's numbers are in their ranges, and those that don't apply are 0.
 *   - Each call that starts with a frame refuses the same frames as capvet_frame.
 *   - What is accepted is accepted by wider limits with the same report, and by just the limits that it needs. One less
 *     refuses it.
 *   - A message in separate segments has the same answer as its frame.
 *   - The canonical form of a canonical form is the same, and capvet_check_canonical accepts no other bytes.
 *   - capvet_check_canonical_words accepts a canonical form with the limits of its message.
 *   - capvet_first_difference answers and reports what capvet_check_canonical does. A message that isn't canonical has a first
 *     difference: its reason has a name, and its pointer has a path and this place.
 *   - capvet_get_range gives the nodes of capvet_get, and these are inside the frame.
 *   - Each refusal of capvet_vet is explained, with the path of capvet_pointer_path, and nothing else is.
 *   - Unpacking gives what was packed, however the packed bytes are cut.
 *   - Nothing is written after the end of an output, or anywhere if the call fails. */
#include "fuzz.h"

#define HASH UINT64_C(0xcbf29ce484222325)

enum { OUT_MOST = 1 << 20, STEPS_MOST = 6, NODES_MOST = 8, FRAMES_MOST = 300 };
enum { FRAME, EXTENTS, VET, SEGMENTS, EXCLUSIVE, CANONICAL, IS_CANONICAL, GET, RANGE, PACK, UNPACK, PACK_MESSAGE, PIECES, EXPLAIN };

static fuzz_arena input, output, other, numbers;

static bool is_good(const capvet_limits *limits, bool may_lack_table) {
  const bool lacks_table = limits->form == CAPVET_FORM_WORDS;
  return limits->message_words <= CAPVET_MAX_MESSAGE_WORDS && limits->charge <= CAPVET_MAX_CHARGE &&
         limits->depth <= CAPVET_MAX_DEPTH && limits->flags <= 3 && limits->form <= 2 && (limits->reserved[0] | limits->reserved[1] | limits->reserved[2] | limits->reserved[3]) == 0 &&
         !(lacks_table && !may_lack_table);
}

static bool is_equal(const capvet_report *one, const capvet_report *two) { return memcmp(one, two, sizeof *one) == 0; }

static bool has_place(capvet_answer answer) {
  return (answer >= CAPVET_OVERLAP && answer <= CAPVET_CAPABILITY_PAD && answer != CAPVET_NO_NODE) || answer >= CAPVET_NO_ROOT;
}

static bool has_tree(capvet_answer answer) {
  return answer == CAPVET_OK || answer == CAPVET_NOT_CANONICAL || answer == CAPVET_HAS_CAPABILITY ||
         answer == CAPVET_BUFFER_TOO_SMALL;
}

static capvet_extent extents[CAPVET_MAX_SEGMENTS];

/* Where the segments of the input are, and how many there are. */
static size_t read_extents(const fuzz_input *in) {
  const capvet_limits limits = {CAPVET_MAX_MESSAGE_WORDS, 0, 0, 0, 0, 0, {0, 0, 0, 0, 0, 0}};
  capvet_report report;
  size_t count;
  RULE(capvet_segments(in->bytes, in->length, &limits, extents, CAPVET_MAX_SEGMENTS, &count, &report) == CAPVET_OK);
  return count;
}

/* The words of a segment of the input. */
static uint64_t words_of(const fuzz_input *in, uint32_t segment) {
  if (in->limits.form == CAPVET_FORM_WORDS) return in->length / 8;
  read_extents(in);
  return extents[segment].length / 8;
}

/* The words of all segments of the input, of which a report is. */
static uint64_t words_of_all(const fuzz_input *in, const capvet_report *report) {
  const bool lacks_table = in->limits.form == CAPVET_FORM_WORDS;
  return report->length / 8 - (lacks_table ? 0 : report->segments / 2 + 1);
}

static void check_place(const fuzz_input *in, capvet_answer answer, const capvet_report *report) {
  RULE(report->segment < report->segments);
  RULE(report->word < words_of(in, report->segment) || (answer == CAPVET_NO_ROOT && report->word == 0));
}

static void check_tree(const fuzz_input *in, const capvet_report *report) {
  RULE(report->charge <= in->limits.charge && report->depth <= in->limits.depth);
  RULE((in->limits.flags & CAPVET_ALLOW_AMPLIFIED) != 0 || report->charge <= words_of_all(in, report) + CAPVET_SLACK);
  RULE(report->pointers >= 1 && report->capabilities <= report->pointers);
  if (report->capabilities != 0) check_place(in, CAPVET_OK, report);
}

/* The ranges of a report of any call, and the fields that are 0. */
static void check_report(const fuzz_input *in, unsigned call, capvet_answer answer, const capvet_report *report) {
  reached_answer(call, answer);
  RULE(strcmp(capvet_answer_name(answer), "Unknown") != 0);
  RULE((report->reserved[0] | report->reserved[1] | report->reserved[2] | report->reserved[3]) == 0);
  RULE(report->words == (report->length == 0 ? 0 : words_of_all(in, report)));
  RULE((report->input_required != 0) == (answer == CAPVET_NO_MESSAGE || answer == CAPVET_TRUNCATED));
  const bool counts = answer == CAPVET_TOO_MANY_SEGMENTS || answer == CAPVET_TOO_LARGE || answer == CAPVET_TRAILING;
  if (answer == CAPVET_WORD_LIMIT) RULE(report->detail <= in->limits.charge);
  else RULE(counts ? report->detail != 0 : report->detail == 0 || answer == CAPVET_BAD_PATH);
  const bool is_framed = answer == CAPVET_OK || answer == CAPVET_TRAILING || answer == CAPVET_BUFFER_TOO_SMALL || answer >= 16;
  RULE((report->length != 0) == is_framed && (report->segments != 0) == is_framed);
  RULE(report->length <= in->length && report->segments <= CAPVET_MAX_SEGMENTS);
  if (has_place(answer)) {
    check_place(in, answer, report);
    RULE((report->pointers != 0) == (answer != CAPVET_NO_ROOT));
  }
  if (!has_tree(answer)) RULE((report->charge | report->capabilities | report->depth) == 0);
  reached_number(0, report->pointers);
  reached_number(1, report->charge);
  reached_number(2, report->depth);
  reached_number(3, report->segments);
  reached_number(4, report->capabilities);
}

/* The frame, and that a shorter input is cut. */
static capvet_answer check_frame(fuzz_input *in, capvet_report *report) {
  const capvet_answer answer = capvet_frame(in->bytes, in->length, &in->limits, report);
  check_report(in, FRAME, answer, report);
  RULE((answer == CAPVET_BAD_LIMITS) == !is_good(&in->limits, false));
  RULE((answer == CAPVET_NO_MESSAGE) == (in->length == 0 && answer != CAPVET_BAD_LIMITS));
  if (answer == CAPVET_TRUNCATED) {
    RULE(report->input_required > in->length);
    RULE(report->input_required <= CAPVET_FRAME_BOUND(in->limits.message_words));
  }
  if (answer != CAPVET_OK) return answer;
  capvet_report cut;
  RULE(capvet_frame(in->bytes, report->length, &in->limits, &cut) == CAPVET_OK && is_equal(report, &cut));
  const size_t shorter = 1 + choose(in, report->length - 1);
  RULE(capvet_frame(in->bytes, shorter, &in->limits, &cut) == CAPVET_TRUNCATED || shorter == report->length);
  RULE(cut.input_required <= report->length);
  return answer;
}

/* The segments of a frame come one after the other, and there are no more. */
static void check_extents(fuzz_input *in, const capvet_report *frame) {
  size_t end = 8 * (frame->segments / 2 + 1), required;
  RULE(read_extents(in) == frame->segments);
  for (uint32_t at = 0; at < frame->segments; at++) {
    RULE(extents[at].offset == end && extents[at].length % 8 == 0);
    end += extents[at].length;
  }
  RULE(end == frame->length);
  capvet_report report;
  const size_t less = choose(in, frame->segments);
  capvet_extent *few = (capvet_extent *)(void *)fuzz_place(&output, less * sizeof *few, 0);
  RULE(capvet_segments(in->bytes, in->length, &in->limits, few, less, &required, &report) == CAPVET_BUFFER_TOO_SMALL);
  RULE(required == frame->segments && is_equal(frame, &report));
}

/* What another call accepts, with other limits. */
static capvet_answer vet_by(const fuzz_input *in, uint64_t words, uint64_t charge, uint32_t depth, uint32_t flags, uint32_t form,
                            capvet_report *report) {
  const capvet_limits limits = {words, charge, depth, flags, form, 0, {0, 0, 0, 0, 0, 0}};
  return capvet_vet(in->bytes, in->length, &limits, report);
}

/* Wider limits accept as much. */
static void check_wider(fuzz_input *in, const capvet_report *report) {
  const capvet_limits *limits = &in->limits;
  const uint32_t flags = limits->flags | (uint32_t)choose(in, 4);
  const uint32_t form = limits->form == CAPVET_FORM_WHOLE ? (uint32_t)choose(in, 2) : limits->form;
  const uint64_t words = limits->message_words + choose(in, CAPVET_MAX_MESSAGE_WORDS - limits->message_words + 1);
  const uint64_t charge = limits->charge + choose(in, CAPVET_MAX_CHARGE - limits->charge + 1);
  const uint32_t depth = limits->depth + (uint32_t)choose(in, CAPVET_MAX_DEPTH - limits->depth + 1);
  capvet_report wider;
  RULE(vet_by(in, words, charge, depth, flags, form, &wider) == CAPVET_OK && is_equal(report, &wider));
}

/* Just the limits that a message needs accept it, and one less doesn't. */
static void check_tight(const fuzz_input *in, const capvet_report *report) {
  const uint64_t words = words_of_all(in, report), charge = report->charge;
  const uint32_t depth = report->depth, flags = in->limits.flags, form = in->limits.form;
  capvet_report tight;
  RULE(vet_by(in, words, charge, depth, flags, form, &tight) == CAPVET_OK && is_equal(report, &tight));
  RULE(words == 0 || vet_by(in, words - 1, charge, depth, flags, form, &tight) == CAPVET_TOO_LARGE);
  RULE(charge == 0 || vet_by(in, words, charge - 1, depth, flags, form, &tight) == CAPVET_WORD_LIMIT);
  RULE(depth == 0 || vet_by(in, words, charge, depth - 1, flags, form, &tight) == CAPVET_DEPTH_LIMIT);
}

static capvet_answer check_vet(fuzz_input *in, capvet_answer frame, const capvet_report *framed, capvet_report *report) {
  const capvet_answer answer = capvet_vet(in->bytes, in->length, &in->limits, report);
  check_report(in, VET, answer, report);
  RULE((answer == CAPVET_BAD_LIMITS) == !is_good(&in->limits, true));
  if (frame == CAPVET_OK) {
    const bool is_trailing = in->length > framed->length && in->limits.form == CAPVET_FORM_WHOLE;
    RULE((answer == CAPVET_TRAILING) == is_trailing && (is_trailing || answer == CAPVET_OK || answer >= 16));
    RULE(report->length == framed->length && report->segments == framed->segments);
  } else if (frame != CAPVET_BAD_LIMITS) {
    RULE(answer == frame && is_equal(framed, report));
  }
  if (answer != CAPVET_OK) return answer;
  check_tree(in, report);
  check_wider(in, report);
  check_tight(in, report);
  return answer;
}

/* The same message in separate segments. */
static void check_segments(fuzz_input *in, capvet_answer answer, const capvet_report *report) {
  static capvet_segment segments[CAPVET_MAX_SEGMENTS + 1];
  read_extents(in);
  for (uint32_t at = 0; at < report->segments; at++) {
    segments[at].length = extents[at].length;
    segments[at].bytes = segments[at].length != 0 ? in->bytes + extents[at].offset : NULL;
  }
  capvet_report again, expected = *report;
  const capvet_answer separate = capvet_vet_segments(segments, report->segments, &in->limits, &again);
  reached_answer(SEGMENTS, separate);
  if (answer != CAPVET_TRAILING) {
    expected.length = 8 * words_of_all(in, report);
    RULE(separate == answer && is_equal(&expected, &again));
  }
  const size_t at = choose(in, report->segments);
  if (segments[at].length != 0) {
    segments[at].length -= 1 + choose(in, 7);
    RULE(capvet_vet_segments(segments, report->segments, &in->limits, &again) == CAPVET_BAD_SEGMENT && again.detail == at);
  }
  RULE(capvet_vet_segments(NULL, 0, &in->limits, &again) == CAPVET_NO_MESSAGE && again.input_required == 0);
}

static void check_exclusive(fuzz_input *in, capvet_answer answer, const capvet_report *report) {
  size_t required = 1, bound = CAPVET_MARKS_BOUND(in->length);
  RULE(bound == capvet_marks_bound(in->length));
  capvet_report again;
  const size_t count = choose(in, 4) != 0 ? bound : choose(in, bound);
  uint64_t *marks = (uint64_t *)fuzz_place(&numbers, 8 * count, 0);
  const capvet_answer found = capvet_vet_exclusive(in->bytes, in->length, &in->limits, marks, count, &required, &again);
  check_report(in, EXCLUSIVE, found, &again);
  if (answer != CAPVET_OK) {
    RULE(found == answer && is_equal(report, &again) && required == 0);
  } else {
    RULE(required <= bound && (found == CAPVET_BUFFER_TOO_SMALL) == (required > count));
    RULE(found == CAPVET_OVERLAP || is_equal(report, &again));
  }
  RULE(found == answer || found == CAPVET_BUFFER_TOO_SMALL || found == CAPVET_OVERLAP);
  const size_t used = found == CAPVET_OK || found == CAPVET_OVERLAP ? required : 0;
  RULE(is_untouched_after((const uint8_t *)marks, 8 * used, 8 * count, 0));
}

/* The canonical form of these words, which are one, is the same. */
static void check_form(const fuzz_input *in, const uint8_t *form, size_t length) {
  capvet_limits limits = in->limits;
  limits.flags = CAPVET_ALLOW_AMPLIFIED;
  limits.form = CAPVET_FORM_WORDS;
  limits.message_words = limits.message_words > length / 8 ? limits.message_words : length / 8;
  capvet_report report;
  size_t required;
  RULE(capvet_check_canonical_words(form, length, &in->limits, &report) == CAPVET_OK && report.length == length);
  uint8_t *again = fuzz_place(&other, length, in->slack);
  RULE(capvet_canonical(form, length, &limits, again, length, &required, &report) == CAPVET_OK && required == length);
  RULE(memcmp(form, again, length) == 0 && is_untouched_after(again, length, length, in->slack));
}

/* The canonical form, in a buffer of any size, and of just its own. */
static size_t check_canonical(fuzz_input *in, capvet_answer answer, const capvet_report *report, uint8_t **form) {
  capvet_report again;
  size_t required = 1, sized = 1;
  const capvet_answer asked = capvet_canonical(in->bytes, in->length, &in->limits, NULL, 0, &required, &again);
  check_report(in, CANONICAL, asked, &again);
  if (answer != CAPVET_OK || report->capabilities != 0) {
    RULE(asked == (answer != CAPVET_OK ? answer : CAPVET_HAS_CAPABILITY) && is_equal(report, &again) && required == 0);
    return 0;
  }
  RULE(asked == CAPVET_BUFFER_TOO_SMALL && is_equal(report, &again));
  RULE((in->limits.flags & CAPVET_ALLOW_AMPLIFIED) != 0 || required <= CAPVET_CANONICAL_BOUND(in->length));
  RULE(required % 8 == 0 && required >= 8 && required <= 8 * (report->charge + 1));
  const size_t less = choose(in, required), more = required + choose(in, 40);
  uint8_t *small = fuzz_place(&other, less, in->slack);
  RULE(capvet_canonical(in->bytes, in->length, &in->limits, small, less, &sized, &again) == CAPVET_BUFFER_TOO_SMALL);
  RULE(sized == required && is_untouched_after(small, 0, less, in->slack));
  *form = fuzz_place(&output, more, in->slack);
  RULE(capvet_canonical(in->bytes, in->length, &in->limits, *form, more, &sized, &again) == CAPVET_OK);
  RULE(sized == required && is_equal(report, &again) && is_untouched_after(*form, required, more, in->slack));
  check_form(in, *form, required);
  return required;
}

/* The first difference of a message that isn't canonical, beside the answer and the report of the check. */
static void check_difference(const fuzz_input *in, capvet_answer found, const capvet_report *check) {
  capvet_report first, other;
  capvet_step steps[CAPVET_MAX_DEPTH];
  size_t required;
  RULE(capvet_first_difference(in->bytes, in->length, &in->limits, &first) == found);
  if (found != CAPVET_NOT_CANONICAL) {
    RULE(is_equal(&first, check));
    return;
  }
  RULE(strcmp(capvet_difference_name(first.detail), "Unknown") != 0);
  RULE((first.detail == CAPVET_DIFFERENCE_SEGMENTS) == (first.segments != 1));
  if (first.detail == CAPVET_DIFFERENCE_SEGMENTS) RULE(first.segment == 0 && first.word == 0 && first.pointers == 0);
  else RULE(first.segment == 0 && first.word < first.words && first.pointers >= 1 && first.pointers <= check->pointers);
  if (first.detail == CAPVET_DIFFERENCE_TRAILING) RULE(first.pointers == check->pointers);
  if (first.detail == CAPVET_DIFFERENCE_CAPABILITY) RULE(first.segment == check->segment && first.word == check->word);
  if (first.detail > CAPVET_DIFFERENCE_SEGMENTS && first.detail < CAPVET_DIFFERENCE_TRAILING)
    RULE(capvet_pointer_path(in->bytes, in->length, &in->limits, first.pointers, steps, CAPVET_MAX_DEPTH, &required, &other) == CAPVET_OK);
  other = *check;
  other.detail = first.detail;
  other.segment = first.segment;
  other.word = first.word;
  other.pointers = first.pointers;
  RULE(is_equal(&first, &other));
}

/* A message is canonical if it has one segment of these bytes, and no others after it. */
static void check_is_canonical(fuzz_input *in, capvet_answer answer, const capvet_report *report, const uint8_t *form,
                               size_t length) {
  capvet_report again;
  const capvet_answer found = capvet_check_canonical(in->bytes, in->length, &in->limits, &again);
  check_report(in, IS_CANONICAL, found, &again);
  check_difference(in, found, &again);
  if (answer == CAPVET_TRAILING || answer == CAPVET_BAD_LIMITS) RULE(found == answer && is_equal(report, &again));
  if (found == CAPVET_TRAILING || answer == CAPVET_TRAILING || answer == CAPVET_BAD_LIMITS) return;
  const size_t table = in->limits.form == CAPVET_FORM_WORDS ? 0 : 8;
  const bool is_form = length != 0 && report->segments == 1 && report->length == table + length &&
                       memcmp(in->bytes + table, form, length) == 0;
  RULE(found == (answer != CAPVET_OK ? answer : is_form ? CAPVET_OK : CAPVET_NOT_CANONICAL));
  RULE(is_equal(report, &again));
}

/* The text of a path. */
static size_t text_of(const capvet_step *steps, size_t count, char *text) {
  size_t length = 0;
  if (count == 0) text[length++] = '/';
  for (size_t at = 0; at < count; at++) {
    length += (size_t)sprintf(text + length, "/%c%u", steps[at].kind == CAPVET_STEP_POINTER ? 'p' : 'i', steps[at].number);
  }
  return length;
}

static void check_node(const capvet_node *node, capvet_answer answer, const capvet_report *report) {
  static const capvet_node nothing;
  RULE((node->reserved[0] | node->reserved[1]) == 0 && node->kind <= CAPVET_KIND_CAPABILITY && node->element <= 7);
  RULE(answer == CAPVET_OK || memcmp(node, &nothing, sizeof nothing) == 0);
  RULE(node->length <= report->length && node->offset <= report->length - node->length);
  if (node->kind == CAPVET_KIND_STRUCT) RULE(node->length == 8 * (uint64_t)node->data_words);
  if (node->kind == CAPVET_KIND_STRUCTS) {
    RULE(node->length == 8 * (uint64_t)node->count * (node->data_words + (uint64_t)node->pointers));
  }
}

/* The node at a path. The text ends at a page. */
static capvet_answer node_at(fuzz_input *in, const char *text, size_t length, capvet_node *node, capvet_report *report) {
  const char *path = (const char *)fuzz_copy(&other, (const uint8_t *)text, length, 0);
  const capvet_answer answer = capvet_get(in->bytes, in->length, &in->limits, path, length, node, report);
  check_report(in, GET, answer, report);
  check_node(node, answer, answer == CAPVET_OK ? report : &(const capvet_report){.length = 0});
  return answer;
}

static capvet_answer node_of(fuzz_input *in, const capvet_step *steps, size_t count, capvet_node *node, capvet_report *report) {
  char text[16 * STEPS_MOST];
  const size_t length = text_of(steps, count, text);
  return node_at(in, text, length, node, report);
}

/* A step from a node, mostly one that leads to another. */
static capvet_step step_from(fuzz_input *in, const capvet_node *node) {
  const bool is_struct = node->kind == CAPVET_KIND_STRUCT, is_wrong = choose(in, 16) == 0;
  const uint64_t below = is_struct ? node->pointers : node->count;
  const uint64_t number = choose(in, 16) == 0 ? choose(in, UINT64_C(1) << (1 + choose(in, 32))) : choose(in, below + 1);
  const capvet_step step = {is_struct != is_wrong ? CAPVET_STEP_POINTER : CAPVET_STEP_ELEMENT, (uint32_t)number};
  return step;
}

/* A series of nodes is what capvet_get has for each path. */
static void check_range(fuzz_input *in, const capvet_step *steps, size_t count) {
  const size_t varying = choose(in, count), many = choose(in, NODES_MOST + 1);
  capvet_step path[STEPS_MOST];
  memcpy(path, steps, count * sizeof *steps);
  capvet_node *nodes = (capvet_node *)fuzz_place(&numbers, many * sizeof *nodes, 0);
  size_t found = many + 1;
  capvet_report report, one;
  const capvet_answer answer =
      capvet_get_range(in->bytes, in->length, &in->limits, steps, count, varying, nodes, many, &found, &report);
  check_report(in, RANGE, answer, &report);
  RULE(found <= many && (answer == CAPVET_OK) <= (found == many));
  RULE(is_untouched_after((const uint8_t *)nodes, found * sizeof *nodes, many * sizeof *nodes, 0));
  if (answer == CAPVET_BAD_LIMITS || steps[varying].number > UINT32_MAX - NODES_MOST) return;
  for (size_t at = 0; at < found + (found < many); at++) {
    capvet_node node;
    path[varying].number = steps[varying].number + (uint32_t)at;
    const capvet_answer expected = node_of(in, path, count, &node, &one);
    if (at < found) {
      RULE(expected == CAPVET_OK && memcmp(&node, &nodes[at], sizeof node) == 0);
    } else if (expected != CAPVET_BAD_PATH) {
      RULE(answer == expected && is_equal(&report, &one));
    }
  }
}

/* Paths from the root on. In a message that is accepted each leads to a node or to nothing. */
static void check_paths(fuzz_input *in, capvet_answer vetted) {
  capvet_step steps[STEPS_MOST];
  capvet_node node;
  capvet_report report;
  for (size_t count = 0; count < STEPS_MOST; count++) {
    const capvet_answer answer = node_of(in, steps, count, &node, &report);
    RULE((answer == CAPVET_BAD_LIMITS) == !is_good(&in->limits, false));
    const bool is_there = answer == CAPVET_OK || answer == CAPVET_NO_NODE || answer == CAPVET_BAD_PATH;
    RULE(vetted != CAPVET_OK || is_there || answer == CAPVET_BAD_LIMITS);
    if (count > 0) check_range(in, steps, count);
    if (answer != CAPVET_OK) return;
    reached_number(5 + node.kind, node.count + node.pointers);
    steps[count] = step_from(in, &node);
  }
}

/* Any bytes as the text of a path, and steps of any kind. */
static void check_texts(fuzz_input *in) {
  capvet_node node;
  capvet_report report;
  char text[24];
  const size_t length = choose(in, 12), most = length < in->length ? length : in->length;
  memcpy(text, in->bytes, most);
  capvet_answer answer = node_at(in, text, most, &node, &report);
  if (answer == CAPVET_BAD_PATH) RULE(report.detail <= most);
  static const char letters[] = "//pppiii0123456789999";
  for (size_t at = 0; at < length; at++) text[at] = letters[choose(in, sizeof letters - 1)];
  answer = node_at(in, text, length, &node, &report);
  if (answer == CAPVET_BAD_PATH) RULE(report.detail <= length);
  const capvet_step steps[] = {{(uint32_t)choose(in, 3), 0}, {(uint32_t)choose(in, 3), 1}};
  const size_t varying = choose(in, 4);
  size_t found = 1;
  answer = capvet_get_range(in->bytes, in->length, &in->limits, steps, 2, varying, &node, 1, &found, &report);
  const bool is_bad = steps[0].kind > 1 || steps[1].kind > 1 || varying > 1;
  RULE((answer == CAPVET_BAD_PATH) == (is_bad && answer != CAPVET_BAD_LIMITS));
  if (answer == CAPVET_BAD_PATH) RULE(report.detail == (steps[0].kind > 1 ? 0 : steps[1].kind > 1 ? 1 : 2));
}

/* A path as a line has it: of more than 24 steps the first and the last 8. */
static size_t shown_text_of(const capvet_step *steps, size_t count, char *text) {
  if (count <= 24) return text_of(steps, count, text);
  size_t length = text_of(steps, 8, text);
  length += (size_t)sprintf(text + length, "/.. %zu steps ..", count - 16);
  return length + text_of(steps + count - 8, 8, text + length);
}

/* The path to the pointer that a refusal names. */
static void check_path_line(const fuzz_input *in, const capvet_report *report, const char *text) {
  static char line[16 * CAPVET_MAX_DEPTH];
  capvet_step steps[CAPVET_MAX_DEPTH];
  capvet_report again;
  size_t count = CAPVET_MAX_DEPTH + 1;
  const capvet_answer found = capvet_pointer_path(in->bytes, in->length, &in->limits, report->pointers, steps,
                                                  CAPVET_MAX_DEPTH, &count, &again);
  RULE(found == CAPVET_OK && count <= CAPVET_MAX_DEPTH);
  const size_t length = shown_text_of(steps, count, line);
  RULE(memcmp(text, "  path ", 7) == 0 && memcmp(text + 7, line, length) == 0 && text[7 + length] == '\n');
}

/* Each line begins with two blanks, and the last one has the reason. */
static void check_explanation(const char *text, size_t length) {
  size_t last = 0;
  RULE(length != 0 && text[length - 1] == '\n');
  for (size_t at = 0; at < length; at++) {
    const bool begins = at == 0 || text[at - 1] == '\n';
    RULE(text[at] == '\n' ? !begins : text[at] >= ' ' && text[at] <= '~');
    RULE(!begins || (length - at > 3 && text[at] == ' ' && text[at + 1] == ' ' && text[at + 2] != ' '));
    if (begins) last = at;
  }
  RULE(length - last > 10 && memcmp(text + last, "  reason ", 9) == 0);
}

/* What the verdict refuses is explained, in a buffer of just its length or of a longer one. */
static void check_explain(fuzz_input *in, capvet_answer answer, const capvet_report *report) {
  capvet_report again;
  size_t required = 1, sized = 1;
  const capvet_answer asked = capvet_explain(in->bytes, in->length, &in->limits, NULL, 0, &required, &again);
  RULE(asked == answer && is_equal(report, &again) && required <= CAPVET_EXPLANATION_BOUND);
  RULE((required == 0) == (answer == CAPVET_OK || answer == CAPVET_BAD_LIMITS));
  if (required == 0) return;
  const size_t less = choose(in, required), more = required + choose(in, 40);
  char *text = (char *)fuzz_place(&output, less, in->slack);
  RULE(capvet_explain(in->bytes, in->length, &in->limits, text, less, &sized, &again) == answer);
  RULE(sized == required && is_untouched_after((uint8_t *)text, 0, less, in->slack));
  text = (char *)fuzz_place(&output, more, in->slack);
  RULE(capvet_explain(in->bytes, in->length, &in->limits, text, more, &sized, &again) == answer);
  RULE(sized == required && is_equal(report, &again));
  RULE(is_untouched_after((uint8_t *)text, required, more, in->slack));
  check_explanation(text, required);
  if (report->pointers != 0) check_path_line(in, report, text);
}

/* An overlap is explained, in a buffer of just its length or of a longer one. So is any other pointer that a verdict names. */
static void check_overlap(fuzz_input *in, const capvet_report *report) {
  capvet_report again;
  size_t required = 1, sized = 1;
  const uint64_t number = report->pointers;
  const capvet_answer asked = capvet_explain_overlap(in->bytes, in->length, &in->limits, report->segment, report->word, number, NULL, 0,
                                                     &required, &again);
  RULE((asked == CAPVET_BUFFER_TOO_SMALL) == (required != 0) && required <= CAPVET_OVERLAP_BOUND);
  if (required == 0) return;
  const size_t less = choose(in, required), more = required + choose(in, 40);
  char *text = (char *)fuzz_place(&output, less, in->slack);
  RULE(capvet_explain_overlap(in->bytes, in->length, &in->limits, report->segment, report->word, number, text, less, &sized, &again) ==
       CAPVET_BUFFER_TOO_SMALL);
  RULE(sized == required && is_untouched_after((uint8_t *)text, 0, less, in->slack));
  text = (char *)fuzz_place(&output, more, in->slack);
  RULE(capvet_explain_overlap(in->bytes, in->length, &in->limits, report->segment, report->word, number, text, more, &sized, &again) ==
       CAPVET_OK);
  RULE(sized == required && is_untouched_after((uint8_t *)text, required, more, in->slack));
  check_path_line(in, report, text);
}

/* Unpacking gives the words that were packed. */
static void check_pack(fuzz_input *in) {
  const size_t whole = in->length / 8 * 8, bound = CAPVET_PACK_BOUND(whole);
  size_t required = 1, sized = 1;
  if (in->length != whole) {
    RULE(capvet_pack_words(in->bytes, in->length, NULL, 0, &required) == CAPVET_TRUNCATED && required == 0);
  }
  RULE(capvet_pack_words(in->bytes, whole, NULL, 0, &required) == (whole != 0 ? CAPVET_BUFFER_TOO_SMALL : CAPVET_OK));
  RULE(required <= bound && bound == capvet_pack_bound(whole));
  const size_t less = choose(in, required), more = required + choose(in, 20);
  uint8_t *packed = fuzz_place(&output, less, in->slack);
  RULE(required == 0 || capvet_pack_words(in->bytes, whole, packed, less, &sized) == CAPVET_BUFFER_TOO_SMALL);
  RULE(is_untouched_after(packed, 0, less, in->slack));
  packed = fuzz_place(&output, more, in->slack);
  RULE(capvet_pack_words(in->bytes, whole, packed, more, &sized) == CAPVET_OK && sized == required);
  RULE(is_untouched_after(packed, required, more, in->slack));
  uint8_t *again = fuzz_place(&other, whole, in->slack);
  RULE(capvet_unpack_words(packed, required, again, whole, &sized) == CAPVET_OK && sized == whole);
  RULE(memcmp(again, in->bytes, whole) == 0 && is_untouched_after(again, whole, whole, in->slack));
}

/* Any bytes as packed words. Packed again, they are the same words. */
static void check_unpack(fuzz_input *in) {
  size_t required = 1, sized = 1, packed;
  const capvet_answer answer = capvet_unpack_words(in->bytes, in->length, NULL, 0, &required);
  reached_answer(UNPACK, answer);
  reached_number(11, required);
  RULE(answer == CAPVET_OK || answer == CAPVET_BUFFER_TOO_SMALL || answer == CAPVET_TRUNCATED);
  RULE(required % 8 == 0 && required <= 1024 * in->length && (answer == CAPVET_BUFFER_TOO_SMALL) == (required != 0));
  if (required == 0 || required > OUT_MOST / 16) return;
  const size_t less = choose(in, required), more = required + choose(in, 20);
  uint8_t *words = fuzz_place(&output, less, in->slack);
  RULE(capvet_unpack_words(in->bytes, in->length, words, less, &sized) == CAPVET_BUFFER_TOO_SMALL && sized == required);
  RULE(is_untouched_after(words, 0, less, in->slack));
  words = fuzz_place(&output, more, in->slack);
  RULE(capvet_unpack_words(in->bytes, in->length, words, more, &sized) == CAPVET_OK && sized == required);
  RULE(is_untouched_after(words, required, more, in->slack));
  uint8_t *again = fuzz_place(&other, CAPVET_PACK_BOUND(required), 0);
  RULE(capvet_pack_words(words, required, again, CAPVET_PACK_BOUND(required), &packed) == CAPVET_OK);
  RULE(capvet_unpack_words(again, packed, NULL, 0, &sized) == CAPVET_BUFFER_TOO_SMALL && sized == required);
}

/* What unpacking a stream finds: the frames, the answer at its end, and the state. */
typedef struct found {
  uint64_t hash, frames;
  capvet_answer last;
  capvet_unpacking state;
} found;

UNCOUNTED static uint64_t hash_of(uint64_t hash, const uint8_t *bytes, size_t length) {
  for (size_t at = 0; at < length; at++) hash = (hash ^ bytes[at]) * UINT64_C(0x100000001b3);
  return hash;
}

/* One call for a message of a packed stream. The piece ends at a page, and so does the output. */
static capvet_answer piece_of(fuzz_input *in, const uint8_t *piece, size_t length, uint8_t *out, size_t size,
                              capvet_unpacking *state, size_t *consumed, size_t *required, capvet_report *report) {
  const capvet_unpacking before = *state;
  const capvet_answer answer =
      capvet_unpack_message(piece, length, &in->limits, out, size, state, consumed, required, report);
  reached_answer(PIECES, answer);
  RULE(*consumed <= length && state->written <= size);
  if (answer == CAPVET_BAD_LIMITS) {
    RULE(memcmp(&before, state, sizeof before) == 0 && *consumed == 0);
    return answer;
  }
  const uint64_t end = answer == CAPVET_OK ? report->length : state->written;
  RULE(end <= size && is_untouched(out + end, size - end + in->slack));
  RULE((state->reserved[0] | state->reserved[1]) == 0 && (state->zero_words == 0 || state->literal_words == 0));
  RULE(state->zero_words <= 255 && state->literal_words <= 255);
  RULE(answer != CAPVET_TRUNCATED || report->input_required <= 10);
  RULE(*required <= CAPVET_FRAME_BOUND(in->limits.message_words));
  RULE((*required > size) == (answer == CAPVET_BUFFER_TOO_SMALL) || answer == CAPVET_OK);
  return answer;
}

/* The frame that was unpacked. */
static void add_frame(fuzz_input *in, found *all, const uint8_t *out, size_t length) {
  capvet_report framed;
  RULE(capvet_frame(out, length, &in->limits, &framed) == CAPVET_OK && framed.length == length);
  all->hash = hash_of(all->hash, out, length);
  all->frames++;
}

/* Unpacks a stream whose pieces grow by at most `most` bytes. */
static found unpacked_by(fuzz_input *in, const uint8_t *bytes, size_t length, size_t most) {
  found all = {HASH, 0, CAPVET_OK, {0, 0, 0, {0, 0}}};
  size_t at = 0, end = 0, size = 0, consumed, required;
  uint8_t *out = fuzz_place(&output, size, in->slack), *piece = fuzz_copy(&input, bytes, 0, in->slack);
  capvet_report report;
  while (all.frames < FRAMES_MOST) {
    all.last = piece_of(in, piece, end - at, out, size, &all.state, &consumed, &required, &report);
    at += consumed;
    piece += consumed;
    if (all.last == CAPVET_OK) {
      add_frame(in, &all, out, report.length);
      size = size < 200 ? size : 0;
      out = fuzz_place(&output, size, in->slack);
    } else if (all.last == CAPVET_BUFFER_TOO_SMALL && required <= OUT_MOST / 4) {
      const uint8_t *held = fuzz_copy(&other, out, all.state.written, 0);
      size = required + 8 * choose(in, 3);
      out = fuzz_place(&output, size, in->slack);
      memcpy(out, held, all.state.written);
    } else if ((all.last == CAPVET_TRUNCATED || all.last == CAPVET_NO_MESSAGE) && end < length) {
      end += 1 + choose(in, most < length - end ? most : length - end);
      piece = fuzz_copy(&input, bytes + at, end - at, in->slack);
    } else {
      break;
    }
  }
  return all;
}

/* (a message that is too large for these buffers is unpacked as far as they have space) */
static bool is_same(const found *one, const found *two) {
  if (one->hash != two->hash || one->frames != two->frames) return false;
  if (one->last == CAPVET_BUFFER_TOO_SMALL || two->last == CAPVET_BUFFER_TOO_SMALL) return true;
  return one->last == two->last && memcmp(&one->state, &two->state, sizeof one->state) == 0;
}

/* Any bytes as a packed stream: however it is cut, the same is found. */
static void check_pieces(fuzz_input *in) {
  if (!is_good(&in->limits, false)) return;
  const found small = unpacked_by(in, in->bytes, in->length, 3), large = unpacked_by(in, in->bytes, in->length, in->length);
  RULE(is_same(&small, &large));
  reached_number(12, small.frames);
}

/* Any state: nothing outside of the buffers is touched. */
static void check_states(fuzz_input *in) {
  const size_t size = choose(in, 65), slack = choose(in, 8);
  uint8_t *out = fuzz_place(&output, size, slack);
  capvet_unpacking state = {choose(in, 2) != 0 ? 8 * choose(in, 10) : choose(in, UINT64_MAX), 0, 0, {0, 0}};
  if (choose(in, 2) != 0) state.zero_words = (uint32_t)choose(in, 258);
  if (choose(in, 2) != 0) state.literal_words = (uint32_t)choose(in, 258);
  if (choose(in, 8) == 0) state.reserved[choose(in, 2)] = 1 + choose(in, 9);
  memcpy(out, in->bytes, in->length < size ? in->length : size);
  uint8_t *before = fuzz_copy(&other, out, size, 0);
  const uint64_t written = state.written;
  size_t consumed = 1, required = 1;
  capvet_report report;
  const uint8_t *piece = fuzz_copy(&input, in->bytes, in->length, slack);
  const capvet_answer answer =
      capvet_unpack_message(piece, in->length, &in->limits, out, size, &state, &consumed, &required, &report);
  reached_answer(PIECES, answer);
  RULE(consumed <= in->length && is_untouched_after(out, size, size, slack));
  const uint64_t kept = answer == CAPVET_BAD_LIMITS ? size : written;
  RULE(kept <= size && memcmp(before, out, kept) == 0);
}

/* A packed message is unpacked to its frame, and to nothing else. */
static void check_pack_message(fuzz_input *in, capvet_answer frame, const capvet_report *framed) {
  capvet_report report;
  size_t required = 1, sized = 1;
  const capvet_answer asked = capvet_pack_message(in->bytes, in->length, &in->limits, NULL, 0, &required, &report);
  check_report(in, PACK_MESSAGE, asked, &report);
  const bool is_trailing =
      frame == CAPVET_OK && framed->length < in->length && in->limits.form == CAPVET_FORM_WHOLE;
  RULE(asked == (frame != CAPVET_OK ? frame : is_trailing ? CAPVET_TRAILING : CAPVET_BUFFER_TOO_SMALL));
  if (asked != CAPVET_BUFFER_TOO_SMALL) return;
  RULE(required <= CAPVET_PACK_BOUND(framed->length) && is_equal(framed, &report));
  uint8_t *packed = fuzz_place(&other, required, in->slack);
  RULE(capvet_pack_message(in->bytes, in->length, &in->limits, packed, required, &sized, &report) == CAPVET_OK);
  RULE(sized == required && is_untouched_after(packed, required, required, in->slack));
  uint8_t *copy = malloc(framed->length + required);
  memcpy(copy, in->bytes, framed->length);
  memcpy(copy + framed->length, packed, required);
  if (framed->segments % 2 == 0) memset(copy + 4 + 4 * framed->segments, 0, 4);
  const uint64_t hash = hash_of(HASH, copy, framed->length);
  const found all = unpacked_by(in, copy + framed->length, required, 9);
  RULE(all.frames == 1 && all.hash == hash && all.last == CAPVET_NO_MESSAGE);
  free(copy);
}

static void check_bounds(fuzz_input *in) {
  const uint64_t number = choose(in, UINT64_MAX) >> choose(in, 64);
  const uint64_t most = number < CAPVET_MAX_MESSAGE_WORDS ? number : CAPVET_MAX_MESSAGE_WORDS;
  RULE(capvet_frame_bound(number) == CAPVET_FRAME_BOUND(most));
  RULE(capvet_marks_bound(number) == CAPVET_MARKS_BOUND(number));
  RULE(capvet_pack_bound(number) == (number / 8 > SIZE_MAX / 10 ? SIZE_MAX : CAPVET_PACK_BOUND(number)));
  const size_t slack = 8 * (CAPVET_SLACK + 1);
  RULE(capvet_canonical_bound(number) == (number > SIZE_MAX - slack ? SIZE_MAX : number + slack));
  capvet_limits limits;
  capvet_limits_default(&limits);
  RULE(memcmp(&limits, &(const capvet_limits)CAPVET_LIMITS_INIT, sizeof limits) == 0 && capvet_version() == CAPVET_VERSION);
  RULE(strcmp(capvet_answer_name((uint32_t)number + 45), "Unknown") == 0 || number > 100);
}

int LLVMFuzzerTestOneInput(const uint8_t *data, size_t size);
int LLVMFuzzerTestOneInput(const uint8_t *data, size_t size) {
  fuzz_input in;
  if (!fuzz_read(&in, data, size) || in.length > OUT_MOST / 64) return 0;
  if (input.begin == NULL) {
    input = fuzz_arena_of(OUT_MOST), output = fuzz_arena_of(OUT_MOST + 16 * PAGE), other = fuzz_arena_of(2 * OUT_MOST);
    numbers = fuzz_arena_of(OUT_MOST);
  }
  in.bytes = fuzz_copy(&input, in.bytes, in.length, in.slack);
  capvet_report framed, report;
  uint8_t *form = NULL;
  const capvet_answer frame = check_frame(&in, &framed);
  if (frame == CAPVET_OK) check_extents(&in, &framed);
  const capvet_answer answer = check_vet(&in, frame, &framed, &report);
  if (frame == CAPVET_OK) check_segments(&in, answer, &report);
  check_exclusive(&in, answer, &report);
  const size_t length = check_canonical(&in, answer, &report, &form);
  check_is_canonical(&in, answer, &report, form, length);
  check_paths(&in, answer);
  check_explain(&in, answer, &report);
  if (answer >= CAPVET_NOT_CANONICAL && report.pointers != 0) check_overlap(&in, &report);
  check_texts(&in);
  check_pack(&in);
  check_unpack(&in);
  check_bounds(&in);
  /* (these write to the input's pages) */
  in.bytes = data + ARGUMENTS;
  check_pack_message(&in, frame, &framed);
  check_pieces(&in);
  check_states(&in);
  return 0;
}
