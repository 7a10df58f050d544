/* capvet: checks untrusted Cap'n Proto messages without a schema.
 *
 * QUICK START
 *
 *     capvet_limits limits = CAPVET_LIMITS_INIT;
 *     capvet_report report;
 *     capvet_answer answer = capvet_vet(bytes, length, &limits, &report);
 *     if (answer != CAPVET_OK) {
 *       fprintf(stderr, "refused: %s\n", capvet_answer_name(answer));
 *     }
 *
 * CAPVET_OK means that `bytes` are one message and nothing else, and that a reader can follow every pointer
 * without leaving its segments or looping. A full traversal reads at most 4,096 words (CAPVET_SLACK) more
 * than its segments have. It says nothing about the schema. The program that reads the message still checks
 * the values. The page docs/c.md has an example of each call.
 *
 * In a buffer of several messages set limits.form to CAPVET_FORM_PREFIX, go on by report.length after each message,
 * refused ones too, and stop where it is 0.
 *
 * CALLS
 *
 *   check        capvet_vet, capvet_vet_exclusive, capvet_vet_segments.
 *   frames       capvet_frame, capvet_segments.
 *   canonical    capvet_canonical, capvet_check_canonical, capvet_check_canonical_words, capvet_first_difference.
 *   read         capvet_get, capvet_get_range.
 *   explain      capvet_explain, capvet_explain_overlap, capvet_pointer_path, capvet_earlier_pointer.
 *   packing      capvet_pack_words, capvet_unpack_words, capvet_pack_message, capvet_unpack_message.
 *   readers      capvet_reader_words, capvet_reader_nesting.
 *   bounds       capvet_marks_bound, capvet_frame_bound, capvet_canonical_bound, capvet_pack_bound.
 *   names        capvet_answer_name, capvet_difference_name.
 *   other        capvet_limits_default, capvet_version, capvet_cpu_supported.
 *
 * TERMS
 *
 *   - word: 8 bytes. Numbers in a message are little-endian.
 *   - segment: a run of words. A message has 1 to 512 segments.
 *   - frame: a message as it is sent over a stream: a table of segment sizes, then the segments.
 *   - place: a segment number and a word in that segment, both counted from 0.
 *   - far: a pointer that goes through a landing pad of one or two words, mostly in another segment.
 *   - level: the nesting depth of an object. The root object has level 1. A pointer in an object leads
 *     one level down. The structs of a list are one level below the list.
 *   - charge: the words that a full traversal reads, landing pads included. An object that two pointers reach
 *     counts twice. An element of no bits (Void, a struct without words) counts as one.
 *   - preorder: the order in which pointers are checked: each one before those it leads to.
 *   - valid: the root leads to a finite tree inside the segments, within the limits. Unless
 *     CAPVET_ALLOW_AMPLIFIED is set, the charge may be at most CAPVET_SLACK above the words of the segments.
 *   - strict: valid, and without four forms that common readers reject, at least in part: CAPVET_NULL_PAD,
 *     CAPVET_EMPTY_SEGMENT, CAPVET_CAPABILITY_PAD, CAPVET_MANY_SEGMENTS.
 *   - accepted: valid, and strict unless CAPVET_ALLOW_NONSTRICT is set: what capvet_vet requires.
 *
 * RULES FOR ALL CALLS
 *
 * Buffers. A buffer is a pointer and a length, size or count. A `length` is the bytes of an input. A `size`
 * is the capacity of an output buffer in bytes. A `count` is a number of elements. Every buffer may be NULL
 * if its length, size or count is 0, as is the data() of an empty C++ vector. Bytes need no alignment;
 * structs and uint64_t have their usual alignment. No buffer may be larger than PTRDIFF_MAX bytes. Pointers
 * to a single struct or number may not be NULL.
 *
 * Overlap. What is passed without `const` must not overlap any other argument.
 *
 * Threads. Calls keep no state and take no locks: any thread may call at any time. Several threads may read
 * one `const` buffer together. Writing it during a call is undefined behaviour: the answer means nothing, and
 * the process may be killed. So copy shared memory and mapped files first; then check and use the copy.
 *
 * Memory. Calls allocate nothing, use at most 20 KiB of stack, do not recurse, and leave errno alone. If names are
 * bound lazily, the first call of memcpy takes up to 3 KiB more in the dynamic linker.
 *
 * Failure. If a call does not return CAPVET_OK, output buffers are unchanged. capvet_vet_exclusive,
 * capvet_get_range, capvet_explain and capvet_unpack_message have exceptions. Structs and numbers that are
 * passed to be filled in are always written, and are 0 where they do not apply.
 *
 * Required size. Calls that fill a buffer have a parameter `required`. It is how much of the buffer the
 * result takes, in the units of the buffer's size or count. It is set on CAPVET_OK, where it is the length of
 * the result. It is set on CAPVET_BUFFER_TOO_SMALL, where nothing was written. So a call with (NULL, 0)
 * asks for the size; if the result is empty, it returns CAPVET_OK. A CAPVET_..._BOUND macro gives a size that
 * suffices, without asking. With CAPVET_ALLOW_AMPLIFIED, CAPVET_CANONICAL_BOUND does not. For
 * capvet_explain and capvet_unpack_message see there.
 *
 * Order. If more than one answer applies, the first of these is returned:
 *   1. CAPVET_BAD_LIMITS, then CAPVET_BAD_PATH
 *   2. the frame: CAPVET_NO_MESSAGE, CAPVET_TRUNCATED (less than 8 bytes), CAPVET_TOO_MANY_SEGMENTS,
 *      CAPVET_TRUNCATED (the table), CAPVET_TOO_LARGE, CAPVET_TRUNCATED (the segments), CAPVET_TRAILING;
 *      for other inputs see CAPVET_FORM_WORDS and capvet_vet_segments
 *   3. the answers from CAPVET_NO_ROOT on: of the first such pointer in preorder the lowest number
 *   4. CAPVET_MANY_SEGMENTS; then CAPVET_NULL_PAD, CAPVET_EMPTY_SEGMENT or CAPVET_CAPABILITY_PAD, whichever
 *      pointer comes first in preorder
 *   5. CAPVET_HAS_CAPABILITY
 *   6. CAPVET_BUFFER_TOO_SMALL
 *   7. CAPVET_NOT_CANONICAL, CAPVET_OVERLAP, CAPVET_NO_NODE
 * For capvet_pack_words, capvet_unpack_words and capvet_unpack_message see there.
 *
 * Cost. A walk is one pass over all pointers. A step takes about 10 ns on a current machine. By default a walk
 * takes at most the words of the segments + CAPVET_SLACK + 1 steps, and with CAPVET_ALLOW_AMPLIFIED
 * limits->charge + 1. Steps and times are measured, not proved. It is proved that report->pointers is at most the
 * same number. For CAPVET_NULL_PAD, CAPVET_EMPTY_SEGMENT, CAPVET_CAPABILITY_PAD and CAPVET_OVERLAP it is proved that
 * it is at most limits->charge + 1.
 *
 * Machines. The proved library is for 64 bits. With 32 bits the structs have the same layout, but for
 * capvet_segment. Of x86-64 the library needs a processor of level x86-64-v2, which has SSSE3, SSE4.1
 * and POPCNT among others. On an older one a call may end the process by SIGILL. Whether it does depends on the
 * message, so call capvet_cpu_supported when a program starts. */
#ifndef CAPVET_H
#define CAPVET_H

#include <stddef.h>
#include <stdint.h>
#if defined(_M_X64) && !defined(__GNUC__) && !defined(__clang__)
#include <intrin.h>
#endif

/* Warns if an answer is ignored, or if one of the numbered arguments is NULL. MSVC warns of ignored answers alone, in C++17 and
 * C23. */
#if defined(__GNUC__) || defined(__clang__)
#define CAPVET_CALL(arguments) __attribute__((warn_unused_result, nonnull arguments))
#elif defined(_MSVC_LANG) && _MSVC_LANG >= 201703L || defined(__cplusplus) && __cplusplus >= 201703L
#define CAPVET_CALL(arguments) [[nodiscard]]
#elif defined(__STDC_VERSION__) && __STDC_VERSION__ >= 202311L
#define CAPVET_CALL(arguments) [[nodiscard]]
#else
#define CAPVET_CALL(arguments)
#endif

/* No call throws. */
#if defined(__cplusplus) && (__cplusplus >= 201103L || defined(_MSC_VER))
#define CAPVET_NOEXCEPT noexcept
#else
#define CAPVET_NOEXCEPT
#endif

#if defined(__cplusplus)
#define CAPVET_INLINE inline
#else
#define CAPVET_INLINE static inline
#endif

#ifdef __cplusplus
extern "C" {
#endif

/* ------------------------------------------------------------------------------------------------------
 * Version
 * ------------------------------------------------------------------------------------------------------ */

/** The three numbers of this header's version. */
#define CAPVET_VERSION_MAJOR 2
#define CAPVET_VERSION_MINOR 0
#define CAPVET_VERSION_PATCH 0

/** The version of this header: the number that capvet_version returns for it, for `#if`, and a text. While a version is
 * not released, `capvet --version` adds "-dev" to it. */
#define CAPVET_VERSION (CAPVET_VERSION_MAJOR * 65536 + CAPVET_VERSION_MINOR * 256 + CAPVET_VERSION_PATCH)
#define CAPVET_VERSION_STRING "2.0.0"

/** The version of the library: its major version * 65536 + its minor version * 256 + its
 * patch. The program and the bindings of the same release have the same version.
 *
 * A library is compatible if its major version is equal to this header's and its minor version is equal or
 * higher. Within a major version, numbers and structs keep their values and layout. Calls, answers and
 * flags may be added, reserved fields may get a meaning, and report->detail may be set for more answers. A
 * report field of a later version is 0 from an older library. */
uint32_t capvet_version(void) CAPVET_NOEXCEPT;

/** Does nothing. A library of another major version lacks it.
 *
 * If CAPVET_LINK_CHECK is defined before this header is included, the file refers to it. Then linking a
 * library of another major version fails with "undefined reference to capvet_abi_2". Leave it undefined to
 * use the types without the library. (The linker's --gc-sections may remove the check.) */
void capvet_abi_2(void) CAPVET_NOEXCEPT;
#if defined(__GNUC__) && defined(CAPVET_LINK_CHECK)
static void (*const capvet_link_check)(void) __attribute__((used)) = capvet_abi_2;
#endif

/** 1 if this processor has what the library needs, else 0.
 *
 * On x86-64 it asks the processor for each feature of x86-64-v2. On other processors it returns 1. It is compiled
 * with the program, so it runs on every x86-64 processor. A program calls it once, before any other call. */
CAPVET_INLINE int capvet_cpu_supported(void) CAPVET_NOEXCEPT {
  /* bits of ECX: SSE3 0, SSSE3 9, CMPXCHG16B 13, SSE4.1 19, SSE4.2 20, POPCNT 23; and bit 0 for LAHF and SAHF, in an
   * extended leaf that every x86-64 processor has */
#if defined(__x86_64__) && (defined(__GNUC__) || defined(__clang__))
  const uint32_t features = 1u | 1u << 9 | 1u << 13 | 1u << 19 | 1u << 20 | 1u << 23;
  uint32_t eax = 1, ebx = 0, ecx = 0, edx = 0;
  __asm__ volatile("cpuid" : "+a"(eax), "=b"(ebx), "+c"(ecx), "=d"(edx));
  if ((ecx & features) != features) return 0;
  eax = 0x80000001u;
  ecx = 0;
  __asm__ volatile("cpuid" : "+a"(eax), "=b"(ebx), "+c"(ecx), "=d"(edx));
  return (int)(ecx & 1u);
#elif defined(_M_X64)
  const int features = 1 | 1 << 9 | 1 << 13 | 1 << 19 | 1 << 20 | 1 << 23;
  int registers[4] = { 0, 0, 0, 0 }; /* EAX, EBX, ECX, EDX */
  __cpuid(registers, 1);
  if ((registers[2] & features) != features) return 0;
  __cpuid(registers, (int)0x80000001u);
  return registers[2] & 1;
#else
  return 1;
#endif
}

/* ------------------------------------------------------------------------------------------------------
 * Answers
 * ------------------------------------------------------------------------------------------------------ */

/* In C++11 and later no answer is a truth value: `if (capvet_vet(..))` does not compile. C has no such type. */
#if defined(__cplusplus) && (__cplusplus >= 201103L || defined(_MSC_VER))
#define CAPVET_ANSWERS enum class capvet_answer : uint32_t
#else
#define CAPVET_ANSWERS enum capvet_answer
#endif

/** The answer of a call. Numbers never change. Later versions may add some, so treat unknown answers as
 * refusals.
 *
 *   - 1 to 7: the bytes hold no complete frame, or more than the frame.
 *   - 8 to 15: the call was made wrongly, or with too small a buffer.
 *   - 16 to 31: not what the call asks for.
 *   - from 32: the message is not valid. */
CAPVET_ANSWERS {
  CAPVET_OK = 0, /**< yes: what the call asks for */

  CAPVET_NO_MESSAGE = 1,        /**< the input is empty: the regular end of a stream */
  CAPVET_TOO_MANY_SEGMENTS = 2, /**< more than 512; report->detail: how many */
  CAPVET_TOO_LARGE = 3,         /**< more words than limits->message_words; report->detail: how many */
  CAPVET_TRUNCATED = 4,         /**< more input is required; report->input_required: its least length */
  CAPVET_TRAILING = 5,          /**< trailing bytes after the message; report->detail: how many */

  CAPVET_BAD_LIMITS = 8,       /**< a limit above its maximum, an unknown flag or form, a reserved field not 0 */
  CAPVET_BUFFER_TOO_SMALL = 9, /**< the output buffer is too small; the required size was reported */
  CAPVET_BAD_PATH = 10,        /**< not a path; report->detail: the byte or step where it goes wrong */
  CAPVET_BAD_SEGMENT = 12,     /**< a segment's length is no multiple of 8; report->detail: which segment */

  CAPVET_NOT_CANONICAL = 16,  /**< accepted, and not its own canonical form; report->detail of capvet_first_difference:
                                 the reason */
  CAPVET_HAS_CAPABILITY = 17, /**< there is no canonical form; the place is the first capability's */
  CAPVET_OVERLAP = 18,        /**< a word is used twice; the place is the pointer's that uses it again */
  CAPVET_NULL_PAD = 19,       /**< not strict: a one-word landing pad of zeros */
  CAPVET_EMPTY_SEGMENT = 20,  /**< not strict: a two-word landing pad leads into a segment without words */
  CAPVET_NO_NODE = 21,        /**< nothing is there: at the path, or of this number */
  CAPVET_CAPABILITY_PAD = 22, /**< not strict: a one-word landing pad that is a capability */
  CAPVET_MANY_SEGMENTS = 23,  /**< not strict: 512 segments, which few readers take */

  CAPVET_NO_ROOT = 32,           /**< the first segment has no words */
  CAPVET_RESERVED = 33,          /**< a pointer of a kind that the format reserves */
  CAPVET_SEGMENT_MISSING = 34,   /**< a far pointer to a segment that does not exist */
  CAPVET_PAD_OUTSIDE = 35,       /**< a landing pad outside its segment */
  CAPVET_PAD_IS_FAR = 36,        /**< a one-word landing pad that is a far pointer */
  CAPVET_PAD_NOT_FAR = 37,       /**< a two-word landing pad that does not start with a far pointer */
  CAPVET_TAG_KIND = 38,          /**< the tag of a two-word landing pad is no struct and no list */
  CAPVET_TAG_OFFSET = 39,        /**< the offset in that tag is not 0 */
  CAPVET_OUT_OF_SEGMENT = 40,    /**< an object that is not inside its segment */
  CAPVET_COMPOSITE_TAG = 41,     /**< the tag of a list of structs is not a struct's */
  CAPVET_COMPOSITE_OVERRUN = 42, /**< the elements of a list of structs exceed the list's size */
  CAPVET_DEPTH_LIMIT = 43,       /**< an object with a level above limits->depth */
  CAPVET_WORD_LIMIT = 44,        /**< The charge exceeds its limit: limits->charge, or the words of the segments +
                                    CAPVET_SLACK, unless CAPVET_ALLOW_AMPLIFIED is set. report->detail: the lower of
                                    the two. Pointers in a loop end here or at the depth limit. */

  CAPVET_ANSWER_32_BITS = 0x7fffffff /**< never returned; switches need a default */
};
#if defined(__cplusplus) && (__cplusplus >= 201103L || defined(_MSC_VER))
constexpr capvet_answer CAPVET_OK = capvet_answer::CAPVET_OK;
constexpr capvet_answer CAPVET_NO_MESSAGE = capvet_answer::CAPVET_NO_MESSAGE;
constexpr capvet_answer CAPVET_TOO_MANY_SEGMENTS = capvet_answer::CAPVET_TOO_MANY_SEGMENTS;
constexpr capvet_answer CAPVET_TOO_LARGE = capvet_answer::CAPVET_TOO_LARGE;
constexpr capvet_answer CAPVET_TRUNCATED = capvet_answer::CAPVET_TRUNCATED;
constexpr capvet_answer CAPVET_TRAILING = capvet_answer::CAPVET_TRAILING;
constexpr capvet_answer CAPVET_BAD_LIMITS = capvet_answer::CAPVET_BAD_LIMITS;
constexpr capvet_answer CAPVET_BUFFER_TOO_SMALL = capvet_answer::CAPVET_BUFFER_TOO_SMALL;
constexpr capvet_answer CAPVET_BAD_PATH = capvet_answer::CAPVET_BAD_PATH;
constexpr capvet_answer CAPVET_BAD_SEGMENT = capvet_answer::CAPVET_BAD_SEGMENT;
constexpr capvet_answer CAPVET_NOT_CANONICAL = capvet_answer::CAPVET_NOT_CANONICAL;
constexpr capvet_answer CAPVET_HAS_CAPABILITY = capvet_answer::CAPVET_HAS_CAPABILITY;
constexpr capvet_answer CAPVET_OVERLAP = capvet_answer::CAPVET_OVERLAP;
constexpr capvet_answer CAPVET_NULL_PAD = capvet_answer::CAPVET_NULL_PAD;
constexpr capvet_answer CAPVET_EMPTY_SEGMENT = capvet_answer::CAPVET_EMPTY_SEGMENT;
constexpr capvet_answer CAPVET_NO_NODE = capvet_answer::CAPVET_NO_NODE;
constexpr capvet_answer CAPVET_CAPABILITY_PAD = capvet_answer::CAPVET_CAPABILITY_PAD;
constexpr capvet_answer CAPVET_MANY_SEGMENTS = capvet_answer::CAPVET_MANY_SEGMENTS;
constexpr capvet_answer CAPVET_NO_ROOT = capvet_answer::CAPVET_NO_ROOT;
constexpr capvet_answer CAPVET_RESERVED = capvet_answer::CAPVET_RESERVED;
constexpr capvet_answer CAPVET_SEGMENT_MISSING = capvet_answer::CAPVET_SEGMENT_MISSING;
constexpr capvet_answer CAPVET_PAD_OUTSIDE = capvet_answer::CAPVET_PAD_OUTSIDE;
constexpr capvet_answer CAPVET_PAD_IS_FAR = capvet_answer::CAPVET_PAD_IS_FAR;
constexpr capvet_answer CAPVET_PAD_NOT_FAR = capvet_answer::CAPVET_PAD_NOT_FAR;
constexpr capvet_answer CAPVET_TAG_KIND = capvet_answer::CAPVET_TAG_KIND;
constexpr capvet_answer CAPVET_TAG_OFFSET = capvet_answer::CAPVET_TAG_OFFSET;
constexpr capvet_answer CAPVET_OUT_OF_SEGMENT = capvet_answer::CAPVET_OUT_OF_SEGMENT;
constexpr capvet_answer CAPVET_COMPOSITE_TAG = capvet_answer::CAPVET_COMPOSITE_TAG;
constexpr capvet_answer CAPVET_COMPOSITE_OVERRUN = capvet_answer::CAPVET_COMPOSITE_OVERRUN;
constexpr capvet_answer CAPVET_DEPTH_LIMIT = capvet_answer::CAPVET_DEPTH_LIMIT;
constexpr capvet_answer CAPVET_WORD_LIMIT = capvet_answer::CAPVET_WORD_LIMIT;
constexpr capvet_answer CAPVET_ANSWER_32_BITS = capvet_answer::CAPVET_ANSWER_32_BITS;
#else
typedef enum capvet_answer capvet_answer;
#endif

/** The name of an answer for people to read, as the program `capvet` prints it.
 *
 * Returns "Ok", "DepthLimit" and so on, and "Unknown" for a number that this header does not know. */
CAPVET_INLINE const char *capvet_answer_name(capvet_answer answer) CAPVET_NOEXCEPT {
  switch (answer) {
    case CAPVET_OK: return "Ok";
    case CAPVET_NO_MESSAGE: return "NoMessage";
    case CAPVET_TOO_MANY_SEGMENTS: return "TooManySegments";
    case CAPVET_TOO_LARGE: return "TooLarge";
    case CAPVET_TRUNCATED: return "Truncated";
    case CAPVET_TRAILING: return "Trailing";
    case CAPVET_BAD_LIMITS: return "BadLimits";
    case CAPVET_BUFFER_TOO_SMALL: return "BufferTooSmall";
    case CAPVET_BAD_PATH: return "BadPath";
    case CAPVET_BAD_SEGMENT: return "BadSegment";
    case CAPVET_NOT_CANONICAL: return "NotCanonical";
    case CAPVET_HAS_CAPABILITY: return "HasCapability";
    case CAPVET_OVERLAP: return "Overlap";
    case CAPVET_NULL_PAD: return "NullPad";
    case CAPVET_EMPTY_SEGMENT: return "EmptySegment";
    case CAPVET_NO_NODE: return "NoNode";
    case CAPVET_CAPABILITY_PAD: return "CapabilityPad";
    case CAPVET_MANY_SEGMENTS: return "ManySegments";
    case CAPVET_NO_ROOT: return "NoRoot";
    case CAPVET_RESERVED: return "Reserved";
    case CAPVET_SEGMENT_MISSING: return "SegmentMissing";
    case CAPVET_PAD_OUTSIDE: return "PadOutside";
    case CAPVET_PAD_IS_FAR: return "PadIsFar";
    case CAPVET_PAD_NOT_FAR: return "PadNotFar";
    case CAPVET_TAG_KIND: return "TagKind";
    case CAPVET_TAG_OFFSET: return "TagOffset";
    case CAPVET_OUT_OF_SEGMENT: return "OutOfSegment";
    case CAPVET_COMPOSITE_TAG: return "CompositeTag";
    case CAPVET_COMPOSITE_OVERRUN: return "CompositeOverrun";
    case CAPVET_DEPTH_LIMIT: return "DepthLimit";
    case CAPVET_WORD_LIMIT: return "WordLimit";
    case CAPVET_ANSWER_32_BITS:
    default: return "Unknown";
  }
}

/* ------------------------------------------------------------------------------------------------------
 * Limits and reports
 * ------------------------------------------------------------------------------------------------------ */

#define CAPVET_MAX_MESSAGE_WORDS UINT64_C(268435456) /**< the maximum of limits->message_words: 2 GiB */
#define CAPVET_MAX_CHARGE UINT64_C(268435456)        /**< the maximum of limits->charge */
#define CAPVET_MAX_DEPTH 256                         /**< the maximum of limits->depth */
#define CAPVET_MAX_SEGMENTS 512                      /**< the most segments of a message */

/** Flags. Each allows something that is refused without it, so 0 is the strictest value. */
#define CAPVET_ALLOW_NONSTRICT 0x1u /**< the message need not be strict */
#define CAPVET_ALLOW_AMPLIFIED 0x2u /**< the charge may be above the words of the segments + CAPVET_SLACK */

/** Forms: what the input is. */
#define CAPVET_FORM_WHOLE 0u  /**< one message and nothing else */
#define CAPVET_FORM_PREFIX 1u /**< bytes that start with a message, such as a buffer of several */
#define CAPVET_FORM_WORDS 2u  /**< the words of one segment: no table, nothing after them */

/* Each call takes each form, but for CAPVET_FORM_WORDS. These calls do not take words, and return CAPVET_BAD_LIMITS:
 * capvet_frame, capvet_segments, capvet_get, capvet_get_range, capvet_pack_message, capvet_unpack_message and
 * capvet_vet_segments. capvet_frame, capvet_segments and capvet_unpack_message look at no bytes after the message, whatever
 * the form is.
 *
 * CAPVET_FORM_WORDS is for what was stored without a table. report->length is then the length of the input, and
 * report->segments is 1. In place of the answers about the frame:
 *
 *   - CAPVET_NO_MESSAGE: the input is empty.
 *   - CAPVET_TOO_LARGE: it has more than limits->message_words words, where a part of a word counts as one.
 *   - CAPVET_TRUNCATED: its length is no multiple of 8; report->input_required is the next multiple. */

/** The charge may exceed the words of the segments by this number, unless CAPVET_ALLOW_AMPLIFIED is set. */
#define CAPVET_SLACK 4096

/** The limits of a call. All zero is valid, and refuses nearly everything. Begin with CAPVET_LIMITS_INIT or
 * capvet_limits_default, and change fields.
 *
 * A higher limit, an additional CAPVET_ALLOW_ flag, or CAPVET_FORM_PREFIX in place of CAPVET_FORM_WHOLE never refuses
 * more, unless it gives CAPVET_BAD_LIMITS. Every call with limits returns that answer for a value above its maximum, an
 * unknown flag or form, and a reserved field that is not 0. */
typedef struct capvet_limits {
  uint64_t message_words; /**< most words in all segments: at most CAPVET_MAX_MESSAGE_WORDS */
  uint64_t charge;        /**< highest charge: at most CAPVET_MAX_CHARGE */
  uint32_t depth;         /**< deepest level: at most CAPVET_MAX_DEPTH */
  uint32_t flags;         /**< 0, or flags combined by | */
  uint32_t form;          /**< what the input is: one of the three forms */
  uint32_t padding;       /**< must be 0 */
  uint64_t reserved[6];   /**< must be 0 */
} capvet_limits;

/** The default limits: 64 MiB, as many words of charge, 64 levels, no flags, one message and nothing else. */
#define CAPVET_LIMITS_INIT { 8388608, 8388608, 64, 0, CAPVET_FORM_WHOLE, 0, { 0, 0, 0, 0, 0, 0 } }

/** Sets *limits to CAPVET_LIMITS_INIT, for languages without C macros. */
#if defined(__GNUC__)
__attribute__((nonnull(1)))
#endif
void capvet_limits_default(capvet_limits *limits) CAPVET_NOEXCEPT;

/** The report of a call, besides its answer. A field is 0 where its comment does not apply.
 *
 * The tree numbers (charge, pointers, capabilities, depth) are set if the call checked the whole message and
 * accepted it: CAPVET_OK, CAPVET_NOT_CANONICAL, CAPVET_HAS_CAPABILITY, CAPVET_BUFFER_TOO_SMALL. Only capvet_vet,
 * capvet_vet_exclusive, capvet_vet_segments, capvet_explain, capvet_canonical, the two checks of canonical form and
 * capvet_first_difference set them. On CAPVET_NOT_CANONICAL the last one has another number in `pointers`.
 *
 * A library of a later minor version may set reserved fields, and `detail` for more answers: do not compare
 * reports by memcmp. */
typedef struct capvet_report {
  uint64_t length;         /**< Bytes of the frame, table included, also of a refused message. The next message
                              of a buffer starts after them. 0 after the answers 1 to 4, 8, 10 and 12.
                              capvet_unpack_message: only on CAPVET_OK. */
  uint64_t input_required; /**< CAPVET_NO_MESSAGE, CAPVET_TRUNCATED: the least length of the input that gets
                              further. It is 8, then the bytes of the table, then those of the frame.
                              For other inputs see CAPVET_FORM_WORDS, capvet_vet_segments and
                              capvet_unpack_message. */
  uint64_t detail;         /**< the number that the answer's comment names; reserved for the other answers */
  uint64_t charge;         /**< a tree number */
  uint64_t pointers;       /**< a tree number, null pointers included; answers with a place: how many pointers
                              were checked, the named one included (0 after CAPVET_NO_ROOT);
                              capvet_earlier_pointer, on CAPVET_OK: the number of the earlier pointer;
                              capvet_first_difference, on CAPVET_NOT_CANONICAL: that of the first difference */
  uint64_t capabilities;   /**< a tree number */
  uint32_t depth;          /**< a tree number: the deepest level */
  uint32_t segments;       /**< how many segments, whenever `length` is set */
  uint32_t segment;        /**< the place of the pointer that the answer is about: CAPVET_OVERLAP, */
  uint32_t word;           /**< CAPVET_NULL_PAD, CAPVET_EMPTY_SEGMENT, CAPVET_CAPABILITY_PAD, and from
                              CAPVET_NO_ROOT on;
                              capvet_earlier_pointer, on CAPVET_OK: the place of the earlier pointer;
                              capvet_first_difference, on CAPVET_NOT_CANONICAL: that of the first difference;
                              else the place of the first capability, if `capabilities` is not 0 */
  uint64_t words;          /**< the words of all segments, whenever `length` is set: what limits->message_words bounds */
  uint64_t reserved[6];    /**< 0 */
} capvet_report;

/* ------------------------------------------------------------------------------------------------------
 * Checking
 * ------------------------------------------------------------------------------------------------------ */

/** Checks one message.
 *
 *   bytes, length  the message, in the form that limits->form says
 *   limits         what to accept
 *   report         filled in
 *
 * Returns CAPVET_OK for every message that is accepted by the definition above, and for no other. Otherwise
 * the answer is about the first pointer in preorder at which something is wrong, and the report has its
 * place. A pointer that makes the message invalid comes before one that is only not strict.
 * CAPVET_MANY_SEGMENTS has no place.
 *
 * With both CAPVET_ALLOW flags it refuses no message that the format allows within the limits. Without them it also
 * refuses what is not strict and what is above CAPVET_SLACK, and nothing else.
 *
 * Limits for a reader. Readers count in other ways: capvet_reader_words and capvet_reader_nesting return the limits that
 * they need. libcapnp needs words at addresses that are multiples of 8.
 *
 * Amplification. By default the charge may be at most CAPVET_SLACK words above the words of the segments, so
 * a small message cannot make a reader work for long. Some honest messages may be refused: those that share
 * objects, and those with more than CAPVET_SLACK + 1 elements without words in all. Such elements are Void,
 * structs without fields, and in canonical form structs whose fields are all default. CAPVET_WORD_LIMIT may
 * then mean that CAPVET_ALLOW_AMPLIFIED is required.
 *
 * Cost: one walk. */
CAPVET_CALL((3, 4))
capvet_answer capvet_vet(const uint8_t *bytes, size_t length, const capvet_limits *limits,
                         capvet_report *report) CAPVET_NOEXCEPT;

/** The traversal limit, in words, that libcapnp and the Rust crate capnp need at most for a strict message.
 *
 *   report    what capvet_vet or another call reported of the message that it accepted
 *   readings  how often the reader goes through the message
 *
 * It is the larger of 3 * report->charge + 2 and report->words, for each reading, or UINT64_MAX if that is less. Catch the
 * exceptions of readers all the same: that they need no more is tested, not proved. */
#if defined(__GNUC__)
__attribute__((nonnull(1)))
#endif
uint64_t capvet_reader_words(const capvet_report *report, uint32_t readings) CAPVET_NOEXCEPT;

/** The nesting limit that they need: 2 * report->depth + 1, or UINT32_MAX if that is less. */
#if defined(__GNUC__)
__attribute__((nonnull(1)))
#endif
uint32_t capvet_reader_nesting(const capvet_report *report) CAPVET_NOEXCEPT;

/** Checks one message, and that no word of it is used twice.
 *
 *   marks, marks_count  scratch memory, one bit for each word: CAPVET_MARKS_BOUND(length) elements suffice
 *   required            how many elements it takes; set for every accepted message
 *
 * Returns CAPVET_OK if the message is accepted, and the root word, all landing pads and all objects that
 * a path reaches are distinct words. Then a write to one object changes no other. Returns
 * CAPVET_OVERLAP if a word is used twice. Objects without words use none.
 *
 * After CAPVET_OK and CAPVET_OVERLAP the contents of the first *required elements of `marks` are unspecified,
 * and the others are unchanged. On CAPVET_OVERLAP the report has the place, `length`, `segments` and `words`.
 * CAPVET_BUFFER_TOO_SMALL comes with the report of capvet_vet: overlaps were not looked for.
 *
 * Cost: one walk, and a second one that marks each word and ends at the first overlap. */
CAPVET_CALL((3, 6, 7))
capvet_answer capvet_vet_exclusive(const uint8_t *bytes, size_t length, const capvet_limits *limits,
                                   uint64_t *marks, size_t marks_count, size_t *required,
                                   capvet_report *report) CAPVET_NOEXCEPT;

/** A `marks_count` that suffices for an input of this length in bytes. */
#define CAPVET_MARKS_BOUND(length) ((length) / UINT64_C(512) + 1)

/** CAPVET_MARKS_BOUND, for languages without C macros. */
size_t capvet_marks_bound(size_t length) CAPVET_NOEXCEPT;

/** One segment of a message that is not framed. */
typedef struct capvet_segment {
  const uint8_t *bytes; /**< its words; they need no alignment */
  size_t length;        /**< in bytes, a multiple of 8 */
} capvet_segment;

/** Checks a message whose segments are separate buffers, as a MessageReader has them.
 *
 *   segments, count  the segments in order, 1 to 512
 *
 * Returns what capvet_vet returns for the frame of these segments, and the same report. Exception:
 * report->length is the bytes of all segments, without a table. In place of the answers about the frame,
 * the first of these that applies:
 *
 *   - CAPVET_NO_MESSAGE: `count` is 0 (report->input_required is then 0 too).
 *   - CAPVET_TOO_MANY_SEGMENTS: it is more than 512.
 *   - CAPVET_BAD_SEGMENT: a length is no multiple of 8; report->detail: the first such segment.
 *   - CAPVET_TOO_LARGE: all segments have more than limits->message_words words.
 *
 * From libcapnp pass getSegment(i).asBytes(): its size() counts words. Nothing is copied.
 *
 * Cost: one walk, and one step for each segment. */
CAPVET_CALL((3, 4))
capvet_answer capvet_vet_segments(const capvet_segment *segments, size_t count, const capvet_limits *limits,
                                  capvet_report *report) CAPVET_NOEXCEPT;

/* ------------------------------------------------------------------------------------------------------
 * Frames
 * ------------------------------------------------------------------------------------------------------ */

/** The length of the frame that a buffer starts with.
 *
 *   bytes, length  what has been received so far; trailing bytes are always allowed
 *   limits         only `message_words` has an effect
 *   report         on CAPVET_OK, `length`, `segments` and `words`
 *
 * Reads the table only, and checks no pointer. Returns CAPVET_OK if the whole frame is there.
 *
 * To read one message from a connection, receive until the buffer has report->input_required bytes, and repeat
 * while the answer is CAPVET_NO_MESSAGE or CAPVET_TRUNCATED. The number is the sender's claim, and is
 * never more than CAPVET_FRAME_BOUND(limits->message_words). So set message_words to what you would hold for
 * a stranger. If the connection ends, CAPVET_NO_MESSAGE means between two messages, and CAPVET_TRUNCATED in
 * the middle of one.
 *
 * Cost: one step for each segment, at most 512. */
CAPVET_CALL((3, 4))
capvet_answer capvet_frame(const uint8_t *bytes, size_t length, const capvet_limits *limits,
                           capvet_report *report) CAPVET_NOEXCEPT;

/** The most bytes that a frame has whose segments have this many words. */
#define CAPVET_FRAME_BOUND(message_words) ((message_words) * UINT64_C(8) + 2056)

/** CAPVET_FRAME_BOUND, for languages without C macros. Above CAPVET_MAX_MESSAGE_WORDS it returns the bound for that
 * maximum. */
size_t capvet_frame_bound(uint64_t message_words) CAPVET_NOEXCEPT;

/** Where the words of a segment are in a frame. */
typedef struct capvet_extent {
  uint64_t offset; /**< where they start, in bytes counted from the first byte of the frame */
  uint64_t length; /**< how many bytes they are */
} capvet_extent;

/** Where the segments are in the frame that a buffer starts with.
 *
 *   bytes, length   the buffer; trailing bytes are always allowed
 *   limits          only `message_words` has an effect; CAPVET_FORM_WORDS gives CAPVET_BAD_LIMITS
 *   extents, count  where to write the extents, in the order of the segments: CAPVET_MAX_SEGMENTS always suffice
 *   required        how many segments there are
 *   report          on CAPVET_OK and CAPVET_BUFFER_TOO_SMALL, `length`, `segments` and `words`
 *
 * Reads the table only, once, and checks no pointer. Returns what is wrong with the frame, else CAPVET_BUFFER_TOO_SMALL
 * or CAPVET_OK. On CAPVET_OK the elements after the extents are unchanged. The words of segment i begin at
 * bytes + extents[i].offset: a capvet_segment for capvet_vet_segments has this address and this length.
 *
 * Cost: one step for each segment, at most 512. */
CAPVET_CALL((3, 6, 7))
capvet_answer capvet_segments(const uint8_t *bytes, size_t length, const capvet_limits *limits,
                              capvet_extent *extents, size_t count, size_t *required,
                              capvet_report *report) CAPVET_NOEXCEPT;

/* ------------------------------------------------------------------------------------------------------
 * Canonical form
 * ------------------------------------------------------------------------------------------------------ */

/** Writes the canonical form of a message: equal content gives equal bytes.
 *
 *   bytes, length  the message, as for capvet_vet
 *   out, out_size  where to write the words of the canonical form, without a table
 *   required       their length in bytes
 *
 * These are the bytes to hash or sign. To send them as a message, write a table before them: 4 bytes of 0,
 * then *required / 8 in 4 bytes, little-endian. Returns CAPVET_HAS_CAPABILITY if there is no canonical
 * form, or the answer of capvet_vet if the message is not accepted. On CAPVET_OK the bytes after the result
 * are unchanged.
 *
 * An `out_size` of CAPVET_CANONICAL_BOUND(length) always suffices without CAPVET_ALLOW_AMPLIFIED, so one call
 * is enough.
 *
 * Cost: about three walks, and copying the words of the result. Asking for the size first costs two more
 * walks. */
CAPVET_CALL((3, 6, 7))
capvet_answer capvet_canonical(const uint8_t *bytes, size_t length, const capvet_limits *limits,
                               uint8_t *out, size_t out_size, size_t *required,
                               capvet_report *report) CAPVET_NOEXCEPT;

/** The most bytes of a canonical form, for an input of this length, without CAPVET_ALLOW_AMPLIFIED. With
 * that flag it is 8 * (report.charge + 1), and so at most 8 * (limits.charge + 1). */
#define CAPVET_CANONICAL_BOUND(length) ((length) + UINT64_C(8) * (CAPVET_SLACK + 1))

/** CAPVET_CANONICAL_BOUND, for languages without C macros. It returns SIZE_MAX if the bound is greater. */
size_t capvet_canonical_bound(size_t length) CAPVET_NOEXCEPT;

/** Checks one message, and that it is its own canonical form. For words without a table see capvet_check_canonical_words.
 *
 * Returns CAPVET_OK if the message is accepted, and its one segment is exactly its canonical form. Returns
 * CAPVET_NOT_CANONICAL for any other accepted message, also for one with a capability. Other answers: it is not
 * accepted. Trailing bytes give CAPVET_TRAILING even with CAPVET_FORM_PREFIX, so what is hashed cannot be extended
 * unnoticed.
 *
 * Cost: one walk that compares, at most about twice capvet_vet. If the message differs from its form early, a
 * second walk follows, which only checks. After a later difference it follows only if the message is amplified
 * or a far pointer of an unusual kind comes. */
CAPVET_CALL((3, 4))
capvet_answer capvet_check_canonical(const uint8_t *bytes, size_t length, const capvet_limits *limits,
                                     capvet_report *report) CAPVET_NOEXCEPT;

/** Checks that words are a canonical form, as capvet_canonical writes it: without a table.
 *
 *   words, length  the words, and their length in bytes
 *   limits         those of the message; `form` has no effect, unless it is unknown
 *
 * Returns CAPVET_OK for what capvet_canonical wrote with the same limits. So the words may be amplified: structs whose
 * fields are all default lose their words in them, and are still charged. And they may be one word more than
 * limits->charge, whatever `message_words` is, but not more than CAPVET_MAX_MESSAGE_WORDS. For other words the answer is
 * that of capvet_check_canonical with CAPVET_FORM_WORDS and CAPVET_ALLOW_AMPLIFIED.
 *
 * Cost: as for capvet_check_canonical. The charge is at most limits->charge. */
CAPVET_CALL((3, 4))
capvet_answer capvet_check_canonical_words(const uint8_t *words, size_t length, const capvet_limits *limits,
                                           capvet_report *report) CAPVET_NOEXCEPT;

/** Why a message is not canonical: report->detail of capvet_first_difference, on CAPVET_NOT_CANONICAL. Numbers never change,
 * and later versions may add some. They are in the order in which the reasons are tried. */
enum {
  CAPVET_DIFFERENCE_SEGMENTS = 1,      /**< the message has more than one segment */
  CAPVET_DIFFERENCE_FAR = 2,           /**< the pointer is far */
  CAPVET_DIFFERENCE_CAPABILITY = 3,    /**< the pointer is a capability: there is no canonical form */
  CAPVET_DIFFERENCE_EMPTY_STRUCT = 4,  /**< the pointer leads to a struct without words, and its offset is not -1 */
  CAPVET_DIFFERENCE_PLACE = 5,         /**< the object does not begin where the canonical form has the next one: it is out of
                                          preorder, after a gap, or used twice */
  CAPVET_DIFFERENCE_BITS = 6,          /**< bits are set after the last value of a list */
  CAPVET_DIFFERENCE_EMPTY_LIST = 7,    /**< a list of structs has no elements, and sizes in its tag */
  CAPVET_DIFFERENCE_SURPLUS = 8,       /**< a list of structs has words after its last element */
  CAPVET_DIFFERENCE_DATA_ZERO = 9,     /**< the last data word of a struct is zero, or that of all structs of a list */
  CAPVET_DIFFERENCE_POINTER_NULL = 10, /**< the last pointer of a struct is null, or that of all structs of a list */
  CAPVET_DIFFERENCE_TRAILING = 11      /**< words of the segment come after the last object */
};

/** The name of such a number for people to read.
 *
 * Returns "Segments", "PointerNull" and so on, and "Unknown" for a number that this header does not know. */
CAPVET_INLINE const char *capvet_difference_name(uint64_t difference) CAPVET_NOEXCEPT {
  switch (difference) {
    case CAPVET_DIFFERENCE_SEGMENTS: return "Segments";
    case CAPVET_DIFFERENCE_FAR: return "Far";
    case CAPVET_DIFFERENCE_CAPABILITY: return "Capability";
    case CAPVET_DIFFERENCE_EMPTY_STRUCT: return "EmptyStruct";
    case CAPVET_DIFFERENCE_PLACE: return "Place";
    case CAPVET_DIFFERENCE_BITS: return "Bits";
    case CAPVET_DIFFERENCE_EMPTY_LIST: return "EmptyList";
    case CAPVET_DIFFERENCE_SURPLUS: return "Surplus";
    case CAPVET_DIFFERENCE_DATA_ZERO: return "DataZero";
    case CAPVET_DIFFERENCE_POINTER_NULL: return "PointerNull";
    case CAPVET_DIFFERENCE_TRAILING: return "Trailing";
    default: return "Unknown";
  }
}

/** Checks one message as capvet_check_canonical does, and says why it is not canonical.
 *
 *   bytes, length, limits  as for capvet_check_canonical
 *   report                 filled in
 *
 * The answer is always that of capvet_check_canonical, so it can replace that call. The report is the same too, unless
 * the answer is CAPVET_NOT_CANONICAL. Then it is about the first difference: the first pointer in preorder that is not
 * as the canonical form has it, or whose object is not. The root counts too. Up to there all pointers and objects are
 * where the canonical form has them. On CAPVET_NOT_CANONICAL these fields are set, and the others are 0:
 *
 *   - detail: the first of the reasons above that applies there. capvet_difference_name has its name.
 *   - segment, word: the place of the pointer. After CAPVET_DIFFERENCE_TRAILING it is the first word after all
 *     objects, and after CAPVET_DIFFERENCE_SEGMENTS it is word 0 of segment 0.
 *   - pointers: the number of the pointer in preorder, from 1. After CAPVET_DIFFERENCE_TRAILING it is the number of
 *     pointers of the message, and after CAPVET_DIFFERENCE_SEGMENTS it is 0: no pointer was looked at.
 *   - charge, capabilities, depth: those of the whole message, as capvet_check_canonical reports them.
 *   - length, segments, words: those of the frame.
 *
 * capvet_pointer_path with report->pointers has the path to the pointer, but after these two reasons. CAPVET_TRAILING is about
 * bytes after the frame, and CAPVET_DIFFERENCE_TRAILING about words in its segment.
 *
 * Cost: that of capvet_check_canonical. On CAPVET_NOT_CANONICAL another walk follows, up to the pointer. */
CAPVET_CALL((3, 4))
capvet_answer capvet_first_difference(const uint8_t *bytes, size_t length, const capvet_limits *limits,
                                      capvet_report *report) CAPVET_NOEXCEPT;

/* ------------------------------------------------------------------------------------------------------
 * Reading nodes
 * ------------------------------------------------------------------------------------------------------ */

/** The kinds of node. */
enum {
  CAPVET_KIND_NULL = 0,     /**< a null pointer */
  CAPVET_KIND_STRUCT = 1,   /**< a struct */
  CAPVET_KIND_VALUES = 2,   /**< a list of numbers, bits or bytes; Text and Data are lists of bytes */
  CAPVET_KIND_POINTERS = 3, /**< a list of pointers */
  CAPVET_KIND_STRUCTS = 4,  /**< a list of structs */
  CAPVET_KIND_CAPABILITY = 5 /**< a capability */
};

/** A node. Fields that do not apply to its kind are 0. */
typedef struct capvet_node {
  uint32_t kind;        /**< one of the kinds above */
  uint32_t element;     /**< a list: the element's code in the format, 0 to 7 */
  uint32_t count;       /**< a list: how many elements */
  uint32_t data_words;  /**< a struct: its data words; a list of structs: those of each element */
  uint32_t pointers;    /**< a struct: its pointers; a list of structs: those of each element */
  uint32_t capability;  /**< a capability: its index */
  uint64_t offset;      /**< its own bytes, counted from the first byte of the input, table included */
  uint64_t length;      /**< a struct: its data words; a list of values: the values; a list of structs: the
                           elements, each its data words and then its pointers; else 0 */
  uint64_t reserved[2]; /**< 0 */
} capvet_node;

/** The node at a path that is written as text.
 *
 *   bytes, length      the message, as for capvet_vet; it need not have been vetted.
 *   limits             as for capvet_vet
 *   path, path_length  the path, without a final zero byte: strlen(path).
 *   node               filled in on CAPVET_OK, and all 0 otherwise.
 *
 * "/" is the root. "/p0/i7/p2" is the root's pointer 0, its element 7, and that element's pointer 2. The step
 * p leads from a struct to one of its pointers, and i from a list of pointers or structs to an element. Numbers
 * are decimal, without leading zeros. After /p they are at most 65535, after /i at most 4294967295.
 *
 * Returns CAPVET_OK, or CAPVET_NO_NODE if the path leads to nothing. CAPVET_BAD_PATH: not a path, or a greater
 * number.
 *
 * NOTHING AT A PATH IS NOT ALWAYS THE FIELD'S DEFAULT. A null node means the default. CAPVET_NO_NODE means it
 * only if each node before it on the path is null or of the kind that the schema has. Readers also take lists
 * of other kinds, and the sender chooses. libcapnp 0.9.2, 1.1.0 and 1.5.0 read a list of pointers, or of values
 * of 8 to 64 bits, as a list of structs. They read a list of structs as a list of pointers or of values. Paths
 * lead to nothing there: docs/format.md has a table. So get the node of each list first, and refuse another kind. A
 * list of structs has `count` elements of `pointers` pointers each. A field at a greater number has its default
 * in all of them: the sender's schema is older.
 *
 * ONLY THE POINTERS ON THE PATH ARE CHECKED. What is wrong on the path gives the answer that capvet_vet has
 * for it; what is wrong next to the path is not noticed. Their charges count, the root's among them. For a
 * message with a table that capvet_vet accepts with the same limits, every path gives CAPVET_OK or CAPVET_NO_NODE.
 *
 * The bytes of a node are contiguous: bytes + node->offset, node->length of them, inside the frame. Bits after
 * the last value of a list of bits may be anything. On CAPVET_OK and CAPVET_NO_NODE the report has `length`
 * and `segments`. Of a refusal it has the place, and `pointers` counts those on the path up to it.
 *
 * Cost: one step for each step of the path and each segment. */
CAPVET_CALL((3, 6, 7))
capvet_answer capvet_get(const uint8_t *bytes, size_t length, const capvet_limits *limits, const char *path,
                         size_t path_length, capvet_node *node, capvet_report *report) CAPVET_NOEXCEPT;

/** One step of a path, in numbers. */
typedef struct capvet_step {
  uint32_t kind;   /**< CAPVET_STEP_POINTER or CAPVET_STEP_ELEMENT */
  uint32_t number; /**< of the pointer or element, from 0 */
} capvet_step;

#define CAPVET_STEP_POINTER 0u /**< from a struct to one of its pointers */
#define CAPVET_STEP_ELEMENT 1u /**< from a list of pointers or structs to an element */

/** The nodes at a series of paths, such as the elements of a list.
 *
 *   steps, step_count  the first path, of at least one step.
 *   varying            which of its steps varies, from 0.
 *   nodes, node_count  filled in: nodes[k] is at the path with k added to that step's number.
 *   found              how many were filled in.
 *
 * With the steps /p0/i0 and `varying` 1 the nodes are the elements of a list. With /p0/i0/p2 and `varying` 1
 * they are pointer 2 of each element. With `varying` 2 they are the pointers of element 0, from number 2 on.
 *
 * The message and the limits are as for capvet_get. The limits apply to each path by itself. Each node is
 * what capvet_get has for its path, and so is the answer for a path without a node. One answer differs: for a
 * pointer's number above 65535 it is CAPVET_BAD_PATH there, and here that of pointer 65535, which no struct has.
 * Numbers do not wrap: the paths after UINT32_MAX lead to nothing.
 *
 * Returns CAPVET_OK if all nodes were filled in. The limits, the steps and the frame are checked first, also
 * with node_count 0. After these the answer and the report are about the first path without a node.
 * Other answers than CAPVET_NO_NODE: something on it is wrong. Nodes after the first *found are unchanged.
 *
 * CAPVET_NO_NODE does not say that there are no more elements. The path is after the last one or below a null
 * one, the elements have no such pointer, or the list is of another kind. So get the node of the list first, as
 * for capvet_get, and stop at its `count`. To skip a path, add *found + 1 to the step's number, and call again
 * below that.
 *
 * CAPVET_BAD_PATH: report->detail is the index of the first step of an unknown kind. If every kind is known,
 * it is step_count, and `varying` is not less than that.
 *
 * Cost: the steps before the varying one are followed once. For each path come the varying step, the steps
 * after it, and each segment before the one of its node. */
CAPVET_CALL((3, 9, 10))
capvet_answer capvet_get_range(const uint8_t *bytes, size_t length, const capvet_limits *limits,
                               const capvet_step *steps, size_t step_count, size_t varying, capvet_node *nodes,
                               size_t node_count, size_t *found, capvet_report *report) CAPVET_NOEXCEPT;

/** The path to a pointer by its number: which field a refusal is about.
 *
 *   bytes, length      the message
 *   limits             as for capvet_vet
 *   number             of the pointer in preorder; that of the root is 1
 *   steps, step_count  where to write the steps: CAPVET_MAX_DEPTH of them always suffice
 *   required           how many steps the path has; the root's has none
 *
 * If an answer of capvet_vet or capvet_vet_exclusive names a pointer, report->pointers is its number. With the same
 * bytes and limits its path is found then. Written as for capvet_get, the path without its last step leads to the
 * object that has the pointer.
 *
 * Returns CAPVET_NO_NODE if the message has no such pointer, or if a pointer before it cannot be followed or leads
 * past limits->depth. Number 0 is none, and so is one above limits->charge + 1: no answer names it. Otherwise
 * CAPVET_BUFFER_TOO_SMALL or CAPVET_OK. The pointer itself is not followed. CAPVET_ALLOW_NONSTRICT and
 * CAPVET_ALLOW_AMPLIFIED have no effect. On CAPVET_OK the steps after the path are unchanged. The report has
 * `length`, `segments` and `words`.
 *
 * Cost: one walk up to the pointer, so at most `number` steps. */
CAPVET_CALL((3, 7, 8))
capvet_answer capvet_pointer_path(const uint8_t *bytes, size_t length, const capvet_limits *limits, uint64_t number,
                                  capvet_step *steps, size_t step_count, size_t *required,
                                  capvet_report *report) CAPVET_NOEXCEPT;

/** The other pointer of an overlap: the first that uses a word which this one uses too.
 *
 *   bytes, length  the message
 *   limits         as for capvet_vet
 *   number         of a pointer in preorder, as for capvet_pointer_path
 *
 * For CAPVET_OVERLAP, report->pointers is the number of the pointer that overlaps. A pointer uses its landing pads and
 * the words of its object. On CAPVET_OK, report->pointers is the number of the earlier pointer, and report->segment
 * and report->word are its place. capvet_pointer_path gives the path to either.
 *
 * Returns CAPVET_NO_NODE if no pointer before that one uses such a word: a pointer may overlap because it uses a word
 * twice itself, or the root word. CAPVET_NO_NODE also if capvet_pointer_path returns it for this number. The flags have
 * the effect that they have there. The report has `length`, `segments` and `words`, and else only what is said here.
 *
 * Cost: two walks up to the pointer, so at most 2 * `number` steps. */
CAPVET_CALL((3, 5))
capvet_answer capvet_earlier_pointer(const uint8_t *bytes, size_t length, const capvet_limits *limits,
                                     uint64_t number, capvet_report *report) CAPVET_NOEXCEPT;

/** Vets a message as capvet_vet does, and gives the reason of a refusal as lines of text, for a log.
 *
 *   bytes, length, limits, report  as for capvet_vet
 *   text, text_size                where to write the lines: CAPVET_EXPLANATION_BOUND bytes always suffice
 *   required                       their length in bytes; 0 if the message is accepted, and after CAPVET_BAD_LIMITS
 *
 * The answer and the report are always those of capvet_vet, so it can replace that call. If *required is at most
 * text_size, the lines are written, and the bytes after them are unchanged. Otherwise `text` is unchanged.
 *
 * The lines are those that the program's command `explain` writes after the line of the verdict, without the byte in the
 * input. docs/output.md describes them. A path of more than 24 steps is shortened there, and capvet_pointer_path has it
 * whole. With CAPVET_FORM_WORDS, byte 0 of the message is the first byte of the first word.
 * For CAPVET_NO_MESSAGE to CAPVET_TRAILING there is one line, which has the reason as a sentence. Each line begins with
 * two blanks and ends with a line feed. The text is ASCII, and has no zero byte at its end.
 *
 * Overlaps are not looked for. For CAPVET_OVERLAP of capvet_vet_exclusive, capvet_explain_overlap writes the lines.
 *
 * Cost: one walk. For a refused message another one up to the pointer, and a third one for CAPVET_DEPTH_LIMIT or
 * CAPVET_WORD_LIMIT. */
CAPVET_CALL((3, 6, 7))
capvet_answer capvet_explain(const uint8_t *bytes, size_t length, const capvet_limits *limits, char *text,
                             size_t text_size, size_t *required, capvet_report *report) CAPVET_NOEXCEPT;

/** A `text_size` that suffices for every message. */
#define CAPVET_EXPLANATION_BOUND 6144

/** Gives the reason of an overlap as lines of text, for a log.
 *
 *   bytes, length          the message
 *   limits                 as for capvet_vet_exclusive
 *   segment, word, number  report.segment, report.word and report.pointers of its CAPVET_OVERLAP
 *   text, text_size        where to write the lines: CAPVET_OVERLAP_BOUND bytes always suffice
 *   required               their length in bytes
 *
 * The lines are those that the program's command `explain --exclusive` writes after the line of the verdict, without the
 * byte in the input. The last one names the earlier pointer, as capvet_earlier_pointer finds it, and is left out if there
 * is none. Else the form of the text is that of capvet_explain. On CAPVET_OK the bytes after the lines are unchanged.
 *
 * Returns CAPVET_NO_NODE if capvet_pointer_path does for this number, else CAPVET_BUFFER_TOO_SMALL or CAPVET_OK. Whether
 * the pointer overlaps is not looked at, and its place is not compared with the number: a call that vets has them. The
 * flags have the effect that they have there. The report has `length`, `segments` and `words`.
 *
 * Cost: up to four walks up to the pointer, so at most 4 * `number` steps. */
CAPVET_CALL((3, 9, 10))
capvet_answer capvet_explain_overlap(const uint8_t *bytes, size_t length, const capvet_limits *limits, uint32_t segment,
                                     uint32_t word, uint64_t number, char *text, size_t text_size, size_t *required,
                                     capvet_report *report) CAPVET_NOEXCEPT;

/** A `text_size` that suffices for the lines of every overlap. */
#define CAPVET_OVERLAP_BOUND 12288

/* ------------------------------------------------------------------------------------------------------
 * Packing
 * ------------------------------------------------------------------------------------------------------ */

/** Packs words.
 *
 *   bytes, length  the words; they need not be a message
 *   out, out_size  where to write the packed bytes: CAPVET_PACK_BOUND(length) always suffices
 *   required       how many they are
 *
 * Returns CAPVET_TRUNCATED if `length` is not a multiple of 8, else CAPVET_BUFFER_TOO_SMALL or CAPVET_OK.
 * On CAPVET_OK the bytes after the result are unchanged.
 *
 * Cost: proportional to `length`. */
CAPVET_CALL((5))
capvet_answer capvet_pack_words(const uint8_t *bytes, size_t length, uint8_t *out, size_t out_size,
                          size_t *required) CAPVET_NOEXCEPT;

/** The most bytes that packing this many bytes gives. */
#define CAPVET_PACK_BOUND(length) ((length) / UINT64_C(8) * 10)

/** CAPVET_PACK_BOUND, for languages without C macros. It returns SIZE_MAX if the bound is greater. */
size_t capvet_pack_bound(size_t length) CAPVET_NOEXCEPT;

/** Unpacks packed words, all of them.
 *
 *   bytes, length  the packed bytes; the words need not be a message
 *   out, out_size  where to write the words
 *   required       their length in bytes
 *
 * The result can have 1024 times the length of the input. Ask for *required with (NULL, 0). Compare it with your
 * own limit before you allocate. Returns the first that applies: CAPVET_TOO_LARGE if `length` is above
 * 2^53, CAPVET_TRUNCATED if the input ends inside a group, CAPVET_BUFFER_TOO_SMALL, CAPVET_OK. On CAPVET_OK
 * the bytes after the result are unchanged.
 *
 * Cost: proportional to `length`, and to the words that are written. */
CAPVET_CALL((5))
capvet_answer capvet_unpack_words(const uint8_t *bytes, size_t length, uint8_t *out, size_t out_size,
                            size_t *required) CAPVET_NOEXCEPT;

/** Packs one message as libcapnp does.
 *
 *   bytes, length  the frame; with CAPVET_FORM_PREFIX, a buffer that starts with it
 *   limits         only `message_words` and `form` have an effect
 *   out, out_size  where to write the packed bytes: CAPVET_PACK_BOUND(length) always suffices
 *   required       how many they are
 *   report         `length`, `segments` and `words` of the frame, or why there is none
 *
 * Packs the table and each segment by itself, so no run of words goes on from one into the next. Readers such
 * as libcapnp refuse a message with such a run. The result of capvet_pack_words for a whole frame can have one, for
 * example where the table and the first segment meet in zeros. The padding of the table is packed as zero.
 * Checks no pointer.
 *
 * Returns what is wrong with the frame, or CAPVET_TRAILING, else CAPVET_BUFFER_TOO_SMALL or CAPVET_OK. On
 * CAPVET_OK the bytes after the result are unchanged.
 *
 * Cost: proportional to the length of the frame. */
CAPVET_CALL((3, 6, 7))
capvet_answer capvet_pack_message(const uint8_t *bytes, size_t length, const capvet_limits *limits,
                                  uint8_t *out, size_t out_size, size_t *required,
                                  capvet_report *report) CAPVET_NOEXCEPT;

/** The state of unpacking a message of a packed stream. All zero is the start of a stream. */
typedef struct capvet_unpacking {
  uint64_t written;       /**< how many bytes of the current message `out` has; 0 after CAPVET_OK */
  uint32_t zero_words;    /**< words of zeros that the last run still has */
  uint32_t literal_words; /**< unpacked words that the last run still has */
  uint64_t reserved[2];   /**< 0 */
} capvet_unpacking;

/** Unpacks one message of a packed stream, a piece at a time.
 *
 *   bytes, length  packed bytes that have been received and not yet consumed
 *   limits         only `message_words` has an effect
 *   out, out_size  the buffer for the message. Earlier calls wrote its first state->written bytes.
 *   state          all zero at first, then as the last call left it
 *   consumed       set to how many of `bytes` are done with. Drop them before the next call.
 *   required       on CAPVET_OK the length of the frame; on CAPVET_BUFFER_TOO_SMALL the size that `out` needs
 *                  to go on; else 0
 *
 * Appends words to `out` up to the end of the frame, never further. A run of words may go on into the next
 * message: `state` keeps the rest of it. Every packed stream is read, however it was cut into groups. Words
 * that were unpacked stay in `out`, whatever the answer. The bytes after them are unchanged. state->written
 * counts the bytes of these words, but on CAPVET_OK it is 0.
 *
 * Returns
 *
 *   - CAPVET_OK: `out` starts with the frame, of report->length bytes. Vet it. Call again before you receive
 *     more, since `state` and the rest of `bytes` may hold whole messages.
 *   - CAPVET_NO_MESSAGE: no input, and nothing is pending. `length`, state->written and both rests are 0.
 *     report->input_required is 1.
 *   - CAPVET_TRUNCATED: receive more, so that the next input has report->input_required bytes at least (at
 *     most 10). If the connection has ended, the message is cut.
 *   - CAPVET_BUFFER_TOO_SMALL: the next word is there, and `out` has no space for it. Call again with a buffer
 *     of at least *required bytes that keeps the first state->written. *required is 8, then the bytes of the
 *     table, then those of the frame. It is at most CAPVET_FRAME_BOUND(limits->message_words).
 *   - CAPVET_TOO_LARGE, CAPVET_TOO_MANY_SEGMENTS: as for capvet_frame. They end the stream: a later call with
 *     the same limits returns them again.
 *   - CAPVET_BAD_LIMITS: also for a bad state. Its `written` is above `out_size`, is no multiple of 8, or counts
 *     bytes that start with a whole frame within the limits. Or a rest is above 255, both rests are not 0, or a
 *     reserved field is not 0. `state` and `out` are unchanged, and *consumed is 0.
 *
 * No value of `state` makes a call leave its buffers.
 *
 * Cost: proportional to `length` and to the words that are written in this call, and up to three steps for
 * each segment. */
CAPVET_CALL((3, 6, 7, 8, 9))
capvet_answer capvet_unpack_message(const uint8_t *bytes, size_t length, const capvet_limits *limits,
                                    uint8_t *out, size_t out_size, capvet_unpacking *state,
                                    size_t *consumed, size_t *required,
                                    capvet_report *report) CAPVET_NOEXCEPT;

#ifdef __cplusplus
}
#endif
#endif
