/* capvet/kj-message.h: vets messages in memory for libcapnp. Include capvet/kj.h, which says more. */
#ifndef CAPVET_KJ_MESSAGE_H
#define CAPVET_KJ_MESSAGE_H

#include <capnp/message.h>
#include <capnp/serialize.h>
#include <capvet.h>
#include <kj/array.h>
#include <kj/debug.h>
#include <kj/exception.h>
#include <kj/memory.h>
#include <kj/string.h>

#include <algorithm>
#include <cstdint>
#include <cstring>
#include <type_traits>

/* A namespace of each version, so that a program may link parts that were built with different headers. */
#define CAPVET_KJ_PASTE(major, minor, patch) v##major##_##minor##_##patch
#define CAPVET_KJ_JOIN(major, minor, patch) CAPVET_KJ_PASTE(major, minor, patch)
#define CAPVET_KJ_VERSION CAPVET_KJ_JOIN(CAPVET_VERSION_MAJOR, CAPVET_VERSION_MINOR, CAPVET_VERSION_PATCH)

namespace capvet {
inline namespace CAPVET_KJ_VERSION {

/* What is accepted, and how often the program reads it. */
struct Options {
  /* The limits of capvet.h. They say what is accepted, and the function says what the bytes are: a message, or a prefix. So
   * another `form` than CAPVET_FORM_WHOLE is not valid here, and gives CAPVET_BAD_LIMITS. */
  capvet_limits limits = CAPVET_LIMITS_INIT;

  /* The number of times that the program goes through a message. Each time takes up to
   * 3 * report.charge + 2 words of libcapnp's traversal limit. */
  uint32_t readings = 1;

  /* Whether a message that uses a word twice is refused too, with CAPVET_OVERLAP. So a write to one object changes no other.
   * It takes a second walk, and one bit for each word of the message. */
  bool exclusive = false;
};

class Vetted;

/* Why a message isn't canonical: the first pointer in preorder that isn't as the canonical form has it, with its object. */
struct Difference {
  /* A number of capvet.h, such as CAPVET_DIFFERENCE_PLACE, and its name, such as "Place". */
  uint64_t reason = 0;
  kj::StringPtr name = nullptr;

  /* The place of the pointer. After CAPVET_DIFFERENCE_TRAILING it is the first word after all objects, and after
   * CAPVET_DIFFERENCE_SEGMENTS it is word 0 of segment 0. */
  uint32_t segment = 0;
  uint32_t word = 0;

  /* The number of the pointer in preorder, from 1. After CAPVET_DIFFERENCE_TRAILING it is the number of pointers of the message,
   * and after CAPVET_DIFFERENCE_SEGMENTS it is 0. */
  uint64_t pointers = 0;

  /* The path to the pointer, such as "/p0/i7/p2". "/" is the root pointer. It is empty after the two reasons above. */
  kj::String path;
};

/* "not canonical: Place at 0:2", as the program prints it. */
inline kj::String KJ_STRINGIFY(const Difference &difference) {
  return kj::str("not canonical: ", difference.name, " at ", difference.segment, ":", difference.word);
}

/* Why a message was refused. It can't be copied, since the bytes are borrowed: `clone` has its own. */
struct Refusal {
  Refusal() = default;
  KJ_DISALLOW_COPY(Refusal);

  capvet_answer answer = CAPVET_OK;

  /* The report of capvet_vet, or of capvet_vet_segments for a message of another stream of messages. For a frame that is not
   * whole or too large it is that of capvet_frame. */
  capvet_report report = {};

  /* The place of the message in a stream: how many messages and bytes came before it. */
  uint64_t number = 0;
  uint64_t offset = 0;

  /* The bytes of the message that came. A frame that is too large or has too many segments is refused by its first bytes. It is
   * empty for another stream of messages. It is borrowed, from a stream only during `onEnded`. */
  kj::ArrayPtr<const kj::byte> unvetted = nullptr;

  /* The segments of a message of another stream of messages. They are empty for all others. Borrowed as above. */
  kj::ArrayPtr<const capvet_segment> segments = nullptr;

  /* The limits that the message was vetted with. */
  capvet_limits limits = {};

  /* The path to the pointer that is refused, such as "/p0/i7/p2": which field it is. "/" is the root pointer. It is empty if
   * the refusal is about no pointer. It takes one more walk up to the pointer. */
  kj::String path() const;

  /* The path to the first pointer that uses a word which this one uses too: the other pointer after CAPVET_OVERLAP. It is empty
   * if no earlier pointer does. It takes three more walks up to the pointer. */
  kj::String earlierPath() const;

  /* Why it is refused, as lines for a log: the path to the pointer, the pointer word with its fields, where it leads, what is
   * exceeded, and the reason as a sentence. They are those of the program's command `explain`, without the line of the verdict
   * and the byte in the input. Each begins with two blanks and ends with a line feed. For a frame that isn't whole there is
   * one line. For CAPVET_OVERLAP there are the paths to both pointers, their places, and the reason. The bytes of segments are
   * counted as in a frame of them. It is empty after CAPVET_BAD_LIMITS. It vets the message again. */
  kj::String explain() const;

  /* The same with a copy of the bytes or segments, so that it can be kept. */
  kj::Own<const Refusal> clone() const;

 private:
  friend class Vetted;

  // Calls a function with the frame of the message.
  template <typename Take>
  kj::String withFrame(Take take) const;

  // (of an array that was passed on)
  kj::Array<const kj::byte> owned_;
};

/* "refused DepthLimit at 0:7 pointers 3", as `capvet vet` prints it. If the bytes are no frame, or more than one, it has a
 * number in place of a pointer's: that of `report.input_required` or else of `report.detail`. */
inline kj::String KJ_STRINGIFY(const Refusal &refusal) {
  const auto &report = refusal.report;
  kj::StringPtr name = capvet_answer_name(refusal.answer);
  if (refusal.answer < CAPVET_NOT_CANONICAL) {
    return kj::str("refused ", name, " ", report.input_required > 0 ? report.input_required : report.detail);
  }
  return kj::str("refused ", name, " at ", report.segment, ":", report.word, " pointers ", report.pointers);
}

/* The refusal as an exception, with the text above. */
inline kj::Exception exceptionOf(const Refusal &refusal) {
  return kj::Exception(kj::Exception::Type::FAILED, __FILE__, __LINE__, kj::str(refusal));
}

/* The limits for libcapnp to read a message, by the report of capvet_vet. They are never below those that are passed in.
 *
 *   readings  as in Options */
inline capnp::ReaderOptions readerOptions(const capvet_report &report, uint32_t readings = 1,
                                          capnp::ReaderOptions atLeast = capnp::ReaderOptions());

/* What is no part of the interface. */
namespace detail {

/* Whether limits say what the bytes are, which is said by a function here. */
inline bool haveForm(const capvet_limits &limits) {
  return limits.form != CAPVET_FORM_WHOLE;
}

/* These limits for bytes that a message is a prefix of. */
inline capvet_limits ofPrefix(capvet_limits limits) {
  limits.form = CAPVET_FORM_PREFIX;
  return limits;
}

/* Limits within which every accepted message is. */
inline capvet_limits widest() {
  capvet_limits limits = CAPVET_LIMITS_INIT;
  limits.message_words = CAPVET_MAX_MESSAGE_WORDS;
  limits.charge = CAPVET_MAX_CHARGE;
  limits.depth = CAPVET_MAX_DEPTH;
  limits.flags = CAPVET_ALLOW_NONSTRICT | CAPVET_ALLOW_AMPLIFIED;
  return limits;
}

/* The path to a pointer of the message that the bytes start with, by its number. It is empty if there is none. */
inline kj::String pathTo(uint64_t number, kj::ArrayPtr<const kj::byte> bytes, const capvet_limits &vetted) {
  const auto limits = ofPrefix(vetted);
  capvet_step steps[CAPVET_MAX_DEPTH];
  capvet_report report;
  size_t count = 0;
  const auto answer = capvet_pointer_path(bytes.begin(), bytes.size(), &limits, number, steps, CAPVET_MAX_DEPTH, &count,
                                          &report);
  if (answer != CAPVET_OK) return kj::String();
  if (count == 0) return kj::str("/");
  auto texts = KJ_MAP(step, kj::arrayPtr(steps, count)) {
    return kj::str(step.kind == CAPVET_STEP_ELEMENT ? "/i" : "/p", step.number);
  };
  return kj::strArray(texts, "");
}

/* The number and the place of the first pointer that uses a word which the pointer of this number uses too, in the report of a
 * call. `pointers` is 0 if there is none. */
inline capvet_report earlierThan(uint64_t number, kj::ArrayPtr<const kj::byte> bytes, const capvet_limits &vetted) {
  const auto limits = ofPrefix(vetted);
  capvet_report report;
  const auto answer = capvet_earlier_pointer(bytes.begin(), bytes.size(), &limits, number, &report);
  return answer == CAPVET_OK ? report : capvet_report();
}

/* The lines on the message that the bytes start with. They are empty if it is accepted. */
inline kj::String explanationOf(kj::ArrayPtr<const kj::byte> bytes, const capvet_limits &limits) {
  char text[CAPVET_EXPLANATION_BOUND];
  capvet_report report;
  size_t length = 0;
  const auto answer = capvet_explain(bytes.begin(), bytes.size(), &limits, text, sizeof text, &length, &report);
  return answer == CAPVET_OK ? kj::String() : kj::heapString(text, length);
}

/* The lines on an overlap, by the report of it. They are empty for the bytes of another message. */
inline kj::String overlapOf(const capvet_report &overlap, kj::ArrayPtr<const kj::byte> bytes, const capvet_limits &vetted) {
  const auto limits = ofPrefix(vetted);
  auto text = kj::heapArray<char>(CAPVET_OVERLAP_BOUND);
  capvet_report report;
  size_t length = 0;
  const auto answer = capvet_explain_overlap(bytes.begin(), bytes.size(), &limits, overlap.segment, overlap.word,
                                             overlap.pointers, text.begin(), text.size(), &length, &report);
  return answer == CAPVET_OK ? kj::heapString(text.begin(), length) : kj::String();
}

/* Vets as capvet_vet does, or as capvet_vet_exclusive with marks for the words of the message. */
inline capvet_answer vet(kj::ArrayPtr<const kj::byte> bytes, const capvet_limits &limits, bool exclusive,
                         capvet_report &report) {
  if (!exclusive) return capvet_vet(bytes.begin(), bytes.size(), &limits, &report);
  // (bytes that are no whole frame need no marks)
  size_t required = 0;
  const auto whole = capvet_frame(bytes.begin(), bytes.size(), &limits, &report);
  auto marks = kj::heapArray<uint64_t>(whole == CAPVET_OK ? capvet_marks_bound(report.length) : 1);
  return capvet_vet_exclusive(bytes.begin(), bytes.size(), &limits, marks.begin(), marks.size(), &required, &report);
}

/* The frame of separate segments. */
inline kj::Array<capnp::word> frameOf(kj::ArrayPtr<const capvet_segment> segments) {
  auto words = KJ_MAP(segment, segments) {
    return kj::arrayPtr(reinterpret_cast<const capnp::word *>(segment.bytes), segment.length / sizeof(capnp::word));
  };
  return capnp::messageToFlatArray(words);
}

/* The value of a Maybe, or null. Some versions of KJ have KJ_IF_MAYBE for this, and others have KJ_IF_SOME. */
template <typename Type>
std::remove_reference_t<Type> *valueOf(kj::Maybe<Type> &maybe) {
#ifdef KJ_IF_SOME
  KJ_IF_SOME(value, maybe) { return &value; }
#else
  KJ_IF_MAYBE(value, maybe) { return value; }
#endif
  return nullptr;
}
template <typename Type>
const std::remove_reference_t<Type> *valueOf(const kj::Maybe<Type> &maybe) {
#ifdef KJ_IF_SOME
  KJ_IF_SOME(value, maybe) { return &value; }
#else
  KJ_IF_MAYBE(value, maybe) { return value; }
#endif
  return nullptr;
}
template <typename Type>
void valueOf(kj::Maybe<Type> &&) = delete;

}  // namespace detail

inline capnp::ReaderOptions readerOptions(const capvet_report &report, uint32_t readings, capnp::ReaderOptions atLeast) {
  atLeast.traversalLimitInWords = std::max(atLeast.traversalLimitInWords, capvet_reader_words(&report, readings));
  atLeast.nestingLimit = std::max(atLeast.nestingLimit, static_cast<int>(capvet_reader_nesting(&report)));
  return atLeast;
}

template <typename Take>
kj::String Refusal::withFrame(Take take) const {
  if (segments.size() == 0) return take(unvetted);
  // (the calls read a frame)
  const auto frame = detail::frameOf(segments);
  return take(frame.asBytes());
}

inline kj::String Refusal::path() const {
  if (report.pointers == 0) return kj::String();
  return withFrame([this](auto bytes) { return detail::pathTo(report.pointers, bytes, limits); });
}

inline kj::String Refusal::earlierPath() const {
  if (report.pointers == 0) return kj::String();
  return withFrame([this](auto bytes) {
    return detail::pathTo(detail::earlierThan(report.pointers, bytes, limits).pointers, bytes, limits);
  });
}

inline kj::String Refusal::explain() const {
  if (answer == CAPVET_OK || answer == CAPVET_BAD_LIMITS) return kj::String();
  return withFrame([this](auto bytes) {
    return answer == CAPVET_OVERLAP ? detail::overlapOf(report, bytes, limits) : detail::explanationOf(bytes, limits);
  });
}

inline kj::Own<const Refusal> Refusal::clone() const {
  auto copy = kj::heap<Refusal>();
  copy->answer = answer;
  copy->report = report;
  copy->number = number;
  copy->offset = offset;
  copy->limits = limits;
  auto bytes = kj::heapArray<kj::byte>(unvetted);
  // (in words, which a reader's segments are)
  auto parts = KJ_MAP(segment, segments) {
    auto words = kj::heapArray<capnp::word>(segment.length / sizeof(capnp::word));
    if (segment.length > 0) std::memcpy(words.begin(), segment.bytes, segment.length);
    return words;
  };
  auto places = KJ_MAP(part, parts) { return capvet_segment{part.asBytes().begin(), part.asBytes().size()}; };
  copy->unvetted = bytes;
  copy->segments = places;
  return copy.attach(kj::mv(bytes), kj::mv(parts), kj::mv(places));
}

/* Vets the message that the bytes are, and gives a reader over them. If it is refused it throws `exceptionOf` the refusal.
 *
 *   atLeast  limits for libcapnp, which are raised to what the message needs
 *
 * The bytes have to outlive the result. They are copied only if they are at an address that is no multiple of 8. If the
 * sender can still write them, copy them first. */
[[nodiscard]] inline Vetted vetted(kj::ArrayPtr<const kj::byte> bytes, const Options &options = {},
                                   capnp::ReaderOptions atLeast = capnp::ReaderOptions());

/* The same for an array that is passed on, such as a temporary one: the result keeps it. */
template <typename Byte>
[[nodiscard]] Vetted vetted(kj::Array<Byte> &&bytes, const Options &options = {},
                            capnp::ReaderOptions atLeast = capnp::ReaderOptions());

/* The same for the message that the bytes begin with. The next one begins after `bytes().size()` bytes. */
[[nodiscard]] inline Vetted vettedPrefix(kj::ArrayPtr<const kj::byte> bytes, const Options &options = {},
                                         capnp::ReaderOptions atLeast = capnp::ReaderOptions());

/* As `vetted`, and returns nothing if the message is refused.
 *
 *   refusal  filled in if the message is refused. Its bytes are those that are passed in, so it has to be used before them. */
[[nodiscard]] inline kj::Maybe<Vetted> tryVetted(kj::ArrayPtr<const kj::byte> bytes, Refusal &refusal,
                                                 const Options &options = {},
                                                 capnp::ReaderOptions atLeast = capnp::ReaderOptions());

/* The same for an array that is passed on: the result keeps it, or the refusal does. */
template <typename Byte>
[[nodiscard]] kj::Maybe<Vetted> tryVetted(kj::Array<Byte> &&bytes, Refusal &refusal, const Options &options = {},
                                          capnp::ReaderOptions atLeast = capnp::ReaderOptions());

/* As `vettedPrefix`, and returns nothing if the message is refused. The next message begins after `refusal.report.length`
 * bytes then, unless that is 0. */
[[nodiscard]] inline kj::Maybe<Vetted> tryVettedPrefix(kj::ArrayPtr<const kj::byte> bytes, Refusal &refusal,
                                                       const Options &options = {},
                                                       capnp::ReaderOptions atLeast = capnp::ReaderOptions());

/* An accepted message, with a reader over its bytes. Only the functions above make one. */
class Vetted final {
 public:
  capnp::FlatArrayMessageReader &reader() { return *reader_; }

  template <typename Type>
  typename Type::Reader getRoot() {
    return reader_->getRoot<Type>();
  }

  const capvet_report &report() const { return report_; }

  /* The frame that the reader reads: the bytes that were passed in, or their copy. */
  kj::ArrayPtr<const kj::byte> bytes() const { return words_.asBytes(); }

  /* The words to hash or sign: equal content gives equal bytes. It throws if the message has a capability, since there is no
   * canonical form then. */
  kj::Array<kj::byte> canonical() const {
    const auto limits = detail::widest();
    const auto frame = bytes();
    capvet_report report;
    size_t required = 0;
    auto answer = capvet_canonical(frame.begin(), frame.size(), &limits, nullptr, 0, &required, &report);
    KJ_REQUIRE(answer != CAPVET_HAS_CAPABILITY, "capvet: a message with a capability has no canonical form");
    auto form = kj::heapArray<kj::byte>(required);
    answer = capvet_canonical(frame.begin(), frame.size(), &limits, form.begin(), form.size(), &required, &report);
    KJ_ASSERT(answer == CAPVET_OK, "capvet: the bytes of a vetted message have changed");
    return form;
  }

  /* Whether the message is its own canonical form. One with a capability is not. */
  [[nodiscard]] bool isCanonical() const {
    const auto limits = detail::widest();
    const auto frame = bytes();
    capvet_report report;
    return capvet_check_canonical(frame.begin(), frame.size(), &limits, &report) == CAPVET_OK;
  }

  /* Why it isn't: the first difference from its canonical form. Nothing is returned if it is. It takes up to two walks more. */
  kj::Maybe<Difference> firstDifference() const {
    const auto limits = detail::widest();
    const auto frame = bytes();
    capvet_report report;
    if (capvet_first_difference(frame.begin(), frame.size(), &limits, &report) != CAPVET_NOT_CANONICAL) return {};
    Difference difference;
    difference.reason = report.detail;
    difference.name = capvet_difference_name(report.detail);
    difference.segment = report.segment;
    difference.word = report.word;
    difference.pointers = report.pointers;
    if (report.detail != CAPVET_DIFFERENCE_SEGMENTS && report.detail != CAPVET_DIFFERENCE_TRAILING) {
      difference.path = detail::pathTo(report.pointers, frame, limits);
    }
    return kj::mv(difference);
  }

  /* The node at a path such as "/p0/i7". It is in `bytes()`, from its `offset` on. Nothing is returned if nothing is there. It
   * throws if the text is no path. */
  kj::Maybe<capvet_node> get(kj::StringPtr path) const {
    const auto limits = detail::widest();
    const auto frame = bytes();
    capvet_node node;
    capvet_report report;
    const auto answer =
        capvet_get(frame.begin(), frame.size(), &limits, path.begin(), path.size(), &node, &report);
    KJ_REQUIRE(answer != CAPVET_BAD_PATH, "capvet: this is no path", path);
    if (answer != CAPVET_OK) return {};
    return node;
  }

 private:
  friend Vetted vetted(kj::ArrayPtr<const kj::byte>, const Options &, capnp::ReaderOptions);
  friend Vetted vettedPrefix(kj::ArrayPtr<const kj::byte>, const Options &, capnp::ReaderOptions);
  friend kj::Maybe<Vetted> tryVetted(kj::ArrayPtr<const kj::byte>, Refusal &, const Options &, capnp::ReaderOptions);
  friend kj::Maybe<Vetted> tryVettedPrefix(kj::ArrayPtr<const kj::byte>, Refusal &, const Options &, capnp::ReaderOptions);
  template <typename Byte>
  friend Vetted vetted(kj::Array<Byte> &&, const Options &, capnp::ReaderOptions);
  template <typename Byte>
  friend kj::Maybe<Vetted> tryVetted(kj::Array<Byte> &&, Refusal &, const Options &, capnp::ReaderOptions);

  // (the bytes are an accepted frame, and maybe more)
  Vetted(kj::ArrayPtr<const kj::byte> bytes, const capvet_report &report, const Options &options,
         capnp::ReaderOptions atLeast)
      : report_(report), words_(aligned(bytes.begin(), report.length / sizeof(capnp::word))) {
    reader_ = kj::heap<capnp::FlatArrayMessageReader>(words_, readerOptions(report, options.readings, atLeast));
  }

  // Whether these bytes are accepted, by one of the calls.
  static bool isAccepted(kj::ArrayPtr<const kj::byte> bytes, Refusal &refusal, const Options &options, bool isPrefix) {
    const auto limits = isPrefix ? detail::ofPrefix(options.limits) : options.limits;
    refusal.report = {};
    refusal.answer = detail::haveForm(options.limits) ? CAPVET_BAD_LIMITS
                                                      : detail::vet(bytes, limits, options.exclusive, refusal.report);
    refusal.number = refusal.offset = 0;
    refusal.unvetted = isPrefix && refusal.report.length > 0 ? bytes.slice(0, refusal.report.length) : bytes;
    refusal.segments = nullptr;
    refusal.limits = options.limits;
    return refusal.answer == CAPVET_OK;
  }

  static kj::Maybe<Vetted> tryMake(kj::ArrayPtr<const kj::byte> bytes, Refusal &refusal, const Options &options,
                                   capnp::ReaderOptions atLeast, bool isPrefix) {
    if (!isAccepted(bytes, refusal, options, isPrefix)) return {};
    return Vetted(bytes, refusal.report, options, atLeast);
  }

  static kj::Maybe<Vetted> tryKeep(kj::Array<const kj::byte> &&bytes, Refusal &refusal, const Options &options,
                                   capnp::ReaderOptions atLeast) {
    auto found = tryMake(bytes, refusal, options, atLeast, false);
    auto *message = detail::valueOf(found);
    (message != nullptr ? message->owned_ : refusal.owned_) = kj::mv(bytes);
    return found;
  }

  static Vetted make(kj::ArrayPtr<const kj::byte> bytes, const Options &options, capnp::ReaderOptions atLeast,
                     bool isPrefix) {
    Refusal refusal;
    if (!isAccepted(bytes, refusal, options, isPrefix)) kj::throwFatalException(exceptionOf(refusal));
    return Vetted(bytes, refusal.report, options, atLeast);
  }

  // These words where they are, or a copy of them if libcapnp can't read them there.
  kj::ArrayPtr<const capnp::word> aligned(const kj::byte *bytes, size_t length) {
    if (reinterpret_cast<uintptr_t>(bytes) % alignof(capnp::word) == 0) {
      return kj::arrayPtr(reinterpret_cast<const capnp::word *>(bytes), length);
    }
    copy_ = kj::heapArray<capnp::word>(length);
    std::memcpy(copy_.begin(), bytes, length * sizeof(capnp::word));
    return copy_;
  }

  capvet_report report_;
  kj::Array<capnp::word> copy_;
  kj::Array<const kj::byte> owned_;
  kj::ArrayPtr<const capnp::word> words_;
  kj::Own<capnp::FlatArrayMessageReader> reader_;
};

inline Vetted vetted(kj::ArrayPtr<const kj::byte> bytes, const Options &options, capnp::ReaderOptions atLeast) {
  return Vetted::make(bytes, options, atLeast, false);
}

inline Vetted vettedPrefix(kj::ArrayPtr<const kj::byte> bytes, const Options &options, capnp::ReaderOptions atLeast) {
  return Vetted::make(bytes, options, atLeast, true);
}

inline kj::Maybe<Vetted> tryVetted(kj::ArrayPtr<const kj::byte> bytes, Refusal &refusal, const Options &options,
                                   capnp::ReaderOptions atLeast) {
  return Vetted::tryMake(bytes, refusal, options, atLeast, false);
}

inline kj::Maybe<Vetted> tryVettedPrefix(kj::ArrayPtr<const kj::byte> bytes, Refusal &refusal, const Options &options,
                                         capnp::ReaderOptions atLeast) {
  return Vetted::tryMake(bytes, refusal, options, atLeast, true);
}

template <typename Byte>
Vetted vetted(kj::Array<Byte> &&bytes, const Options &options, capnp::ReaderOptions atLeast) {
  auto message = Vetted::make(bytes, options, atLeast, false);
  message.owned_ = kj::mv(bytes);
  return message;
}

template <typename Byte>
kj::Maybe<Vetted> tryVetted(kj::Array<Byte> &&bytes, Refusal &refusal, const Options &options,
                            capnp::ReaderOptions atLeast) {
  return Vetted::tryKeep(kj::mv(bytes), refusal, options, atLeast);
}

/* (a temporary array would be freed before the result) */
template <typename Byte>
Vetted vettedPrefix(kj::Array<Byte> &&bytes, const Options &options = {},
                    capnp::ReaderOptions atLeast = capnp::ReaderOptions()) = delete;

template <typename Byte>
kj::Maybe<Vetted> tryVettedPrefix(kj::Array<Byte> &&bytes, Refusal &refusal, const Options &options = {},
                                  capnp::ReaderOptions atLeast = capnp::ReaderOptions()) = delete;

}  // namespace CAPVET_KJ_VERSION
}  // namespace capvet
#endif
