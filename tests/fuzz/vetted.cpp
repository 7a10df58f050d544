/* Fuzz target: `vetted`, `tryVetted` and the like of kj-message.h. The answer and the report are those of capvet_vet, at any
 * address, borrowed and owned, whole or as a prefix. Each accepted strict message is read by libcapnp under the limits for that message alone, once and
 * four times. Nothing throws, and pointers, capabilities and the canonical form are those of capvet. The path of a refusal leads
 * to its pointer. */
#include <capvet/kj.h>

#include <string>

#include "../readers/walk.h"
#include "fuzz.h"

namespace {

using capvet::detail::valueOf;

const capnp::ReaderOptions NONE{0, 0};

struct Expected {
  capvet_answer answer;
  capvet_report report;
};

bool isEqual(const capvet_report &one, const capvet_report &two) { return memcmp(&one, &two, sizeof one) == 0; }

Expected expectedOf(const fuzz_input &in, kj::ArrayPtr<const kj::byte> bytes) {
  Expected expected = {CAPVET_BAD_LIMITS, {}};
  if (in.limits.form == CAPVET_FORM_WORDS) return expected;
  expected.answer = capvet_vet(bytes.begin(), bytes.size(), &in.limits, &expected.report);
  return expected;
}

// The canonical form, as hexadecimal digits.
std::string formOf(const fuzz_input &in, kj::ArrayPtr<const kj::byte> bytes) {
  capvet_report report;
  size_t required;
  std::string form(2 << 19, 0);
  auto *out = reinterpret_cast<uint8_t *>(&form[0]);
  const auto answer = capvet_canonical(bytes.begin(), bytes.size(), &in.limits, out, form.size(), &required, &report);
  RULE(answer == CAPVET_OK);
  return hexadecimal(kj::arrayPtr(out, required));
}

// Whether common readers take what the limits accept.
bool isStrict(const fuzz_input &in) { return (in.limits.flags & CAPVET_ALLOW_NONSTRICT) == 0; }

// The readings of an accepted message: one, or four.
void read(const fuzz_input &in, capvet::Vetted &message, kj::ArrayPtr<const kj::byte> bytes, bool isAll) {
  static EveryCapability caps;
  auto root = rootOf(message.reader(), caps);
  const auto walk = walkOf(root, false);
  reached_number(1, walk.pointers);
  const auto again = isAll ? walkOf(root, true) : walk;
  if (isAll) root.targetSize();
  const auto copy = isAll && walk.caps == 0 ? copyOf(root) : "";
  // (libcapnp takes a landing pad of zeros for a struct without words, where the format has a null pointer)
  if (!isStrict(in)) return;
  RULE(walk.pointers == message.report().pointers && walk.caps == message.report().capabilities);
  RULE(again.text() == walk.text());
  if (!copy.empty()) RULE(copy == formOf(in, bytes) && copy == hexadecimal(message.canonical()));
}

void readAll(const fuzz_input &in, capvet::Vetted &message, kj::ArrayPtr<const kj::byte> bytes, bool isAll) {
  auto thrown = kj::runCatchingExceptions([&]() { read(in, message, bytes, isAll); });
  if (auto *exception = valueOf(thrown)) {
    if (isStrict(in)) fprintf(stderr, "%s\n", kj::str(*exception).cStr());
    RULE(!isStrict(in));
  }
}

// The path of a refused pointer leads to it, for the call that reads paths. (It may accept the pointer: it reads no others)
void checkPath(const fuzz_input &in, const capvet::Refusal &refusal) {
  if (refusal.answer < CAPVET_NOT_CANONICAL) return;
  const auto path = refusal.path();
  RULE((path.size() == 0) == (refusal.report.pointers == 0));
  if (path.size() == 0) return;
  capvet_node node;
  capvet_report report;
  const auto answer = capvet_get(refusal.unvetted.begin(), refusal.unvetted.size(), &in.limits, path.begin(), path.size(), &node,
                                 &report);
  RULE(answer != CAPVET_BAD_PATH && answer != CAPVET_TRUNCATED);
  if (answer == refusal.answer) RULE(report.segment == refusal.report.segment && report.word == refusal.report.word);
}

// A refusal that is kept says the same, with bytes of its own.
void checkClone(const capvet::Refusal &refusal) {
  auto kept = refusal.clone();
  RULE(kept->unvetted == refusal.unvetted && (kept->unvetted.size() == 0 || kept->unvetted.begin() != refusal.unvetted.begin()));
  RULE(kj::str(*kept) == kj::str(refusal) && kept->path() == refusal.path());
}

// Whether the bytes may go on after the message. Then a function says so, and not the limits.
bool isPrefix(const fuzz_input &in) { return in.limits.form == CAPVET_FORM_PREFIX; }

// The bytes that are borrowed, by both functions.
void checkBorrowed(const fuzz_input &in, const capvet::Options &options, kj::ArrayPtr<const kj::byte> bytes) {
  const auto expected = expectedOf(in, bytes);
  capvet::Refusal refusal;
  auto tried = isPrefix(in) ? capvet::tryVettedPrefix(bytes, refusal, options, NONE)
                            : capvet::tryVetted(bytes, refusal, options, NONE);
  auto *message = valueOf(tried);
  reached_answer(0, refusal.answer);
  RULE(refusal.answer == expected.answer && isEqual(refusal.report, expected.report));
  RULE((message != nullptr) == (expected.answer == CAPVET_OK));
  const size_t length = isPrefix(in) && expected.report.length > 0 ? expected.report.length : bytes.size();
  RULE(refusal.unvetted.begin() == bytes.begin() && refusal.unvetted.size() == length);
  if (message != nullptr) RULE(message->bytes() == bytes.slice(0, length));
  checkClone(refusal);
  checkPath(in, refusal);
  auto thrown = kj::runCatchingExceptions([&]() {
    auto same = isPrefix(in) ? capvet::vettedPrefix(bytes, options, NONE) : capvet::vetted(bytes, options, NONE);
    RULE(isEqual(same.report(), expected.report));
  });
  auto *exception = valueOf(thrown);
  RULE((exception != nullptr) == (expected.answer != CAPVET_OK));
  if (exception != nullptr) RULE(exception->getDescription() == kj::str(refusal));
  if (message != nullptr) readAll(in, *message, bytes.slice(0, expected.report.length), options.readings > 1);
}

// The bytes that are passed on, which the message keeps when it is moved.
void checkOwned(const fuzz_input &in, const capvet::Options &options, kj::ArrayPtr<const kj::byte> bytes) {
  const auto expected = expectedOf(in, bytes);
  capvet::Refusal refusal;
  auto tried = capvet::tryVetted(kj::heapArray<kj::byte>(bytes), refusal, options, NONE);
  RULE(refusal.answer == expected.answer && isEqual(refusal.report, expected.report) && refusal.unvetted == bytes);
  if (refusal.answer != CAPVET_OK) checkPath(in, refusal);
  auto thrown = kj::runCatchingExceptions([&]() {
    auto same = capvet::vetted(kj::heapArray<kj::byte>(bytes), options, NONE);
    auto moved = kj::mv(same);
    readAll(in, moved, bytes.slice(0, expected.report.length), options.readings > 1);
  });
  RULE((valueOf(thrown) != nullptr) == (expected.answer != CAPVET_OK));
  RULE((valueOf(tried) != nullptr) == (expected.answer == CAPVET_OK));
}

}  // namespace

extern "C" int LLVMFuzzerTestOneInput(const uint8_t *data, size_t size) {
  fuzz_input in;
  if (!fuzz_read(&in, data, size) || in.length > 1 << 16) return 0;
  // (a block of just these bytes, so that the compiler's checks see a read after them)
  auto block = kj::heapArray<kj::byte>(in.length + in.slack);
  auto bytes = block.slice(in.slack, block.size());
  std::copy_n(in.bytes, in.length, bytes.begin());
  capvet::Options options;
  options.limits = in.limits;
  if (isPrefix(in)) options.limits.form = CAPVET_FORM_WHOLE;
  options.readings = in.kind % 2 != 0 ? 4 : 1;
  checkBorrowed(in, options, bytes);
  if (!isPrefix(in)) checkOwned(in, options, bytes);
  return 0;
}
