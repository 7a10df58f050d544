// Reads messages through capvet::vetted, and writes a line for each.
//
//     vetted FILE
//     vetted lines FILE
//
// FILE has for each message its length in bytes (4 bytes, the lowest first), and then its bytes. Each message is put
// at an address that is a multiple of 8, and then at one that isn't. libcapnp gets the limits of the header alone. One
// reader has those for one reading, a `walk`. Another has those for four: `walk`, `upgraded`, `size` and `copy` of
// read.cpp.
//
// With `lines` no word of a message may be used twice, and nothing is read. The line is 'canonical' or 'not canonical', or the text
// of the refusal with the lines that explain it. Each message is vetted in three ways, also as separate segments.
//
// Otherwise the line is the text of the refusal with the path to the pointer, or 'sum N pointers N caps N'. Where the library throws,
// or two readings differ, it says so. Each message is also a prefix of bytes that are no message. An accepted one has the canonical
// form that libcapnp makes, and its root.
#include <capvet/kj.h>
#include <stdio.h>
#include <string.h>

#include <string>
#include <vector>

#include "refusal.h"
#include "walk.h"

namespace {

using capvet::detail::valueOf;

const capnp::ReaderOptions none{0, 0};

// What is wrong with the canonical form, or with the node of the root.
template <typename Root>
std::string contentOf(capvet::Vetted &message, Root root) {
  now.getter = "canonical";
  auto node = message.get("/");
  if (valueOf(node) == nullptr && !root.isNull()) return " without a root";
  std::string form;
  auto thrown = kj::runCatchingExceptions([&]() { form = hexadecimal(message.canonical()); });
  const bool hasCapability = message.report().capabilities > 0;
  if ((valueOf(thrown) != nullptr) != hasCapability) return " with or without a canonical form";
  return hasCapability || form == copyOf(root) ? "" : " with another canonical form";
}

// What the readings of an accepted message find.
std::string readingsOf(capvet::Vetted &&message, bool all, EveryCapability &caps) {
  auto root = rootOf(message.reader(), caps);
  auto text = walkOf(root, false).text();
  if (!all) return text;
  auto upgraded = walkOf(root, true).text();
  if (upgraded != text) return "walk and upgraded differ: " + text + " | " + upgraded;
  now.getter = "targetSize";
  root.targetSize();
  return text + contentOf(message, root);
}

// The line of a message at this address.
std::string lineAt(kj::ArrayPtr<const kj::byte> bytes, uint32_t readings, EveryCapability &caps) try {
  capvet::Options options;
  options.limits.charge = 65536;
  options.readings = readings;
  capvet::Refusal refusal;
  KJ_IF_MAYBE(message, capvet::tryVetted(bytes, refusal, options, none)) {
    return readingsOf(capvet::vetted(bytes, options, none), readings > 1, caps);
  }
  auto exception = kj::runCatchingExceptions([&]() { auto message = capvet::vetted(bytes, options); });
  KJ_IF_MAYBE(thrown, exception) {
    if (thrown->getDescription() == kj::str(refusal)) return textOf(refusal);
  }
  return "tryVetted refuses, and vetted doesn't";
} catch (const kj::Exception &thrown) {
  return std::string("threw ") + now.getter + ": " + thrown.getDescription().cStr();
}

// Whether bytes that have these as a prefix have a message of the same length there, and nothing refused is one. Bytes that go on
// after a message are no message.
bool isPrefix(kj::ArrayPtr<const kj::byte> bytes, const std::string &line) {
  auto longer = kj::heapArray<kj::byte>(bytes.size() + 3);
  memset(longer.begin(), 0, longer.size());
  std::copy(bytes.begin(), bytes.end(), longer.begin());
  capvet::Options options;
  options.limits.charge = 65536;
  capvet::Refusal whole, prefix;
  auto none = capvet::tryVetted(longer.asPtr(), whole, options);
  auto found = capvet::tryVettedPrefix(longer.asPtr(), prefix, options);
  auto thrown = kj::runCatchingExceptions([&]() { auto message = capvet::vettedPrefix(longer.asPtr(), options); });
  auto *message = valueOf(found);
  if (valueOf(none) != nullptr || (message == nullptr) != (valueOf(thrown) != nullptr)) return false;
  if (message == nullptr) return line == textOf(prefix) && prefix.unvetted == bytes;
  return message->bytes() == bytes && kj::str(whole) == "refused Trailing 3" && line.compare(0, 3, "sum") == 0;
}

std::string lineOf(kj::ArrayPtr<const kj::byte> bytes, EveryCapability &caps) {
  // (blocks of just these bytes, so that the compilers' checks see a read after them)
  auto aligned = kj::heapArray<kj::byte>(bytes), shifted = kj::heapArray<kj::byte>(bytes.size() + 1);
  auto other = shifted.slice(1, shifted.size());
  std::copy(bytes.begin(), bytes.end(), other.begin());
  auto line = lineAt(aligned, 1, caps);
  if (!isPrefix(bytes, line)) return "another verdict of a prefix: " + line;
  for (auto again : {lineAt(other, 1, caps), lineAt(aligned, 4, caps), lineAt(other, 4, caps)}) {
    if (again != line) return "two readings differ: " + line + " | " + again;
  }
  return line;
}

// A path as a line has it: of more than 24 steps the first and the last 8.
std::string shown(kj::StringPtr path) {
  const std::string whole = path.cStr();
  std::vector<size_t> steps;
  for (size_t at = 0; at < whole.size(); at++) {
    if (whole[at] == '/') steps.push_back(at);
  }
  if (steps.size() <= 24) return whole;
  return whole.substr(0, steps[8]) + "/.. " + std::to_string(steps.size() - 16) + " steps .." + whole.substr(steps[steps.size() - 8]);
}

// The text of a refusal, with the lines that explain it. A copy that outlives the bytes has the same.
std::string explained(const capvet::Refusal &refusal) {
  const auto lines = refusal.explain();
  if (refusal.clone()->explain() != lines) return "a copy has other lines";
  const auto path = kj::str("  path ", shown(refusal.path()).c_str(), "\n");
  const auto earlier = kj::str("first used by ", shown(refusal.earlierPath()).c_str(), " at ");
  const bool hasPath = refusal.path().size() == 0 || lines.startsWith(path);
  const bool hasEarlier =
      refusal.answer != CAPVET_OVERLAP || refusal.earlierPath().size() == 0 || strstr(lines.cStr(), earlier.cStr()) != nullptr;
  return hasPath && hasEarlier ? kj::str(refusal, "\n", lines).cStr() : "lines without a path";
}

// Whether an accepted message is canonical, and if it isn't, why.
std::string formOf(const capvet::Vetted &message) {
  auto found = message.firstDifference();
  auto *difference = valueOf(found);
  if (message.isCanonical() != (difference == nullptr)) return "the first difference of a canonical message\n";
  if (difference == nullptr) return "canonical\n";
  return kj::str(*difference, " pointers ", difference->pointers, " path ", difference->path, "\n").cStr();
}

// What is said of a message in which no word may be used twice. `tryVetted` gets these bytes.
template <typename Bytes>
std::string saidOf(Bytes &&bytes, const capvet::Options &options) {
  capvet::Refusal refusal;
  auto found = capvet::tryVetted(kj::fwd<Bytes>(bytes), refusal, options);
  auto *message = valueOf(found);
  return message == nullptr ? explained(refusal) : formOf(*message);
}

std::string saidOf(kj::ArrayPtr<const kj::byte> bytes) {
  capvet::Options options;
  options.limits.charge = 65536;
  options.exclusive = true;
  const auto said = saidOf(kj::heapArray<kj::byte>(bytes), options);
  if (saidOf(bytes, options) != said) return "bytes that stay are said to be otherwise\n";
  // (after the same bytes, and with others after them)
  auto twice = kj::heapArray<kj::byte>(2 * bytes.size());
  std::copy(bytes.begin(), bytes.end(), twice.begin());
  std::copy(bytes.begin(), bytes.end(), twice.begin() + bytes.size());
  capvet::Refusal refusal;
  auto found = capvet::tryVettedPrefix(twice.asPtr(), refusal, options);
  auto *message = valueOf(found);
  const auto again = message == nullptr ? explained(refusal) : formOf(*message);
  return again == said ? said : "a prefix is said to be otherwise: " + again;
}

}  // namespace

int main(int count, char **words) {
  const bool hasLines = count == 3 && strcmp(words[1], "lines") == 0;
  FILE *file = count == 2 || hasLines ? fopen(words[count - 1], "rb") : nullptr;
  if (file == nullptr) return fputs("usage: vetted [lines] FILE\n", stderr), 2;
  EveryCapability caps;
  uint32_t length;
  while (fread(&length, 4, 1, file) == 1) {
    auto bytes = kj::heapArray<kj::byte>(length);
    if (fread(bytes.begin(), 1, length, file) != length) return 3;
    if (hasLines) {
      fputs(saidOf(bytes).c_str(), stdout);
    } else {
      puts(lineOf(bytes, caps).c_str());
    }
  }
  fclose(file);
  return 0;
}
