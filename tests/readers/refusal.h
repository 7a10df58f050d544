// What test programs print of a refusal, and of the end of a connection.
#ifndef REFUSAL_H
#define REFUSAL_H

#include <capvet/kj.h>

#include <string>

namespace {

// The text, with the path to the pointer if it names one.
[[maybe_unused]] std::string textOf(const capvet::Refusal &refusal) {
  const auto path = refusal.path();
  return kj::str(refusal, path.size() > 0 ? " path " : "", path).cStr();
}

[[maybe_unused]] std::string textOf(const capvet::Ended &ended) {
  auto *refusal = capvet::detail::valueOf(ended.refusal);
  const auto path = refusal != nullptr ? refusal->path() : kj::String();
  return kj::str(ended, path.size() > 0 ? " path " : "", path).cStr();
}

// How many bytes are kept of a message that isn't accepted.
[[maybe_unused]] size_t lengthOf(const capvet::Ended &ended) {
  auto *refusal = capvet::detail::valueOf(ended.refusal);
  return refusal != nullptr ? refusal->unvetted.size() : 0;
}

}  // namespace
#endif
