// Limits of time that only a hang exceeds, for cases that are not about time.
#ifndef PATIENT_H
#define PATIENT_H

#include <kj/time.h>

namespace {

// These options, of a stream or a server, with more time for peers than any case takes.
template <typename Options>
Options patient(Options options) {
  options.deadline = options.idle = options.unread = 30 * kj::MINUTES;
  return options;
}

}  // namespace
#endif
