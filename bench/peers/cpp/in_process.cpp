// Times the calls of capvet.h beside Cap'n Proto's own C++ library, in one process and over the same mapped file.
//
//     in_process ROUNDS FILE..
//
// Each round does each job once over all messages of a file, in turn, so that a busy machine slows them alike. The jobs
// that copy have rounds of their own, since copies of large messages leave the caches cold. The time of a job is the
// least processor time of its rounds, in nanoseconds a message. Each ratio is capvet's time over that of the library.
// `walk` is a FlatArrayMessageReader and a full walk. `isCanonical` stops at the first difference, and never looks at
// what comes after it. `canonicalize` allocates each copy, and `capvet_canonical` writes all copies into one buffer.
// `canonicalize` needs a struct as the root: where the root of the first message is none, that pair is left out. Both
// jobs of a pair have to say yes to as many messages, or the status is 1.
#include <capnp/any.h>
#include <capnp/message.h>
#include <capnp/serialize.h>
#include <capvet.h>
#include <fcntl.h>
#include <kj/exception.h>
#include <stdio.h>
#include <stdlib.h>
#include <string.h>
#include <sys/mman.h>
#include <sys/stat.h>
#include <time.h>
#include <unistd.h>

#include <algorithm>
#include <vector>

#include "walk.h"

namespace {

using Message = kj::ArrayPtr<const capnp::word>;

// The calls are timed without flags, as a service makes them.
const capvet_limits LIMITS = {CAPVET_MAX_MESSAGE_WORDS, CAPVET_MAX_CHARGE, 64, 0, CAPVET_FORM_WHOLE, 0, {0, 0, 0, 0, 0, 0}};

// The words that were walked are kept here, so that no walk is left out.
volatile uint64_t walked;

double now() {
  timespec time;
  clock_gettime(CLOCK_PROCESS_CPUTIME_ID, &time);
  return time.tv_sec * 1e9 + time.tv_nsec;
}

// Every message of a file, by the lengths of their frames. They stay where they are mapped.
std::vector<Message> messagesOf(const char *name) {
  std::vector<Message> messages;
  struct stat about;
  int file = open(name, O_RDONLY);
  if (file < 0 || fstat(file, &about) != 0) return messages;
  size_t length = about.st_size, at = 0;
  void *mapped = mmap(nullptr, length, PROT_READ, MAP_PRIVATE | MAP_POPULATE, file, 0);
  close(file);
  if (mapped == MAP_FAILED) return messages;
  auto *bytes = static_cast<const uint8_t *>(mapped);
  capvet_report report;
  while (at < length && capvet_frame(bytes + at, length - at, &LIMITS, &report) == CAPVET_OK) {
    messages.push_back({reinterpret_cast<const capnp::word *>(bytes + at), report.length / sizeof(capnp::word)});
    at += report.length;
  }
  return messages;
}

// How many of the messages the library says yes to, by a function of a reader.
template <typename Job>
size_t byLibrary(const std::vector<Message> &messages, Job job) {
  capnp::ReaderOptions options;
  options.traversalLimitInWords = LIMITS.charge;
  options.nestingLimit = LIMITS.depth;
  size_t good = 0;
  for (auto message : messages) {
    try {
      capnp::FlatArrayMessageReader reader(message, options);
      good += job(reader);
    } catch (const kj::Exception &) {
    }
  }
  return good;
}

bool isWalked(capnp::MessageReader &reader) {
  walked = walk(reader.getRoot<capnp::AnyPointer>());
  return true;
}

bool isCanonical(capnp::MessageReader &reader) { return reader.isCanonical(); }

bool isCopied(capnp::MessageReader &reader) {
  walked = reader.getRoot<capnp::AnyStruct>().canonicalize().size();
  return true;
}

bool isStruct(capnp::MessageReader &reader) {
  return reader.getRoot<capnp::AnyPointer>().getPointerType() == capnp::PointerType::STRUCT;
}

// How many of them a call of capvet.h says yes to.
template <typename Call>
size_t byCall(const std::vector<Message> &messages, Call call) {
  size_t good = 0;
  for (auto message : messages) {
    capvet_report report;
    auto bytes = message.asBytes();
    good += call(bytes.begin(), bytes.size(), &LIMITS, &report) == CAPVET_OK;
  }
  return good;
}

// The least time of a job, and how many messages it says yes to.
struct Timed {
  double least = 1e18;
  size_t good = 0;

  template <typename Job>
  void run(Job job) {
    double start = now();
    good = job();
    least = std::min(least, now() - start);
  }
};

// The library's job, and the call that does the same.
struct Pair {
  Timed theirs, ours;

  // Writes its columns. False where the answers differ.
  bool print(double count) const {
    printf(" %13.1f %13.1f %6.2f", theirs.least / count, ours.least / count, ours.least / theirs.least);
    return theirs.good == ours.good;
  }
};

// Times a file, and writes its line. False where it has no messages, or the answers differ.
bool time(const char *name, int rounds) {
  auto messages = messagesOf(name);
  if (messages.empty()) return fprintf(stderr, "in_process: no messages in %s\n", name), false;
  size_t most = 0;
  for (auto message : messages) most = std::max(most, message.asBytes().size());
  std::vector<uint8_t> out(most);
  auto copy = [&](const uint8_t *bytes, size_t length, const capvet_limits *limits, capvet_report *report) {
    size_t required;
    return capvet_canonical(bytes, length, limits, out.data(), out.size(), &required, report);
  };
  bool copies = byLibrary({messages[0]}, isStruct) == 1;
  Pair walks, checks, canons;
  for (int round = 0; round < rounds; round++) {
    walks.theirs.run([&] { return byLibrary(messages, isWalked); });
    walks.ours.run([&] { return byCall(messages, capvet_vet); });
    checks.theirs.run([&] { return byLibrary(messages, isCanonical); });
    checks.ours.run([&] { return byCall(messages, capvet_check_canonical); });
  }
  for (int round = 0; copies && round < rounds; round++) {
    canons.theirs.run([&] { return byLibrary(messages, isCopied); });
    canons.ours.run([&] { return byCall(messages, copy); });
  }
  const char *slash = strrchr(name, '/');
  printf("%-10s %8zu", slash ? slash + 1 : name, messages.size());
  bool good = walks.print(messages.size());
  good &= checks.print(messages.size());
  if (copies) good &= canons.print(messages.size());
  putchar('\n');
  if (!good) fprintf(stderr, "in_process: the answers to %s differ\n", name);
  return good;
}

}  // namespace

int main(int count, char **words) {
  int rounds = count > 2 ? atoi(words[1]) : 0;
  if (rounds < 1) return fputs("usage: in_process ROUNDS FILE..\n", stderr), 2;
  printf("%-10s %8s %13s %13s %6s %13s %13s %6s %13s %13s %6s\n", "input", "messages", "C++ walk", "capvet_vet", "ratio",
         "isCanonical", "is_canonical", "ratio", "canonicalize", "canonical", "ratio");
  bool good = true;
  for (int at = 2; at < count; at++) good &= time(words[at], rounds);
  return good ? 0 : 1;
}
