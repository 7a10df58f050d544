// A peer that the benchmark times beside capvet: the same jobs by Cap'n Proto's own C++ library.
//
//     peer walk|canon|check|copy|pack|unpack [--packed] [--words N] FILE
//
//     walk    reads every node of each message, and writes a line for it
//     canon   writes the canonical copy of each message, as a message of one segment
//     check   writes for each message whether it is canonical
//     copy    writes the messages as they came
//     pack    writes the messages packed
//     unpack  reads packed messages and writes them plain
//
// With --packed the messages are read packed. N is the library's traversal limit, in words.
// Status: 0 all went well, 1 a message was refused or isn't canonical, 2 the command line is wrong,
// 3 FILE doesn't open.
//
// What differs from capvet's work:
// - walk counts words alone: neither depth nor pointers, and it doesn't report where a message goes wrong.
// - canon doesn't vet the message: it counts the words below the root, for the size of the copy, and copies.
//   Both count against the traversal limit, so N has to be more than twice as large.
// - check stops at the first difference, and never looks at what comes after it.
// - copy follows no pointer, so it refuses no message; `capvet filter` vets each message before it writes it.
// - pack and unpack need framed messages, and take one at a time; capvet copies words, whatever they mean.

#include <capnp/any.h>
#include <capnp/message.h>
#include <capnp/serialize-packed.h>
#include <capnp/serialize.h>
#include <fcntl.h>
#include <kj/debug.h>
#include <kj/io.h>
#include <stdio.h>
#include <stdlib.h>

#include "walk.h"

namespace {

constexpr size_t BUFFER_BYTES = 65536;
constexpr size_t SCRATCH_WORDS = 8192;

void writeCanonical(capnp::MessageReader& message, kj::OutputStream& out) {
  auto root = message.getRoot<capnp::AnyPointer>();
  capnp::MallocMessageBuilder copy(root.targetSize().wordCount + 1);
  copy.initRoot<capnp::AnyPointer>().setCanonical(root);
  capnp::writeMessage(out, copy);
}

// No call of the library returns the count of segments: the number after the last one has no segment.
kj::Vector<kj::ArrayPtr<const capnp::word>> segmentsOf(capnp::MessageReader& message) {
  kj::Vector<kj::ArrayPtr<const capnp::word>> segments;
  for (uint number = 0;; number++) {
    auto segment = message.getSegment(number);
    if (segment.begin() == nullptr) return segments;
    segments.add(segment);
  }
}

// Does a job on one message. False where the message isn't canonical; what is refused is thrown.
bool work(kj::StringPtr job, uint64_t number, capnp::MessageReader& message, kj::OutputStream& out) {
  bool good = true;
  if (job == "walk") {
    auto line = kj::str("message ", number, ": words ", walk(message.getRoot<capnp::AnyPointer>()), "\n");
    out.write(line.begin(), line.size());
  } else if (job == "check") {
    good = message.isCanonical();
    auto line = kj::str("message ", number, good ? ": canonical\n" : ": not canonical\n");
    out.write(line.begin(), line.size());
  } else if (job == "canon") {
    writeCanonical(message, out);
  } else if (job == "pack") {
    capnp::writePackedMessage(out, segmentsOf(message));
  } else {
    capnp::writeMessage(out, segmentsOf(message));
  }
  return good;
}

// Does a job on every message of a file, and gives the status.
int run(kj::StringPtr job, bool packed, capnp::ReaderOptions limits, int file) {
  kj::FdInputStream plainIn(file);
  auto inBuffer = kj::heapArray<kj::byte>(BUFFER_BYTES);
  kj::BufferedInputStreamWrapper in(plainIn, inBuffer);
  kj::FdOutputStream plainOut(1);
  auto outBuffer = kj::heapArray<kj::byte>(BUFFER_BYTES);
  kj::BufferedOutputStreamWrapper out(plainOut, outBuffer);
  auto scratch = kj::heapArray<capnp::word>(SCRATCH_WORDS);
  bool good = true;
  for (uint64_t number = 0; in.tryGetReadBuffer().size() > 0; number++) {
    if (packed) {
      capnp::PackedMessageReader message(in, limits, scratch);
      good &= work(job, number, message, out);
    } else {
      capnp::InputStreamMessageReader message(in, limits, scratch);
      good &= work(job, number, message, out);
    }
  }
  out.flush();
  return good ? 0 : 1;
}

}  // namespace

int main(int count, char** arguments) {
  kj::StringPtr job, name;
  bool packed = false;
  capnp::ReaderOptions limits;
  for (int i = 1; i < count; i++) {
    kj::StringPtr argument = arguments[i];
    if (argument == "--packed") {
      packed = true;
    } else if (argument == "--words" && i + 1 < count) {
      limits.traversalLimitInWords = strtoull(arguments[++i], nullptr, 10);
    } else if (job.size() == 0) {
      job = argument;
    } else {
      name = argument;
    }
  }
  if (job != "walk" && job != "canon" && job != "check" && job != "copy" && job != "pack" && job != "unpack") {
    fputs("usage: peer walk|canon|check|copy|pack|unpack [--packed] [--words N] FILE\n", stderr);
    return 2;
  }
  int file = open(name.cStr(), O_RDONLY);
  if (file < 0) return 3;
  try {
    return run(job, packed || job == "unpack", limits, file);
  } catch (const kj::Exception& refusal) {
    fprintf(stderr, "refused: %s\n", refusal.getDescription().cStr());
    return 1;
  }
}
