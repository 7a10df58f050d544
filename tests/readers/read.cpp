// Reads messages by Cap'n Proto's own C++ library, and writes a line for each.
//
//     read FILE
//
// FILE has for each message its traversal limit (8 bytes), its nesting limit and its length in bytes (4 bytes each), the
// lowest byte first, and then its bytes. Each message is read four times by the flat reader and four times by the stream
// reader, each time by a reader of its own under these limits. Then one reader does the four readings, under four times the
// traversal limit:
//
// - `walk` asks each pointer for its kind and then for what it is, a null pointer for every kind, and reads every byte;
// - `upgraded` does so too, and asks for each list but those of bits as a list of structs, as a newer schema may;
// - `size` asks the root for its target size;
// - `copy` makes the canonical copy of a message without capabilities.
//
// The line is 'sum N pointers N caps N', and 'copy HEX' where there are no capabilities; the sum is that of all bytes. Where
// the library throws, the line is 'threw', the reader, the reading, the getter and the exception's text. Where two readings
// differ, it says so.

#include <capnp/serialize.h>
#include <kj/debug.h>
#include <kj/io.h>
#include <stdio.h>

#include <string>

#include "walk.h"

namespace {

struct Message {
  capnp::ReaderOptions limits;
  kj::Array<capnp::word> words;
};

// Does a job on the root of a message, by the flat reader or by the stream reader, under limits for a number of readings.
template <typename Job>
auto read(const Message &message, bool stream, EveryCapability &caps, Job job, uint readings = 1) {
  auto limits = message.limits;
  limits.traversalLimitInWords *= readings;
  now.getter = "constructor";
  if (stream) {
    kj::ArrayInputStream in(message.words.asBytes());
    capnp::InputStreamMessageReader reader(in, limits);
    return job(rootOf(reader, caps));
  }
  capnp::FlatArrayMessageReader reader(message.words, limits);
  return job(rootOf(reader, caps));
}

// The line of a message by one of the readers.
std::string lineBy(const Message &message, bool stream, EveryCapability &caps) {
  now.reader = stream ? "stream" : "flat";
  now.reading = "walk";
  auto walk = read(message, stream, caps, [](auto root) { return walkOf(root, false); });
  now.reading = "upgraded";
  auto upgraded = read(message, stream, caps, [](auto root) { return walkOf(root, true); });
  if (walk.text() != upgraded.text()) return "walk and upgraded differ: " + walk.text() + " | " + upgraded.text();
  now.reading = "size";
  auto size = read(message, stream, caps, [](auto root) { return now.getter = "targetSize", root.targetSize(); });
  if (size.capCount != walk.caps) return "targetSize counts other capabilities";
  now.reading = "copy";
  auto copy = walk.caps > 0 ? "" : " copy " + read(message, stream, caps, copyOf);
  now.reading = "all four";
  auto again = read(message, stream, caps, [&](auto root) {
    auto text = walkOf(root, true).text() == walk.text() ? walkOf(root, false).text() : "differs";
    root.targetSize();
    return walk.caps > 0 ? text : text + " copy " + copyOf(root);
  }, 4);
  return again == walk.text() + copy ? again : "one reader and several differ: " + again;
}

std::string lineOf(const Message &message, EveryCapability &caps) {
  try {
    auto flat = lineBy(message, false, caps);
    auto stream = lineBy(message, true, caps);
    return flat == stream ? flat : "flat and stream differ: " + flat + " | " + stream;
  } catch (const kj::Exception &thrown) {
    return std::string("threw ") + now.reader + " " + now.reading + " " + now.getter + ": " + thrown.getDescription().cStr();
  }
}

bool next(FILE *file, Message &message) {
  uint32_t nesting, length;
  if (fread(&message.limits.traversalLimitInWords, 8, 1, file) != 1) return false;
  if (fread(&nesting, 4, 1, file) != 1 || fread(&length, 4, 1, file) != 1) return false;
  message.limits.nestingLimit = nesting;
  message.words = kj::heapArray<capnp::word>(length / sizeof(capnp::word));
  return fread(message.words.begin(), 1, length, file) == length;
}

}  // namespace

int main(int count, char **words) {
  FILE *file = count == 2 ? fopen(words[1], "rb") : nullptr;
  if (file == nullptr) return fputs("usage: read FILE\n", stderr), 2;
  EveryCapability caps;
  Message message;
  while (next(file, message)) puts(lineOf(message, caps).c_str());
  return 0;
}
