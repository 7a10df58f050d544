// Packs messages by Cap'n Proto's own C++ library.
//
//     pack FILE
//
// FILE has for each message the length of its frame (4 bytes, the lowest first) and its frame. For each message the output
// has the length of its packed text, in the same way, and then that text.

#include <capnp/serialize-packed.h>
#include <kj/io.h>
#include <stdint.h>
#include <stdio.h>
#include <string.h>

#include <vector>

int main(int count, char** words) {
  FILE* file = count == 2 ? fopen(words[1], "rb") : nullptr;
  if (file == nullptr) return 2;
  uint32_t length;
  while (fread(&length, 1, sizeof length, file) == sizeof length) {
    // (aligned for the library's words)
    std::vector<uint64_t> frame(length / 8);
    if (fread(frame.data(), 8, frame.size(), file) != frame.size()) return 3;
    std::vector<uint32_t> table(2 * frame.size());
    memcpy(table.data(), frame.data(), 8 * frame.size());
    auto next = reinterpret_cast<const capnp::word*>(frame.data()) + (table[0] + 1) / 2 + 1;
    std::vector<kj::ArrayPtr<const capnp::word>> segments;
    for (uint32_t segment = 0; segment <= table[0]; segment++) {
      segments.push_back(kj::arrayPtr(next, table[1 + segment]));
      next += table[1 + segment];
    }
    kj::VectorOutputStream text;
    capnp::writePackedMessage(text, kj::arrayPtr(segments.data(), segments.size()));
    uint32_t size = text.getArray().size();
    fwrite(&size, 1, sizeof size, stdout);
    fwrite(text.getArray().begin(), 1, size, stdout);
  }
  fclose(file);
  return 0;
}
