// Writes messages as Cap'n Proto's own C++ library encodes them: a stream of CONTENTS contents, each in 1 to 20 segments.
//
//     encode CONTENTS
//
// A content is a random tree of a fixed seed. It has lists of Void, of empty structs, of values, of pointers and of structs,
// capabilities, null pointers, and orphans: some are adopted later, some never. The library decides about segments by how
// much space each of them gets, so all sizes are tried until there are as many segments as they should be.

#include <capnp/any.h>
#include <capnp/capability.h>
#include <capnp/message.h>
#include <capnp/orphan.h>
#include <capnp/serialize.h>
#include <kj/io.h>
#include <stdlib.h>

#include <random>

namespace {

constexpr uint MOST_SEGMENTS = 20;

// Fills pointers of a message with a random tree. The same seed makes the same calls, whatever space segments have.
class Content {
 public:
  Content(capnp::MessageBuilder &message, uint seed) : orphanage(message.getOrphanage()), random(seed) {}

  void fill(capnp::AnyPointer::Builder pointer, int levels) {
    switch (levels == 0 ? below(2) : below(9)) {
      case 0:
        return values(pointer.initAsAnyList(capnp::ElementSize(below(6)), below(40)));
      case 1:
        return adopt(pointer);
      case 2:
        pointer.initAsListOfAnyStruct(0, 0, below(200));
        return;
      case 3:
        pointer.initAsAnyList(capnp::ElementSize::VOID, below(200));
        return;
      case 4:
        for (auto each : pointer.initAsAnyList(capnp::ElementSize::POINTER, below(6)).as<capnp::List<capnp::AnyPointer>>())
          fill(each, levels - 1);
        return;
      case 5:
        for (auto each : pointer.initAsListOfAnyStruct(below(3), below(3), below(5))) fields(each, levels - 1);
        return;
      case 6:
        pointer.setAs<capnp::Capability>(capnp::Capability::Client(capnp::newBrokenCap("for tests")));
        return;
      default:
        return fields(pointer.initAsAnyStruct(below(4), below(6)), levels - 1);
    }
  }

  // Fills all but a few, and takes some away again: one in three of these is lost, and leaves words that nothing reaches.
  void fields(capnp::AnyStruct::Builder node, int levels) {
    for (auto &each : node.getDataSection()) each = below(4) == 0 ? 0 : below(256);
    for (auto each : node.getPointerSection()) {
      if (below(5) > 0) fill(each, levels);
      if (below(5) == 0) orphans.add(each.disown());
      if (orphans.size() > 0 && below(3) == 0) orphans.removeLast();
    }
  }

 private:
  uint below(uint end) { return random() % end; }

  void values(capnp::AnyList::Builder list) {
    auto bytes = list.asReader().getRawBytes();
    for (auto &each : kj::arrayPtr(const_cast<kj::byte *>(bytes.begin()), bytes.size())) each = below(256);
  }

  // Adopts what was taken away before, or else a text, which is cut to a part of its length.
  void adopt(capnp::AnyPointer::Builder pointer) {
    if (orphans.size() > 0) {
      pointer.adopt(kj::mv(orphans.back()));
      return orphans.removeLast();
    }
    auto text = orphanage.newOrphan<capnp::Data>(below(60));
    for (auto &each : text.get()) each = 'a' + below(26);
    text.truncate(text.get().size() / (1 + below(2)));
    pointer.adopt(kj::mv(text));
  }

  capnp::Orphanage orphanage;
  std::mt19937 random;
  kj::Vector<capnp::Orphan<capnp::AnyPointer>> orphans;
};

kj::Own<capnp::MallocMessageBuilder> encoded(uint seed, uint words) {
  auto message = kj::heap<capnp::MallocMessageBuilder>(words, capnp::AllocationStrategy::FIXED_SIZE);
  capnp::BuilderCapabilityTable caps;
  auto root = caps.imbue(message->initRoot<capnp::AnyPointer>());
  Content content(*message, seed);
  content.fields(root.initAsAnyStruct(2, 6), 4);
  return message;
}

}  // namespace

int main(int count, char **words) {
  if (count != 2) return 2;
  kj::FdOutputStream out(1);
  for (uint seed = 0; seed < strtoul(words[1], nullptr, 10); seed++) {
    uint most = 0;
    for (auto segment : encoded(seed, 1 << 20)->getSegmentsForOutput()) most += segment.size();
    for (uint segments = 1; segments <= MOST_SEGMENTS; segments++) {
      for (uint space = most; space > 0; space--) {
        auto message = encoded(seed, space);
        if (message->getSegmentsForOutput().size() != segments) continue;
        capnp::writeMessage(out, *message);
        break;
      }
    }
  }
  return 0;
}
