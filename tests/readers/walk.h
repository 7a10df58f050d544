// Reads a whole message by Cap'n Proto's own C++ library, for read.cpp and vetted.cpp.
#ifndef WALK_H
#define WALK_H

#include <capnp/any.h>
#include <capnp/capability.h>
#include <capnp/message.h>
#include <stdint.h>

#include <string>

namespace {

// What is being done, for the line of an exception.
struct {
  const char *reader, *reading, *getter;
} now;

// What the library's own generated code calls.
capnp::_::PointerReader internal(capnp::AnyPointer::Reader pointer) {
  return capnp::_::PointerHelpers<capnp::AnyPointer>::getInternalReader(pointer);
}

// Gives a capability for every index, since a message may name any.
class EveryCapability final : public capnp::_::CapTableReader {
 public:
  kj::Maybe<kj::Own<capnp::ClientHook>> extractCap(uint) override { return cap->addRef(); }

 private:
  // (its constructor registers how the library makes capabilities that are null or broken)
  capnp::ReaderCapabilityTable context{nullptr};
  kj::Own<capnp::ClientHook> cap = capnp::newBrokenCap("for tests");
};

// Counts pointers and capabilities, and adds up all bytes.
class Walk {
 public:
  explicit Walk(bool upgrades) : upgrades(upgrades) {}

  void pointer(capnp::AnyPointer::Reader pointer) {
    pointers++;
    now.getter = "getPointerType";
    switch (pointer.getPointerType()) {
      case capnp::PointerType::NULL_:
        return null(pointer);
      case capnp::PointerType::CAPABILITY:
        caps++;
        now.getter = "getAs<Capability>";
        pointer.getAs<capnp::Capability>();
        return;
      case capnp::PointerType::STRUCT:
        now.getter = "getAs<AnyStruct>";
        return node(pointer.getAs<capnp::AnyStruct>());
      case capnp::PointerType::LIST:
        now.getter = "getAs<AnyList>";
        return list(pointer, pointer.getAs<capnp::AnyList>());
    }
  }

  std::string text() const {
    return "sum " + std::to_string(sum) + " pointers " + std::to_string(pointers) + " caps " + std::to_string(caps);
  }

  uint64_t pointers = 0, caps = 0, sum = 0;

 private:
  // A null pointer is the default of each kind.
  void null(capnp::AnyPointer::Reader pointer) {
    now.getter = "getters of a null pointer";
    pointer.getAs<capnp::AnyStruct>();
    pointer.getAs<capnp::AnyList>();
    pointer.getAs<capnp::List<bool>>();
    pointer.getAs<capnp::Text>();
    pointer.getAs<capnp::Data>();
    pointer.getAs<capnp::Capability>();
  }

  void node(capnp::AnyStruct::Reader node) {
    bytes(node.getDataSection());
    for (auto each : node.getPointerSection()) pointer(each);
  }

  void list(capnp::AnyPointer::Reader pointer, capnp::AnyList::Reader list) {
    auto size = list.getElementSize();
    if (upgrades && size != capnp::ElementSize::BIT) {
      now.getter = "getList(INLINE_COMPOSITE)";
      auto structs = internal(pointer).getList(capnp::ElementSize::INLINE_COMPOSITE, nullptr);
      for (auto each : capnp::List<capnp::AnyStruct>::Reader(structs)) node(each);
    } else if (size == capnp::ElementSize::INLINE_COMPOSITE) {
      for (auto each : list.as<capnp::List<capnp::AnyStruct>>()) node(each);
    } else if (size == capnp::ElementSize::POINTER) {
      for (auto each : list.as<capnp::List<capnp::AnyPointer>>()) this->pointer(each);
    } else if (size == capnp::ElementSize::BYTE) {
      now.getter = "getAs<Data>";
      bytes(pointer.getAs<capnp::Data>());
    } else {
      bytes(list.getRawBytes());
    }
  }

  void bytes(kj::ArrayPtr<const kj::byte> bytes) {
    for (auto each : bytes) sum += each;
  }

  bool upgrades;
};

// The root of a message, with a capability for each index.
capnp::AnyPointer::Reader rootOf(capnp::MessageReader &reader, EveryCapability &caps) {
  now.getter = "getRoot";
  return capnp::AnyPointer::Reader(internal(reader.getRoot<capnp::AnyPointer>()).imbue(&caps));
}

Walk walkOf(capnp::AnyPointer::Reader root, bool upgrades) {
  Walk walk(upgrades);
  walk.pointer(root);
  return walk;
}

std::string hexadecimal(kj::ArrayPtr<const kj::byte> bytes) {
  std::string text;
  for (auto each : bytes) text += "0123456789abcdef"[each >> 4], text += "0123456789abcdef"[each & 15];
  return text;
}

// The canonical copy. The library has a call for a struct only, so a root of another kind is copied into a builder.
std::string copyOf(capnp::AnyPointer::Reader root) {
  now.getter = "canonicalize";
  if (root.isStruct()) return hexadecimal(root.getAs<capnp::AnyStruct>().canonicalize().asBytes());
  now.getter = "setCanonical";
  capnp::MallocMessageBuilder copy(static_cast<uint>(root.targetSize().wordCount + 1));
  copy.initRoot<capnp::AnyPointer>().setCanonical(root);
  return hexadecimal(copy.getSegmentsForOutput()[0].asBytes());
}

}  // namespace
#endif
