// Reads every node below a pointer, by Cap'n Proto's own C++ library.
#ifndef WALK_H
#define WALK_H

#include <capnp/any.h>
#include <kj/debug.h>

inline uint64_t walk(capnp::AnyPointer::Reader pointer);

inline uint64_t walkAll(capnp::List<capnp::AnyPointer>::Reader pointers) {
  uint64_t words = pointers.size();
  for (auto pointer : pointers) words += walk(pointer);
  return words;
}

inline uint64_t walkStruct(capnp::AnyStruct::Reader node) {
  return node.getDataSection().size() / sizeof(capnp::word) + walkAll(node.getPointerSection());
}

inline uint64_t walkList(capnp::AnyList::Reader list) {
  switch (list.getElementSize()) {
    case capnp::ElementSize::POINTER:
      return walkAll(list.as<capnp::List<capnp::AnyPointer>>());
    case capnp::ElementSize::INLINE_COMPOSITE: {
      uint64_t words = 1;
      for (auto node : list.as<capnp::List<capnp::AnyStruct>>()) words += walkStruct(node);
      return words;
    }
    default:
      return (list.getRawBytes().size() + 7) / 8;
  }
}

// Reads every node that a pointer leads to, and counts their words.
inline uint64_t walk(capnp::AnyPointer::Reader pointer) {
  switch (pointer.getPointerType()) {
    case capnp::PointerType::NULL_:
    case capnp::PointerType::CAPABILITY:
      return 0;
    case capnp::PointerType::STRUCT:
      return walkStruct(pointer.getAs<capnp::AnyStruct>());
    case capnp::PointerType::LIST:
      return walkList(pointer.getAs<capnp::AnyList>());
  }
  KJ_UNREACHABLE;
}

#endif
