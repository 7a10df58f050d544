// What may not compile: each line with a mark has an error with that word, and no other line has one. tests/readers/before_readers.py
// compiles it by each compiler.
#include <capvet/kj-server.h>

namespace faulty {

using capnp::rpc::twoparty::Side;

// Bytes that nobody has vetted.
inline void forge(kj::ArrayPtr<const kj::byte> bytes, const capvet_report &report, const capvet::Options &options) {
  capvet::Vetted forged(bytes, report, options, capnp::ReaderOptions());  // error: private
  capvet::Vetted made = capvet::Vetted::make(bytes, options, capnp::ReaderOptions(), false);  // error: private
  capvet::Vetted empty;  // error: no matching
}

// A verdict that nobody looks at.
inline void ignore(kj::ArrayPtr<const kj::byte> bytes, capvet::Refusal &refusal) {
  capvet::vetted(bytes);  // error: ignoring return value
  capvet::vettedPrefix(bytes);  // error: ignoring return value
  capvet::tryVetted(bytes, refusal);  // error: ignoring return value
  capvet::tryVettedPrefix(bytes, refusal);  // error: ignoring return value
  capvet::vetted(kj::heapArray<kj::byte>(bytes));  // error: ignoring return value
  capvet::tryVetted(kj::heapArray<kj::byte>(bytes), refusal);  // error: ignoring return value
}

inline void ignoreForm(const capvet::Vetted &message) {
  message.isCanonical();  // error: ignoring return value
}

// Bytes that are freed before they are read.
inline void free(kj::ArrayPtr<const kj::byte> bytes) {
  auto message = capvet::vettedPrefix(kj::heapArray<kj::byte>(bytes));  // error: deleted
}

// What is borrowed, for longer than it is there.
inline void keep(const capvet::Ended &ended, const capvet::Refusal &refusal) {
  auto copy = ended;  // error: deleted
  auto other = refusal;  // error: deleted
}

// A connection that was dropped has no answer.
inline bool isOk(const capvet::Ended &ended) {
  return ended.answer == CAPVET_OK;  // error: no member named
}

// Streams without a clock, or without a side.
inline void forget(kj::AsyncIoStream &stream, kj::Own<kj::AsyncIoStream> connection, kj::Timer &timer) {
  capvet::VettingStream one(stream);  // error: no matching
  capvet::VettingStream two(stream, Side::SERVER);  // error: no matching
  capvet::VettingStream three(stream, timer);  // error: no matching
  capvet::VettingIoStream four(kj::mv(connection));  // error: no matching
  capvet::VettingIoStream five(kj::mv(connection), timer);  // error: no matching
  capvet::StreamOptions options;  // error: no matching
}

// Limits of a server that are replaced by others.
inline void replace(capvet::ServerOptions &options, const capvet::StreamOptions &stream, capvet_limits limits) {
  options.messages.limits = limits;  // error: no member named
  options = stream;  // error: no (match|viable)
  capvet::ServerOptions other = stream;  // error: conversion
  capvet::ServerOptions braces{stream};  // error: no matching
}

// What is no part of the interface.
inline void peek(kj::Maybe<int> &maybe, capvet_report &report) {
  capvet::valueOf(maybe);  // error: valueOf
  capvet::Guard *guard;  // error: Guard
  capvet::vet(nullptr, capvet_limits(), true, report);  // error: vet
}

}  // namespace faulty
