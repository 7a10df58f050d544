// Servers of RPC on loopback, for tests/network/attacks.py.
//
//     served serve WAY SECONDS CONNECTIONS PACED IDLE
//     served frames CALLS ROWS
//
// `serve` serves the calculator of examples/cpp in a way of host.h. A peer has SECONDS for a message and to read one.
// At most CONNECTIONS are open, if the way has a limit. PACED is 0 or 1. IDLE is how many seconds a
// connection may be idle, or 0. The first line is the port. Then there is a line for each refusal: 'refused', the peer, the
// length of the bytes, the text, and the path if there is one. For each line of standard input there is one 'memory', with the
// bytes that are allocated, and 'counters', with those of capvet::Server.
//
// `frames` writes the messages of a client that makes CALLS calls at once: `rows` of ROWS rows, or `add`
// where ROWS is 0.
#include <capnp/rpc.capnp.h>
#include <kj/async-io.h>
#include <malloc.h>
#include <stdio.h>
#include <stdlib.h>

#include <algorithm>
#include <string>

#include "host.h"
#include "refusal.h"

namespace {

void print(const std::string &line) {
  puts(line.c_str());
  fflush(stdout);
}

void printState(const Host &host) {
  const auto info = mallinfo2();
  const auto &seen = host.counters();
  uint64_t refused = 0;
  for (auto &[answer, count] : seen.refused) refused += count;
  print(std::string("memory ") + std::to_string(info.uordblks + info.hblkhd) + " counters " +
        kj::str("accepted ", seen.accepted, " open ", seen.open, " turned away ", seen.turnedAway, " late ", seen.late,
                " idle ", seen.idle, " unread ", seen.unread, " refused ", refused)
            .cStr());
}

// Prints the state for each byte of standard input, until its end.
kj::Promise<void> answer(kj::AsyncInputStream &in, kj::byte *byte, const Host &host) {
  return in.tryRead(byte, 1, 1).then([&in, byte, &host](size_t count) -> kj::Promise<void> {
    if (count == 0) return kj::READY_NOW;
    printState(host);
    return answer(in, byte, host);
  });
}

int serve(const std::string &name, int seconds, uint32_t connections, unsigned paced, int idle) {
  const auto way = std::find(std::begin(NAMES), std::end(NAMES), name) - std::begin(NAMES);
  KJ_REQUIRE(way < std::end(NAMES) - std::begin(NAMES), "no such way");
  auto io = kj::setupAsyncIo();
  capvet::ServerOptions options;
  options.limits.message_words = 1 << 17;
  options.limits.charge = 1 << 17;
  options.limits.depth = 32;
  options.deadline = options.unread = seconds * kj::SECONDS;
  options.idle = idle * kj::SECONDS;
  options.paced = paced > 0;
  options.connections = options.connectionsOfAddress = connections;
  auto reported = [](const capvet::Ended &ended) {
    print(kj::str("refused ", ended.peer, " ", lengthOf(ended), " ", textOf(ended)).cStr());
  };
  Host host(io.provider->getTimer(), reported, options);
  auto listener = io.provider->getNetwork().parseAddress("127.0.0.1").wait(io.waitScope)->listen();
  print(std::to_string(listener->getPort()));
  auto serving = host.listen(*listener, ALL[way]).eagerlyEvaluate([](kj::Exception &&exception) {
    print(std::string("ended ") + exception.getDescription().cStr());
  });
  auto in = io.lowLevelProvider->wrapInputFd(0);
  kj::byte byte;
  answer(*in, &byte, host).wait(io.waitScope);
  return 0;
}

int frames(uint32_t calls, uint32_t rows) {
  kj::FdOutputStream file(1);
  kj::BufferedOutputStreamWrapper out(file);
  capnp::MallocMessageBuilder first;
  first.initRoot<capnp::rpc::Message>().initBootstrap().setQuestionId(0);
  capnp::writeMessage(out, first);
  for (uint32_t at = 1; at <= calls; at++) {
    capnp::MallocMessageBuilder message;
    auto call = message.initRoot<capnp::rpc::Message>().initCall();
    call.setQuestionId(at);
    call.initTarget().initPromisedAnswer().setQuestionId(0);
    call.setInterfaceId(capnp::typeId<Calculator>());
    call.setMethodId(rows > 0 ? 2 : 0);
    auto params = call.initParams().getContent();
    if (rows > 0) {
      params.initAs<Calculator::RowsParams>().setCount(rows);
    } else {
      params.initAs<Calculator::AddParams>().setA(at);
    }
    capnp::writeMessage(out, message);
  }
  return 0;
}

}  // namespace

int main(int count, char **words) {
  const std::string mode = count > 1 ? words[1] : "";
  auto numberOf = [&](int at) { return static_cast<unsigned>(strtoul(words[at], nullptr, 10)); };
  if (mode == "serve" && count == 7) {
    return serve(words[2], static_cast<int>(numberOf(3)), numberOf(4), numberOf(5), static_cast<int>(numberOf(6)));
  }
  if (mode == "frames" && count == 4) return frames(numberOf(2), numberOf(3));
  fputs("usage: served serve WAY SECONDS CONNECTIONS PACED IDLE | frames CALLS ROWS\n", stderr);
  return 2;
}
