// A coroutine that awaits vetted messages, and sends a copy of each one back. It needs C++20, and a libcapnp that is built with
// coroutines, such as 1.5.0.
//
//     export PKG_CONFIG_PATH=PREFIX/lib/pkgconfig
//     c++ -std=c++20 coroutine.cpp $(pkg-config --cflags --libs capvet-kj) -o coroutine
//     ./coroutine 127.0.0.1:0
//
// It prints its port. A message that is not accepted ends its connection, and is said on standard error. So is one that takes
// longer than 20 seconds, a minute without a message, and a copy that nobody reads for a minute. It serves until it is stopped.
// The status is 3 if it can't listen.
#include <capnp/any.h>
#include <capnp/message.h>
#include <capvet/kj.h>
#include <kj/async-io.h>

#include <cstdio>

namespace {

capvet::StreamOptions options() {
  capvet::StreamOptions options(capnp::rpc::twoparty::Side::SERVER);
  options.idle = 1 * kj::MINUTES;
  return options;
}

// Ends when the peer does. It throws if a message is refused.
kj::Promise<void> echo(kj::Own<kj::AsyncIoStream> connection, kj::Timer &timer) {
  capvet::VettingStream stream(*connection, timer, options());
  for (;;) {
    auto read = co_await stream.tryReadMessage();
    KJ_IF_MAYBE(message, read) {
      capnp::MallocMessageBuilder copy;
      copy.setRoot((*message)->getRoot<capnp::AnyPointer>());
      co_await stream.writeMessage(copy);
    } else {
      co_return;
    }
  }
}

// The connections that are open.
class Connections final : private kj::TaskSet::ErrorHandler {
 public:
  explicit Connections(kj::Timer &timer) : timer_(timer) {}

  kj::Promise<void> listen(kj::ConnectionReceiver &listener) {
    for (;;) {
      auto connection = co_await listener.accept();
      tasks_.add(echo(kj::mv(connection), timer_));
    }
  }

 private:
  void taskFailed(kj::Exception &&exception) override { std::fprintf(stderr, "%s\n", exception.getDescription().cStr()); }

  kj::Timer &timer_;
  kj::TaskSet tasks_{*this};
};

}  // namespace

int main(int count, char **words) try {
  if (count != 2) return std::fputs("usage: coroutine ADDRESS\n", stderr), 2;
  auto io = kj::setupAsyncIo();
  auto listener = io.provider->getNetwork().parseAddress(words[1]).wait(io.waitScope)->listen();
  std::printf("%u\n", listener->getPort());
  std::fflush(stdout);
  Connections connections(io.provider->getTimer());
  connections.listen(*listener).wait(io.waitScope);
} catch (const kj::Exception &exception) {
  std::fprintf(stderr, "%s\n", exception.getDescription().cStr());
  return 3;
}
