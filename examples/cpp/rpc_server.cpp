// An RPC server for peers that it doesn't trust: each message is vetted before libcapnp's RPC system sees it.
//
//     export PKG_CONFIG_PATH=PREFIX/lib/pkgconfig
//     capnp compile -oc++ calculator.capnp
//     c++ -std=c++17 rpc_server.cpp calculator.capnp.c++ $(pkg-config --cflags --libs capvet-kj) -o rpc_server
//     ./rpc_server 127.0.0.1:0
//
// It prints its port, and then a line for each connection that it ends, with the peer, the reason, and the path to the
// pointer that is refused. A refused message costs its sender the connection, and no other one. A peer has SECONDS for
// each message, 20 unless it is the second word of the command. It has three times as long to read one, and 10 minutes from
// one message to the next. The server doesn't wait for the reader of its lines: it drops those that don't fit, and counts
// them. It serves until it is stopped. The status is 3 if it can't listen.
#include <capvet/kj-server.h>
#include <kj/async-io.h>
#include <poll.h>
#include <unistd.h>

#include <cstdio>
#include <cstdlib>

#include "calculator.h"

namespace {

// What a peer may send: 1 MiB, as many words of charge, 32 levels.
capvet::ServerOptions optionsFor(long seconds) {
  capvet::ServerOptions options;
  options.limits.message_words = 1 << 17;
  options.limits.charge = 1 << 17;
  options.limits.depth = 32;
  options.deadline = seconds * kj::SECONDS;
  options.unread = 3 * seconds * kj::SECONDS;
  return options;
}

// Prints lines, and never waits for their reader. A line for which there is no space is dropped. The next one that is printed
// says how many were.
class Lines {
 public:
  explicit Lines(int output) : output_(output) {}

  void print(kj::StringPtr line) {
    const auto dropped = dropped_ > 0 ? kj::str(dropped_, " lines were dropped\n") : kj::String();
    const auto text = kj::str(dropped, line, "\n");
    // (KJ ignores SIGPIPE, so a write fails if the reader has ended)
    const bool isPrinted = isReady() && write(output_, text.begin(), text.size()) >= 0;
    dropped_ = isPrinted ? 0 : dropped_ + 1;
  }

 private:
  // Whether there is space for a line. (a pipe that is ready takes 4096 bytes at least, and a line is shorter)
  bool isReady() const {
    pollfd output = {output_, POLLOUT, 0};
    return poll(&output, 1, 0) == 1 && (output.revents & POLLOUT) != 0;
  }

  int output_;
  uint64_t dropped_ = 0;
};

kj::String lineOf(const capvet::Ended &ended) {
  kj::String path;
  KJ_IF_MAYBE(refusal, ended.refusal) { path = refusal->path(); }
  return kj::str(ended.peer, " ", ended, path.size() > 0 ? " path " : "", path);
}

}  // namespace

int main(int count, char **words) try {
  const long seconds = count == 3 ? std::atol(words[2]) : 20;
  if (count < 2 || count > 3 || seconds < 1) return std::fputs("usage: rpc_server ADDRESS [SECONDS]\n", stderr), 2;
  auto io = kj::setupAsyncIo();
  auto listener = io.provider->getNetwork().parseAddress(words[1]).wait(io.waitScope)->listen();
  Lines lines(STDOUT_FILENO), errors(STDERR_FILENO);
  lines.print(kj::str(listener->getPort()));
  auto onEnded = [&lines](const capvet::Ended &ended) { lines.print(lineOf(ended)); };
  auto onError = [&errors](const kj::Exception &exception) { errors.print(exception.getDescription()); };
  capvet::Server server(kj::heap<CalculatorServer>(), io.provider->getTimer(), optionsFor(seconds), onEnded, onError);
  server.listen(*listener).wait(io.waitScope);
} catch (const kj::Exception &exception) {
  std::fprintf(stderr, "%s\n", exception.getDescription().cStr());
  return 3;
}
