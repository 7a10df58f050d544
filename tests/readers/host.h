// Serves the calculator of examples/cpp to connections, in each way to put capvet in front of libcapnp's RPC.
#ifndef HOST_H
#define HOST_H

#include <capnp/rpc-twoparty.h>
#include <capvet/kj-server.h>

#include <cstdio>

#include "calculator.h"

namespace {

// How a connection is vetted: not at all, by a VettingStream of it, by one around another stream of messages, by a
// VettingIoStream under libcapnp's TwoPartyServer, or by capvet::Server.
enum class Way { WITHOUT, WITH, AROUND, BYTES, SERVED };
const char *const NAMES[] = {"without", "with", "around", "bytes", "served"};
const Way ALL[] = {Way::WITHOUT, Way::WITH, Way::AROUND, Way::BYTES, Way::SERVED};
const Way VETTED[] = {Way::WITH, Way::AROUND, Way::BYTES, Way::SERVED};

// A connection to a network of its own.
struct Connection {
  Connection(kj::Own<kj::AsyncIoStream> accepted, capnp::Capability::Client service, Way way,
             kj::Timer &timer, const capvet::StreamOptions &options, capvet::OnEnded onEnded)
      : stream(kj::mv(accepted)),
        messages(streamOf(way, timer, options, kj::mv(onEnded))),
        network(*messages, capnp::rpc::twoparty::Side::SERVER),
        rpc(capnp::makeRpcServer(network, kj::mv(service))) {}

  kj::Own<capnp::MessageStream> streamOf(Way way, kj::Timer &timer, const capvet::StreamOptions &options,
                                         capvet::OnEnded onEnded) {
    if (way == Way::WITH) return kj::heap<capvet::VettingStream>(*stream, timer, options, kj::mv(onEnded));
    auto plain = kj::heap<capnp::AsyncIoMessageStream>(*stream);
    if (way == Way::WITHOUT) return plain;
    auto around = kj::heap<capvet::VettingStream>(*plain, options, kj::mv(onEnded));
    return around.attach(kj::mv(plain));
  }

  kj::Own<kj::AsyncIoStream> stream;
  kj::Own<capnp::MessageStream> messages;
  capnp::TwoPartyVatNetwork network;
  capnp::RpcSystem<capnp::rpc::twoparty::VatId> rpc;
};

// Serves connections, and passes each end on.
class Host final : private kj::TaskSet::ErrorHandler {
 public:
  Host(kj::Timer &timer, capvet::OnEnded onEnded, const capvet::ServerOptions &options = {})
      : timer(timer),
        reported(kj::mv(onEnded)),
        options(options),
        server(service),
        served(service, timer, options, [this](const capvet::Ended &ended) { reported(ended); }),
        tasks(*this) {}

  void serve(kj::Own<kj::AsyncIoStream> stream, Way way) {
    auto onEnded = [this](const capvet::Ended &ended) { reported(ended); };
    if (way == Way::SERVED) return served.serve(kj::mv(stream));
    if (way == Way::BYTES) {
      return server.accept(kj::heap<capvet::VettingIoStream>(kj::mv(stream), timer, options, onEnded));
    }
    auto connection = kj::heap<Connection>(kj::mv(stream), service, way, timer, options, onEnded);
    auto ended = connection->network.onDisconnect();
    tasks.add(ended.attach(kj::mv(connection)));
  }

  // Accepts connections, and goes on after failures.
  kj::Promise<void> listen(kj::ConnectionReceiver &listener, Way way) {
    if (way == Way::SERVED) return served.listen(listener);
    auto accepting = kj::evalNow([&]() { return listener.accept(); });
    return accepting.then([this, way](kj::Own<kj::AsyncIoStream> &&stream) { serve(kj::mv(stream), way); })
        .then([]() -> kj::Promise<void> { return kj::READY_NOW; },
              [this](kj::Exception &&) { return timer.afterDelay(50 * kj::MILLISECONDS); })
        .then([this, &listener, way]() { return listen(listener, way); });
  }

  const capvet::Counters &counters() const { return served.counters(); }

 private:
  void taskFailed(kj::Exception &&exception) override { printf("task: %s\n", exception.getDescription().cStr()); }

  kj::Timer &timer;
  capvet::OnEnded reported;
  capvet::ServerOptions options;
  capnp::Capability::Client service = kj::heap<CalculatorServer>();
  capnp::TwoPartyServer server;
  capvet::Server served;
  kj::TaskSet tasks;
};

}  // namespace
#endif
