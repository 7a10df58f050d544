/* capvet/kj-server.h: an RPC server for peers that it doesn't trust, over libcapnp.
 *
 *     auto io = kj::setupAsyncIo();
 *     auto listener = io.provider->getNetwork().parseAddress("*", 4000).wait(io.waitScope)->listen();
 *     capvet::Server server(kj::heap<MyServer>(), io.provider->getTimer());
 *     server.listen(*listener).wait(io.waitScope);
 *
 * A peer that sends a message that isn't accepted loses its connection, and no other one. So does a peer that takes too
 * long for a message, or to read one, or that is idle. Without a descriptor for a new connection the server goes on. */
#ifndef CAPVET_KJ_SERVER_H
#define CAPVET_KJ_SERVER_H

#include <capnp/rpc-twoparty.h>
#include <capvet/kj.h>

#include <map>
#include <string>

namespace capvet {
inline namespace CAPVET_KJ_VERSION {

/* What a server accepts, and how many connections. All fields of Options and of StreamOptions are fields of this, with the
 * defaults for a server. */
struct ServerOptions : StreamOptions {
  ServerOptions() : StreamOptions(capnp::rpc::twoparty::Side::SERVER) {}

  /* The most connections that are open at a time, and the most from one address. More are closed at once. Leave some
   * of the descriptors of the process for other purposes. Addresses of IPv6 with the same first 64 bits count as one,
   * since a host often has all of them. An address of IPv4 that is mapped to IPv6 counts as one of IPv4. */
  uint32_t connections = 500;
  uint32_t connectionsOfAddress = 100;

  /* The most words in calls of a connection that have no result yet. Above it no more of its messages are read. Calls
   * that wait for other calls of the same peer need it large (RpcSystem::setFlowLimit). */
  size_t callWords = 1 << 20;

  /* The most file descriptors that are taken of a message. More of them are closed. With 0 none are passed in either
   * direction. Above 0 `listen` takes only connections that can pass them, such as those of sockets. A descriptor stays
   * open as long as the capability that it came with. */
  uint32_t maxFdsPerMessage = 0;
};

/* The counts of a server. */
struct Counters {
  uint64_t accepted = 0;      /* connections that were served */
  uint64_t open = 0;          /* those that are open now */
  uint64_t turnedAway = 0;    /* connections above one of the limits */
  uint64_t failedAccepts = 0; /* failures to accept one, such as for lack of descriptors */
  uint64_t late = 0;          /* connections that ended by `deadline` */
  uint64_t idle = 0;          /* connections that ended by `idle` */
  uint64_t unread = 0;        /* connections that ended by `unread`, without a refused message before */

  /* Refused messages by answer. Those that were cut or late are CAPVET_TRUNCATED. */
  std::map<capvet_answer, uint64_t> refused;
};

/* Serves a capability, or one for each Bootstrap message. It has to outlive the promise of `listen`. */
class Server final : private kj::TaskSet::ErrorHandler {
 public:
  using OnError = detail::Kept<kj::Exception>;
  using BootstrapFactory = capnp::BootstrapFactory<capnp::rpc::twoparty::VatId>;
  using TraceEncoder = detail::Kept<kj::Exception, kj::String>;

  /* Throws if the limits are not valid. Functions are kept as by VettingStream. They are called for all connections, and may
   * not destroy the server.
   *
   *   timer    The clock of the event loop, such as `provider->getTimer()`. It has to outlive the server.
   *   onEnded  It is called for each connection that is ended, with the peer.
   *   onError  It is called if a connection can't be accepted, or fails in another way. */
  Server(capnp::Capability::Client service, kj::Timer &timer, const ServerOptions &options = {},
         OnEnded onEnded = detail::ignore<Ended>, OnError onError = detail::ignore<kj::Exception>)
      : Server(timer, kj::heap<OneService>(kj::mv(service)), options, kj::mv(onEnded), kj::mv(onError)) {}

  /* The same for a factory, which has to outlive the server. It makes the capability for each Bootstrap message. */
  Server(BootstrapFactory &services, kj::Timer &timer, const ServerOptions &options = {},
         OnEnded onEnded = detail::ignore<Ended>, OnError onError = detail::ignore<kj::Exception>)
      : Server(timer, kj::Own<BootstrapFactory>(&services, kj::NullDisposer::instance), options, kj::mv(onEnded),
               kj::mv(onError)) {}
  KJ_DISALLOW_COPY(Server);

  const Counters &counters() const { return counters_; }

  /* Sets a function that writes the trace of an exception, which the peer of the call gets. It is for connections that are
   * served later, and without it no trace is sent (RpcSystem::setTraceEncoder). */
  void setTraceEncoder(TraceEncoder encoder) { traceEncoder_ = kj::mv(encoder); }

  /* Accepts connections, and never ends. After a failure it waits a little. */
  kj::Promise<void> listen(kj::ConnectionReceiver &listener) {
    // (accept() may throw too)
    auto accepting = kj::evalNow([&]() { return listener.accept(); });
    auto onAccepted = [this](kj::Own<kj::AsyncIoStream> &&connection) { serveAccepted(kj::mv(connection)); };
    return accepting.then(kj::mv(onAccepted))
        .then([]() -> kj::Promise<void> { return kj::READY_NOW; },
              [this](kj::Exception &&exception) { return afterFailure(exception); })
        .then([this, &listener]() { return listen(listener); });
  }

  /* Serves a connection, or closes it if there are too many. */
  void serve(kj::Own<kj::AsyncIoStream> connection) { serveWith(kj::mv(connection), nullptr); }

  /* The same for one that passes file descriptors. */
  void serve(kj::Own<kj::AsyncCapabilityStream> connection) {
    auto &files = *connection;
    serveWith(kj::mv(connection), options_.maxFdsPerMessage > 0 ? &files : nullptr);
  }

 private:
  // The same capability for each Bootstrap message.
  struct OneService final : BootstrapFactory {
    explicit OneService(capnp::Capability::Client &&passed) : service(kj::mv(passed)) {}
    capnp::Capability::Client createFor(capnp::rpc::twoparty::VatId::Reader) override { return service; }

    capnp::Capability::Client service;
  };

  // A connection. The stream and the network outlive what uses them.
  struct Connection {
    Connection(Server &owner, kj::Own<kj::AsyncIoStream> accepted, kj::AsyncCapabilityStream *files, const std::string &from)
        : server(owner),
          host(from),
          stream(kj::mv(accepted)),
          vetting(owner.vettingOf(*stream, files)),
          network(vetting, owner.options_.maxFdsPerMessage, capnp::rpc::twoparty::Side::SERVER),
          rpc(capnp::makeRpcServer(network, *owner.services_)) {
      rpc.setFlowLimit(owner.options_.callWords);
      if (detail::valueOf(owner.traceEncoder_) != nullptr) {
        rpc.setTraceEncoder(
            [&owner](const kj::Exception &exception) { return (*detail::valueOf(owner.traceEncoder_))(exception); });
      }
      server.counters_.accepted++;
      server.counters_.open++;
      server.open_[host]++;
    }
    KJ_DISALLOW_COPY(Connection);
    ~Connection() noexcept(false) {
      server.counters_.open--;
      if (--server.open_[host] == 0) server.open_.erase(host);
    }

    Server &server;
    const std::string host;
    kj::Own<kj::AsyncIoStream> stream;
    VettingStream vetting;
    capnp::TwoPartyVatNetwork network;
    capnp::RpcSystem<capnp::rpc::twoparty::VatId> rpc;
  };

  // (in another order than above, where `nullptr` would be a service or an Own)
  Server(kj::Timer &timer, kj::Own<BootstrapFactory> services, const ServerOptions &options, OnEnded onEnded,
         OnError onError)
      : services_(kj::mv(services)),
        timer_(timer),
        options_(options),
        onEnded_(kj::mv(onEnded)),
        onError_(kj::mv(onError)),
        tasks_(*this) {
    detail::requireValid(options.limits);
  }

  void serveAccepted(kj::Own<kj::AsyncIoStream> connection) {
    if (options_.maxFdsPerMessage == 0) return serve(kj::mv(connection));
    auto files = kj::dynamicDowncastIfAvailable<kj::AsyncCapabilityStream>(*connection);
    KJ_REQUIRE(detail::valueOf(files) != nullptr, "capvet: this connection can't pass file descriptors");
    serveWith(kj::mv(connection), detail::valueOf(files));
  }

  // (`files` is the same connection, or null)
  void serveWith(kj::Own<kj::AsyncIoStream> connection, kj::AsyncCapabilityStream *files) {
    const std::string host = hostOf(detail::addressOf(*connection));
    if (counters_.open >= options_.connections || isFull(host)) {
      counters_.turnedAway++;
      return;
    }
    auto served = kj::heap<Connection>(*this, kj::mv(connection), files, host);
    auto ended = served->network.onDisconnect();
    tasks_.add(ended.attach(kj::mv(served)));
  }

  VettingStream vettingOf(kj::AsyncIoStream &stream, kj::AsyncCapabilityStream *files) {
    auto onEnded = [this](const Ended &ended) { count(ended); };
    if (files == nullptr) return VettingStream(stream, timer_, options_, onEnded);
    return VettingStream(*files, timer_, options_, onEnded);
  }

  // The bytes of what counts as one address: all of one of IPv4, and 64 bits of one of IPv6. (It is empty for others)
  static std::string hostOf(const sockaddr_storage &address) {
    if (address.ss_family == AF_INET) {
      const auto &four = reinterpret_cast<const sockaddr_in &>(address).sin_addr;
      return {reinterpret_cast<const char *>(&four), sizeof four};
    }
    if (address.ss_family != AF_INET6) return {};
    const auto &six = reinterpret_cast<const sockaddr_in6 &>(address).sin6_addr;
    const auto *bytes = reinterpret_cast<const char *>(&six);
    // (a socket of IPv6 has peers of IPv4 too)
    return IN6_IS_ADDR_V4MAPPED(&six) ? std::string(bytes + 12, 4) : std::string(bytes, 8);
  }

  bool isFull(const std::string &host) const {
    const auto found = open_.find(host);
    const uint32_t open = found == open_.end() ? 0 : found->second;
    return !host.empty() && open >= options_.connectionsOfAddress;
  }

  void count(const Ended &ended) {
    counters_.late += ended.cause == Cause::LATE;
    counters_.idle += ended.cause == Cause::IDLE;
    counters_.unread += ended.cause == Cause::UNREAD;
    if (auto *refusal = detail::valueOf(ended.refusal)) counters_.refused[refusal->answer]++;
    onEnded_(ended);
  }

  kj::Promise<void> afterFailure(const kj::Exception &exception) {
    counters_.failedAccepts++;
    onError_(exception);
    return timer_.afterDelay(100 * kj::MILLISECONDS);
  }

  void taskFailed(kj::Exception &&exception) override { onError_(exception); }

  kj::Own<BootstrapFactory> services_;
  kj::Timer &timer_;
  const ServerOptions options_;
  OnEnded onEnded_;
  OnError onError_;
  kj::Maybe<TraceEncoder> traceEncoder_;
  Counters counters_;
  std::map<std::string, uint32_t> open_;
  // (destroyed first: connections use the rest)
  kj::TaskSet tasks_;
};

}  // namespace CAPVET_KJ_VERSION
}  // namespace capvet
#endif
