/* Fuzz target: the server of kj-server.h. Peers of a few addresses connect to it, one after the other. Each sends some calls of
 * RPC and then the input's bytes. Meanwhile the listener fails, time passes, and calls and writes end, as the input chooses.
 *
 * - A connection is served unless there are as many as a limit allows, of all or of its address. Others are closed at once.
 * - After a failure of the listener it is asked again, a tenth of a second later.
 * - The counters are what was seen. A refusal is reported once, with the peer, and it is that of capvet_frame and capvet_vet.
 * - A peer that has ended, that sends what is refused, that reads nothing or that is idle is gone in time, and no other one is.
 * - The calls of a connection that have no result have no more words than the limit, apart from the last one. */
#include <capnp/rpc.capnp.h>
#include <capvet/kj-server.h>

#include <string>
#include <vector>

#include "peer.h"

namespace {

// What the parameters of a call are that is known to come from here, with the number of the peer.
const uint64_t MARK = UINT64_C(0x5bd1e995) << 32;
// The most peers, and the most calls that each sends.
enum { PEERS = 12, CALLS = 5 };
// The limits of time.
const kj::Duration DEADLINE = 20 * kj::SECONDS, UNREAD_MOST = 60 * kj::SECONDS, IDLE = 10 * kj::MINUTES,
                   PAUSE = 100 * kj::MILLISECONDS;

// The frames of a client that asks for the service and calls it some times.
kj::Array<kj::byte> callsOf(uint64_t peer, uint32_t calls) {
  kj::Vector<kj::byte> frames;
  auto add = [&](capnp::MessageBuilder &message) { frames.addAll(capnp::messageToFlatArray(message).asBytes()); };
  capnp::MallocMessageBuilder first;
  first.initRoot<capnp::rpc::Message>().initBootstrap().setQuestionId(0);
  add(first);
  for (uint32_t at = 1; at <= calls; at++) {
    capnp::MallocMessageBuilder message;
    auto call = message.initRoot<capnp::rpc::Message>().initCall();
    call.setQuestionId(at);
    call.initTarget().initPromisedAnswer().setQuestionId(0);
    auto data = call.initParams().getContent().initAsAnyStruct(1, 0).getDataSection();
    const uint64_t value = MARK | peer;
    memcpy(data.begin(), &value, sizeof value);
    add(message);
  }
  return frames.releaseAsArray();
}

// The words of one of these calls, without its table.
uint64_t wordsOfCall() {
  static const uint64_t words = (callsOf(0, 1).size() - callsOf(0, 0).size()) / sizeof(capnp::word) - 1;
  return words;
}

// A peer, from the time when it connects.
struct Client {
  uint32_t number;
  Address address;
  End end;
  bool reads;
  kj::Array<kj::byte> bytes;
  // How many of its frames are calls that are made here.
  size_t frames = 0;
  Model model;
  // What was seen. The connection is null once it is closed.
  Peer *connection = nullptr;
  bool isServed = false, isUnread = false, isIdle = false;
  kj::TimePoint begin = kj::origin<kj::TimePoint>();
  uint32_t refusals = 0, running = 0;

  // Whether all that libcapnp gets are these calls, so that it has no reason to end the connection.
  bool isKnown() const { return model.accepted.size() <= frames; }

  bool isRefused() const { return model.answer != CAPVET_OK; }
  bool hasAddress() const { return address.kind < Address::LOCAL; }
};

// The service: a call ends when the input chooses.
class Service final : public capnp::Capability::Server {
 public:
  Service(fuzz_input &in, std::vector<kj::Own<Client>> &clients) : in_(in), clients_(clients) {}

  DispatchCallResult dispatchCall(uint64_t, uint16_t, capnp::CallContext<capnp::AnyPointer, capnp::AnyPointer> context) override {
    Client *client = clientOf(context.getParams());
    context.releaseParams();
    if (choose(&in_, 2) == 0) context.allowCancellation();
    if (client == nullptr && choose(&in_, 2) == 0) return {KJ_EXCEPTION(FAILED, "a call that fails"), false};
    if (client != nullptr) client->running++;
    auto onEnded = kj::defer([client]() {
      if (client != nullptr) client->running--;
    });
    auto pair = kj::newPromiseAndFulfiller<void>();
    ends_.push_back(kj::mv(pair.fulfiller));
    return {pair.promise.attach(kj::mv(onEnded)), false};
  }

  // Ends one of the calls, or all.
  void endOne() {
    if (ends_.empty()) return;
    const size_t at = choose(&in_, ends_.size());
    if (choose(&in_, 2) == 0) {
      ends_[at]->fulfill();
    } else {
      ends_[at]->reject(KJ_EXCEPTION(FAILED, "a call that fails"));
    }
    ends_.erase(ends_.begin() + at);
  }
  void endAll() {
    while (!ends_.empty()) endOne();
  }

 private:
  Client *clientOf(capnp::AnyPointer::Reader params) {
    if (!params.isStruct()) return nullptr;
    auto data = params.getAs<capnp::AnyStruct>().getDataSection();
    uint64_t value = 0;
    if (data.size() != sizeof value) return nullptr;
    memcpy(&value, data.begin(), sizeof value);
    // (the bytes of the input may have such a call too)
    const uint64_t number = value & UINT32_MAX;
    return value - number == MARK && number < clients_.size() ? clients_[number].get() : nullptr;
  }

  fuzz_input &in_;
  std::vector<kj::Own<Client>> &clients_;
  std::vector<kj::Own<kj::PromiseFulfiller<void>>> ends_;
};

// Gives connections, and fails at times: by an exception, or by a promise.
class Listener final : public kj::ConnectionReceiver {
 public:
  Listener(fuzz_input &in, kj::Timer &timer) : in_(in), timer_(timer) {}

  kj::Promise<kj::Own<kj::AsyncIoStream>> accept() override {
    RULE(!isAsked() && !isPaused());
    const auto kind = choose(&in_, 12);
    if (kind <= 1) countFailure();
    if (kind == 0) kj::throwRecoverableException(KJ_EXCEPTION(OVERLOADED, "no descriptor"));
    if (kind <= 1) return KJ_EXCEPTION(OVERLOADED, "no descriptor");
    auto pair = kj::newPromiseAndFulfiller<kj::Own<kj::AsyncIoStream>>();
    waiting_ = kj::mv(pair.fulfiller);
    return kj::mv(pair.promise);
  }
  uint getPort() override { return 4000; }

  // Whether the server waits for a connection.
  bool isAsked() { return waiting_.get() != nullptr && waiting_->isWaiting(); }

  void give(kj::Own<kj::AsyncIoStream> connection) { waiting_->fulfill(kj::mv(connection)); }
  void fail() {
    countFailure();
    waiting_->reject(KJ_EXCEPTION(DISCONNECTED, "the connection is gone"));
  }

  // Whether a failure was less than a pause ago.
  bool isPaused() const { return failures > 0 && timer_.now() - failed_ < PAUSE; }

  uint32_t failures = 0;

 private:
  void countFailure() {
    failures++;
    failed_ = timer_.now();
  }

  fuzz_input &in_;
  kj::Timer &timer_;
  kj::TimePoint failed_ = kj::origin<kj::TimePoint>();
  kj::Own<kj::PromiseFulfiller<kj::Own<kj::AsyncIoStream>>> waiting_;
};

// An input on its way through a server.
class Run {
 public:
  explicit Run(const fuzz_input &input) : in(input), listener(in, timer) {
    // (most limits don't say what the bytes are)
    if (choose(&in, 4) != 0 && in.limits.form == CAPVET_FORM_PREFIX) in.limits.form = CAPVET_FORM_WHOLE;
    options.limits = in.limits;
    options.deadline = DEADLINE;
    options.unread = UNREAD_MOST;
    if (choose(&in, 4) == 0) options.paced = false;
    if (choose(&in, 2) == 0) options.connections = uint32_t(choose(&in, 5));
    if (choose(&in, 2) == 0) options.connectionsOfAddress = uint32_t(choose(&in, 4));
    // (libcapnp never reads on after a call where this is 0)
    if (choose(&in, 2) == 0) options.callWords = 1 + choose(&in, 4 * wordsOfCall());
    service = kj::heap<Service>(in, clients);
    serviceHere = service.get();
    isForged = memmem(in.bytes, in.length, reinterpret_cast<const char *>(&MARK) + 4, 4) != nullptr;
  }

  void check() {
    auto failed = kj::runCatchingExceptions([&]() { start(); });
    RULE((valueOf(failed) != nullptr) == isBad(in.limits));
    if (valueOf(failed) != nullptr) return;
    auto listening = server->listen(listener).eagerlyEvaluate(nullptr);
    RULE(!listening.poll(scope));
    for (auto steps = 8 + choose(&in, 40); steps > 0; steps--) {
      step();
      checkState();
    }
    if (choose(&in, 4) != 0) finish();
    // (the connections that are left end with the server)
    listening = nullptr;
    server = nullptr;
    pass(DEADLINE + UNREAD_MOST);
    for (auto &client : clients) RULE(client->connection == nullptr);
  }

 private:
  void start() {
    auto onEnded = [this](const capvet::Ended &ended) { checkEnded(ended); };
    auto onError = [this](const kj::Exception &) { errors++; };
    server = kj::heap<capvet::Server>(kj::mv(service), timer, options, onEnded, onError);
  }

  // What happens next.
  void step() {
    switch (choose(&in, 10)) {
      case 0: pass(choose(&in, 2) == 0 ? DEADLINE : UNREAD_MOST); return;
      case 1: pass(choose(&in, 2) == 0 ? PAUSE / 2 : PAUSE); return;
      case 2: serviceHere->endOne(); break;
      case 3: finishWrites(); break;
      case 4:
        if (listener.isAsked()) listener.fail();
        break;
      default: connect();
    }
    settle();
  }

  void pass(kj::Duration time) {
    timer.advanceTo(timer.now() + time);
    settle();
  }

  // The loop does all that it can.
  void settle() {
    kj::Promise<void> never = kj::NEVER_DONE;
    isDoneNow(never, timer, scope);
  }

  // The peers that read get what was written to them.
  void finishWrites() {
    for (auto &client : clients) {
      if (client->connection != nullptr && client->reads) client->connection->finishWrites();
    }
  }

  // The bytes of a peer: some calls or none, and then those of the input or nothing.
  void fill(Client &client) {
    const auto calls = uint32_t(choose(&in, CALLS + 2));
    auto frames = calls > CALLS ? kj::Array<kj::byte>() : callsOf(client.number, calls);
    client.frames = calls > CALLS ? 0 : 1 + calls;
    const size_t first = frames.size(), length = choose(&in, 4) == 0 ? 0 : in.length;
    client.bytes = kj::heapArray<kj::byte>(first + length);
    std::copy_n(frames.begin(), first, client.bytes.begin());
    std::copy_n(in.bytes, length, client.bytes.begin() + first);
    client.model = modelOf(client.bytes, in.limits);
  }

  void connect() {
    if (!listener.isAsked() || clients.size() == PEERS) return;
    auto client = kj::heap<Client>();
    client->number = uint32_t(clients.size());
    client->address = {Address::Kind(choose(&in, 5)), uint16_t(5000 + client->number)};
    client->end = End(choose(&in, 3));
    client->reads = choose(&in, 3) != 0;
    fill(*client);
    client->isServed = isAllowed(client->address);
    client->begin = timer.now();
    auto peer = kj::heap<Peer>(in, client->bytes, client->end, client->address);
    Client &it = *client;
    it.connection = peer.get();
    clients.push_back(kj::mv(client));
    listener.give(peer.attach(kj::defer([&it]() { it.connection = nullptr; })));
    settle();
    RULE(it.isServed || it.connection == nullptr);
    reached_number(1, it.model.accepted.size());
    reached_answer(0, it.model.answer);
  }

  size_t openOf(int kind) const {
    size_t count = 0;
    for (auto &client : clients) count += client->connection != nullptr && (kind < 0 || client->address.kind == kind);
    return count;
  }

  // Whether a peer of an address may connect now.
  bool isAllowed(Address address) const {
    if (openOf(-1) >= options.connections) return false;
    return address.kind >= Address::LOCAL || openOf(address.kind) < options.connectionsOfAddress;
  }

  void checkEnded(const capvet::Ended &ended) {
    using capvet::Cause;
    const auto cause = ended.cause;
    seen.late += cause == Cause::LATE;
    seen.idle += cause == Cause::IDLE;
    seen.unread += cause == Cause::UNREAD;
    auto *refusal = valueOf(ended.refusal);
    RULE((refusal == nullptr) == (cause == Cause::IDLE || cause == Cause::UNREAD));
    if (refusal != nullptr) seen.refused[refusal->answer]++;
    reached_answer(1 + unsigned(cause), refusal != nullptr ? refusal->answer : CAPVET_OK);
    if (ended.peer.size() == 0) return;
    Client &client = clientOf(ended.peer);
    RULE(client.hasAddress() && client.isServed && client.refusals++ == 0);
    client.isUnread = cause == Cause::UNREAD;
    client.isIdle = cause == Cause::IDLE;
    if (client.isIdle) RULE(client.end == STALLS && !client.isRefused() && timer.now() - client.begin >= IDLE);
    if (refusal != nullptr) RULE(cause == client.model.cause(client.end) && kj::str(ended) == client.model.textOf(client.end));
  }

  // The peer of an address with a port.
  Client &clientOf(kj::StringPtr address) {
    const auto *colon = strrchr(address.cStr(), ':');
    RULE(colon != nullptr);
    const auto number = strtoul(colon + 1, nullptr, 10) - 5000;
    RULE(number < clients.size());
    return *clients[number];
  }

  void checkState() {
    uint64_t served = 0;
    for (auto &client : clients) served += client->isServed;
    const auto &counters = server->counters();
    RULE(counters.accepted == served && counters.turnedAway == clients.size() - served);
    RULE(counters.open == openOf(-1));
    RULE(counters.failedAccepts == listener.failures && errors >= listener.failures);
    RULE(counters.late == seen.late && counters.idle == seen.idle && counters.unread == seen.unread && counters.refused == seen.refused);
    RULE(listener.isAsked() || listener.isPaused());
    if (isForged) return;
    const uint64_t words = wordsOfCall();
    for (auto &client : clients) RULE(client->running * words <= options.callWords + words);
  }

  // All calls and writes end, and time passes. Then just those peers are there that may be.
  void finish() {
    for (int times = 0; times < 4; times++) {
      // (each call may wait for the one before it and for the writing of its result)
      for (int calls = 0; calls < 2 * CALLS + 4; calls++) {
        serviceHere->endAll();
        finishWrites();
        settle();
      }
      pass(times % 2 == 0 ? DEADLINE : UNREAD_MOST);
      checkState();
    }
    for (auto &client : clients) {
      if (client->isServed) checkEnd(*client);
    }
  }

  void checkEnd(const Client &client) {
    // (such a peer may have some time left to read the reason)
    if (client.isIdle) return;
    const bool isIdle = client.end == STALLS && !client.isRefused();
    RULE(isIdle || client.connection == nullptr);
    if (!client.hasAddress() || !client.isKnown()) return;
    RULE(client.refusals == 1 || !client.isRefused());
    if (isIdle) RULE((client.connection == nullptr) == client.isUnread);
  }

  fuzz_input in;
  std::vector<kj::Own<Client>> clients;
  // (the calls that may not be canceled end with the loop)
  kj::EventLoop loop;
  kj::WaitScope scope{loop};
  kj::TimerImpl timer{kj::origin<kj::TimePoint>()};
  capvet::ServerOptions options;
  Listener listener;
  // What was seen, as the server counts it.
  capvet::Counters seen;
  uint32_t errors = 0;
  bool isForged;
  kj::Own<Service> service;
  Service *serviceHere;
  kj::Own<capvet::Server> server;
};

}  // namespace

extern "C" int LLVMFuzzerTestOneInput(const uint8_t *data, size_t size) {
  fuzz_input in;
  if (!fuzz_read(&in, data, size) || in.length > 1 << 16) return 0;
  Quiet quiet;
  kj::heap<Run>(in)->check();
  return 0;
}
