// capvet::Server in process: what it passes to libcapnp. Each line is a case and what it shows.
//
//     server SOCKET
//
// SOCKET is the path of a Unix socket that is made.
#include <capnp/rpc-twoparty.h>
#include <capnp/rpc.capnp.h>
#include <capvet/kj-server.h>
#include <stdio.h>

#include <string>

#include "service.capnp.h"

namespace {

using Side = capnp::rpc::twoparty::Side;
using capvet::detail::valueOf;

class Numbered final : public Service::Server {
 public:
  explicit Numbered(uint32_t number) : number_(number) {}

 protected:
  kj::Promise<void> number(NumberContext context) override {
    context.getResults().setNumber(number_);
    return kj::READY_NOW;
  }
  kj::Promise<void> isFile(IsFileContext context) override {
    return context.getParams().getCapability().getFd().then([context](kj::Maybe<int> &&file) mutable {
      context.getResults().setIsFile(valueOf(file) != nullptr);
    });
  }
  kj::Promise<void> wait(WaitContext) override { return kj::NEVER_DONE; }
  kj::Promise<void> fail(FailContext) override { return KJ_EXCEPTION(FAILED, "this call fails"); }

 private:
  uint32_t number_;
};

// An object with a file descriptor.
class File final : public Service::Server {
 public:
  kj::Maybe<int> getFd() override { return 1; }
};

// Makes an object for each Bootstrap message, and fails to make the first `failures` ones.
class Factory final : public capvet::Server::BootstrapFactory {
 public:
  explicit Factory(uint32_t failures) : failures_(failures) {}

  capnp::Capability::Client createFor(capnp::rpc::twoparty::VatId::Reader) override {
    made++;
    KJ_REQUIRE(made > failures_, "no service yet");
    return kj::heap<Numbered>(made);
  }

  uint32_t made = 0;

 private:
  uint32_t failures_;
};

// A client without vetting.
class Client {
 public:
  explicit Client(kj::Own<kj::AsyncCapabilityStream> passed)
      : stream(kj::mv(passed)), network(*stream, 4, Side::CLIENT), rpc(capnp::makeRpcClient(network)) {}

  Service::Client bootstrap() {
    capnp::MallocMessageBuilder space;
    auto id = space.initRoot<capnp::rpc::twoparty::VatId>();
    id.setSide(Side::SERVER);
    return rpc.bootstrap(id).castAs<Service>();
  }

 private:
  kj::Own<kj::AsyncCapabilityStream> stream;
  capnp::TwoPartyVatNetwork network;
  capnp::RpcSystem<capnp::rpc::twoparty::VatId> rpc;
};

// A client of a server, by a pair of sockets.
kj::Own<Client> connected(kj::AsyncIoContext &io, capvet::Server &server) {
  auto pipe = io.provider->newCapabilityPipe();
  server.serve(kj::mv(pipe.ends[0]));
  return kj::heap<Client>(kj::mv(pipe.ends[1]));
}

std::string numberOf(kj::AsyncIoContext &io, Service::Client service) {
  std::string text;
  auto failed = kj::runCatchingExceptions([&]() {
    text = std::to_string(service.numberRequest().send().wait(io.waitScope).getNumber());
  });
  auto *exception = valueOf(failed);
  return exception == nullptr ? text : exception->getDescription().cStr();
}

std::string made(kj::AsyncIoContext &io) {
  Factory factory(0);
  capvet::Server server(factory, io.provider->getTimer());
  auto first = connected(io, server), second = connected(io, server);
  auto text = numberOf(io, first->bootstrap());
  text += ", " + numberOf(io, second->bootstrap());
  text += ", " + numberOf(io, first->bootstrap());
  return text + "; " + std::to_string(factory.made) + " made";
}

// The connection of a Bootstrap message for which there is no object ends, and no other one.
std::string notMade(kj::AsyncIoContext &io) {
  Factory factory(1);
  capvet::Server server(factory, io.provider->getTimer());
  auto first = connected(io, server), second = connected(io, server);
  const bool isMade = numberOf(io, first->bootstrap()) == "1";
  return std::string(isMade ? "made" : "not made") + "; " + numberOf(io, second->bootstrap());
}

// The trace that a peer gets of a failed call, before and after there is an encoder.
std::string traces(kj::AsyncIoContext &io) {
  capvet::Server server(kj::heap<Numbered>(7), io.provider->getTimer());
  std::string text;
  for (const bool isSet : {false, true}) {
    if (isSet) server.setTraceEncoder([](const kj::Exception &it) { return kj::str("a trace of '", it.getDescription(), "'"); });
    auto client = connected(io, server);
    auto failed = kj::runCatchingExceptions([&]() { client->bootstrap().failRequest().send().wait(io.waitScope); });
    auto *exception = valueOf(failed);
    text += exception == nullptr ? "no exception" : std::string("[") + exception->getRemoteTrace().cStr() + "]";
  }
  return text;
}

std::string isFile(kj::AsyncIoContext &io, Client &client) {
  auto request = client.bootstrap().isFileRequest();
  request.setCapability(kj::heap<File>());
  return request.send().wait(io.waitScope).getIsFile() ? "a file" : "no file";
}

// A capability that comes with a file descriptor, to servers that take none or one of a message.
std::string files(kj::AsyncIoContext &io) {
  std::string text;
  for (const uint32_t most : {0u, 1u}) {
    capvet::ServerOptions options;
    options.maxFdsPerMessage = most;
    capvet::Server server(kj::heap<Numbered>(7), io.provider->getTimer(), options);
    auto client = connected(io, server);
    text += isFile(io, *client) + "; ";
  }
  return text;
}

// The same by a socket at which the server listens.
std::string listened(kj::AsyncIoContext &io, const char *path) {
  capvet::ServerOptions options;
  options.maxFdsPerMessage = 1;
  capvet::Server server(kj::heap<Numbered>(7), io.provider->getTimer(), options);
  auto address = io.provider->getNetwork().parseAddress(kj::str("unix:", path)).wait(io.waitScope);
  auto listener = address->listen();
  auto serving = server.listen(*listener).eagerlyEvaluate(nullptr);
  Client client(address->connect().wait(io.waitScope).downcast<kj::AsyncCapabilityStream>());
  return isFile(io, client);
}

// A connection that can't pass file descriptors.
class Plain final : public kj::AsyncIoStream {
 public:
  explicit Plain(kj::Own<kj::AsyncIoStream> inner) : inner_(kj::mv(inner)) {}

  kj::Promise<size_t> tryRead(void *buffer, size_t least, size_t most) override {
    return inner_->tryRead(buffer, least, most);
  }
  kj::Promise<void> write(const void *buffer, size_t size) override { return inner_->write(buffer, size); }
  kj::Promise<void> write(kj::ArrayPtr<const kj::ArrayPtr<const kj::byte>> pieces) override { return inner_->write(pieces); }
  kj::Promise<void> whenWriteDisconnected() override { return inner_->whenWriteDisconnected(); }
  void shutdownWrite() override { inner_->shutdownWrite(); }

 private:
  kj::Own<kj::AsyncIoStream> inner_;
};

// One such connection.
class Receiver final : public kj::ConnectionReceiver {
 public:
  explicit Receiver(kj::Own<kj::AsyncIoStream> first) : first_(kj::heap<Plain>(kj::mv(first))) {}

  kj::Promise<kj::Own<kj::AsyncIoStream>> accept() override {
    if (first_.get() == nullptr) return kj::NEVER_DONE;
    return kj::Own<kj::AsyncIoStream>(kj::mv(first_));
  }
  kj::uint getPort() override { return 0; }

 private:
  kj::Own<Plain> first_;
};

std::string notFiles(kj::AsyncIoContext &io) {
  capvet::ServerOptions options;
  options.maxFdsPerMessage = 1;
  std::string text;
  auto onError = [&text](const kj::Exception &exception) { text += exception.getDescription().cStr(); };
  capvet::Server server(kj::heap<Numbered>(7), io.provider->getTimer(), options, [](const capvet::Ended &) {}, onError);
  auto pipe = io.provider->newTwoWayPipe();
  Receiver receiver(kj::mv(pipe.ends[0]));
  auto serving = server.listen(receiver).eagerlyEvaluate(nullptr);
  kj::byte byte;
  const size_t count = pipe.ends[1]->tryRead(&byte, 1, 1).wait(io.waitScope);
  return text.substr(text.find("capvet: ")) + "; " + std::to_string(server.counters().failedAccepts) + " failed, " + std::to_string(count) +
         " bytes to the peer";
}

// A call without a result when a refused message comes gets none. Those before it have theirs.
std::string unfinished(kj::AsyncIoContext &io) {
  capvet::Server server(kj::heap<Numbered>(7), io.provider->getTimer());
  auto pipe = io.provider->newTwoWayPipe();
  server.serve(kj::mv(pipe.ends[0]));
  auto &peer = *pipe.ends[1];
  capnp::MallocMessageBuilder first;
  first.initRoot<capnp::rpc::Message>().initBootstrap().setQuestionId(0);
  capnp::writeMessage(peer, first).wait(io.waitScope);
  uint32_t question = 0;
  for (const uint16_t method : std::initializer_list<uint16_t>{0, 2, 0}) {
    capnp::MallocMessageBuilder message;
    auto call = message.initRoot<capnp::rpc::Message>().initCall();
    call.setQuestionId(++question);
    call.initTarget().initPromisedAnswer().setQuestionId(0);
    call.setInterfaceId(capnp::typeId<Service>());
    call.setMethodId(method);
    call.initParams().getContent().initAs<Service::NumberParams>();
    capnp::writeMessage(peer, message).wait(io.waitScope);
  }
  const uint64_t circle[] = {0x0000000100000000, 0x00010000fffffffc};
  peer.write(circle, sizeof circle).wait(io.waitScope);
  std::string text;
  for (;;) {
    auto read = capnp::tryReadMessage(peer).wait(io.waitScope);
    auto *message = valueOf(read);
    if (message == nullptr) return text + "end";
    auto it = (*message)->getRoot<capnp::rpc::Message>();
    if (it.isReturn()) text += "return " + std::to_string(it.getReturn().getAnswerId()) + "; ";
    if (it.isAbort()) text += std::string("abort: ") + it.getAbort().getReason().cStr() + "; ";
  }
}

}  // namespace

int main(int count, char **words) {
  if (count != 2) return fputs("usage: server SOCKET\n", stderr), 2;
  auto io = kj::setupAsyncIo();
  printf("a factory: %s\n", made(io).c_str());
  printf("a factory that fails: %s\n", notMade(io).c_str());
  printf("traces: %s\n", traces(io).c_str());
  printf("files: %s\n", files(io).c_str());
  printf("files of a listener: %s\n", listened(io, words[1]).c_str());
  printf("connections without files: %s\n", notFiles(io).c_str());
  printf("calls before a refused message: %s\n", unfinished(io).c_str());
}
