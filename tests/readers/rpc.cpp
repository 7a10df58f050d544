// Runs RPC servers with vetting in each way of host.h, and one without it, on this machine alone.
//
//     rpc same                      the results of calls by each server, over loopback
//     rpc record                    the frames that a client sends for these calls, to standard output
//     rpc attack FILE VALID         sends each message of FILE to a server with vetting, over loopback
//     rpc streams                   file descriptors, refusals, limits and ends of a stream, in process
//     rpc cost CALLS                the time of calls to each server, over a pipe in process and over loopback
//     rpc calls SERVER KIND CALLS   these calls alone, so that another program can count their instructions
//
// SERVER is a name of host.h: 'without', 'with', 'around', 'bytes' or 'served'.
// KIND is 'small' for a call with two numbers, or 'list' for one with 20,000 structs that each have a text.
//
// FILE has for each message its length in bytes (4 bytes, the lowest first), and then its frame. Each is sent on a
// connection of its own, every third one after the frames of VALID. The servers with vetting take turns. The line of a
// message is the text of its refusal with the path, or 'accepted'. It is 'not read' where libcapnp's own stream refuses the
// frame, below the VettingStream 'around' it. The last lines count exceptions by the file of libcapnp that they come from.
// Then the results of calls follow, as for `same`.
//
// An exception from reading pointers or from limits is a line 'threw'. Those about what a schema expects are counted.
#include <capnp/rpc-twoparty.h>
#include <fcntl.h>
#include <kj/async-io.h>
#include <kj/debug.h>
#include <stdio.h>
#include <string.h>
#include <sys/socket.h>
#include <time.h>
#include <unistd.h>

#include <algorithm>
#include <map>
#include <string>
#include <vector>

#include "host.h"
#include "patient.h"
#include "refusal.h"

namespace {

using capnp::rpc::twoparty::Side;
using capnp::rpc::twoparty::VatId;
using capvet::detail::valueOf;

// What libcapnp's getters throw of messages that aren't of the schema. They are no matter of pointers and limits. (1.1.0 and
// 1.5.0 lack a blank in the first one)
const char *const OF_SCHEMAS[] = {
    "where struct pointer was expected", "where struct pointerwas expected", "where list pointer was expected", "where text was expected",
    "where data was expected", "not NUL-terminated", "where capability pointer was expected", "non-data",
    "Expected a primitive list", "incompatible", "Found struct list", "Found bit list", "invalid capability pointer"};

// Sees each exception that libcapnp raises, before it is caught.
class Watch final : public kj::ExceptionCallback {
 public:
  void onRecoverableException(kj::Exception &&exception) override {
    note(exception);
    next.onRecoverableException(kj::mv(exception));
  }
  void onFatalException(kj::Exception &&exception) override {
    note(exception);
    next.onFatalException(kj::mv(exception));
  }

  std::map<std::string, unsigned> counts;

 private:
  void note(const kj::Exception &exception) {
    const std::string path = exception.getFile(), file = path.substr(path.rfind('/') + 1);
    const std::string text = exception.getDescription().cStr();
    const bool is_reading = file == "layout.c++" || file == "arena.c++" || file == "message.c++";
    auto is_reported = [&](const char *words) { return text.find(words) != std::string::npos; };
    const bool is_schema = std::any_of(std::begin(OF_SCHEMAS), std::end(OF_SCHEMAS), is_reported);
    if (is_reading && !is_schema) printf("threw %s: %s\n", file.c_str(), text.c_str());
    counts[is_reading ? "of schemas" : file]++;
  }
};

// A server on loopback.
class Server final {
 public:
  Server(kj::AsyncIoProvider &provider, kj::WaitScope &scope, Way way)
      : way(way),
        listener(provider.getNetwork().parseAddress("127.0.0.1").wait(scope)->listen()),
        address(provider.getNetwork().parseAddress(kj::str("127.0.0.1:", listener->getPort())).wait(scope)),
        host(provider.getTimer(), [this](const capvet::Ended &ended) { refused = textOf(ended); }, patient(capvet::ServerOptions())),
        serving(serve().eagerlyEvaluate(print)) {}

  kj::Own<kj::AsyncIoStream> connect(kj::WaitScope &scope) { return address->connect().wait(scope); }

  // How the connections after this are served.
  Way way;
  std::string refused;

 private:
  kj::Promise<void> serve() {
    return listener->accept().then([this](kj::Own<kj::AsyncIoStream> &&stream) {
      host.serve(kj::mv(stream), way);
      return serve();
    });
  }
  static void print(kj::Exception &&exception) { printf("serving: %s\n", exception.getDescription().cStr()); }

  kj::Own<kj::ConnectionReceiver> listener;
  kj::Own<kj::NetworkAddress> address;
  Host host;
  kj::Promise<void> serving;
};

// A client of one connection.
struct Client {
  explicit Client(capnp::MessageStream &messages)
      : network(messages, Side::CLIENT), rpc(capnp::makeRpcClient(network)), calculator(bootstrap()) {}

  Calculator::Client bootstrap() {
    capnp::MallocMessageBuilder id;
    id.initRoot<VatId>().setSide(Side::SERVER);
    return rpc.bootstrap(id.getRoot<VatId>()).castAs<Calculator>();
  }

  capnp::TwoPartyVatNetwork network;
  capnp::RpcSystem<VatId> rpc;
  Calculator::Client calculator;
};

// The sum of what a list of rows has.
uint64_t sumOf(capnp::List<Row>::Reader rows) {
  uint64_t sum = 0;
  for (auto row : rows) sum = 31 * sum + row.getId() + row.getName().size();
  return sum;
}

// Calls of each kind, and their results.
std::string resultsOf(Calculator::Client calculator, uint32_t calls, std::vector<uint32_t> lists,
                      kj::WaitScope &scope) {
  double sum = 0;
  uint64_t counted = 0;
  for (uint32_t at = 0; at < calls; at++) {
    auto add = calculator.addRequest();
    add.setA(at);
    add.setB(0.5);
    sum += add.send().wait(scope).getSum();
    auto start = calculator.counterRequest();
    start.setStart(at);
    auto counter = start.send().getCounter();
    auto first = counter.nextRequest().send(), second = counter.nextRequest().send();
    counted += first.wait(scope).getNumber() + 3 * second.wait(scope).getNumber();
  }
  std::string text = "sums " + std::to_string(sum) + " counted " + std::to_string(counted);
  for (uint32_t count : lists) {
    auto rows = calculator.rowsRequest();
    rows.setCount(count);
    auto received = rows.send().wait(scope);
    auto store = calculator.storeRequest();
    store.setRows(received.getRows());
    text += " rows " + std::to_string(sumOf(received.getRows())) + " of " +
            std::to_string(store.send().wait(scope).getCount());
  }
  auto failed = kj::runCatchingExceptions([&]() { calculator.failRequest().send().wait(scope); });
  if (auto *exception = valueOf(failed)) text += std::string(" failed ") + exception->getDescription().cStr();
  return text;
}

const std::vector<uint32_t> LISTS = {0, 1, 1000, 20'000};

void printResults(Server &server, kj::WaitScope &scope) {
  auto stream = server.connect(scope);
  capnp::AsyncIoMessageStream messages(*stream);
  Client client(messages);
  const char *name = NAMES[static_cast<int>(server.way)];
  printf("%s: %s\n", name, resultsOf(client.calculator, 300, LISTS, scope).c_str());
}

int same(kj::AsyncIoContext &io) {
  for (auto way : ALL) {
    Server server(*io.provider, io.waitScope, way);
    printResults(server, io.waitScope);
  }
  return 0;
}

// Writes all frames to standard output too.
class Recorder final : public capnp::MessageStream {
 public:
  explicit Recorder(capnp::MessageStream &inner) : inner(inner) {}

  kj::Promise<kj::Maybe<capnp::MessageReaderAndFds>> tryReadMessage(kj::ArrayPtr<kj::AutoCloseFd> fds,
                                                                    capnp::ReaderOptions options,
                                                                    kj::ArrayPtr<capnp::word> scratch) override {
    return inner.tryReadMessage(fds, options, scratch);
  }
  kj::Promise<void> writeMessage(kj::ArrayPtr<const int> fds,
                                 kj::ArrayPtr<const kj::ArrayPtr<const capnp::word>> segments) override {
    capnp::writeMessage(out, segments);
    return inner.writeMessage(fds, segments);
  }
  kj::Promise<void> writeMessages(kj::ArrayPtr<kj::ArrayPtr<const kj::ArrayPtr<const capnp::word>>> messages) override {
    for (auto segments : messages) capnp::writeMessage(out, segments);
    return inner.writeMessages(messages);
  }
  kj::Maybe<int> getSendBufferSize() override { return inner.getSendBufferSize(); }
  kj::Promise<void> end() override { return inner.end(); }

 private:
  capnp::MessageStream &inner;
  kj::FdOutputStream out{1};
};

int record(kj::AsyncIoContext &io) {
  Server server(*io.provider, io.waitScope, Way::WITH);
  auto stream = server.connect(io.waitScope);
  capnp::AsyncIoMessageStream messages(*stream);
  Recorder recorder(messages);
  Client client(recorder);
  resultsOf(client.calculator, 4, {0, 1, 3, 20}, io.waitScope);
  return 0;
}

using Bytes = std::vector<kj::byte>;

Bytes contentOf(const char *path) {
  kj::FdInputStream in(kj::AutoCloseFd(open(path, O_RDONLY)));
  auto all = in.readAllBytes();
  return Bytes(all.begin(), all.end());
}

// Sends bytes on a connection of their own, until the server closes it.
void send(Server &server, const Bytes &bytes, kj::AsyncIoContext &io) {
  auto stream = server.connect(io.waitScope);
  // (the server may close it before all is sent)
  auto sent = stream->write(bytes.data(), bytes.size())
                  .then([&]() { stream->shutdownWrite(); }, [](kj::Exception &&) {});
  auto replies = stream->readAllBytes().then([](auto &&) {}, [](kj::Exception &&) {});
  sent.wait(io.waitScope);
  io.provider->getTimer().timeoutAfter(10 * kj::MINUTES, kj::mv(replies)).wait(io.waitScope);
}

int attack(kj::AsyncIoContext &io, const char *path, const char *validPath) {
  Server server(*io.provider, io.waitScope, Way::WITH);
  const Bytes all = contentOf(path), valid = contentOf(validPath);
  Watch watch;
  unsigned number = 0;
  for (size_t at = 0; at < all.size(); number++) {
    uint32_t length;
    memcpy(&length, &all[at], sizeof length);
    Bytes bytes;
    if (number % 3 == 0) bytes = valid;
    bytes.insert(bytes.end(), &all[at + 4], &all[at + 4] + length);
    at += 4 + length;
    server.refused.clear();
    server.way = VETTED[number % 4];
    const auto unread = watch.counts["serialize-async.c++"];
    send(server, bytes, io);
    const char *otherwise = watch.counts["serialize-async.c++"] > unread ? "not read" : "accepted";
    puts(server.refused.empty() ? otherwise : server.refused.c_str());
  }
  for (auto &[file, count] : watch.counts) printf("exceptions %s: %u\n", file.c_str(), count);
  server.way = Way::WITH;
  printResults(server, io.waitScope);
  return 0;
}

// A message of these words in one segment.
kj::Array<capnp::word> wordsOf(std::initializer_list<uint64_t> values) {
  auto words = kj::heapArray<capnp::word>(values.size());
  auto bytes = reinterpret_cast<const kj::byte *>(values.begin());
  std::copy(bytes, bytes + 8 * values.size(), words.asBytes().begin());
  return words;
}

const uint64_t CYCLE = 0x00010000fffffffc;

unsigned openFiles() {
  unsigned count = 0;
  for (int fd = 0; fd < 1024; fd++) count += fcntl(fd, F_GETFD) >= 0;
  return count;
}

// A read of a stream: the words of its root, the file descriptors that came with it, and its limits. Otherwise the
// exception, with its type unless that is FAILED.
std::string read(capnp::MessageStream &stream, kj::ArrayPtr<kj::AutoCloseFd> fds, capnp::ReaderOptions options,
                 kj::WaitScope &scope) {
  std::string text;
  auto failed = kj::runCatchingExceptions([&]() {
    auto got = stream.tryReadMessage(fds, options).wait(scope);
    text = "ended";
    if (auto *message = valueOf(got)) {
      auto root = message->reader->getRoot<capnp::AnyPointer>().targetSize();
      auto limits = message->reader->getOptions();
      text = std::to_string(root.wordCount) + " words, " + std::to_string(message->fds.size()) + " files, limits " +
             std::to_string(limits.traversalLimitInWords) + " and " + std::to_string(limits.nestingLimit);
    }
  });
  if (auto *exception = valueOf(failed)) {
    const bool is_failed = exception->getType() == kj::Exception::Type::FAILED;
    text = is_failed ? "" : kj::str(exception->getType(), ": ").cStr();
    text += exception->getDescription().cStr();
  }
  return text;
}

// Streams over a pipe that carries file descriptors: they are read, or they aren't, or another stream reads them.
enum class Files { READ, NOT_READ, AROUND };
const Files KINDS[] = {Files::READ, Files::NOT_READ, Files::AROUND};
const char *const KIND_NAMES[] = {"files read", "files not read", "around"};

capvet::StreamOptions ofServer() { return patient(capvet::StreamOptions(Side::SERVER)); }

// A vetting stream of that kind over an end of a pipe, or around the stream of messages there.
kj::Own<capvet::VettingStream> vettingBy(Files kind, kj::AsyncCapabilityStream &end, capnp::MessageStream &in,
                                         kj::Timer &timer, const capvet::StreamOptions &options = ofServer()) {
  auto onEnded = [](auto &ended) { printf("  onEnded %s\n", kj::str(ended).cStr()); };
  kj::AsyncIoStream &bytes = end;
  return kind == Files::READ       ? kj::heap<capvet::VettingStream>(end, timer, options, onEnded)
         : kind == Files::NOT_READ ? kj::heap<capvet::VettingStream>(bytes, timer, options, onEnded)
                                   : kj::heap<capvet::VettingStream>(in, options, onEnded);
}

// Writes a message with two file descriptors to a pipe, and reads it by a vetting stream of that kind.
void readBy(Files kind, kj::ArrayPtr<const kj::ArrayPtr<const capnp::word>> segments, const capvet::StreamOptions &options,
            capnp::ReaderOptions atLeast, kj::AsyncIoContext &io) {
  auto pipe = io.provider->newCapabilityPipe();
  auto &end = *pipe.ends[0];
  capnp::AsyncCapabilityMessageStream in(end), out(*pipe.ends[1]);
  auto vetting = vettingBy(kind, end, in, io.provider->getTimer(), options);
  const int files[] = {0, 1};
  // (written through, in one batch with a message after it)
  capvet::VettingStream writing(out);
  const auto ok = wordsOf({0});
  const kj::ArrayPtr<const capnp::word> after[] = {ok};
  writing.writeMessage(files, segments).wait(io.waitScope);
  kj::ArrayPtr<const kj::ArrayPtr<const capnp::word>> batch[] = {after};
  writing.writeMessages(batch).wait(io.waitScope);
  writing.end().wait(io.waitScope);
  kj::AutoCloseFd space[4];
  for (int reading = 0; reading < 3; reading++) {
    const auto got = read(*vetting, space, atLeast, io.waitScope);
    unsigned open = 0;
    for (auto &fd : space) open += fd != nullptr;
    printf("  %s; %u open\n", got.c_str(), open);
    for (auto &fd : space) fd = nullptr;
  }
  const auto size = vetting->getSendBufferSize().orDefault(-1);
  printf("  the same buffer: %d\n", size == in.getSendBufferSize().orDefault(-1));
}

void readOne(const char *name, kj::ArrayPtr<const kj::ArrayPtr<const capnp::word>> segments,
             const capvet::StreamOptions &options, kj::AsyncIoContext &io, capnp::ReaderOptions atLeast = {10, 3}) {
  for (auto kind : KINDS) {
    printf("%s, %s\n", name, KIND_NAMES[static_cast<int>(kind)]);
    const auto before = openFiles();
    readBy(kind, segments, options, atLeast, io);
    printf("  left open: %d\n", static_cast<int>(openFiles() - before));
  }
}

// The bytes of a frame.
kj::Array<kj::byte> frameOf(kj::ArrayPtr<const kj::ArrayPtr<const capnp::word>> segments) {
  auto words = capnp::messageToFlatArray(segments);
  return kj::heapArray(words.asBytes());
}

// Reads a message that comes a byte at a time, and then a part of it that the stream ends in. Each length of a part
// has one line, unless it is that of the length before.
void readParts(const char *name, kj::ArrayPtr<const kj::ArrayPtr<const capnp::word>> segments, kj::AsyncIoContext &io) {
  const auto frame = frameOf(segments);
  for (auto kind : KINDS) {
    printf("%s in parts, %s\n", name, KIND_NAMES[static_cast<int>(kind)]);
    std::string last;
    for (size_t length = 0; length < frame.size(); length++) {
      auto pipe = io.provider->newCapabilityPipe();
      capnp::AsyncCapabilityMessageStream in(*pipe.ends[0]);
      auto vetting = vettingBy(kind, *pipe.ends[0], in, io.provider->getTimer());
      auto reading = vetting->readMessage();
      for (auto &byte : frame) {
        KJ_ASSERT(!reading.poll(io.waitScope));
        pipe.ends[1]->write(&byte, 1).wait(io.waitScope);
      }
      auto message = reading.wait(io.waitScope);
      auto whole = message->getRoot<capnp::AnyPointer>().targetSize().wordCount;
      pipe.ends[1]->write(frame.begin(), length).wait(io.waitScope);
      pipe.ends[1]->shutdownWrite();
      std::string text = std::to_string(whole) + " words;";
      for (int at = 0; at < 2; at++) text += " then " + read(*vetting, nullptr, {}, io.waitScope) + ";";
      if (text != last) printf("  from %zu bytes on: %s\n", length, text.c_str());
      last = text;
    }
  }
}

// Reads messages into a scratch space of five words, if they fit.
void readIntoScratch(kj::AsyncIoContext &io) {
  const auto word = wordsOf({0}), four = wordsOf({0, 0, 0, 0}), five = wordsOf({0, 0, 0, 0, 0}), empty = wordsOf({});
  for (auto kind : KINDS) {
    printf("scratch space, %s\n ", KIND_NAMES[static_cast<int>(kind)]);
    auto pipe = io.provider->newCapabilityPipe();
    capnp::AsyncCapabilityMessageStream in(*pipe.ends[0]), out(*pipe.ends[1]);
    auto vetting = vettingBy(kind, *pipe.ends[0], in, io.provider->getTimer());
    auto space = kj::heapArray<capnp::word>(5);
    for (auto segments : {std::vector<kj::ArrayPtr<const capnp::word>>{word}, {four}, {five}, {four, empty}}) {
      out.writeMessage(nullptr, kj::arrayPtr(segments.data(), segments.size())).wait(io.waitScope);
      auto reader = vetting->readMessage({}, space).wait(io.waitScope);
      const auto first = reader->getSegment(0);
      const bool isThere = first.begin() >= space.begin() && first.end() <= space.end();
      printf(" %zu words %s;", first.size(), isThere ? "there" : "elsewhere");
    }
    printf("\n");
  }
}

int streams(kj::AsyncIoContext &io) {
  const auto null = wordsOf({0}), cycle = wordsOf({CYCLE});
  // (a struct of one word, which has one pointer to such a struct, and a segment without words)
  const auto deep = wordsOf({0x0001000000000000, 0x0000000100000000, 7}), empty = wordsOf({});
  const auto shared = wordsOf({0x0002000000000000, 0x0000000100000004, 0x0000000100000000, 7});
  auto large = kj::heapArray<capnp::word>(100);
  memset(large.asBytes().begin(), 0, large.asBytes().size());
  using Segments = std::vector<kj::ArrayPtr<const capnp::word>>;
  auto of = [](const Segments &segments) { return kj::arrayPtr(segments.data(), segments.size()); };
  capvet::StreamOptions options(ofServer()), four(options), small(options), exclusive(options);
  four.readings = 4;
  exclusive.exclusive = true;
  small.limits.message_words = 50;
  readOne("null", of({null}), options, io);
  readOne("default limits", of({null}), options, io, capnp::ReaderOptions());
  readOne("default limits, two segments", of({deep, empty}), options, io, capnp::ReaderOptions());
  readOne("default limits, two levels", of({deep, empty}), options, io, {options.limits.message_words, 4});
  readOne("two levels", of({deep, empty}), options, io);
  readOne("two levels, four readings", of({deep, empty}), four, io);
  readOne("two levels, exclusive", of({deep, empty}), exclusive, io);
  readOne("an overlap", of({shared, empty}), exclusive, io);
  readOne("cycle", of({cycle}), options, io);
  readOne("one empty segment", of({empty}), options, io);
  readOne("empty segments", of({empty, empty, empty}), options, io);
  readOne("an empty first segment", of({empty, null}), options, io);
  readOne("too large", of({large}), small, io);
  readOne("511 segments", of(Segments(511, null)), options, io);
  readOne("512 segments", of(Segments(512, null)), options, io);
  readParts("one segment", of({deep}), io);
  readParts("two segments", of({deep, null}), io);
  readIntoScratch(io);
  return 0;
}

// The ends of a connection over loopback.
kj::TwoWayPipe overLoopback(kj::AsyncIoContext &io) {
  auto &network = io.provider->getNetwork();
  auto listener = network.parseAddress("127.0.0.1").wait(io.waitScope)->listen();
  auto address = network.parseAddress(kj::str("127.0.0.1:", listener->getPort())).wait(io.waitScope);
  auto connecting = address->connect();
  auto accepted = listener->accept().wait(io.waitScope);
  return {{kj::mv(accepted), connecting.wait(io.waitScope)}};
}

// A client and a server in one process, with a pipe between them or a connection over loopback.
struct Pair {
  Pair(Way way, bool isPipe, kj::AsyncIoContext &io)
      : pipe(isPipe ? kj::newTwoWayPipe() : overLoopback(io)),
        host(io.provider->getTimer(), [](const capvet::Ended &) {}, patient(capvet::ServerOptions())) {
    host.serve(kj::mv(pipe.ends[0]), way);
  }

  kj::TwoWayPipe pipe;
  Host host;
  capnp::AsyncIoMessageStream messages{*pipe.ends[1]};
  Client client{messages};
};

// The nanoseconds that the process has run for. Those of other processes don't count.
double processTime() {
  timespec time;
  KJ_SYSCALL(clock_gettime(CLOCK_PROCESS_CPUTIME_ID, &time));
  return 1e9 * static_cast<double>(time.tv_sec) + static_cast<double>(time.tv_nsec);
}

// The nanoseconds of each of a number of calls.
template <typename Call>
double timeOf(unsigned calls, Call call) {
  const double begin = processTime();
  for (unsigned at = 0; at < calls; at++) call();
  return (processTime() - begin) / calls;
}

double median(std::vector<double> numbers) {
  std::sort(numbers.begin(), numbers.end());
  return numbers[numbers.size() / 2];
}

// The calls of each kind.
class Calls {
 public:
  explicit Calls(kj::WaitScope &scope) : scope(scope) {
    for (uint32_t at = 0; at < rows.size(); at++) {
      rows[at].setId(at);
      rows[at].setName(kj::str("row ", at));
    }
  }

  void call(Calculator::Client &calculator, bool is_small) {
    if (is_small) {
      auto add = calculator.addRequest();
      add.setA(1);
      add.setB(2);
      KJ_ASSERT(add.send().wait(scope).getSum() == 3);
    } else {
      auto store = calculator.storeRequest();
      store.setRows(rows);
      KJ_ASSERT(store.send().wait(scope).getCount() == rows.size());
    }
  }

 private:
  kj::WaitScope &scope;
  capnp::MallocMessageBuilder message;
  capnp::List<Row>::Builder rows = message.initRoot<capnp::AnyPointer>().initAs<capnp::List<Row>>(20'000);
};

// Alternates blocks of calls to the server without vetting and to another, and prints the median of the ratios.
void compare(Way way, bool isPipe, bool is_small, unsigned rounds, unsigned calls, kj::AsyncIoContext &io) {
  Calls all(io.waitScope);
  Pair plain(Way::WITHOUT, isPipe, io), vetted(way, isPipe, io);
  std::vector<double> ratios, without, with;
  for (unsigned round = 0; round <= rounds; round++) {
    const bool is_first = round % 2;
    double times[2];
    for (bool is_vetting : {is_first, !is_first}) {
      auto &pair = is_vetting ? vetted : plain;
      times[is_vetting] = timeOf(calls, [&]() { all.call(pair.client.calculator, is_small); });
    }
    // (the first round warms up)
    if (round == 0) continue;
    ratios.push_back(times[1] / times[0]);
    without.push_back(times[0]);
    with.push_back(times[1]);
  }
  printf("%s, %s, %s: ratio %.4f, %.0f ns without, %.0f ns with\n", isPipe ? "pipe" : "loopback",
         is_small ? "small" : "list", NAMES[static_cast<int>(way)], median(ratios), median(without), median(with));
}

int cost(kj::AsyncIoContext &io, unsigned calls) {
  for (auto isPipe : {true, false}) {
    for (auto way : VETTED) {
      compare(way, isPipe, true, 200, std::max(1u, calls / 200), io);
      compare(way, isPipe, false, std::max(1u, calls / 1000), 1, io);
    }
  }
  return 0;
}

int callsAlone(kj::AsyncIoContext &io, const std::string &server, const std::string &kind, unsigned calls) {
  const auto way = std::find(std::begin(NAMES), std::end(NAMES), server) - std::begin(NAMES);
  KJ_REQUIRE(way < std::end(NAMES) - std::begin(NAMES) && (kind == "small" || kind == "list"), "no such server, or no such call");
  Calls all(io.waitScope);
  Pair pair(ALL[way], true, io);
  for (unsigned at = 0; at < calls; at++) all.call(pair.client.calculator, kind == "small");
  return 0;
}

}  // namespace

int main(int count, char **words) {
  const std::string mode = count > 1 ? words[1] : "";
  auto numberOf = [&](int at) { return static_cast<unsigned>(strtoul(words[at], nullptr, 10)); };
  auto io = kj::setupAsyncIo();
  if (mode == "same" && count == 2) return same(io);
  if (mode == "record" && count == 2) return record(io);
  if (mode == "attack" && count == 4) return attack(io, words[2], words[3]);
  if (mode == "streams" && count == 2) return streams(io);
  if (mode == "cost" && count == 3) return cost(io, numberOf(2));
  if (mode == "calls" && count == 5) return callsAlone(io, words[2], words[3], numberOf(4));
  fputs("usage: rpc same | record | attack FILE VALID | streams | cost CALLS | calls SERVER KIND CALLS\n", stderr);
  return 2;
}
