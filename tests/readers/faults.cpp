// Streams with vetting whose peers, callers and callbacks misbehave, in process. Each line is a case and what it shows.
//
//     faults
//
// Each case runs with a VettingStream, a VettingIoStream and a VettingCapabilityStream. A case about time moves a clock by hand, so
// that it shows the same on a busy machine. Where the clock goes on by itself, only a hang exceeds the limits.
#include <capvet/kj-server.h>
#include <kj/debug.h>
#include <kj/timer.h>
#include <stdio.h>
#include <string.h>

#include <functional>
#include <random>
#include <string>
#include <vector>

#include "patient.h"

namespace {

using capnp::rpc::twoparty::Side;
using capvet::detail::valueOf;
using Bytes = std::vector<kj::byte>;

const char *const KINDS[] = {"messages", "bytes", "bytes and files"};

Bytes wordsOf(std::initializer_list<uint64_t> words) {
  Bytes bytes(8 * words.size());
  memcpy(bytes.data(), words.begin(), bytes.size());
  return bytes;
}

// A null message, a circle, and tables of frames that are too large or have 2^32 segments.
const Bytes OK = wordsOf({0x0000000100000000, 0}), CYCLE = wordsOf({0x0000000100000000, 0x00010000fffffffc}),
            LARGE = wordsOf({0x7fffffff00000000}), MANY = wordsOf({0x00000001ffffffff}),
            SHARED = wordsOf({0x0000000400000000, 0x0002000000000000, 0x0000000100000004, 0x0000000100000000, 7});

Bytes operator+(Bytes left, const Bytes &right) {
  left.insert(left.end(), right.begin(), right.end());
  return left;
}

// A clock that moves only when a test moves it.
class Clock {
 public:
  explicit Clock(kj::WaitScope &scope) : scope_(scope) {}

  // Moves it, and does all that can be done before and after that.
  void pass(kj::Duration time) {
    scope_.poll();
    timer.advanceTo(timer.now() + time);
    scope_.poll();
  }

  // What a promise ends with, while the clock does not move.
  std::string now(kj::Promise<std::string> &&promise) { return promise.poll(scope_) ? promise.wait(scope_) : "waits"; }

  // What a promise ends with after exactly this time, which passes meanwhile.
  std::string after(kj::Duration time, kj::Promise<std::string> &&promise) {
    const auto last = 1 * kj::MILLISECONDS;
    if (promise.poll(scope_)) return "at once: " + promise.wait(scope_);
    pass(time - last);
    if (promise.poll(scope_)) return "too early: " + promise.wait(scope_);
    pass(last);
    return promise.poll(scope_) ? promise.wait(scope_) : "too late";
  }

  kj::TimerImpl timer{kj::origin<kj::TimePoint>()};

 private:
  kj::WaitScope &scope_;
};

capvet::StreamOptions ofServer() { return patient(capvet::StreamOptions(Side::SERVER)); }

// The text of what a promise ends with.
kj::Promise<std::string> outcomeOf(kj::Promise<void> &&promise, const char *done) {
  return promise.then([done]() -> std::string { return done; },
                      [](kj::Exception &&exception) -> std::string { return exception.getDescription().cStr(); });
}

// A stream over an end of a pipe. Its messages are read by itself, or by libcapnp.
class Reader {
 public:
  template <typename Callable>
  Reader(int kind, kj::Own<kj::AsyncCapabilityStream> end, kj::Timer &timer, const capvet::StreamOptions &options,
         Callable &&onEnded) {
    if (kind == 0) {
      messages = kj::heap<capvet::VettingStream>(*end, timer, options, kj::fwd<Callable>(onEnded)).attach(kj::mv(end));
    } else if (kind == 1) {
      auto stream = kj::heap<capvet::VettingIoStream>(kj::mv(end), timer, options, kj::fwd<Callable>(onEnded));
      auto &bytes = *stream;
      messages = kj::heap<capnp::AsyncIoMessageStream>(bytes).attach(kj::mv(stream));
    } else {
      auto stream = kj::heap<capvet::VettingCapabilityStream>(kj::mv(end), timer, options, kj::fwd<Callable>(onEnded));
      auto &bytes = *stream;
      messages = kj::heap<capnp::AsyncCapabilityMessageStream>(bytes).attach(kj::mv(stream));
    }
  }

  kj::Promise<std::string> read() {
    return messages->tryReadMessage(nullptr).then(
        [](kj::Maybe<capnp::MessageReaderAndFds> read) -> std::string {
          auto *message = valueOf(read);
          if (message == nullptr) return "end";
          return std::to_string(message->reader->getRoot<capnp::AnyPointer>().targetSize().wordCount) + " words";
        },
        [](kj::Exception &&exception) -> std::string { return exception.getDescription().cStr(); });
  }

  kj::Own<capnp::MessageStream> messages;
};

// A pipe with a reader at one end. A paced stream has the clock of the event loop, which it asks when nothing else is left to do.
// Others have a clock that is moved by hand.
struct Case {
  Case(int kind, kj::AsyncIoContext &io, const capvet::StreamOptions &options = Side::CLIENT)
      : Case(kind, io, options, [this](const capvet::Ended &ended) { note(ended); }) {}
  template <typename Callable>
  Case(int kind, kj::AsyncIoContext &io, const capvet::StreamOptions &options, Callable &&onEnded)
      : io(io), pipe(io.provider->newCapabilityPipe()), clock(io.waitScope), isPaced(options.paced) {
    kj::Timer &timer = isPaced ? io.provider->getTimer() : clock.timer;
    reader = kj::heap<Reader>(kind, kj::mv(pipe.ends[0]), timer, options, kj::fwd<Callable>(onEnded));
  }

  // Its text, and the place and the length of the message if it is about one.
  void note(const capvet::Ended &ended) {
    reported += std::string(" [") + kj::str(ended).cStr();
    if (auto *refusal = valueOf(ended.refusal)) {
      reported += ", message " + std::to_string(refusal->number) + " at " + std::to_string(refusal->offset) + ", " +
                  std::to_string(refusal->unvetted.size()) + " bytes";
    }
    reported += "]";
  }
  void write(const Bytes &bytes) { pipe.ends[1]->write(bytes.data(), bytes.size()).wait(io.waitScope); }
  void end() { pipe.ends[1]->shutdownWrite(); }
  std::string read() { return isPaced ? reader->read().wait(io.waitScope) : clock.now(reader->read()); }
  // What the next read ends with, after exactly this time.
  std::string readAfter(kj::Duration time) { return clock.after(time, reader->read()); }
  // The outcomes of reads, and what the callback got.
  std::string reads(int count) {
    std::string text;
    for (int at = 0; at < count; at++) text += read() + "; ";
    return text + reported;
  }

  kj::AsyncIoContext &io;
  kj::CapabilityPipe pipe;
  Clock clock;
  bool isPaced;
  std::string reported;
  kj::Own<Reader> reader;
};

std::string refused(int kind, kj::AsyncIoContext &io, const Bytes &bytes, bool ends) {
  Case it(kind, io);
  it.write(OK + bytes);
  if (ends) it.end();
  return it.reads(3);
}

// A message with an object that two pointers lead to, and a large one with such an object. They are refused by an option.
std::string overlapping(int kind, kj::AsyncIoContext &io, bool exclusive) {
  capvet::StreamOptions options(Side::CLIENT);
  options.exclusive = exclusive;
  std::string lines;
  Case it(kind, io, options, [&lines](const capvet::Ended &ended) {
    lines = kj::str(ended, "; ", valueOf(ended.refusal)->explain()).cStr();
  });
  auto large = SHARED;
  large.resize(24'008);
  large[5] = 3000 >> 8;
  large[4] = 3000 & 255;
  it.write(OK + large + SHARED);
  const auto text = it.reads(3);
  return text + lines.substr(0, lines.find('\n'));
}

// A callback that throws: the read and all later ones still fail with the reason.
std::string throwing(int kind, kj::AsyncIoContext &io) {
  Case it(kind, io, ofServer(), [](const capvet::Ended &) { KJ_FAIL_REQUIRE("thrown by the callback"); });
  it.write(CYCLE + OK);
  return it.reads(2);
}

// A callback with a name, which is gone before it is called. It was copied, so it has its numbers.
std::string named(int kind, kj::AsyncIoContext &io) {
  std::string reported;
  kj::Own<Case> it;
  {
    const std::vector<int> numbers = {3, 5};
    auto onEnded = [&reported, numbers](const capvet::Ended &ended) {
      reported = std::to_string(numbers[0] + numbers[1]) + " of " + kj::str(ended).cStr();
    };
    it = kj::heap<Case>(kind, io, ofServer(), onEnded);
  }
  it->write(CYCLE);
  return it->read() + "; " + reported;
}

// A refusal that is kept for longer than the stream: its text, its path, and a copy of its bytes.
std::string cloned(int kind, kj::AsyncIoContext &io) {
  kj::Own<const capvet::Refusal> kept;
  {
    Case it(kind, io, ofServer(), [&kept](const capvet::Ended &ended) { kept = valueOf(ended.refusal)->clone(); });
    it.write(OK + OK + CYCLE);
    it.reads(3);
  }
  const bool isSame = kept->unvetted == kj::arrayPtr(CYCLE.data(), CYCLE.size());
  return std::string(kj::str(*kept, ", message ", kept->number, " at ", kept->offset).cStr()) + ", path of " +
         std::to_string(kept->path().size()) + " letters, " + (isSame ? "the bytes" : "other bytes");
}

// A callback that destroys the stream that calls it.
std::string dropping(int kind, kj::AsyncIoContext &io) {
  capvet::StreamOptions options(Side::CLIENT);
  options.idle = 60 * kj::SECONDS;
  kj::Own<Reader> *reader = nullptr;
  std::string reported;
  Case it(kind, io, options, [&reader, &reported](const capvet::Ended &ended) {
    reported = kj::str(ended).cStr();
    *reader = nullptr;
    reported += ", " + std::to_string(ended.peer.size()) + " letters of a peer";
  });
  reader = &it.reader;
  it.write(CYCLE + OK);
  auto reading = it.reader->read();
  return reading.wait(io.waitScope) + "; " + reported;
}

std::string badLimits(int kind, kj::AsyncIoContext &io) {
  std::string text;
  for (auto change : {+[](capvet_limits &it) { it.depth = CAPVET_MAX_DEPTH + 1; },
                      +[](capvet_limits &it) { it.form = CAPVET_FORM_WORDS; }, +[](capvet_limits &it) { it.reserved[1] = 1; },
                      +[](capvet_limits &it) { it = {0, 0, 0, 0, 0, 0, {0, 0, 0, 0, 0, 0}}; }}) {
    capvet::StreamOptions options(Side::SERVER);
    change(options.limits);
    auto failed = kj::runCatchingExceptions([&]() { Case it(kind, io, options); });
    text += valueOf(failed) != nullptr ? "throws; " : "valid; ";
  }
  return text;
}

// Reads that are canceled: before a message, and inside one.
std::string canceled(int kind, kj::AsyncIoContext &io) {
  Case it(kind, io);
  { auto idle = it.reader->read(); KJ_ASSERT(!idle.poll(io.waitScope)); }
  it.write(OK);
  auto text = it.read();
  it.write({OK.begin(), OK.begin() + 11});
  { auto within = it.reader->read(); KJ_ASSERT(!within.poll(io.waitScope)); }
  it.write({OK.begin() + 11, OK.end()});
  it.write(OK);
  return text + "; " + it.reads(2);
}

// Messages that aren't whole at the deadline, and one that is, after a pause between messages.
std::string late(int kind, kj::AsyncIoContext &io, size_t length) {
  capvet::StreamOptions options(Side::CLIENT);
  options.deadline = 60 * kj::MILLISECONDS;
  Case it(kind, io, options);
  auto first = it.reader->read();
  it.clock.pass(100 * kj::MILLISECONDS);
  it.write(OK);
  auto text = first.wait(io.waitScope);
  auto list = wordsOf({0x0000200000000000, 0x0000fff900000001});
  list.resize(8 + 8 * 0x2000);
  it.write({list.begin(), list.begin() + static_cast<ssize_t>(length)});
  text += "; " + it.readAfter(options.deadline);
  return text + "; " + it.reads(1);
}

// What comes slowly, but in time.
std::string slow(int kind, kj::AsyncIoContext &io) {
  capvet::StreamOptions options(Side::CLIENT);
  options.deadline = 5 * kj::SECONDS;
  Case it(kind, io, options);
  auto reading = it.reader->read();
  for (auto &byte : OK) {
    KJ_ASSERT(!reading.poll(io.waitScope));
    it.clock.pass(options.deadline / OK.size());
    it.pipe.ends[1]->write(&byte, 1).wait(io.waitScope);
  }
  return reading.wait(io.waitScope) + it.reported;
}

// A message, and then none.
std::string idle(int kind, kj::AsyncIoContext &io) {
  capvet::StreamOptions options(Side::CLIENT);
  options.idle = 60 * kj::MILLISECONDS;
  Case it(kind, io, options);
  it.write(OK);
  auto text = it.read();
  it.clock.pass(options.idle / 2);
  text += "; " + it.readAfter(options.idle);
  return text + "; " + it.reads(1);
}

// No connection is idle within a message that comes, or is written. Afterwards the time begins again.
std::string busy(int kind, kj::AsyncIoContext &io) {
  capvet::StreamOptions options(Side::CLIENT);
  options.idle = 100 * kj::MILLISECONDS;
  Case it(kind, io, options);
  auto reading = it.reader->read();
  it.write({OK.begin(), OK.begin() + 11});
  for (int at = 0; at < 3; at++) it.clock.pass(options.idle);
  it.write({OK.begin() + 11, OK.end()});
  auto text = reading.wait(io.waitScope);
  auto words = kj::heapArray<capnp::word>(1 << 20);
  memset(words.asBytes().begin(), 0, words.asBytes().size());
  const kj::ArrayPtr<const capnp::word> segments[] = {words};
  auto writing = it.reader->messages->writeMessage(segments);
  reading = it.reader->read();
  // (the time since the last look at it would be short)
  for (auto time : {options.idle, options.idle, options.idle * 8 / 10}) it.clock.pass(time);
  text += reading.poll(io.waitScope) ? "; ended" : "; waits";
  auto taken = capnp::readMessage(*it.pipe.ends[1], {1 << 22, 64}).wait(io.waitScope);
  writing.wait(io.waitScope);
  return text + "; " + it.clock.after(options.idle, kj::mv(reading)) + ", in time";
}

// A callback that destroys the stream whose peer is idle.
std::string droppingIdle(int kind, kj::AsyncIoContext &io) {
  capvet::StreamOptions options(Side::CLIENT);
  options.idle = 60 * kj::MILLISECONDS;
  kj::Own<Reader> *reader = nullptr;
  std::string reported;
  Case it(kind, io, options, [&reader, &reported](const capvet::Ended &ended) {
    *reader = nullptr;
    reported = kj::str(ended).cStr();
  });
  reader = &it.reader;
  return it.readAfter(options.idle) + "; " + reported;
}

// The same over a pipe that isn't one of the system.
std::string idleInMemory(kj::AsyncIoContext &io) {
  capvet::StreamOptions options(Side::CLIENT);
  options.idle = 60 * kj::MILLISECONDS;
  auto pipe = kj::newTwoWayPipe();
  Clock clock(io.waitScope);
  std::string reported;
  capvet::VettingStream stream(*pipe.ends[0], clock.timer, options,
                               [&reported](const capvet::Ended &ended) { reported = kj::str(ended).cStr(); });
  auto text = clock.after(options.idle, outcomeOf(stream.readMessage().ignoreResult(), "read"));
  return reported + "; " + text;
}

// Writes to a peer that reads nothing: the buffers of the system fill up, and then the write fails at its time.
std::string unread(int kind, kj::AsyncIoContext &io, bool refuses) {
  capvet::StreamOptions options(Side::CLIENT);
  options.unread = 60 * kj::MILLISECONDS;
  Case it(kind, io, options);
  auto words = kj::heapArray<capnp::word>(1 << 20);
  memset(words.asBytes().begin(), 0, words.asBytes().size());
  const kj::ArrayPtr<const capnp::word> segments[] = {words};
  auto write = [&it, &segments]() { return outcomeOf(it.reader->messages->writeMessage(segments), "written"); };
  if (refuses) it.write(CYCLE);
  auto reading = it.reader->read();
  std::string text = refuses ? it.clock.now(kj::mv(reading)) + "; " : "";
  // (after a refusal the time has begun with it)
  const auto before = options.unread / 3;
  it.clock.pass(before);
  text += it.clock.after(refuses ? options.unread - before : options.unread, write()) + "; ";
  text += it.clock.now(write()) + "; ";
  if (!refuses) text += it.clock.now(kj::mv(reading)) + "; ";
  it.clock.pass(1 * kj::MILLISECONDS);
  return text + it.read() + ";" + it.reported;
}

// A callback that destroys the stream whose write has failed.
std::string droppingUnread(int kind, kj::AsyncIoContext &io) {
  capvet::StreamOptions options(Side::CLIENT);
  options.unread = 60 * kj::MILLISECONDS;
  kj::Own<Reader> *reader = nullptr;
  std::string reported;
  Case it(kind, io, options, [&reader, &reported](const capvet::Ended &ended) {
    *reader = nullptr;
    reported = kj::str(ended).cStr();
  });
  reader = &it.reader;
  auto words = kj::heapArray<capnp::word>(1 << 20);
  memset(words.asBytes().begin(), 0, words.asBytes().size());
  const kj::ArrayPtr<const capnp::word> segments[] = {words};
  auto text = it.clock.after(options.unread, outcomeOf(it.reader->messages->writeMessage(segments), "written"));
  return reported + "; " + text;
}

// No message is read while one is being written.
std::string paced(int kind, kj::AsyncIoContext &io) {
  Case it(kind, io, ofServer());
  auto words = kj::heapArray<capnp::word>(1 << 20);
  memset(words.asBytes().begin(), 0, words.asBytes().size());
  const kj::ArrayPtr<const capnp::word> segments[] = {words};
  it.write(OK + OK);
  auto text = it.read();
  auto writing = it.reader->messages->writeMessage(segments);
  auto reading = it.reader->read();
  text += reading.poll(io.waitScope) ? "; read" : "; waits";
  auto taken = capnp::readMessage(*it.pipe.ends[1], {1 << 22, 64}).wait(io.waitScope);
  writing.wait(io.waitScope);
  return text + "; " + reading.wait(io.waitScope) + it.reported;
}

// The same for two messages, if the write begins when nothing else is left to do, as libcapnp 1.1.0 and 1.5.0 write replies. A
// read that waits for it can be canceled, and loses nothing.
std::string pacedLast(int kind, kj::AsyncIoContext &io) {
  Case it(kind, io, ofServer());
  auto words = kj::heapArray<capnp::word>(1 << 20);
  memset(words.asBytes().begin(), 0, words.asBytes().size());
  const kj::ArrayPtr<const capnp::word> segments[] = {words};
  it.write(OK + OK + OK + OK);
  it.end();
  auto text = it.read() + "; " + it.read();
  auto start = [&it, &segments]() { return it.reader->messages->writeMessage(segments); };
  auto writing = kj::evalLast(kj::mv(start)).eagerlyEvaluate(nullptr);
  {
    auto canceled = it.reader->read();
    text += canceled.poll(io.waitScope) ? "; read" : "; waits";
  }
  auto reading = it.reader->read();
  text += reading.poll(io.waitScope) ? "; read" : "; waits";
  auto taken = capnp::readMessage(*it.pipe.ends[1], {1 << 22, 64}).wait(io.waitScope);
  writing.wait(io.waitScope);
  return text + "; " + reading.wait(io.waitScope) + "; " + it.read() + it.reported;
}

// Messages of many sizes in pieces of many sizes: all bytes have to arrive, and in order.
std::string mixed(int kind, kj::AsyncIoContext &io) {
  std::mt19937 chance(7);
  size_t same = 0;
  for (unsigned round = 0; round < 40; round++) {
    Case it(kind, io);
    std::vector<Bytes> messages;
    Bytes all;
    for (unsigned at = 0; at < 30; at++) {
      const uint64_t longest = chance() % 4 ? 40 : 3000, words = 1 + chance() % longest;
      // (a list of bytes in one or two segments)
      const bool isTwo = chance() % 3 == 0;
      Bytes message = isTwo ? wordsOf({(words + 1) << 32 | 1, 1}) : wordsOf({(words + 1) << 32});
      message = message + wordsOf({1 | 2ull << 32 | (8 * words) << 35});
      for (uint64_t byte = 0; byte < 8 * words; byte++) message.push_back(static_cast<kj::byte>(chance()));
      if (isTwo) message = message + Bytes(8);
      messages.push_back(message);
      all = all + message;
    }
    kj::Promise<void> writing = kj::READY_NOW;
    for (size_t at = 0; at < all.size();) {
      const size_t count = std::min<size_t>(all.size() - at, 1 + chance() % (chance() % 3 ? 50 : 20'000));
      writing = writing.then([&it, &all, at, count]() { return it.pipe.ends[1]->write(&all[at], count); });
      at += count;
    }
    writing = writing.then([&it]() { it.end(); }).eagerlyEvaluate(nullptr);
    for (auto &message : messages) {
      auto reader = it.reader->messages->readMessage().wait(io.waitScope);
      auto read = capnp::messageToFlatArray(kj::arrayPtr(std::vector<kj::ArrayPtr<const capnp::word>>{reader->getSegment(0)}.data(), 1));
      const size_t table = message[0] == 0 ? 8 : 16, more = message[0] == 0 ? 0 : 8;
      const auto first = read.asBytes();
      same += first.size() - 8 == message.size() - table - more &&
              memcmp(first.begin() + 8, &message[table], first.size() - 8) == 0;
    }
    if (it.read() != "end") return "no end";
    writing.wait(io.waitScope);
  }
  return std::to_string(same) + " messages";
}

// A message of one segment with this root, and zeros after it.
Bytes large(uint64_t root, uint64_t words) {
  auto message = wordsOf({words << 32, root});
  message.resize(8 * (words + 1));
  return message;
}

// A large message that is refused, or cut.
std::string largeRefused(int kind, kj::AsyncIoContext &io, uint64_t root, size_t length) {
  auto message = large(root, 3000);
  message.resize(length);
  return refused(kind, io, message, true);
}

// Messages with two file descriptors: a null one, and a large one that is refused. Those of the latter are closed.
std::string files(int kind, kj::AsyncIoContext &io) {
  Case it(kind, io);
  capnp::AsyncCapabilityMessageStream out(*it.pipe.ends[1]);
  const int passed[] = {0, 1};
  std::string text;
  for (auto &frame : {large(0, 1), large(0x00010000fffffffc, 3000)}) {
    const Bytes bytes(frame.begin() + 8, frame.end());
    auto words = kj::heapArray<capnp::word>(bytes.size() / sizeof(capnp::word));
    memcpy(words.begin(), bytes.data(), bytes.size());
    const kj::ArrayPtr<const capnp::word> segments[] = {words};
    out.writeMessage(passed, segments).wait(io.waitScope);
    kj::AutoCloseFd space[4];
    size_t open = 0, given = 0;
    auto failed = kj::runCatchingExceptions([&]() {
      auto read = it.reader->messages->tryReadMessage(space).wait(io.waitScope);
      if (auto *message = valueOf(read)) given = message->fds.size();
    });
    for (auto &file : space) open += file != nullptr;
    text += std::to_string(given) + " given, " + std::to_string(open) + " open; ";
  }
  return text + it.reported;
}

// Large messages whose first word is read alone, and the rest in pieces.
std::string pieces(kj::AsyncIoContext &io, size_t piece) {
  auto pipe = io.provider->newTwoWayPipe();
  capvet::VettingIoStream stream(kj::mv(pipe.ends[0]), io.provider->getTimer(), ofServer());
  Bytes sent;
  for (uint64_t at = 0; at < 9; at++) sent = sent + large(0, 1000 + 500 * at);
  auto writing = pipe.ends[1]->write(sent.data(), sent.size());
  writing = writing.then([&]() { pipe.ends[1]->shutdownWrite(); }).eagerlyEvaluate(nullptr);
  Bytes got(sent.size() + piece);
  size_t length = 0;
  for (size_t count = 1, turn = 0; count > 0; turn++) {
    const size_t most = turn % 3 == 0 ? 8 : piece;
    count = stream.tryRead(&got[length], most, most).wait(io.waitScope);
    length += count;
  }
  writing.wait(io.waitScope);
  return length == sent.size() && memcmp(got.data(), sent.data(), length) == 0 ? "the same" : "others";
}

// The bytes of a stream, without the messages: all of the accepted ones.
std::string through(kj::AsyncIoContext &io) {
  auto pipe = io.provider->newTwoWayPipe();
  capvet::VettingIoStream stream(kj::mv(pipe.ends[0]), io.provider->getTimer(), ofServer());
  Bytes sent;
  for (int at = 0; at < 3000; at++) sent = sent + OK;
  auto writing = pipe.ends[1]->write(sent.data(), sent.size());
  writing = writing.then([&]() { pipe.ends[1]->shutdownWrite(); }).eagerlyEvaluate(nullptr);
  auto got = stream.readAllBytes().wait(io.waitScope);
  writing.wait(io.waitScope);
  return got.size() == sent.size() && memcmp(got.begin(), sent.data(), got.size()) == 0 ? "the same" : "others";
}

// A connection from an address, on which nothing happens.
class From final : public kj::AsyncIoStream {
 public:
  explicit From(const std::string &peer) : peer_(peer) {}

  void getpeername(sockaddr *address, unsigned int *length) override {
    sockaddr_storage space = {};
    auto &four = reinterpret_cast<sockaddr_in &>(space);
    auto &six = reinterpret_cast<sockaddr_in6 &>(space);
    if (inet_pton(AF_INET, peer_.c_str(), &four.sin_addr) == 1) space.ss_family = AF_INET;
    if (inet_pton(AF_INET6, peer_.c_str(), &six.sin6_addr) == 1) space.ss_family = AF_INET6;
    KJ_REQUIRE(space.ss_family != AF_UNSPEC, "no address");
    *length = std::min(*length, static_cast<unsigned int>(sizeof space));
    memcpy(address, &space, *length);
  }
  kj::Promise<size_t> tryRead(void *, size_t, size_t) override { return kj::NEVER_DONE; }
  kj::Promise<void> write(const void *, size_t) override { return kj::READY_NOW; }
  kj::Promise<void> write(kj::ArrayPtr<const kj::ArrayPtr<const kj::byte>>) override { return kj::READY_NOW; }
  kj::Promise<void> whenWriteDisconnected() override { return kj::NEVER_DONE; }
  void shutdownWrite() override {}

 private:
  std::string peer_;
};

// Whether a server that serves two connections of an address serves one of each of these.
std::string served(kj::AsyncIoContext &io, std::initializer_list<const char *> peers) {
  capvet::ServerOptions options;
  options.connectionsOfAddress = 2;
  capvet::Server server(nullptr, io.provider->getTimer(), options);
  std::string text;
  for (auto *peer : peers) {
    const uint64_t before = server.counters().open;
    server.serve(kj::heap<From>(peer));
    text += server.counters().open > before ? "yes " : "no ";
  }
  return text + std::to_string(server.counters().turnedAway) + " turned away";
}

}  // namespace

int main() {
  auto io = kj::setupAsyncIo();
  const std::pair<const char *, std::function<std::string(int)>> cases[] = {
      {"a circle", [&](int kind) { return refused(kind, io, CYCLE + OK, false); }},
      {"2^32 segments", [&](int kind) { return refused(kind, io, MANY, false); }},
      {"too large", [&](int kind) { return refused(kind, io, LARGE, false); }},
      {"cut in the head", [&](int kind) { return refused(kind, io, {0, 0, 0}, true); }},
      {"cut in the table", [&](int kind) { return refused(kind, io, wordsOf({0x0000000100000003, 1}), true); }},
      {"cut in a segment", [&](int kind) { return refused(kind, io, wordsOf({0x0000000300000000, 0, 0}), true); }},
      {"a large circle", [&](int kind) { return largeRefused(kind, io, 0x00010000fffffffc, 24'008); }},
      {"a circle after a large message", [&](int kind) { return refused(kind, io, large(0, 3000) + CYCLE, false); }},
      {"a large message, cut", [&](int kind) { return largeRefused(kind, io, 0, 20'001); }},
      {"files", [&](int kind) { return files(kind, io); }},
      {"the end", [&](int kind) { return refused(kind, io, {}, true); }},
      {"shared objects", [&](int kind) { return overlapping(kind, io, false); }},
      {"shared objects, exclusive", [&](int kind) { return overlapping(kind, io, true); }},
      {"a callback that throws", [&](int kind) { return throwing(kind, io); }},
      {"a callback with a name", [&](int kind) { return named(kind, io); }},
      {"a refusal that is kept", [&](int kind) { return cloned(kind, io); }},
      {"a callback that drops the stream", [&](int kind) { return dropping(kind, io); }},
      {"limits", [&](int kind) { return badLimits(kind, io); }},
      {"canceled reads", [&](int kind) { return canceled(kind, io); }},
      {"late in the head", [&](int kind) { return late(kind, io, 3); }},
      {"late in a large message", [&](int kind) { return late(kind, io, 30'000); }},
      {"slow", [&](int kind) { return slow(kind, io); }},
      {"idle", [&](int kind) { return idle(kind, io); }},
      {"busy", [&](int kind) { return busy(kind, io); }},
      {"idle, a callback that drops the stream", [&](int kind) { return droppingIdle(kind, io); }},
      {"unread", [&](int kind) { return unread(kind, io, false); }},
      {"unread after a circle", [&](int kind) { return unread(kind, io, true); }},
      {"unread, a callback that drops the stream", [&](int kind) { return droppingUnread(kind, io); }},
      {"paced", [&](int kind) { return paced(kind, io); }},
      {"paced, a late write", [&](int kind) { return pacedLast(kind, io); }},
      {"mixed", [&](int kind) { return mixed(kind, io); }},
  };
  for (auto &[name, run] : cases) {
    for (int kind = 0; kind < 3; kind++) printf("%s, %s: %s\n", name, KINDS[kind], run(kind).c_str());
  }
  printf("bytes alone: %s\n", through(io).c_str());
  for (size_t piece : {size_t{1000}, size_t{30'000}}) printf("bytes in pieces of %zu: %s\n", piece, pieces(io, piece).c_str());
  printf("idle, in memory: %s\n", idleInMemory(io).c_str());
  capvet::ServerOptions options;
  options.limits.depth = CAPVET_MAX_DEPTH + 1;
  auto failed = kj::runCatchingExceptions([&]() { capvet::Server server(nullptr, io.provider->getTimer(), options); });
  printf("limits, server: %s\n", valueOf(failed) != nullptr ? "throws" : "valid");
  printf("a /64: %s\n", served(io, {"2001:db8:0:1::1", "2001:db8:0:1:ffff::2", "2001:db8:0:1::1", "2001:db8:0:1::3"}).c_str());
  printf("other networks: %s\n", served(io, {"2001:db8:0:1::1", "2001:db8:0:2::1", "2001:db8:0:2::1", "2001:db8:0:2::1"}).c_str());
  printf("mapped addresses: %s\n", served(io, {"192.0.2.1", "::ffff:192.0.2.1", "192.0.2.1", "::ffff:192.0.2.2"}).c_str());
  printf("other sockets: %s\n", served(io, {"", "", ""}).c_str());
}
