/* Fuzz target: the streams of kj-stream.h over a connection that gives an input's bytes in pieces of any size, and ends, fails
 * or stalls after them. What is passed on are the messages that capvet_frame and capvet_vet accept, one after the other, and
 * libcapnp reads each of them without an exception. The end has the text, the bytes and the cause of the first message that
 * is not accepted, and it is the same for all later reads. `onEnded` is called once at most. */
#include <capnp/serialize-async.h>
#include <capvet/kj.h>

#include <string>
#include <vector>

#include "../readers/walk.h"
#include "peer.h"

namespace {

// (the least limits of libcapnp, and such that it refuses nothing before this)
const capnp::ReaderOptions NONE{0, 0}, ANY{CAPVET_MAX_MESSAGE_WORDS, 64};

// The kind of stream. The first three are a VettingStream: of a connection, of one with files, of another stream of messages.
// The others are connections that vet their bytes, without and with files. Any reads read them, or libcapnp does.
enum Way { MESSAGES, MESSAGES_AND_FILES, AROUND, BYTES, BYTES_BY_CAPNP, FILES, FILES_BY_CAPNP, WAYS };

// An input on its way through a stream.
class Run {
 public:
  explicit Run(const fuzz_input &input)
      : in(input),
        way(Way(in.kind % 8 % WAYS)),
        end(End(in.kind / 8)),
        model(modelOf({in.bytes, in.length}, in.limits)),
        peer(in, {in.bytes, in.length}, end, {Address::Kind(in.slack % 5), 4000}) {
    // (most limits don't say what the bytes are)
    if (choose(&in, 4) != 0 && in.limits.form == CAPVET_FORM_PREFIX) in.limits.form = CAPVET_FORM_WHOLE;
    options.limits = in.limits;
    options.paced = choose(&in, 2) == 0;
    throws = choose(&in, 8) == 0;
  }

  // The rules for this input and its way.
  void check() {
    auto failed = kj::runCatchingExceptions([&]() { start(); });
    auto *exception = valueOf(failed);
    RULE((exception != nullptr) == isBad(in.limits));
    if (exception != nullptr) return;
    reached_answer(way, model.answer);
    reached_number(way, model.accepted.size());
    if (bytes.get() != nullptr) checkOptions(*bytes);
    if (way == BYTES || way == FILES) return readBytes(*bytes);
    if (!isLeftToCapnp()) readMessages();
  }

 private:
  void start() {
    auto onEnded = [this](const capvet::Ended &ended) {
      refusals++;
      text = kj::str(ended);
      auto *refusal = valueOf(ended.refusal);
      RULE((refusal == nullptr) == (ended.cause == capvet::Cause::UNREAD));
      if (refusal != nullptr) checkRefusal(ended.cause, *refusal);
      if (throws) kj::throwFatalException(KJ_EXCEPTION(FAILED, "a callback that throws"));
    };
    auto &files = static_cast<kj::AsyncCapabilityStream &>(peer);
    auto own = [](auto &it) { return kj::Own<std::remove_reference_t<decltype(it)>>(&it, kj::NullDisposer::instance); };
    switch (way) {
      case MESSAGES:
        messages = kj::heap<capvet::VettingStream>(static_cast<kj::AsyncIoStream &>(peer), timer, options, onEnded);
        return;
      case MESSAGES_AND_FILES:
        messages = kj::heap<capvet::VettingStream>(files, timer, options, onEnded);
        return;
      case AROUND:
        inner = kj::heap<capnp::AsyncCapabilityMessageStream>(peer);
        messages = kj::heap<capvet::VettingStream>(*inner, options, onEnded);
        return;
      case BYTES:
      case BYTES_BY_CAPNP:
        bytes = kj::heap<capvet::VettingIoStream>(own(static_cast<kj::AsyncIoStream &>(peer)), timer, options, onEnded);
        messages = kj::heap<capnp::AsyncIoMessageStream>(*bytes);
        return;
      default:
        auto vetting = kj::heap<capvet::VettingCapabilityStream>(own(files), timer, options, onEnded);
        bytesAndFiles = vetting.get();
        messages = kj::heap<capnp::AsyncCapabilityMessageStream>(*vetting);
        bytes = kj::mv(vetting);
    }
  }

  // A refusal has the bytes and the place of the message, and the path of the pointer if one is refused.
  void checkRefusal(capvet::Cause cause, const capvet::Refusal &refusal) {
    size_t offset = 0;
    for (const auto &frame : model.accepted) offset += frame.size();
    if (!isForeign()) RULE(refusal.number == model.accepted.size() && refusal.offset == offset);
    if (refusal.unvetted.size() > 0) checkBytes(refusal.unvetted);
    const bool isRefused = model.answer >= CAPVET_NOT_CANONICAL && cause == capvet::Cause::REFUSED;
    const uint64_t number = isRefused ? model.report.pointers : 0;
    const auto path = refusal.path();
    RULE(path == capvet::detail::pathTo(number, model.rest, options.limits) && path == refusal.clone()->path());
  }

  // The bytes of a refusal are those of the message.
  void checkBytes(kj::ArrayPtr<const kj::byte> got) {
    if (way == AROUND) return;
    const auto rest = model.rest;
    RULE(got.size() <= rest.size() && memcmp(got.begin(), rest.begin(), got.size()) == 0);
    if (model.answer >= CAPVET_NOT_CANONICAL) RULE(got.size() == model.report.length);
    if (model.answer == CAPVET_TRUNCATED) RULE(got.size() == rest.size());
  }

  // Whether libcapnp itself refuses a message that the limits accept.
  bool isLeftToCapnp() const {
    if (way == MESSAGES || way == MESSAGES_AND_FILES) return false;
    for (const auto &report : model.reports) {
      if (report.segments >= CAPVET_MAX_SEGMENTS) return true;
    }
    // (also one that is cut after its table)
    const auto rest = model.rest;
    return model.answer == CAPVET_TRUNCATED && rest.size() >= 4 && fuzz_number(rest.begin(), 4) + 1 >= CAPVET_MAX_SEGMENTS;
  }

  // Whether a promise is done, after what it may wait for: writes, and the deadline of a message.
  template <typename Type>
  bool isDone(kj::Promise<Type> &promise) {
    if (isDoneNow(promise, timer, scope)) return true;
    peer.finishWrites();
    if (isDoneNow(promise, timer, scope)) return true;
    timer.advanceTo(timer.now() + options.deadline + 1 * kj::SECONDS);
    return isDoneNow(promise, timer, scope);
  }

  // Begins a write at times. It goes to the connection.
  void mayWrite() {
    if (choose(&in, 4) != 0) return;
    const size_t before = peer.writes();
    writes.push_back(write().eagerlyEvaluate(nullptr));
    RULE(peer.writes() == before + 1);
  }

  // A write by any of the calls.
  kj::Promise<void> write() {
    static const capnp::word none[1] = {};
    static const kj::ArrayPtr<const capnp::word> segments[] = {kj::arrayPtr(none, 1)};
    static const kj::ArrayPtr<const kj::byte> pieces[] = {kj::arrayPtr(none, 1).asBytes()};
    kj::ArrayPtr<const kj::ArrayPtr<const capnp::word>> message = kj::arrayPtr(segments, 1);
    const auto kind = choose(&in, 3) + (bytesAndFiles != nullptr ? choose(&in, 2) * 2 : 0);
    if (bytes.get() == nullptr || choose(&in, 2) == 0) {
      return kind == 0 ? messages->writeMessages(kj::arrayPtr(&message, 1)) : messages->writeMessage(nullptr, message);
    }
    switch (kind) {
      case 0: return bytes->write(none, sizeof none);
      case 3: return bytesAndFiles->writeWithFds(pieces[0], nullptr, nullptr);
      case 4: return bytesAndFiles->writeWithStreams(pieces[0], nullptr, nullptr);
      default: return bytes->write(kj::arrayPtr(pieces, 1));
    }
  }

  // What isn't about bytes passes through to the connection.
  void checkOptions(kj::AsyncIoStream &stream) {
    uint32_t value = 0, length = sizeof value;
    stream.setsockopt(1, 2, &in.state, sizeof value);
    stream.getsockopt(1, 2, &value, &length);
    RULE(value == uint32_t(in.state) && length == sizeof value);
    sockaddr_storage one = {}, other = {};
    length = sizeof one;
    stream.getsockname(reinterpret_cast<sockaddr *>(&one), &length);
    RULE(one.ss_family == AF_APPLETALK);
    one = {};
    length = sizeof one;
    auto failed = kj::runCatchingExceptions([&]() { peer.getpeername(reinterpret_cast<sockaddr *>(&one), &length); });
    auto same = kj::runCatchingExceptions([&]() { stream.getpeername(reinterpret_cast<sockaddr *>(&other), &length); });
    RULE((valueOf(failed) != nullptr) == (valueOf(same) != nullptr) && memcmp(&one, &other, sizeof one) == 0);
    RULE(!stream.whenWriteDisconnected().poll(scope));
    if (bytesAndFiles == nullptr) return;
    auto reading = bytesAndFiles->tryReadWithStreams(nullptr, 0, 0, nullptr, 0);
    RULE(reading.poll(scope));
    RULE(hasFailed(kj::mv(reading)));
  }

  template <typename Type>
  bool hasFailed(kj::Promise<Type> &&promise) {
    auto failed = kj::runCatchingExceptions([&]() { promise.wait(scope); });
    return valueOf(failed) != nullptr;
  }

  // Ends the writing, and then the reading.
  void checkEnds() {
    if (way < BYTES) {
      auto ending = messages->end();
      RULE(ending.poll(scope));
    } else {
      bytes->shutdownWrite();
      bytes->abortRead();
      RULE(peer.isDropped());
    }
    RULE(peer.hasEnded());
  }

  // The limits of libcapnp for a message, where this doesn't set them.
  capnp::ReaderOptions limitsOf(size_t at) const {
    if (way <= AROUND || at >= model.accepted.size()) return NONE;
    return capvet::readerOptions(model.reports[at], options.readings, NONE);
  }

  void readMessages() {
    for (size_t at = 0; at < model.accepted.size(); at++) {
      mayWrite();
      auto space = kj::heapArray<capnp::word>(choose(&in, 2) == 0 ? 0 : choose(&in, 64));
      kj::AutoCloseFd files[2];
      auto promise = messages->tryReadMessage(kj::arrayPtr(files, 2), limitsOf(at), space);
      RULE(isDone(promise));
      auto read = promise.wait(scope);
      auto *message = valueOf(read);
      RULE(message != nullptr);
      compare(*message->reader, model.accepted[at], model.reports[at]);
    }
    if (end == UNREAD && way <= MESSAGES_AND_FILES) return leaveUnread();
    for (int times = 0; times < 2; times++) readEnd(times > 0);
    checkEnds();
    RULE(refusals == (isReported() ? 1u : 0u) || (isForeign() && refusals <= 1));
  }

  // A message has the segments of its frame, and libcapnp reads it.
  void compare(capnp::MessageReader &reader, kj::ArrayPtr<const kj::byte> frame, const capvet_report &report) {
    capvet_extent extents[CAPVET_MAX_SEGMENTS];
    capvet_report again;
    size_t count;
    RULE(capvet_segments(frame.begin(), frame.size(), &in.limits, extents, CAPVET_MAX_SEGMENTS, &count, &again) == CAPVET_OK);
    RULE(count == report.segments);
    for (uint32_t id = 0; id < report.segments; id++) {
      auto got = reader.getSegment(id).asBytes();
      RULE(got.size() == extents[id].length && memcmp(got.begin(), frame.begin() + extents[id].offset, got.size()) == 0);
    }
    RULE(reader.getSegment(report.segments).begin() == nullptr || reader.getSegment(report.segments).size() == 0);
    if ((in.limits.flags & CAPVET_ALLOW_NONSTRICT) != 0) return;
    static EveryCapability caps;
    const auto walk = walkOf(rootOf(reader, caps), false);
    RULE(walk.pointers == report.pointers && walk.caps == report.capabilities);
  }

  // Whether libcapnp looks at the end before this. (a table of 2^32 segments is one of no segments there, which is refused)
  bool isForeign() const {
    return way == AROUND && (model.answer < CAPVET_NOT_CANONICAL || model.answer == CAPVET_MANY_SEGMENTS);
  }

  // Whether the callback is called at the end of the bytes.
  bool isReported() const {
    return way == AROUND ? !isForeign() : model.answer != CAPVET_OK;
  }

  // Whether a read of a peer that stalls may wait: between two messages, or in another stream, which has no deadline.
  bool mayWait() const { return end == STALLS && (model.answer == CAPVET_OK || way == AROUND); }

  // The text of the exception at the end, or null for the end of the stream.
  kj::String expected() const {
    if (model.answer == CAPVET_OK || (model.answer == CAPVET_TRUNCATED && end == FAILS)) {
      return end == FAILS ? kj::str(FAILURE) : kj::String();
    }
    return model.textOf(end);
  }

  void readEnd(bool isAgain) {
    kj::AutoCloseFd files[2];
    auto promise = messages->tryReadMessage(kj::arrayPtr(files, 2), ANY, nullptr);
    if (!isDone(promise)) {
      RULE(mayWait());
      return;
    }
    bool isThere = false;
    auto thrown = kj::runCatchingExceptions([&]() {
      auto read = promise.wait(scope);
      isThere = valueOf(read) != nullptr;
    });
    RULE(!isThere);
    checkEnd(valueOf(thrown), isAgain);
    RULE(isForeign() || (files[0].get() < 0 && files[1].get() < 0));
  }

  void checkEnd(const kj::Exception *exception, bool isAgain) {
    const auto text = expected();
    if (exception == nullptr) {
      RULE(model.answer == CAPVET_OK && (end != FAILS || isAgain));
    } else if (!isForeign()) {
      if (exception->getDescription() != text) fprintf(stderr, "%s, not %s\n", kj::str(*exception).cStr(), text.cStr());
      RULE(exception->getDescription() == text);
    } else {
      RULE(model.answer != CAPVET_OK || end == FAILS);
    }
  }

  // A peer that doesn't read what is written is dropped.
  void leaveUnread() {
    static const capnp::word none[1] = {};
    const kj::ArrayPtr<const capnp::word> segments[] = {kj::arrayPtr(none, 1)};
    auto writing = messages->writeMessage(nullptr, kj::arrayPtr(segments, 1));
    RULE(!writing.poll(scope));
    if (choose(&in, 2) == 0) {
      // (each write has all its time)
      timer.advanceTo(timer.now() + options.unread / 2);
      peer.finishWrites();
      RULE(writing.poll(scope));
      writing = messages->writeMessage(nullptr, kj::arrayPtr(segments, 1));
      timer.advanceTo(timer.now() + options.unread * 3 / 4);
      RULE(!writing.poll(scope));
      timer.advanceTo(timer.now() + options.unread / 4);
      RULE(writing.poll(scope));
    } else {
      timer.advanceTo(timer.now() + options.unread + 1 * kj::SECONDS);
      RULE(writing.poll(scope));
    }
    RULE(peer.isDropped());
    for (int times = 0; times < 2; times++) {
      auto thrown = kj::runCatchingExceptions([&]() {
        if (times == 0) writing.wait(scope);
        else messages->writeMessage(nullptr, kj::arrayPtr(segments, 1)).wait(scope);
      });
      auto *exception = valueOf(thrown);
      RULE(exception != nullptr && exception->getDescription() == "dropped, unread");
    }
    RULE(refusals == 1 && text == "dropped, unread");
    auto promise = messages->tryReadMessage(nullptr, NONE, nullptr);
    peer.finishWrites();
    RULE(promise.poll(scope));
    auto thrown = kj::runCatchingExceptions([&]() { promise.wait(scope); });
    RULE(valueOf(thrown) != nullptr);
  }

  // Reads the bytes in pieces of any size. Those of a refused message can't be read, apart from the table of a large one.
  void readBytes(kj::AsyncIoStream &stream) {
    std::string all;
    size_t total = 0, lost = 0;
    for (const auto &frame : model.accepted) total += frame.size();
    for (;;) {
      const bool isFirst = choose(&in, 3) == 0;
      const size_t most = isFirst ? sizeof(capnp::word) : 1 + choose(&in, size_t{1} << (1 + choose(&in, 14)));
      const size_t least = choose(&in, 2) == 0 ? most : 1 + choose(&in, most);
      auto space = kj::heapArray<kj::byte>(most);
      kj::AutoCloseFd files[2];
      auto promise = read(stream, space, least, files);
      if (!isDone(promise)) {
        RULE(mayWait());
        lost = least;
        break;
      }
      size_t count = 0;
      auto thrown = kj::runCatchingExceptions([&]() { count = promise.wait(scope); });
      RULE(count <= most);
      all.append(reinterpret_cast<const char *>(space.begin()), count);
      if (auto *exception = valueOf(thrown)) {
        checkEnd(exception, false);
        lost = least;
      }
      if (count < least) break;
    }
    checkEnds();
    RULE(all.size() <= in.length && memcmp(all.data(), in.bytes, all.size()) == 0);
    RULE(all.size() + lost >= total);
    checkTable(all.size() - std::min(all.size(), total));
    RULE(refusals == (isReported() ? 1u : 0u));
  }

  // A read, which also takes files where there may be some.
  kj::Promise<size_t> read(kj::AsyncIoStream &stream, kj::ArrayPtr<kj::byte> space, size_t least, kj::AutoCloseFd (&files)[2]) {
    mayWrite();
    if (bytesAndFiles == nullptr || choose(&in, 2) == 0) return stream.tryRead(space.begin(), least, space.size());
    return bytesAndFiles->tryReadWithFds(space.begin(), least, space.size(), files, 2)
        .then([](kj::AsyncCapabilityStream::ReadResult read) { return read.byteCount; });
  }

  // The bytes that came of a message that is not accepted: at most the table of a large one.
  void checkTable(size_t length) {
    if (length == 0) return;
    const size_t claimed = model.report.length + model.report.input_required;
    RULE(claimed > 8192 && length <= 8 * (fuzz_number(model.rest.begin(), 4) + 1) / 2 + 8);
  }

  kj::EventLoop loop;
  kj::WaitScope scope{loop};
  kj::TimerImpl timer{kj::origin<kj::TimePoint>()};
  fuzz_input in;
  const Way way;
  const End end;
  const Model model;
  Peer peer;
  capvet::StreamOptions options = capnp::rpc::twoparty::Side::CLIENT;
  bool throws = false;
  uint32_t refusals = 0;
  kj::String text;
  kj::Own<capnp::MessageStream> inner;
  kj::Own<kj::AsyncIoStream> bytes;
  capvet::VettingCapabilityStream *bytesAndFiles = nullptr;
  kj::Own<capnp::MessageStream> messages;
  std::vector<kj::Promise<void>> writes;
};

}  // namespace

extern "C" int LLVMFuzzerTestOneInput(const uint8_t *data, size_t size) {
  fuzz_input in;
  if (!fuzz_read(&in, data, size) || in.length > 1 << 18) return 0;
  Quiet quiet;
  // (few inputs are so large that a stream doesn't hold them whole, so each of these goes every way)
  const unsigned more = in.length > 8192 ? 8 : 1;
  for (unsigned at = 0; at < more; at++) {
    kj::heap<Run>(in)->check();
    in.kind = in.kind / 8 * 8 + (in.kind + 1) % 8;
  }
  return 0;
}
