/* capvet/kj-stream.h: vets the messages of connections for libcapnp. Include capvet/kj.h, which says more. */
#ifndef CAPVET_KJ_STREAM_H
#define CAPVET_KJ_STREAM_H

#include <arpa/inet.h>
#include <capnp/rpc-twoparty.capnp.h>
#include <capnp/serialize-async.h>
#include <capvet/kj-message.h>
#include <kj/async-io.h>
#include <kj/async.h>
#include <kj/debug.h>
#include <kj/function.h>
#include <kj/io.h>
#include <kj/time.h>
#include <kj/timer.h>
#include <kj/vector.h>
#include <netinet/in.h>
#include <sys/socket.h>

namespace capvet {
inline namespace CAPVET_KJ_VERSION {

/* What a stream accepts, and how slow its peer may be. Vetting bounds one message; these bound the time that a peer takes, and
 * the replies that it leaves unread. */
struct StreamOptions : Options {
  /* For a server `paced` is on, and `idle` is 10 minutes. For a client `paced` is off, and `idle` is no limit. */
  StreamOptions(capnp::rpc::twoparty::Side side)
      : idle(side == capnp::rpc::twoparty::Side::SERVER ? 10 * kj::MINUTES : 0 * kj::SECONDS),
        paced(side == capnp::rpc::twoparty::Side::SERVER) {}

  /* The most time from the first byte of a message to its last. Let the slowest peer send `limits.message_words`. */
  kj::Duration deadline = 20 * kj::SECONDS;

  /* The most time from the end of a message to the beginning of the next one, in whichever direction they go, while a
   * read waits. Then the read throws, and the connection ends. So it does during a call that takes longer, unless
   * something else is sent meanwhile. 0 is no limit. */
  kj::Duration idle;

  /* The most time that a written message may stay unread, and the most time that a connection lasts after a refusal or
   * the peer's end. Then it is dropped: what is still written fails, and the peer gets a reset. */
  kj::Duration unread = 60 * kj::SECONDS;

  /* Whether two messages at most are read before the replies to them are written, as far as these are there. A peer that
   * doesn't read its replies then can't cause more of them. Two peers that both do so can wait for each other, until
   * `unread` is over: one of them is enough. */
  bool paced;
};

/* Why a connection was ended. */
enum class Cause {
  REFUSED, /* the bytes are not an accepted message */
  CUT,     /* the peer ended inside a message */
  LATE,    /* the peer took longer than `deadline` for a message */
  IDLE,    /* there was no message for longer than `idle` */
  UNREAD,  /* the peer took longer than `unread` to read a message */
};

/* The end of a connection, as `onEnded` gets it. It is borrowed then, and so are its parts. */
struct Ended {
  explicit Ended(Cause why) : cause(why) {}
  Ended(Cause why, const Refusal &which) : cause(why), refusal(which) {}
  KJ_DISALLOW_COPY(Ended);

  Cause cause;

  /* The message that isn't accepted or isn't whole. There is none after IDLE and UNREAD. */
  kj::Maybe<const Refusal &> refusal;

  /* The peer of the connection, such as "127.0.0.1:4000". It is empty if the connection doesn't say. */
  kj::StringPtr peer = nullptr;
};

/* The text of the refusal, and after a cause other than REFUSED a word for it, as in "refused Truncated 24, late". Without a
 * refusal it is "dropped, idle" or "dropped, unread". */
inline kj::String KJ_STRINGIFY(const Ended &ended) {
  static constexpr const char *WORDS[] = {"", ", cut", ", late", ", idle", ", unread"};
  const char *word = WORDS[static_cast<int>(ended.cause)];
  if (auto *refusal = detail::valueOf(ended.refusal)) return kj::str(*refusal, word);
  return kj::str("dropped", word);
}

/* The end as an exception, with the text above. Its type is DISCONNECTED if the peer has ended, is idle or reads
 * nothing, OVERLOADED if it was late, and otherwise FAILED. */
inline kj::Exception exceptionOf(const Ended &ended) {
  using Type = kj::Exception::Type;
  const auto cause = ended.cause;
  const auto type = cause == Cause::REFUSED ? Type::FAILED : cause == Cause::LATE ? Type::OVERLOADED : Type::DISCONNECTED;
  return kj::Exception(type, __FILE__, __LINE__, kj::str(ended));
}

namespace detail {

/* A function that keeps what it calls, also what has a name. (kj::Function keeps that by reference) */
template <typename Parameter, typename Result = void>
class Kept final {
  template <typename Callable>
  using Takes = std::conjunction<std::negation<std::is_same<Callable, Kept>>,
                                 std::is_invocable_r<Result, Callable &, const Parameter &>>;

 public:
  template <typename Callable, typename = std::enable_if_t<Takes<std::decay_t<Callable>>::value>>
  Kept(Callable &&callable) : function_(std::decay_t<Callable>(kj::fwd<Callable>(callable))) {}

  Result operator()(const Parameter &parameter) { return function_(parameter); }

 private:
  kj::Function<Result(const Parameter &)> function_;
};

/* A function that does nothing. */
template <typename Parameter>
void ignore(const Parameter &) {}

}  // namespace detail

/* A function that a stream calls once at most: when a message is refused, or when the peer is too slow. It is made of any
 * function or lambda, and keeps a copy of one that has a name. An exception of it is logged. It runs within the promise of
 * a read or a write. It may destroy the stream, but not that promise, so no RPC system that uses the stream. */
using OnEnded = detail::Kept<Ended>;

namespace detail {

/* The address of a connection's peer. Its family is AF_UNSPEC if the connection doesn't say. */
inline sockaddr_storage addressOf(kj::AsyncIoStream &connection) {
  sockaddr_storage space = {};
  auto *address = reinterpret_cast<sockaddr *>(&space);
  unsigned int length = sizeof space;
  auto failed = kj::runCatchingExceptions([&]() { connection.getpeername(address, &length); });
  return valueOf(failed) == nullptr ? space : sockaddr_storage();
}

/* The peer of a connection, such as "127.0.0.1:4000" or "[::1]:4000". It is empty if there is no such address. */
inline kj::String peerOf(kj::AsyncIoStream &connection) {
  const auto space = addressOf(connection);
  char text[INET6_ADDRSTRLEN] = "";
  if (space.ss_family == AF_INET) {
    const auto &four = *reinterpret_cast<const sockaddr_in *>(&space);
    return kj::str(inet_ntop(AF_INET, &four.sin_addr, text, sizeof text), ":", ntohs(four.sin_port));
  }
  if (space.ss_family == AF_INET6) {
    const auto &six = *reinterpret_cast<const sockaddr_in6 *>(&space);
    return kj::str("[", inet_ntop(AF_INET6, &six.sin6_addr, text, sizeof text), "]:", ntohs(six.sin6_port));
  }
  return kj::String();
}

/* Throws if the limits are not valid for messages with a table. */
inline void requireValid(const capvet_limits &limits) {
  capvet_report report;
  // (they are the first thing that the call looks at)
  const bool isBad = haveForm(limits) || capvet_frame(nullptr, 0, &limits, &report) == CAPVET_BAD_LIMITS;
  KJ_REQUIRE(!isBad, "capvet: these limits refuse every message (CAPVET_BAD_LIMITS)");
}

/* The end of a stream: one exception, and one call of `onEnded`. */
class Ending final {
 public:
  Ending(OnEnded &&onEnded, kj::String &&peer) : onEnded_(kj::mv(onEnded)), peer_(kj::mv(peer)) {}

  /* The exception that it ended with, or null. */
  const kj::Exception *exception() { return valueOf(ended_); }

  /* Ends with an exception, unless it has ended. */
  void end(const kj::Exception &exception) {
    if (valueOf(ended_) == nullptr) ended_ = kj::cp(exception);
  }

  /* Ends, and gives the exception. The callback may destroy the stream with this in it. */
  KJ_NOINLINE kj::Exception end(Ended &&ended) {
    auto exception = exceptionOf(ended);
    end(exception);
    report(ended);
    return exception;
  }

  /* Calls back, unless it did so before. */
  void report(Ended &ended) {
    if (isReported_) return;
    isReported_ = true;
    call(kj::mv(onEnded_), kj::mv(peer_), ended);
  }

 private:
  // (the function and the text are taken, since the stream may be gone before they are)
  static void call(OnEnded &&passed, kj::String &&peer, Ended &ended) {
    auto onEnded = kj::mv(passed);
    const auto name = kj::mv(peer);
    ended.peer = name;
    auto failed = kj::runCatchingExceptions([&]() { onEnded(ended); });
    if (auto *thrown = valueOf(failed)) KJ_LOG(ERROR, "capvet: onEnded threw", *thrown);
  }

  OnEnded onEnded_;
  kj::String peer_;
  kj::Maybe<kj::Exception> ended_;
  bool isReported_ = false;
};

/* A connection whose messages are read whole and vetted, and whose peer has little time. */
class Guard final {
 public:
  /* With `files` the file descriptors of a message are read too: it is the same connection. */
  Guard(kj::AsyncIoStream &connection, kj::AsyncCapabilityStream *files, kj::Timer &timer, const StreamOptions &options,
        OnEnded &&onEnded)
      : connection_(connection),
        files_(files),
        timer_(timer),
        options_(options),
        limits_(ofPrefix(options.limits)),
        ending_(kj::mv(onEnded), peerOf(connection)) {
    requireValid(options.limits);
  }
  KJ_DISALLOW_COPY(Guard);

  /* The promise of what a function makes of a message. */
  template <typename Take>
  using Taken = kj::Promise<decltype(kj::instance<Take &>()(true))>;

  /* Reads the next message, and holds it until the next call. Exceptions are those of refusals and of the connection, and
   * all later calls have the same one.
   *
   *   space       Space for file descriptors that come with it.
   *   tableFirst  Whether the table of a message that is larger than the buffer may be taken before the verdict.
   *   take        It is called with true if a message is accepted, and with false at the end. Its result is that of the
   *               read. (one more promise for each message would take longer than vetting a small one) */
  template <typename Take>
  Taken<Take> next(kj::ArrayPtr<kj::AutoCloseFd> space, bool tableFirst, Take take) {
    release();
    space_ = space;
    // (overlaps are looked for in a frame that is there)
    tableFirst_ = tableFirst && !options_.exclusive;
    if (options_.paced && writes_ > 0) {
      return afterWrite().then([this, take = kj::mv(take)]() mutable { return begin(take); });
    }
    return begin(take);
  }

  /* The limits for libcapnp to read the message. */
  capnp::ReaderOptions readerOptions(capnp::ReaderOptions atLeast) const {
    return capvet::readerOptions(report_, options_.readings, atLeast);
  }

  /* The message, with its table, or the table alone if `rest()` isn't 0. */
  kj::ArrayPtr<const kj::byte> message() const { return {bytes(), length_}; }

  /* The length of the segments of a message that has no verdict yet. */
  size_t rest() const { return rest_; }

  /* Reads these segments to a place of that length, and takes them if they are accepted. */
  template <typename Take>
  Taken<Take> readInto(kj::byte *place, Take take) {
    auto stopped = obstacle();
    if (auto *exception = valueOf(stopped)) return kj::mv(*exception);
    const size_t first = held_ - length_;
    std::memcpy(place, bytes() + length_, first);
    return receiveInto(place, first, take);
  }

  /* Reads these segments too, and takes the whole message. */
  template <typename Take>
  Taken<Take> readWhole(Take take) {
    auto stopped = obstacle();
    if (auto *exception = valueOf(stopped)) return kj::mv(*exception);
    const size_t required = length_ + rest_;
    length_ = rest_ = 0;
    tableFirst_ = false;
    return receive(required, take);
  }

  /* The file descriptors of the message, which are reported once. */
  size_t takeFiles() {
    const size_t count = fileCount_;
    fileCount_ = 0;
    return count;
  }

  /* The words of a large message, which this no longer holds then. It is empty for others: copy those. */
  kj::Array<capnp::word> takeLarge() { return kj::mv(large_); }

  /* Starts to write, and watches that it ends.
   *
   *   start  writes to the connection */
  template <typename Start>
  kj::Promise<void> write(Start start) {
    if (auto *exception = valueOf(dropped_)) return kj::cp(*exception);
    auto writing = start();
    beginWrite();
    auto onEnded = kj::defer([this]() { endWrite(); });
    return canceler_.wrap(writing.attach(kj::mv(onEnded))).catch_([this](kj::Exception &&exception) {
      auto thrown = kj::mv(exception);
      if (valueOf(dropped_) != nullptr) reportUnread();
      kj::throwFatalException(kj::mv(thrown));
    });
  }

 private:
  // Most messages are read by one call, with the first bytes of those after them.
  static constexpr size_t CAPACITY = 8192;

  // The most messages whose replies may not be written yet. A client that waits for each result sends two at a time: what
  // ends one call, and the next call.
  static constexpr uint32_t MOST_OWED = 2;

  const kj::byte *bytes() const { return large_.size() > 0 ? large_.asBytes().begin() : buffer_ + start_; }

  // The bytes that came of this message and, in the buffer, of those after it.
  kj::ArrayPtr<const kj::byte> held() const { return {bytes(), held_}; }

  // Forgets the message that was read.
  void release() {
    countRead(length_);
    // (a large message is alone in its words, which the reader may have taken)
    if (length_ > CAPACITY) {
      large_ = nullptr;
      start_ = held_ = 0;
    } else {
      start_ += length_;
      held_ -= length_;
      if (held_ == 0) start_ = 0;
    }
    length_ = fileCount_ = 0;
    hasBegun_ = false;
  }

  // Counts a message of this length that was read, unless it is 0.
  void countRead(size_t length) {
    number_ += length > 0;
    offset_ += length;
  }

  // The reason why nothing more can be read, if there is one.
  kj::Maybe<kj::Exception> obstacle() {
    if (auto *exception = ending_.exception()) return kj::cp(*exception);
    if (isWithin_) return KJ_EXCEPTION(FAILED, "capvet: a read was canceled inside a message, so the next one is lost");
    return {};
  }

  template <typename Take>
  Taken<Take> begin(Take &take) {
    auto stopped = obstacle();
    if (auto *exception = valueOf(stopped)) return kj::mv(*exception);
    return advance(take);
  }

  // Goes on with a message, as far as its bytes are there.
  template <typename Take>
  Taken<Take> advance(Take &take) {
    if (held_ == 0) {
      report_ = capvet_report();
      report_.input_required = sizeof(capnp::word);
      return receive(sizeof(capnp::word), take);
    }
    if (mayOwe()) return afterReplies(take);
    const auto answer = detail::vet(held(), limits_, options_.exclusive, report_);
    if (answer == CAPVET_OK) {
      length_ = report_.length;
      return give(take);
    }
    if (answer == CAPVET_TRUNCATED) {
      const size_t required = report_.input_required;
      if (!tableFirst_ || required <= CAPACITY) return receive(required, take);
      // (what is required is the frame then, since no table is so long)
      length_ = (numberAt(0) + 1) / 2 * sizeof(capnp::word) + sizeof(capnp::word);
      rest_ = required - length_;
      return give(take);
    }
    // (a frame that is refused has no length)
    return refuse(answer, Cause::REFUSED, held().slice(0, report_.length > 0 ? report_.length : held_));
  }

  // Gives a message, or its table.
  template <typename Take>
  decltype(kj::instance<Take &>()(true)) give(Take &take) {
    if (timer_.now() != given_) {
      given_ = timer_.now();
      owed_ = 0;
    }
    owed_ += options_.paced;
    return take(true);
  }

  // Whether libcapnp may still have to write the replies to MOST_OWED messages. 1.1.0 and 1.5.0 begin to write them when
  // nothing else is left to do, so not while there is a message to read. Only then does the event loop look at its files and
  // its clock. Until then the clock has the same time.
  bool mayOwe() const { return owed_ >= MOST_OWED && timer_.now() == given_; }

  // Goes on when these replies are written.
  template <typename Take>
  Taken<Take> afterReplies(Take &take) {
    // (a message without its files is not whole)
    isWithin_ = fileCount_ > 0;
    // (the clock gives a time that has come when nothing else is left to do)
    return timer_.afterDelay(0 * kj::SECONDS).then([this, take = kj::mv(take)]() mutable -> Taken<Take> {
      isWithin_ = false;
      owed_ = 0;
      if (writes_ == 0) return advance(take);
      return afterWrite().then([this, take = kj::mv(take)]() mutable { return advance(take); });
    });
  }

  // Reads until `required` bytes of this message are held.
  template <typename Take>
  Taken<Take> receive(size_t required, Take &take) {
    makeSpaceFor(required);
    const size_t missing = required - held_;
    isWithin_ = held_ > 0;
    // (once a message has begun, its deadline counts)
    auto reading = isWithin_ ? inTime(connection_.tryRead(end(), 1, mostFor(missing))) : readFirst(missing);
    return reading.then(
        [this, required, take = kj::mv(take)](size_t count) mutable -> Taken<Take> {
          isWithin_ = isIdle_ = false;
          held_ += count;
          if (count > 0) return held_ < required ? receive(required, take) : advance(take);
          if (held_ > 0) return refuse(CAPVET_TRUNCATED, isLate_ ? Cause::LATE : Cause::CUT, held());
          close();
          return take(false);
        },
        [this](kj::Exception &&exception) -> Taken<Take> { return fail(kj::mv(exception)); });
  }

  // Reads the segments to a place that has the first `count` bytes of them.
  template <typename Take>
  Taken<Take> receiveInto(kj::byte *place, size_t count, Take &take) {
    isWithin_ = true;
    return inTime(connection_.tryRead(place + count, 1, rest_ - count))
        .then(
            [this, place, count, take = kj::mv(take)](size_t more) mutable -> Taken<Take> {
              isWithin_ = false;
              if (more > 0 && count + more < rest_) return receiveInto(place, count + more, take);
              if (more > 0 && areAccepted(place)) {
                countRead(length_ + rest_);
                start_ = held_ = length_ = rest_ = 0;
                return take(true);
              }
              keep(place, count + more);
              if (more == 0) return refuse(CAPVET_TRUNCATED, isLate_ ? Cause::LATE : Cause::CUT, held());
              const auto verdict = capvet_vet(bytes(), held_, &limits_, &report_);
              return refuse(verdict, Cause::REFUSED, held());
            },
            [this, place, count](kj::Exception &&exception) -> Taken<Take> {
              keep(place, count);
              return fail(kj::mv(exception));
            });
  }

  // Whether the segments at a place are accepted, with the table that is held.
  bool areAccepted(const kj::byte *place) {
    capvet_segment segments[CAPVET_MAX_SEGMENTS];
    const size_t count = numberAt(0) + 1;
    for (size_t at = 0; at < count; at++) {
      segments[at] = {place, numberAt(at + 1) * sizeof(capnp::word)};
      place += segments[at].length;
    }
    return capvet_vet_segments(segments, count, &options_.limits, &report_) == CAPVET_OK;
  }

  // A number of the table that is held.
  size_t numberAt(size_t index) const {
    const auto *at = bytes() + 4 * index;
    return at[0] | size_t{at[1]} << 8 | size_t{at[2]} << 16 | size_t{at[3]} << 24;
  }

  // Joins the table and what came of the segments, for the report of a refusal.
  void keep(const kj::byte *place, size_t count) {
    auto joined = kj::heapArray<capnp::word>((length_ + count) / sizeof(capnp::word) + 1);
    std::memcpy(joined.asBytes().begin(), bytes(), length_);
    std::memcpy(joined.asBytes().begin() + length_, place, count);
    large_ = kj::mv(joined);
    held_ = length_ + count;
    start_ = length_ = rest_ = 0;
  }

  // Makes contiguous space for `required` bytes of this message, and keeps those that are held.
  void makeSpaceFor(size_t required) {
    if (large_.size() > 0 || start_ + required <= CAPACITY) return;
    if (required <= CAPACITY) {
      std::memmove(buffer_, buffer_ + start_, held_);
    } else {
      large_ = kj::heapArray<capnp::word>(required / sizeof(capnp::word));
      std::memcpy(large_.asBytes().begin(), buffer_ + start_, held_);
    }
    start_ = 0;
  }

  kj::byte *end() { return (large_.size() > 0 ? large_.asBytes().begin() : buffer_ + start_) + held_; }

  // The most bytes to read where `missing` ones are required: none of the next message, if it may have files.
  size_t mostFor(size_t missing) const {
    return large_.size() > 0 || files_ != nullptr ? missing : CAPACITY - start_ - held_;
  }

  // A read of the first bytes of a message, which ends if the connection is idle.
  kj::Promise<size_t> readFirst(size_t missing) {
    if (options_.idle == 0 * kj::SECONDS) return readBegin(missing);
    idleSince_ = timer_.now();
    if (!isWatchingIdle_) {
      isWatchingIdle_ = true;
      watchingIdle_ = watchIdle().eagerlyEvaluate(nullptr);
    }
    return begins_.wrap(readBegin(missing));
  }

  kj::Promise<size_t> readBegin(size_t missing) {
    if (files_ == nullptr) return connection_.tryRead(end(), 1, mostFor(missing));
    auto reading = files_->tryReadWithFds(end(), 1, missing, space_.begin(), space_.size());
    return reading.then([this](kj::AsyncCapabilityStream::ReadResult read) {
      fileCount_ = read.capCount;
      return read.byteCount;
    });
  }

  // A read that ends with no bytes at the deadline.
  kj::Promise<size_t> inTime(kj::Promise<size_t> &&reading) {
    if (!hasBegun_) begun_ = timer_.now();
    hasBegun_ = true;
    auto waiting = timer_.atTime(begun_ + options_.deadline);
    return reading.exclusiveJoin(waiting.then([this]() -> size_t {
      isLate_ = true;
      return 0;
    }));
  }

  // The connection has failed.
  kj::Exception fail(kj::Exception &&exception) {
    if (isIdle_) return dropIdle();
    ending_.end(exception);
    close();
    if (held_ > 0) {
      Refusal refusal;
      fill(refusal, CAPVET_TRUNCATED, held());
      closeFiles();
      Ended ended(Cause::CUT, refusal);
      ending_.report(ended);
    }
    return kj::mv(exception);
  }

  KJ_NOINLINE kj::Exception refuse(capvet_answer answer, Cause cause, kj::ArrayPtr<const kj::byte> bytes) {
    Refusal refusal;
    fill(refusal, answer, bytes);
    closeFiles();
    close();
    return ending_.end(Ended(cause, refusal));
  }

  KJ_NOINLINE kj::Exception dropIdle() {
    closeFiles();
    close();
    return ending_.end(Ended(Cause::IDLE));
  }

  void fill(Refusal &refusal, capvet_answer answer, kj::ArrayPtr<const kj::byte> bytes) const {
    refusal.answer = answer;
    refusal.report = report_;
    refusal.number = number_;
    refusal.offset = offset_;
    refusal.unvetted = bytes;
    refusal.limits = options_.limits;
  }

  void closeFiles() {
    for (auto &file : space_.slice(0, takeFiles())) file = nullptr;
  }

  kj::Promise<void> afterWrite() {
    auto pair = kj::newPromiseAndFulfiller<void>();
    waiting_ = kj::mv(pair.fulfiller);
    return kj::mv(pair.promise);
  }

  void beginWrite() {
    if (writes_++ > 0) return;
    since_ = timer_.now();
    if (isWatching_) return;
    isWatching_ = true;
    watching_ = watch().eagerlyEvaluate(nullptr);
  }

  void endWrite() {
    if (--writes_ > 0) return;
    if (!begins_.isEmpty()) idleSince_ = timer_.now();
    if (auto *waiting = valueOf(waiting_)) (*waiting)->fulfill();
    waiting_ = kj::Maybe<kj::Own<kj::PromiseFulfiller<void>>>();
  }

  // Waits until a write has taken too long. One timer serves for all writes that begin before it is over.
  kj::Promise<void> watch() {
    return timer_.atTime(since_ + options_.unread).then([this]() -> kj::Promise<void> {
      const bool isOver = timer_.now() - since_ >= options_.unread;
      if (writes_ > 0 && !isOver) return watch();
      isWatching_ = false;
      if (writes_ > 0) drop();
      return kj::READY_NOW;
    });
  }

  // Waits until there was no message for too long. One timer serves for all reads that begin before it is over.
  kj::Promise<void> watchIdle() {
    return timer_.atTime(idleSince_ + options_.idle).then([this]() -> kj::Promise<void> {
      const bool isWaiting = !begins_.isEmpty();
      if (writes_ > 0) idleSince_ = timer_.now();
      if (isWaiting && timer_.now() - idleSince_ < options_.idle) return watchIdle();
      isWatchingIdle_ = false;
      if (isWaiting) endRead();
      return kj::READY_NOW;
    });
  }

  // The read that waits fails, and reports why.
  KJ_NOINLINE void endRead() {
    isIdle_ = true;
    begins_.cancel(exceptionOf(Ended(Cause::IDLE)));
  }

  // No more is read. The peer has some time to read what is written.
  void close() {
    if (isClosing_) return;
    isClosing_ = true;
    closing_ = timer_.afterDelay(options_.unread).then([this]() { drop(); }).eagerlyEvaluate(nullptr);
  }

  // What is being written fails, and so does all that comes.
  KJ_NOINLINE void drop() {
    if (valueOf(dropped_) != nullptr) return;
    const auto exception = exceptionOf(Ended(Cause::UNREAD));
    dropped_ = kj::cp(exception);
    ending_.end(exception);
    // (not all connections are sockets, and the peer may be gone)
    const linger reset = {1, 0};
    kj::runCatchingExceptions([&]() { connection_.setsockopt(SOL_SOCKET, SO_LINGER, &reset, sizeof reset); });
    kj::runCatchingExceptions([&]() { connection_.abortRead(); });
    canceler_.cancel(exception);
  }

  // (within the promise of the write, so that the callback may destroy this)
  KJ_NOINLINE void reportUnread() {
    Ended ended(Cause::UNREAD);
    ending_.report(ended);
  }

  kj::AsyncIoStream &connection_;
  kj::AsyncCapabilityStream *files_;
  kj::Timer &timer_;
  const StreamOptions options_;
  // (the buffer may have messages after the one that is vetted)
  const capvet_limits limits_;
  Ending ending_;

  // The bytes of a message are in the buffer from `start_` on, or alone in `large_`.
  alignas(capnp::word) kj::byte buffer_[CAPACITY];
  kj::Array<capnp::word> large_;
  size_t start_ = 0, held_ = 0;
  // The length of the message, or of its table while `rest_` isn't 0. (0 until it can be taken)
  size_t length_ = 0, rest_ = 0;
  bool tableFirst_ = false;
  capvet_report report_ = {};
  // How many messages, and how many bytes of them, were read before this one.
  uint64_t number_ = 0, offset_ = 0;
  kj::ArrayPtr<kj::AutoCloseFd> space_ = nullptr;
  size_t fileCount_ = 0;
  // Whether a read inside a message has not ended.
  bool isWithin_ = false;
  bool hasBegun_ = false, isLate_ = false;
  kj::TimePoint begun_ = kj::origin<kj::TimePoint>();
  // Whether the read of a message's first bytes was canceled, since none came for too long.
  bool isIdle_ = false;
  kj::TimePoint idleSince_ = kj::origin<kj::TimePoint>();

  // How many messages were given, and the time of the event loop then.
  uint32_t owed_ = 0;
  kj::TimePoint given_ = kj::origin<kj::TimePoint>();

  uint32_t writes_ = 0;
  kj::TimePoint since_ = kj::origin<kj::TimePoint>();
  kj::Maybe<kj::Own<kj::PromiseFulfiller<void>>> waiting_;
  kj::Maybe<kj::Exception> dropped_;
  bool isWatching_ = false, isWatchingIdle_ = false, isClosing_ = false;
  kj::Promise<void> watching_ = nullptr, watchingIdle_ = nullptr, closing_ = nullptr;
  // (destroyed first: what they cancel uses the rest)
  kj::Canceler canceler_, begins_;
};

/* The segments that another reader of a message holds. Most messages have one. */
class Segments {
 public:
  /* It is asked once for each. */
  explicit Segments(capnp::MessageReader &reader) : first_(segmentOf(reader, 0)) {
    // (libcapnp gives none of a message whose segments are all empty, and it has no root like this one)
    if (first_.bytes == nullptr) return;
    const auto second = segmentOf(reader, 1);
    if (second.bytes != nullptr) all_ = allOf(reader, first_, second);
  }

  kj::ArrayPtr<const capvet_segment> all() const {
    return all_.size() == 0 ? kj::arrayPtr(&first_, 1) : kj::arrayPtr(all_.begin(), all_.size());
  }

  capvet_answer vet(const Options &options, capvet_report &report) const {
    const auto answer = capvet_vet_segments(all().begin(), all().size(), &options.limits, &report);
    if (answer != CAPVET_OK || !options.exclusive) return answer;
    // (the call for overlaps reads a frame, whose length has the table too)
    const auto frame = frameOf(all());
    const auto length = report.length;
    const auto found = detail::vet(frame.asBytes(), options.limits, true, report);
    report.length = length;
    return found;
  }

  kj::ArrayPtr<const capnp::word> get(unsigned int id) const {
    const auto &segment = id == 0 ? first_ : id < all_.size() ? all_[id] : none;
    return {reinterpret_cast<const capnp::word *>(segment.bytes), segment.length / sizeof(capnp::word)};
  }

 private:
  static capvet_segment segmentOf(capnp::MessageReader &reader, unsigned int id) {
    auto bytes = reader.getSegment(id).asBytes();
    return {bytes.begin(), bytes.size()};
  }

  static kj::Array<capvet_segment> allOf(capnp::MessageReader &reader, capvet_segment first, capvet_segment next) {
    kj::Vector<capvet_segment> all;
    all.add(first);
    // (one more than are ever accepted is enough to be refused)
    while (next.bytes != nullptr && all.size() <= CAPVET_MAX_SEGMENTS) {
      all.add(next);
      next = segmentOf(reader, static_cast<unsigned int>(all.size()));
    }
    return all.releaseAsArray();
  }

  static constexpr capvet_segment none = {nullptr, 0};
  capvet_segment first_;
  // (empty for a message of one segment)
  kj::Array<capvet_segment> all_;
};

/* Reads a vetted message that another reader holds. */
class VettedMessageReader final : public capnp::MessageReader {
 public:
  VettedMessageReader(kj::Own<capnp::MessageReader> inner, Segments segments, capnp::ReaderOptions limits)
      : capnp::MessageReader(limits), inner_(kj::mv(inner)), segments_(kj::mv(segments)) {}

  kj::ArrayPtr<const capnp::word> getSegment(unsigned int id) override { return segments_.get(id); }

 private:
  kj::Own<capnp::MessageReader> inner_;
  Segments segments_;
};

/* Reads a vetted message with its table, in words that it keeps or that the caller does. */
class HeldMessageReader final : public capnp::FlatArrayMessageReader {
 public:
  HeldMessageReader(kj::ArrayPtr<const capnp::word> words, kj::Array<capnp::word> kept, capnp::ReaderOptions limits)
      : capnp::FlatArrayMessageReader(words, limits), kept_(kj::mv(kept)) {}

 private:
  kj::Array<capnp::word> kept_;
};

/* A connection that vets the bytes that are read from it: those of a message can be read when it is accepted. Writing
 * passes through. It is for whatever reads messages from a stream of bytes, such as capnp::TwoPartyServer. */
template <typename Stream>
class VettingBytes : public Stream {
 public:
  KJ_DISALLOW_COPY(VettingBytes);

  kj::Promise<size_t> tryRead(void *buffer, size_t least, size_t most) override {
    return readVetted({static_cast<kj::byte *>(buffer), most}, least, nullptr);
  }

  kj::Promise<void> write(const void *buffer, size_t size) override {
    return guard_.write([&]() { return connection_->write(buffer, size); });
  }
  kj::Promise<void> write(kj::ArrayPtr<const kj::ArrayPtr<const kj::byte>> pieces) override {
    return guard_.write([&]() { return connection_->write(pieces); });
  }
  kj::Promise<void> whenWriteDisconnected() override { return connection_->whenWriteDisconnected(); }
  void shutdownWrite() override { connection_->shutdownWrite(); }
  void abortRead() override { connection_->abortRead(); }

  void getsockopt(int level, int option, void *value, unsigned int *length) override {
    connection_->getsockopt(level, option, value, length);
  }
  void setsockopt(int level, int option, const void *value, unsigned int length) override {
    connection_->setsockopt(level, option, value, length);
  }
  void getsockname(sockaddr *address, unsigned int *length) override { connection_->getsockname(address, length); }
  void getpeername(sockaddr *address, unsigned int *length) override { connection_->getpeername(address, length); }

 protected:
  VettingBytes(kj::Own<Stream> &&connection, kj::AsyncCapabilityStream *files, kj::Timer &timer,
               const StreamOptions &options, OnEnded &&onEnded)
      : connection_(kj::mv(connection)), guard_(*connection_, files, timer, options, kj::mv(onEnded)) {}

  /* Reads bytes of accepted messages, and the file descriptors of a message with its first byte. */
  kj::Promise<size_t> readVetted(kj::ArrayPtr<kj::byte> buffer, size_t least, kj::ArrayPtr<kj::AutoCloseFd> space) {
    const size_t count = copy(buffer);
    if (count >= least) return count;
    const auto rest = buffer.slice(count, buffer.size());
    const size_t more = least - count;
    if (guard_.rest() > 0) return readRest(rest, more, count);
    done_ = 0;
    // (libcapnp asks for the first word alone, and later for all segments. File descriptors come with the first word, so
    // they wait for the verdict)
    const bool isFirst = buffer.size() == sizeof(capnp::word) && space.size() == 0;
    // (no message is shorter, so this takes one)
    if (more <= 2 * sizeof(capnp::word)) {
      auto take = [this, rest, count](bool isThere) { return count + (isThere ? copy(rest) : 0); };
      return guard_.next(space, isFirst, kj::mv(take));
    }
    return readMore(guard_.next(space, false, isThereAgain), rest, more, count);
  }

  kj::Own<Stream> connection_;
  Guard guard_;

 private:
  static bool isThereAgain(bool isThere) { return isThere; }

  // Goes on with a read after another message, or more of one.
  kj::Promise<size_t> readMore(kj::Promise<bool> reading, kj::ArrayPtr<kj::byte> rest, size_t more, size_t count) {
    return reading.then([this, rest, more, count](bool isThere) -> kj::Promise<size_t> {
      if (!isThere) return count;
      return readVetted(rest, more, nullptr).then([count](size_t length) { return count + length; });
    });
  }

  // Reads the segments of a large message: where the reader wants them all, or else from a copy.
  kj::Promise<size_t> readRest(kj::ArrayPtr<kj::byte> rest, size_t more, size_t count) {
    if (more != guard_.rest() || rest.size() != more) {
      return readMore(guard_.readWhole(isThereAgain), rest, more, count);
    }
    return guard_.readInto(rest.begin(), [this, more, count](bool) {
      done_ = 0;
      return count + more;
    });
  }

  // Copies what is left of a message, as far as it fits.
  size_t copy(kj::ArrayPtr<kj::byte> buffer) {
    const auto message = guard_.message();
    const size_t left = message.size() - std::min(done_, message.size());
    const size_t count = std::min(left, buffer.size());
    std::copy_n(message.begin() + done_, count, buffer.begin());
    done_ += count;
    return count;
  }

  // The bytes of the message that have been read.
  size_t done_ = 0;
};

}  // namespace detail

/* A stream that vets each message that is read, before its reader gets it. Writing passes through.
 *
 * A refused message ends the stream. `onEnded` is called, file descriptors that came with the message are closed,
 * and this read and all later ones throw `exceptionOf` the end. The RPC system then sends the exception's
 * description to the peer, and closes the connection as soon as the peer has read what was written before. That takes
 * at most `options.unread`.
 *
 * At most `limits.message_words` words are held of a message, and 8 KiB besides. libcapnp's limits for a message are at
 * least those that are passed to tryReadMessage (`receiveOptions` of TwoPartyVatNetwork), and are raised to what the
 * message needs.
 *
 * The constructors throw if the limits are not valid. */
class VettingStream final : public capnp::MessageStream {
  using Read = kj::Maybe<capnp::MessageReaderAndFds>;

 public:
  using capnp::MessageStream::tryReadMessage;
  using capnp::MessageStream::writeMessage;
  using capnp::MessageStream::writeMessages;

  /* The messages of a connection, as capnp::AsyncIoMessageStream has them. Nothing else may read from it: bytes of later
   * messages are held here.
   *
   *   connection  It has to outlive this, and this each promise of a read.
   *   timer       The clock of the event loop, such as `provider->getTimer()`. It has to outlive this. If a program advances
   *               it by hand, a paced stream reads on only then.
   *   options     The side of this stream, such as `Side::SERVER`, or a StreamOptions. */
  VettingStream(kj::AsyncIoStream &connection, kj::Timer &timer, const StreamOptions &options,
                OnEnded onEnded = detail::ignore<Ended>)
      : inner_(kj::heap<capnp::AsyncIoMessageStream>(connection)),
        guard_(kj::heap<detail::Guard>(connection, nullptr, timer, options, kj::mv(onEnded))) {}

  /* The same with file descriptors, as capnp::AsyncCapabilityMessageStream has them. */
  VettingStream(kj::AsyncCapabilityStream &connection, kj::Timer &timer, const StreamOptions &options,
                OnEnded onEnded = detail::ignore<Ended>)
      : inner_(kj::heap<capnp::AsyncCapabilityMessageStream>(connection)),
        guard_(kj::heap<detail::Guard>(connection, &connection, timer, options, kj::mv(onEnded))) {}

  /* The messages of any other stream, which has to outlive this. Nothing bounds the time of its peer: that is the work of the
   * other stream. Its own exceptions, such as those of a message that is cut or larger than `limits.message_words`, end this
   * too, but `onEnded` isn't called. It takes longer: each message gets a reader of its own, which asks the stream's reader for
   * each segment once. */
  explicit VettingStream(capnp::MessageStream &inner, const Options &options = {},
                         OnEnded onEnded = detail::ignore<Ended>)
      : inner_(&inner, kj::NullDisposer::instance), around_(kj::heap<Around>(options, kj::mv(onEnded))) {}

  KJ_DISALLOW_COPY(VettingStream);

  kj::Promise<Read> tryReadMessage(kj::ArrayPtr<kj::AutoCloseFd> fdSpace, capnp::ReaderOptions atLeast,
                                   kj::ArrayPtr<capnp::word> scratchSpace) override {
    if (around_.get() != nullptr) return readFromInner(fdSpace, atLeast, scratchSpace);
    auto onRead = [this, fdSpace, atLeast, scratchSpace](bool isThere) mutable -> Read {
      if (!isThere) return {};
      auto files = fdSpace.slice(0, guard_->takeFiles());
      return capnp::MessageReaderAndFds{readerOf(atLeast, scratchSpace), files};
    };
    return guard_->next(fdSpace, false, kj::mv(onRead));
  }

  kj::Promise<void> writeMessage(kj::ArrayPtr<const int> fds,
                                 kj::ArrayPtr<const kj::ArrayPtr<const capnp::word>> segments) override {
    return write([&]() { return inner_->writeMessage(fds, segments); });
  }

  kj::Promise<void> writeMessages(kj::ArrayPtr<kj::ArrayPtr<const kj::ArrayPtr<const capnp::word>>> messages) override {
    return write([&]() { return inner_->writeMessages(messages); });
  }

  kj::Maybe<int> getSendBufferSize() override { return inner_->getSendBufferSize(); }
  kj::Promise<void> end() override { return inner_->end(); }

 private:
  // The state for another stream of messages.
  struct Around {
    Around(const Options &vetting, OnEnded &&onEnded) : options(vetting), ending(kj::mv(onEnded), kj::String()) {
      detail::requireValid(options.limits);
    }

    const Options options;
    detail::Ending ending;
    // How many messages were read, and their bytes.
    uint64_t number = 0, offset = 0;
  };

  template <typename Start>
  kj::Promise<void> write(Start start) {
    return around_.get() != nullptr ? start() : guard_->write(kj::mv(start));
  }

  // The reader of a message that the guard holds.
  kj::Own<capnp::MessageReader> readerOf(capnp::ReaderOptions atLeast, kj::ArrayPtr<capnp::word> scratch) {
    const auto needed = guard_->readerOptions(atLeast);
    const auto message = guard_->message();
    const size_t count = message.size() / sizeof(capnp::word);
    auto words = guard_->takeLarge();
    auto place = words.asPtr();
    if (words.size() == 0) {
      place = scratch.slice(0, std::min(count, scratch.size()));
      if (place.size() < count) place = words = kj::heapArray<capnp::word>(count);
      std::memcpy(place.begin(), message.begin(), message.size());
    }
    return kj::heap<detail::HeldMessageReader>(place, kj::mv(words), needed);
  }

  // Reads a message of another stream of messages. A limit of the options bounds what its reader holds.
  kj::Promise<Read> readFromInner(kj::ArrayPtr<kj::AutoCloseFd> fdSpace, capnp::ReaderOptions atLeast,
                                  kj::ArrayPtr<capnp::word> scratchSpace) {
    if (auto *exception = around_->ending.exception()) return kj::cp(*exception);
    auto held = atLeast;
    held.traversalLimitInWords = around_->options.limits.message_words;
    auto onRead = [this, atLeast](Read &&read) -> kj::Promise<Read> {
      if (auto *message = detail::valueOf(read)) return vet(*message, atLeast);
      return Read();
    };
    auto onFailed = [this](kj::Exception &&exception) -> kj::Promise<Read> {
      around_->ending.end(exception);
      return kj::mv(exception);
    };
    return inner_->tryReadMessage(fdSpace, held, scratchSpace).then(kj::mv(onRead), kj::mv(onFailed));
  }

  // (its reader may give each segment only once)
  kj::Promise<Read> vet(capnp::MessageReaderAndFds &message, capnp::ReaderOptions atLeast) {
    detail::Segments segments(*message.reader);
    Refusal refusal;
    auto &report = refusal.report;
    refusal.answer = segments.vet(around_->options, report);
    if (refusal.answer != CAPVET_OK) {
      refusal.number = around_->number;
      refusal.offset = around_->offset;
      refusal.segments = segments.all();
      refusal.limits = around_->options.limits;
      for (auto &fd : message.fds) fd = nullptr;
      return around_->ending.end(Ended(Cause::REFUSED, refusal));
    }
    around_->number++;
    // (with the table, which the report leaves out)
    around_->offset += report.length + sizeof(capnp::word) * (report.segments / 2 + 1);
    const auto needed = capvet::readerOptions(report, around_->options.readings, atLeast);
    auto reader = kj::heap<detail::VettedMessageReader>(kj::mv(message.reader), kj::mv(segments), needed);
    return Read(capnp::MessageReaderAndFds{kj::mv(reader), message.fds});
  }

  kj::Own<capnp::MessageStream> inner_;
  // (one of these two)
  kj::Own<detail::Guard> guard_;
  kj::Own<Around> around_;
};

/* The connection to pass to a server that reads messages by itself:
 *
 *     server.accept(kj::heap<capvet::VettingIoStream>(kj::mv(connection), timer, Side::SERVER));
 *
 * A refused message ends it as it ends a VettingStream. No byte of it can be read. There is one exception: a reader that
 * asks for the first word alone, as libcapnp does, gets the table of a message of more than 8 KiB before its verdict. The
 * segments are then read to their place, and not held twice. */
class VettingIoStream final : public detail::VettingBytes<kj::AsyncIoStream> {
 public:
  VettingIoStream(kj::Own<kj::AsyncIoStream> connection, kj::Timer &timer, const StreamOptions &options,
                  OnEnded onEnded = detail::ignore<Ended>)
      : VettingBytes(kj::mv(connection), nullptr, timer, options, kj::mv(onEnded)) {}
};

/* The same for a connection with file descriptors. It passes on those of messages, and reads no streams. */
class VettingCapabilityStream final : public detail::VettingBytes<kj::AsyncCapabilityStream> {
 public:
  VettingCapabilityStream(kj::Own<kj::AsyncCapabilityStream> connection, kj::Timer &timer, const StreamOptions &options,
                          OnEnded onEnded = detail::ignore<Ended>)
      : VettingCapabilityStream(*connection, kj::mv(connection), timer, options, kj::mv(onEnded)) {}

  kj::Promise<ReadResult> tryReadWithFds(void *buffer, size_t least, size_t most, kj::AutoCloseFd *fds,
                                         size_t mostFds) override {
    auto reading = readVetted({static_cast<kj::byte *>(buffer), most}, least, {fds, mostFds});
    return reading.then([this](size_t count) { return ReadResult{count, guard_.takeFiles()}; });
  }

  kj::Promise<ReadResult> tryReadWithStreams(void *, size_t, size_t, kj::Own<kj::AsyncCapabilityStream> *,
                                             size_t) override {
    return KJ_EXCEPTION(UNIMPLEMENTED, "capvet: messages have no streams");
  }

  kj::Promise<void> writeWithFds(kj::ArrayPtr<const kj::byte> data,
                                 kj::ArrayPtr<const kj::ArrayPtr<const kj::byte>> moreData,
                                 kj::ArrayPtr<const int> fds) override {
    return guard_.write([&]() { return connection_->writeWithFds(data, moreData, fds); });
  }

  kj::Promise<void> writeWithStreams(kj::ArrayPtr<const kj::byte> data,
                                     kj::ArrayPtr<const kj::ArrayPtr<const kj::byte>> moreData,
                                     kj::Array<kj::Own<kj::AsyncCapabilityStream>> streams) override {
    return guard_.write([&]() { return connection_->writeWithStreams(data, moreData, kj::mv(streams)); });
  }

 private:
  VettingCapabilityStream(kj::AsyncCapabilityStream &files, kj::Own<kj::AsyncCapabilityStream> &&connection,
                          kj::Timer &timer, const StreamOptions &options, OnEnded &&onEnded)
      : VettingBytes(kj::mv(connection), &files, timer, options, kj::mv(onEnded)) {}
};

}  // namespace CAPVET_KJ_VERSION
}  // namespace capvet
#endif
