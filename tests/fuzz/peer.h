/* What the fuzz targets of connections share: which messages of a stream are accepted, and a peer that gives bytes in pieces of any
 * size, and ends, fails or stalls after them. */
#ifndef CAPVET_FUZZ_PEER_H
#define CAPVET_FUZZ_PEER_H

#include <capvet/kj.h>
#include <fcntl.h>
#include <kj/debug.h>

#include <vector>

#include "fuzz.h"

namespace {

using capvet::detail::valueOf;

const kj::StringPtr FAILURE = "the connection failed";

// What comes after the bytes: the end, a failure, or nothing. The last one is a peer that reads nothing.
enum End { REGULAR, FAILS, STALLS, UNREAD };

// The messages that a stream has to pass on, and the verdict of what comes after them. (CAPVET_OK is the end)
struct Model {
  std::vector<kj::ArrayPtr<const kj::byte>> accepted;
  std::vector<capvet_report> reports;
  kj::ArrayPtr<const kj::byte> rest;
  capvet_answer answer = CAPVET_OK;
  capvet_report report = {};

  // Why a connection is ended by what comes after the messages, where a peer ends so.
  capvet::Cause cause(End end) const {
    const bool isCut = answer == CAPVET_TRUNCATED;
    return !isCut ? capvet::Cause::REFUSED : end == STALLS ? capvet::Cause::LATE : capvet::Cause::CUT;
  }

  // The text of it.
  kj::String textOf(End end) const {
    capvet::Refusal refusal;
    refusal.answer = answer;
    refusal.report = report;
    return kj::str(capvet::Ended(cause(end), refusal));
  }
};

// Whether a stream refuses these limits.
bool isBad(const capvet_limits &limits) {
  capvet_report report;
  return capvet::detail::haveForm(limits) || capvet_frame(nullptr, 0, &limits, &report) == CAPVET_BAD_LIMITS;
}

Model modelOf(kj::ArrayPtr<const kj::byte> bytes, const capvet_limits &limits) {
  Model model;
  model.rest = bytes;
  for (;;) {
    auto &report = model.report;
    model.answer = capvet_frame(model.rest.begin(), model.rest.size(), &limits, &report);
    if (model.answer == CAPVET_NO_MESSAGE) model.answer = CAPVET_OK;
    if (report.length == 0) return model;
    const auto frame = model.rest.slice(0, report.length);
    model.answer = capvet_vet(frame.begin(), frame.size(), &limits, &report);
    if (model.answer != CAPVET_OK) return model;
    model.accepted.push_back(frame);
    model.reports.push_back(report);
    model.rest = model.rest.slice(frame.size(), model.rest.size());
  }
}

// The address of a peer: a port of one of these kinds.
struct Address {
  enum Kind { FOUR, OTHER_FOUR, SIX, LOCAL, NONE };
  Kind kind;
  uint16_t port;
};

// A connection of which each read gives as many bytes as the input chooses, at once or later. The first and the last bytes of
// the buffer of a read are written, so that a buffer that is too short is found.
class Peer final : public kj::AsyncCapabilityStream {
 public:
  Peer(fuzz_input &in, kj::ArrayPtr<const kj::byte> bytes, End end, Address address)
      : in_(in), left_(bytes), end_(end), address_(address) {}

  kj::Promise<size_t> tryRead(void *buffer, size_t least, size_t most) override {
    return tryReadWithFds(buffer, least, most, nullptr, 0).then([](ReadResult read) { return read.byteCount; });
  }

  kj::Promise<ReadResult> tryReadWithFds(void *buffer, size_t least, size_t most, kj::AutoCloseFd *files,
                                         size_t mostFiles) override {
    RULE(least <= most);
    if (most == 0) return ReadResult{0, 0};
    const size_t some = std::min(most, size_t{PAGE});
    memset(buffer, CANARY, some);
    memset(static_cast<kj::byte *>(buffer) + most - some, CANARY, some);
    size_t count = std::min(most, left_.size());
    if (count > least) count = least + choose(&in_, count - least + 1);
    memcpy(buffer, left_.begin(), count);
    left_ = left_.slice(count, left_.size());
    if (count < least && end_ == FAILS) {
      return kj::Exception(kj::Exception::Type::DISCONNECTED, __FILE__, __LINE__, kj::str(FAILURE));
    }
    if (count < least && end_ == STALLS) return kj::Promise<ReadResult>(kj::NEVER_DONE);
    const size_t fileCount = count > 0 && mostFiles > 0 && choose(&in_, 8) == 0 ? 1 : 0;
    if (fileCount > 0) files[0] = kj::AutoCloseFd(open("/dev/null", O_RDONLY));
    const ReadResult read = {count, fileCount};
    if (choose(&in_, 2) == 0) return read;
    return kj::evalLater([read]() { return read; });
  }

  kj::Promise<void> write(const void *, size_t) override { return written(); }
  kj::Promise<void> write(kj::ArrayPtr<const kj::ArrayPtr<const kj::byte>>) override { return written(); }
  kj::Promise<void> writeWithFds(kj::ArrayPtr<const kj::byte>, kj::ArrayPtr<const kj::ArrayPtr<const kj::byte>>,
                                 kj::ArrayPtr<const int>) override {
    return written();
  }
  kj::Promise<void> writeWithStreams(kj::ArrayPtr<const kj::byte>, kj::ArrayPtr<const kj::ArrayPtr<const kj::byte>>,
                                     kj::Array<kj::Own<kj::AsyncCapabilityStream>>) override {
    return written();
  }
  kj::Promise<ReadResult> tryReadWithStreams(void *, size_t, size_t, kj::Own<kj::AsyncCapabilityStream> *,
                                             size_t) override {
    return KJ_EXCEPTION(UNIMPLEMENTED, "no streams");
  }
  kj::Promise<void> whenWriteDisconnected() override { return kj::NEVER_DONE; }
  void shutdownWrite() override { hasEnded_ = true; }
  void abortRead() override { isDropped_ = true; }

  void getsockopt(int level, int option, void *value, unsigned int *length) override {
    RULE(level == 1 && option == 2 && *length == sizeof option_);
    memcpy(value, &option_, sizeof option_);
  }
  void setsockopt(int level, int, const void *value, unsigned int length) override {
    if (level == 1 && length == sizeof option_) memcpy(&option_, value, sizeof option_);
  }
  void getsockname(sockaddr *address, unsigned int *) override { address->sa_family = AF_APPLETALK; }
  void getpeername(sockaddr *address, unsigned int *length) override {
    RULE(*length >= sizeof(sockaddr_in6));
    if (address_.kind == Address::NONE) kj::throwFatalException(KJ_EXCEPTION(UNIMPLEMENTED, "no address"));
    auto &four = *reinterpret_cast<sockaddr_in *>(address);
    auto &six = *reinterpret_cast<sockaddr_in6 *>(address);
    if (address_.kind == Address::SIX) {
      six.sin6_family = AF_INET6;
      six.sin6_port = htons(address_.port);
    } else {
      four.sin_family = address_.kind == Address::LOCAL ? AF_UNIX : AF_INET;
      four.sin_port = htons(address_.port);
      four.sin_addr.s_addr = htonl(INADDR_LOOPBACK + (address_.kind == Address::OTHER_FOUR));
    }
  }

  // Ends the writes that have begun.
  void finishWrites() {
    for (auto &write : writes_) write->fulfill();
    writes_.clear();
  }

  // The writes that have begun and have not ended.
  size_t writes() const { return writes_.size(); }

  // Whether no more may be written, and whether no more is read.
  bool hasEnded() const { return hasEnded_; }
  bool isDropped() const { return isDropped_; }

 private:
  kj::Promise<void> written() {
    auto pair = kj::newPromiseAndFulfiller<void>();
    writes_.push_back(kj::mv(pair.fulfiller));
    return kj::mv(pair.promise);
  }

  fuzz_input &in_;
  kj::ArrayPtr<const kj::byte> left_;
  const End end_;
  const Address address_;
  uint32_t option_ = 0;
  bool hasEnded_ = false, isDropped_ = false;
  std::vector<kj::Own<kj::PromiseFulfiller<void>>> writes_;
};

// Drops what libcapnp logs, and the stack traces of its exceptions, which take long.
class Quiet final : public kj::ExceptionCallback {
 public:
  StackTraceMode stackTraceMode() override { return StackTraceMode::NONE; }
  void logMessage(kj::LogSeverity, const char *, int, int, kj::String &&) override {}
};

// Whether something waits for a time that has come.
bool isDue(kj::TimerImpl &timer) {
  auto next = timer.nextEvent();
  auto *time = valueOf(next);
  return time != nullptr && *time <= timer.now();
}

// Whether a promise is done when a loop has done all that it can. It looks at its clock then, as by an event port.
template <typename Type>
bool isDoneNow(kj::Promise<Type> &promise, kj::TimerImpl &timer, kj::WaitScope &scope) {
  while (!promise.poll(scope)) {
    if (!isDue(timer)) return false;
    timer.advanceTo(timer.now());
  }
  return true;
}

}  // namespace
#endif
