// A server that passes only accepted messages to libcapnp. It reads from a socket pair; the other end is an untrusted peer.
//
//     export PKG_CONFIG_PATH=PREFIX/lib/pkgconfig
//     c++ -std=c++17 serve.cpp $(pkg-config --cflags --libs capvet-kj) -o serve
//     ./serve FILE..
//
// The first peer sends each file as it is, then the first half of the first one, and ends. The second peer sends that half and
// then nothing more. The server reads message by message into a buffer of its own, which the peer can't write, vets it there,
// and answers each by a byte. If the peer could write it during a call, the answer would mean nothing, and the process might be
// killed. A peer has a second for each message. The server ends with status 0.
#include <capnp/any.h>
#include <capvet/kj.h>
#include <poll.h>
#include <sys/socket.h>
#include <sys/wait.h>
#include <unistd.h>

#include <cerrno>
#include <chrono>
#include <cstdio>
#include <cstring>
#include <fstream>
#include <iterator>
#include <vector>

namespace {

// Messages of up to 512 KiB. No flags are set, so a message is passed on only if it is whole, strict and unamplified.
capvet::Options lowered() {
  capvet::Options options;
  options.limits.message_words = 1 << 16;
  options.limits.charge = 1 << 16;
  return options;
}

const capvet::Options options = lowered();

using Clock = std::chrono::steady_clock;

// How long a peer has for each message.
const std::chrono::milliseconds patience{1000};

// Whether to repeat a call that failed. If the socket was not ready, it waits until it is, or until the deadline.
bool again(int socket, short events, Clock::time_point deadline) {
  if (errno == EINTR) return true;
  if (errno != EAGAIN) return false;
  const auto left = std::chrono::ceil<std::chrono::milliseconds>(deadline - Clock::now()).count();
  if (left <= 0) return errno = ETIMEDOUT, false;
  pollfd one{socket, events, 0};
  return poll(&one, 1, static_cast<int>(left)) >= 0 || errno == EINTR;
}

// The bytes of a message that were received, in words, as libcapnp needs them.
class Buffer {
 public:
  kj::ArrayPtr<const kj::byte> bytes() const {
    return {reinterpret_cast<const kj::byte *>(words_.data()), length_};
  }

  // Receives until there are `required` bytes. Otherwise it returns false, and errno is 0 if the peer has ended.
  bool fill(int socket, size_t required, Clock::time_point deadline) {
    if (words_.size() * 8 < required) words_.resize((required + 7) / 8);
    while (length_ < required) {
      uint8_t *next = reinterpret_cast<uint8_t *>(words_.data()) + length_;
      const ssize_t more = recv(socket, next, required - length_, MSG_DONTWAIT);
      if (more == 0) return errno = 0, false;
      if (more > 0) {
        length_ += static_cast<size_t>(more);
      } else if (!again(socket, POLLIN, deadline)) {
        return false;
      }
    }
    return true;
  }

  void clear() { length_ = 0; }

 private:
  std::vector<uint64_t> words_ = std::vector<uint64_t>(1);
  size_t length_ = 0;
};

// Reads only the next message. Its length is a claim of the peer, and `message_words` bounds it.
capvet_answer receive(int socket, Buffer &buffer, Clock::time_point deadline) {
  buffer.clear();
  for (;;) {
    capvet_report report;
    const auto bytes = buffer.bytes();
    capvet_answer answer = capvet_frame(bytes.begin(), bytes.size(), &options.limits, &report);
    bool is_short = answer == CAPVET_NO_MESSAGE || answer == CAPVET_TRUNCATED;
    if (!is_short || !buffer.fill(socket, report.input_required, deadline)) return answer;
  }
}

// Why there is no next message.
const char *ending(capvet_answer answer) {
  if (answer != CAPVET_NO_MESSAGE && answer != CAPVET_TRUNCATED) return capvet_answer_name(answer);
  if (errno == ETIMEDOUT) return "the peer is too slow";
  if (errno != 0) return std::strerror(errno);
  return answer == CAPVET_NO_MESSAGE ? "the peer has ended" : "the peer has cut a message";
}

// The work of the program on a message. libcapnp gets accepted messages only, and limits that serve it for every strict
// message. That is tested and not proved, so an exception of libcapnp is caught all the same.
void handle(capvet::Vetted &message) try {
  const auto size = message.getRoot<capnp::AnyPointer>().targetSize();
  std::printf("accepted, %llu words in libcapnp\n", static_cast<unsigned long long>(size.wordCount));
} catch (const kj::Exception &fault) {
  std::printf("accepted, but not by libcapnp: %s\n", fault.getDescription().cStr());
}

// Vets a message, and returns whether it was accepted.
bool take(const Buffer &buffer) {
  capvet::Refusal refusal;
  auto vetted = capvet::tryVetted(buffer.bytes(), refusal, options);
  KJ_IF_MAYBE(message, vetted) {
    handle(*message);
    return true;
  }
  std::puts(kj::str(refusal).cStr());
  return false;
}

// Writes all of it, and raises no signal if the other end is closed.
bool send_all(int socket, const char *bytes, size_t length, Clock::time_point deadline) {
  while (length > 0) {
    const ssize_t some = send(socket, bytes, length, MSG_NOSIGNAL | MSG_DONTWAIT);
    if (some >= 0) {
      bytes += some;
      length -= static_cast<size_t>(some);
    } else if (!again(socket, POLLOUT, deadline)) {
      return false;
    }
  }
  return true;
}

// The loop of the server: each message is vetted before anything else looks at it.
void serve(int socket) {
  Buffer buffer;
  for (;;) {
    const auto deadline = Clock::now() + patience;
    const capvet_answer answer = receive(socket, buffer, deadline);
    if (answer != CAPVET_OK) {
      std::printf("closed: %s\n", ending(answer));
      return;
    }
    const char said = take(buffer) ? '+' : '-';
    if (!send_all(socket, &said, 1, deadline)) return;
  }
}

using Files = std::vector<std::vector<char>>;

// Receives one byte. False if the server has closed the connection.
bool receive_byte(int socket, Clock::time_point deadline) {
  char said;
  ssize_t more;
  do {
    more = recv(socket, &said, 1, MSG_DONTWAIT);
  } while (more < 0 && again(socket, POLLIN, deadline));
  return more == 1;
}

// A peer that sends each file, then half of the first one, and ends.
bool cutting_peer(int socket, const Files &files) {
  const auto deadline = Clock::now() + 10 * patience;
  for (const auto &file : files) {
    if (!send_all(socket, file.data(), file.size(), deadline) || !receive_byte(socket, deadline)) return false;
  }
  return send_all(socket, files[0].data(), files[0].size() / 2, deadline);
}

// A peer that sends half of the first file, and then waits until the server closes the connection.
bool silent_peer(int socket, const Files &files) {
  const auto deadline = Clock::now() + 10 * patience;
  return send_all(socket, files[0].data(), files[0].size() / 2, deadline) && !receive_byte(socket, deadline);
}

// Serves a peer, which is a process of its own, and returns whether the peer did all of its part.
bool serve_peer(bool (*peer)(int, const Files &), const Files &files) {
  int ends[2], status = 0;
  if (socketpair(AF_UNIX, SOCK_STREAM, 0, ends) != 0) return false;
  const pid_t child = fork();
  if (child < 0) return false;
  if (child == 0) {
    close(ends[0]);
    _exit(peer(ends[1], files) ? 0 : 1);
  }
  close(ends[1]);
  serve(ends[0]);
  close(ends[0]);
  while (waitpid(child, &status, 0) < 0) {
    if (errno != EINTR) return false;
  }
  return status == 0;
}

}  // namespace

int main(int count, char **words) {
  if (count < 2) return std::fputs("usage: serve FILE..\n", stderr), 2;
  Files files;
  for (int at = 1; at < count; at++) {
    std::ifstream file(words[at], std::ios::binary);
    files.emplace_back(std::istreambuf_iterator<char>(file), std::istreambuf_iterator<char>());
  }
  return serve_peer(cutting_peer, files) && serve_peer(silent_peer, files) ? 0 : 3;
}
