/* A server that reads packed messages from a socket and vets each. It holds one message, of at most 512 KiB in segments.
 *
 *     export PKG_CONFIG_PATH=PREFIX/lib/pkgconfig
 *     cc packed_server.c $(pkg-config --cflags --libs capvet) -o packed_server
 *     ./packed_server 7000 10 &
 *     bash -c 'exec 3<>/dev/tcp/127.0.0.1/7000; cat ../contacts.packed >&3; head -c 1 <&3'
 *
 * The first argument is a port of 127.0.0.1, where 0 means any free port. The second is how many seconds a peer has for each
 * message, from the end of the one before. The server writes a byte to the peer for each message: + if it is accepted, and -
 * if it is refused. After a refused message it closes the connection, because two packed bytes can be 256 such messages.
 *
 * It serves one connection after another. SIGTERM and SIGINT end it with status 0, after the connection that is open. The
 * status is 2 for a wrong command line, and 3 if it can't listen. */
#define _POSIX_C_SOURCE 200809L
#include <arpa/inet.h>
#include <capvet.h>
#include <errno.h>
#include <fcntl.h>
#include <inttypes.h>
#include <netinet/in.h>
#include <poll.h>
#include <signal.h>
#include <stdio.h>
#include <stdlib.h>
#include <string.h>
#include <sys/socket.h>
#include <time.h>
#include <unistd.h>

#define MESSAGE_WORDS 65536

/* `main` lowers them. */
static capvet_limits limits = CAPVET_LIMITS_INIT;

/* A connection. The buffer has the bytes of the largest frame, so no call answers that it is too small. It is made of words,
 * because readers such as libcapnp need messages at addresses that are multiples of 8. */
typedef struct connection {
  int socket;
  long long patience; /* milliseconds for each message */
  long long deadline; /* when the message that is received has to be complete */
  size_t start, end;  /* the bytes of `packed` that are received and not consumed */
  capvet_unpacking state;
  uint8_t packed[4096];
  uint64_t message[CAPVET_FRAME_BOUND(MESSAGE_WORDS) / 8];
} connection;

static volatile sig_atomic_t stopped;

static void stop(int number) {
  (void)number;
  stopped = 1;
}

/* Milliseconds of a clock that nobody sets. */
static long long now(void) {
  struct timespec time;
  clock_gettime(CLOCK_MONOTONIC, &time);
  return (long long)time.tv_sec * 1000 + time.tv_nsec / 1000000;
}

/* Whether to repeat a call that failed. If the socket was not ready, it waits until it is, or until the deadline. */
static int again(const connection *peer, short events) {
  struct pollfd one = {peer->socket, events, 0};
  long long left = peer->deadline - now();
  if (errno == EINTR) return 1;
  if (errno != EAGAIN) return 0;
  if (left <= 0) return errno = ETIMEDOUT, 0;
  return poll(&one, 1, (int)left) >= 0 || errno == EINTR;
}

/* Receives at least one byte. Otherwise it returns 0, and errno is 0 if the peer has ended the connection. */
static int receive(connection *peer) {
  ssize_t more;
  memmove(peer->packed, peer->packed + peer->start, peer->end - peer->start);
  peer->end -= peer->start;
  peer->start = 0;
  do {
    more = recv(peer->socket, peer->packed + peer->end, sizeof peer->packed - peer->end, MSG_DONTWAIT);
  } while (more < 0 && again(peer, POLLIN));
  if (more == 0) errno = 0;
  if (more <= 0) return 0;
  peer->end += (size_t)more;
  return 1;
}

/* Writes an answer to the peer, and raises no signal if the peer has closed the connection. */
static int reply(const connection *peer, char byte) {
  ssize_t some;
  do {
    some = send(peer->socket, &byte, 1, MSG_DONTWAIT | MSG_NOSIGNAL);
  } while (some < 0 && again(peer, POLLOUT));
  return some == 1;
}

/* Unpacks the next message. It receives more only when the bytes that it has don't complete one. */
static capvet_answer next_message(connection *peer, capvet_report *report) {
  for (;;) {
    size_t consumed, required;
    capvet_answer answer =
        capvet_unpack_message(peer->packed + peer->start, peer->end - peer->start, &limits, (uint8_t *)peer->message,
                              sizeof peer->message, &peer->state, &consumed, &required, report);
    peer->start += consumed;
    if (answer != CAPVET_NO_MESSAGE && answer != CAPVET_TRUNCATED) return answer;
    if (!receive(peer)) return answer;
  }
}

/* Why there is no next message. */
static const char *ending(capvet_answer answer) {
  if (answer != CAPVET_NO_MESSAGE && answer != CAPVET_TRUNCATED) return capvet_answer_name(answer);
  if (errno == ETIMEDOUT) return "the peer is too slow";
  if (errno != 0) return strerror(errno);
  return answer == CAPVET_NO_MESSAGE ? "the peer has ended" : "the peer has cut a message";
}

/* Serves a connection to its end. */
static void serve(connection *peer) {
  for (;;) {
    capvet_report report;
    capvet_answer answer;
    peer->deadline = now() + peer->patience;
    answer = next_message(peer, &report);
    if (answer != CAPVET_OK) {
      printf("closed: %s\n", ending(answer));
      return;
    }
    answer = capvet_vet((const uint8_t *)peer->message, report.length, &limits, &report);
    if (answer == CAPVET_OK) {
      printf("accepted, charge %" PRIu64 "\n", report.charge);
    } else {
      printf("refused %s at %" PRIu32 ":%" PRIu32 "\n", capvet_answer_name(answer), report.segment, report.word);
    }
    if (!reply(peer, answer == CAPVET_OK ? '+' : '-')) {
      printf("closed: %s\n", strerror(errno));
      return;
    }
    if (answer != CAPVET_OK) return;
  }
}

/* A socket that listens at a port of this machine, or -1. */
static int listener(uint16_t port) {
  struct sockaddr_in address;
  socklen_t length = sizeof address;
  int yes = 1, it = socket(AF_INET, SOCK_STREAM, 0);
  memset(&address, 0, sizeof address);
  address.sin_family = AF_INET;
  address.sin_port = htons(port);
  address.sin_addr.s_addr = htonl(INADDR_LOOPBACK);
  if (it < 0 || setsockopt(it, SOL_SOCKET, SO_REUSEADDR, &yes, sizeof yes) != 0 ||
      bind(it, (struct sockaddr *)&address, sizeof address) != 0 || listen(it, 16) != 0 ||
      fcntl(it, F_SETFL, O_NONBLOCK) != 0 || getsockname(it, (struct sockaddr *)&address, &length) != 0)
    return -1;
  printf("listening at port %u\n", (unsigned)ntohs(address.sin_port));
  return it;
}

int main(int count, char **words) {
  static connection peer;
  struct sigaction action;
  struct pollfd next = {-1, POLLIN, 0};
  long port = count == 3 ? strtol(words[1], NULL, 10) : -1, seconds = count == 3 ? strtol(words[2], NULL, 10) : -1;
  limits.message_words = MESSAGE_WORDS;
  limits.charge = MESSAGE_WORDS;
  if (port < 0 || port > 65535 || seconds < 1 || seconds > 3600) return fputs("usage: packed_server PORT SECONDS\n", stderr), 2;
  /* (without SA_RESTART, so that a signal ends the wait for a connection) */
  memset(&action, 0, sizeof action);
  action.sa_handler = stop;
  sigaction(SIGTERM, &action, NULL);
  sigaction(SIGINT, &action, NULL);
  setvbuf(stdout, NULL, _IOLBF, 0);
  next.fd = listener((uint16_t)port);
  if (next.fd < 0) return perror("packed_server"), 3;
  while (!stopped) {
    /* (a signal just before the wait is seen after a second) */
    int socket = poll(&next, 1, 1000) > 0 ? accept(next.fd, NULL, NULL) : -1;
    if (socket < 0) continue;
    memset(&peer, 0, offsetof(connection, packed));
    peer.socket = socket;
    peer.patience = seconds * 1000;
    serve(&peer);
    close(socket);
  }
  close(next.fd);
  return 0;
}
