/* Interrupts the program that LD_PRELOAD loads it into: of each of these functions every second call fails with EINTR, as if
   a signal had come. What is received comes by at most seven bytes. */
#define _GNU_SOURCE
#include <dlfcn.h>
#include <errno.h>
#include <poll.h>
#include <sys/socket.h>
#include <sys/wait.h>

#define INTERRUPTED \
    static unsigned calls; \
    if (calls++ % 2 == 0) return errno = EINTR, -1

ssize_t recv(int socket, void *bytes, size_t size, int flags) {
    ssize_t (*next)(int, void *, size_t, int) = dlsym(RTLD_NEXT, "recv");
    INTERRUPTED;
    return next(socket, bytes, size < 7 ? size : 7, flags);
}

ssize_t send(int socket, const void *bytes, size_t length, int flags) {
    ssize_t (*next)(int, const void *, size_t, int) = dlsym(RTLD_NEXT, "send");
    INTERRUPTED;
    return next(socket, bytes, length, flags);
}

int poll(struct pollfd *sockets, nfds_t count, int timeout) {
    int (*next)(struct pollfd *, nfds_t, int) = dlsym(RTLD_NEXT, "poll");
    INTERRUPTED;
    return next(sockets, count, timeout);
}

int accept(int socket, struct sockaddr *address, socklen_t *length) {
    int (*next)(int, struct sockaddr *, socklen_t *) = dlsym(RTLD_NEXT, "accept");
    INTERRUPTED;
    return next(socket, address, length);
}

pid_t waitpid(pid_t process, int *status, int options) {
    pid_t (*next)(pid_t, int *, int) = dlsym(RTLD_NEXT, "waitpid");
    INTERRUPTED;
    return next(process, status, options);
}
