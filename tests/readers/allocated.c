/* A library to load before a program, for tests: at each signal USR2 it prints 'allocated N', the bytes that are allocated. */
#include <malloc.h>
#include <pthread.h>
#include <signal.h>
#include <stdio.h>

static sigset_t asked;

/* Answers from a thread of its own, since a handler may not ask for this. */
static void *answer(void *unused) {
  int number;
  while (sigwait(&asked, &number) == 0) {
    const struct mallinfo2 info = mallinfo2();
    dprintf(1, "allocated %zu\n", info.uordblks + info.hblkhd);
  }
  return unused;
}

__attribute__((constructor)) static void begin(void) {
  pthread_t thread;
  sigemptyset(&asked);
  sigaddset(&asked, SIGUSR2);
  pthread_sigmask(SIG_BLOCK, &asked, NULL);
  pthread_create(&thread, NULL, answer, NULL);
}
