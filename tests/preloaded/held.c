// Preloaded into a server, writes the longest time of the processor from the end of a receive to the next one to the file HELD, in
// nanoseconds: how long the server was held up, whatever else the machine did. With WAITS in the environment a wait that reports
// nothing is as a receive: no datagram is there to be held up.
#define _GNU_SOURCE
#include <dlfcn.h>
#include <fcntl.h>
#include <stdio.h>
#include <stdlib.h>
#include <sys/epoll.h>
#include <sys/socket.h>
#include <time.h>
#include <unistd.h>

static int held, waits;
static long last = -1, longest;

__attribute__((constructor)) static void begin(void) {
  held = open(getenv("HELD"), O_CREAT | O_TRUNC | O_WRONLY, 0600);
  if (held < 0)
    _exit(99);
  waits = getenv("WAITS") != NULL;
}

static long taken(void) {
  struct timespec time;
  clock_gettime(CLOCK_THREAD_CPUTIME_ID, &time);
  return time.tv_sec * 1000000000L + time.tv_nsec;
}

static void look(void) {
  long now = taken();
  if (last >= 0 && now - last > longest) {
    char line[32];
    longest = now - last;
    if (pwrite(held, line, snprintf(line, sizeof line, "%20ld\n", longest), 0) < 0)
      _exit(99);
  }
}

int epoll_wait(int epoll, struct epoll_event *events, int most, int timeout) {
  static int (*real)(int, struct epoll_event *, int, int);
  if (!real)
    real = (int (*)(int, struct epoll_event *, int, int))dlsym(RTLD_NEXT, "epoll_wait");
  int count = real(epoll, events, most, timeout);
  if (waits && count <= 0) {
    look();
    last = taken();
  }
  return count;
}

ssize_t recvfrom(int fd, void *bytes, size_t size, int flags, struct sockaddr *from, socklen_t *length) {
  static ssize_t (*real)(int, void *, size_t, int, struct sockaddr *, socklen_t *);
  if (!real)
    real = (ssize_t(*)(int, void *, size_t, int, struct sockaddr *, socklen_t *))dlsym(RTLD_NEXT, "recvfrom");
  look();
  ssize_t count = real(fd, bytes, size, flags, from, length);
  last = taken();
  return count;
}
