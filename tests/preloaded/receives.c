// Preloaded into a program, makes receive number FAIL_RECEIVE fail, and stops the program before receive number STOP_RECEIVE.
// The file LOADED has a line for each receive, with the port of its socket and the socket's family, AF_INET or AF_INET6.
#define _GNU_SOURCE
#include <dlfcn.h>
#include <errno.h>
#include <fcntl.h>
#include <netinet/in.h>
#include <signal.h>
#include <stdio.h>
#include <stdlib.h>
#include <sys/socket.h>
#include <unistd.h>

static int loaded;

__attribute__((constructor)) static void begin(void) {
  loaded = open(getenv("LOADED"), O_CREAT | O_APPEND | O_WRONLY, 0600);
  if (loaded < 0)
    _exit(99);
}

static void log_receive(int fd) {
  struct sockaddr_in6 own;
  socklen_t length = sizeof own;
  if (getsockname(fd, (struct sockaddr *)&own, &length) == 0)
    dprintf(loaded, "%d %d\n", ntohs(own.sin6_port), own.sin6_family);
}

static int is_chosen(const char *variable, unsigned long count) {
  const char *number = getenv(variable);
  return number && strtoul(number, NULL, 10) == count;
}

ssize_t recvfrom(int fd, void *bytes, size_t size, int flags, struct sockaddr *from, socklen_t *length) {
  static ssize_t (*real)(int, void *, size_t, int, struct sockaddr *, socklen_t *);
  static unsigned long count;
  if (!real)
    real = (ssize_t(*)(int, void *, size_t, int, struct sockaddr *, socklen_t *))dlsym(RTLD_NEXT, "recvfrom");
  count++;
  log_receive(fd);
  if (is_chosen("FAIL_RECEIVE", count)) {
    errno = ECONNREFUSED;
    return -1;
  }
  if (is_chosen("STOP_RECEIVE", count))
    raise(SIGSTOP);
  return real(fd, bytes, size, flags, from, length);
}
