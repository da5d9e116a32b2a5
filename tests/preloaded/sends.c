// Preloaded into a program, writes a line to the file SENT for each send of a datagram: the port of its socket, the address that
// it goes to, as lines of events have it, and its bytes as digits. `-` stands for none.
#define _GNU_SOURCE
#include <arpa/inet.h>
#include <dlfcn.h>
#include <fcntl.h>
#include <netinet/in.h>
#include <stdio.h>
#include <stdlib.h>
#include <sys/socket.h>
#include <unistd.h>

static FILE *sent;

__attribute__((constructor)) static void begin(void) {
  const char *name = getenv("SENT");
  sent = name ? fopen(name, "ae") : NULL;
  if (!sent)
    _exit(99);
}

static void log_digits(const unsigned char *bytes, size_t size) {
  for (size_t i = 0; i < size; i++)
    fprintf(sent, "%02x", bytes[i]);
}

static void log_address(const struct sockaddr *to) {
  const struct sockaddr_in *v4 = (const struct sockaddr_in *)to;
  const struct sockaddr_in6 *v6 = (const struct sockaddr_in6 *)to;
  char text[INET_ADDRSTRLEN];
  if (to->sa_family == AF_INET) {
    fprintf(sent, "%s:%d ", inet_ntop(AF_INET, &v4->sin_addr, text, sizeof text), ntohs(v4->sin_port));
    return;
  }
  fputc('[', sent);
  log_digits(v6->sin6_addr.s6_addr, 16);
  fprintf(sent, "]:%d ", ntohs(v6->sin6_port));
}

static void log_send(int fd, const struct sockaddr *to, const void *bytes, size_t size) {
  struct sockaddr_in6 own;
  socklen_t own_length = sizeof own;
  if (getsockname(fd, (struct sockaddr *)&own, &own_length) != 0)
    return;
  fprintf(sent, "%d ", ntohs(own.sin6_port));
  log_address(to);
  if (size == 0)
    fputc('-', sent);
  log_digits(bytes, size);
  fputc('\n', sent);
  fflush(sent);
}

ssize_t sendto(int fd, const void *bytes, size_t size, int flags, const struct sockaddr *to, socklen_t length) {
  static ssize_t (*real)(int, const void *, size_t, int, const struct sockaddr *, socklen_t);
  if (!real)
    real = (ssize_t(*)(int, const void *, size_t, int, const struct sockaddr *, socklen_t))dlsym(RTLD_NEXT, "sendto");
  log_send(fd, to, bytes, size);
  return real(fd, bytes, size, flags, to, length);
}

// at a connected socket
ssize_t send(int fd, const void *bytes, size_t size, int flags) {
  static ssize_t (*real)(int, const void *, size_t, int);
  struct sockaddr_in6 to;
  socklen_t length = sizeof to;
  ssize_t n;
  if (!real)
    real = (ssize_t(*)(int, const void *, size_t, int))dlsym(RTLD_NEXT, "send");
  n = real(fd, bytes, size, flags);
  // what isn't sent there is sent at another socket
  if (n >= 0 && getpeername(fd, (struct sockaddr *)&to, &length) == 0)
    log_send(fd, (const struct sockaddr *)&to, bytes, size);
  return n;
}
