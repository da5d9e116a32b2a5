// Preloaded into a program, makes each socket of UDP over IPv4 one of UDP-Lite. Linux keeps a connected socket of UDP-Lite among
// those that it spreads datagrams over (SO_REUSEPORT), as it did with one of UDP before version 6.13.
#define _GNU_SOURCE
#include <dlfcn.h>
#include <netinet/in.h>
#include <sys/socket.h>

int socket(int family, int kind, int protocol) {
  static int (*next)(int, int, int);
  if (!next)
    next = dlsym(RTLD_NEXT, "socket");
  int type = kind & ~(SOCK_NONBLOCK | SOCK_CLOEXEC);
  return next(family, kind, family == AF_INET && type == SOCK_DGRAM ? IPPROTO_UDPLITE : protocol);
}
