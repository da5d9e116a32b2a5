/* What tests/serve_speed.py measures a server with: a load over one channel, a peer that echoes, and a plain forwarder.
 *
 *   serve_speed load FD COUNT FLIGHT BYTES    round trips over a connected socket that has channel 0x4000; prints seconds
 *   serve_speed echo                          prints its port, and sends each datagram back
 *   serve_speed forward PEER_PORT             prints its port; one client, one channel, one peer, and nothing else
 */
#include <arpa/inet.h>
#include <netinet/in.h>
#include <stdint.h>
#include <stdio.h>
#include <stdlib.h>
#include <string.h>
#include <sys/epoll.h>
#include <sys/socket.h>
#include <time.h>
#include <unistd.h>

enum { CHANNEL = 0x4000, HEADER = 4, ROOM = 65536, EVENTS = 16 };

static void fail(const char *what) {
  perror(what);
  exit(1);
}

static struct sockaddr_in loopback(unsigned port) {
  struct sockaddr_in address = {.sin_family = AF_INET, .sin_port = htons((uint16_t)port)};
  address.sin_addr.s_addr = htonl(INADDR_LOOPBACK);
  return address;
}

static int bound_socket(int flags) {
  int fd = socket(AF_INET, SOCK_DGRAM | flags, 0);
  struct sockaddr_in address = loopback(0);
  if (fd < 0 || bind(fd, (struct sockaddr *)&address, sizeof address) != 0) fail("bind");
  return fd;
}

static void print_port(int fd) {
  struct sockaddr_in address;
  socklen_t size = sizeof address;
  if (getsockname(fd, (struct sockaddr *)&address, &size) != 0) fail("getsockname");
  printf("%u\n", ntohs(address.sin_port));
  fflush(stdout);
}

static void load(int fd, long count, long flight, size_t bytes) {
  static uint8_t sent[ROOM], received[ROOM];
  struct timespec start, end;
  size_t whole = HEADER + bytes;
  sent[0] = CHANNEL >> 8;
  sent[2] = (uint8_t)(bytes >> 8);
  sent[3] = (uint8_t)bytes;
  struct timeval patience = {.tv_sec = 2};
  if (setsockopt(fd, SOL_SOCKET, SO_RCVTIMEO, &patience, sizeof patience) != 0) fail("setsockopt");
  clock_gettime(CLOCK_MONOTONIC, &start);
  for (long i = 0; i < count + flight; i++) {
    if (i >= flight && (recv(fd, received, ROOM, 0) != (ssize_t)whole || received[0] != sent[0])) fail("recv");
    if (i < count && send(fd, sent, whole, 0) != (ssize_t)whole) fail("send");
  }
  clock_gettime(CLOCK_MONOTONIC, &end);
  printf("%.6f\n", (double)(end.tv_sec - start.tv_sec) + (double)(end.tv_nsec - start.tv_nsec) / 1e9);
}

static void echo(void) {
  static uint8_t bytes[ROOM];
  int fd = bound_socket(0);
  print_port(fd);
  for (;;) {
    struct sockaddr_in from;
    socklen_t size = sizeof from;
    ssize_t n = recvfrom(fd, bytes, ROOM, 0, (struct sockaddr *)&from, &size);
    if (n >= 0) sendto(fd, bytes, (size_t)n, 0, (struct sockaddr *)&from, size);
  }
}

/* Takes what is there from the client: strips the header of the one channel, and sends the rest to the peer. */
static void from_client(int client, int slot, struct sockaddr_in *source, const struct sockaddr_in *peer) {
  static uint8_t bytes[ROOM];
  for (;;) {
    socklen_t size = sizeof *source;
    ssize_t n = recvfrom(client, bytes, ROOM, 0, (struct sockaddr *)source, &size);
    if (n < 0) return;
    if (n < HEADER || bytes[0] != CHANNEL >> 8 || bytes[1] != (CHANNEL & 0xff)) continue;
    size_t length = (size_t)bytes[2] << 8 | bytes[3];
    if (HEADER + length > (size_t)n) continue;
    sendto(slot, bytes + HEADER, length, 0, (const struct sockaddr *)peer, sizeof *peer);
  }
}

/* Takes what is there from the peer: puts the header of the one channel before it, and sends it to the client. */
static void from_peer(int slot, int client, const struct sockaddr_in *to, const struct sockaddr_in *peer) {
  static uint8_t bytes[HEADER + ROOM];
  for (;;) {
    struct sockaddr_in source;
    socklen_t size = sizeof source;
    ssize_t n = recvfrom(slot, bytes + HEADER, ROOM, 0, (struct sockaddr *)&source, &size);
    if (n < 0) return;
    if (source.sin_port != peer->sin_port || source.sin_addr.s_addr != peer->sin_addr.s_addr) continue;
    bytes[0] = CHANNEL >> 8;
    bytes[1] = CHANNEL & 0xff;
    bytes[2] = (uint8_t)(n >> 8);
    bytes[3] = (uint8_t)n;
    sendto(client, bytes, HEADER + (size_t)n, 0, (const struct sockaddr *)to, sizeof *to);
  }
}

static void forward(unsigned port) {
  int client = bound_socket(SOCK_NONBLOCK), slot = bound_socket(SOCK_NONBLOCK), poll = epoll_create1(0);
  struct sockaddr_in peer = loopback(port), source = {0};
  struct epoll_event event = {.events = EPOLLIN, .data.fd = client}, events[EVENTS];
  if (poll < 0 || epoll_ctl(poll, EPOLL_CTL_ADD, client, &event) != 0) fail("epoll");
  event.data.fd = slot;
  if (epoll_ctl(poll, EPOLL_CTL_ADD, slot, &event) != 0) fail("epoll");
  print_port(client);
  for (;;) {
    int count = epoll_wait(poll, events, EVENTS, -1);
    for (int i = 0; i < count; i++) {
      if (events[i].data.fd == client) from_client(client, slot, &source, &peer);
      else from_peer(slot, client, &source, &peer);
    }
  }
}

int main(int argc, char **argv) {
  if (argc == 6 && strcmp(argv[1], "load") == 0) load(atoi(argv[2]), atol(argv[3]), atol(argv[4]), (size_t)atol(argv[5]));
  else if (argc == 2 && strcmp(argv[1], "echo") == 0) echo();
  else if (argc == 3 && strcmp(argv[1], "forward") == 0) forward((unsigned)atoi(argv[2]));
  else return 2;
  return 0;
}
