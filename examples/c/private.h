/* Private networks, and others that aren't the Internet's. */
#ifndef PRIVATE_H
#define PRIVATE_H

#include "relayd.h"

/* Whether an address lies in a network: its first `bits` bits are those of a.b.c.d. */
#define IN(address, a, b, c, d, bits) (((address) ^ ((u32)(a) << 24 | (b) << 16 | (c) << 8 | (d))) >> (32 - (bits)) == 0)

/* Whether a peer is the machine itself, or lies in a private, shared, link-local, multicast or reserved network of IPv4. */
INLINE int is_private(const struct wide_record *peer) {
  u32 to = SWAP32(peer->address[0]);
  return peer->family == IPV4 &&
         (IN(to, 0, 0, 0, 0, 8) || IN(to, 10, 0, 0, 0, 8) || IN(to, 100, 64, 0, 0, 10) || IN(to, 127, 0, 0, 0, 8) ||
          IN(to, 169, 254, 0, 0, 16) || IN(to, 172, 16, 0, 0, 12) || IN(to, 192, 168, 0, 0, 16) || IN(to, 224, 0, 0, 0, 3));
}

#endif
