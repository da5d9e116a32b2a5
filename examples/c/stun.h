/* The formats of STUN and TURN that the examples read and write (RFC 8489, RFC 8656). Numbers are as they lie in a datagram. */
#ifndef STUN_H
#define STUN_H

#include "relayd.h"

/* The cookie of each message (RFC 8489, section 5). */
enum { COOKIE = 0x2112a442 };

/* Types of messages and of attributes (RFC 8656, sections 17 and 18). */
enum { ALLOCATE_REQUEST = 0x0003, SEND_INDICATION = 0x0016, DATA_INDICATION = 0x0017 };
enum { XOR_PEER_ADDRESS = 0x0012, DATA_ATTRIBUTE = 0x0013 };

/* ChannelData: a number of 0x4000 to 0x7FFF and a length (RFC 8656, section 12.4). */
struct channel_data {
  u16 number;
  u16 length;
};

/* The header of a message (RFC 8489, section 5). */
struct header {
  u16 type;
  u16 length;
  u32 cookie;
  u32 transaction_id[3];
};

/* The type and the length of an attribute; its value follows (RFC 8489, section 14). */
struct attribute {
  u16 type;
  u16 length;
};

/* An attribute with an IPv4 address (RFC 8489, section 14.2). */
struct xor_address {
  struct attribute head;
  u8 zero;
  u8 family;
  u16 port;
  u32 address;
};

/* The same with an IPv6 address. */
struct wide_xor_address {
  struct attribute head;
  u8 zero;
  u8 family;
  u16 port;
  u32 address[4];
};

/* A length with the padding to a multiple of four. */
#define PADDED(n) (((n) + 3) & ~3ULL)

#endif
