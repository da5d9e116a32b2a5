/* A program for both sides of a relay behind a NAT that doesn't bring back what the machine sends to its own public address (hairpinning;
   RFC 4787, section 6). What a client sends to a peer at the public address, which is another client's relayed address, goes to the
   machine's own address; and what comes from there counts as coming from the public one. Load it by --client and by --peer.

   So go ChannelData, and Send indications of up to eight attributes in any order: the address, the data, and others that a receiver may
   ignore, as SOFTWARE and FINGERPRINT. One with more attributes, or with one that has to be understood, as USERNAME, is left to the rules:
   they discard it, or send its data to the public address. */
#include "client.h"
#include "peer.h"

/* The public address, that of --relay-ip, and the machine's own, that of --listen: in network byte order. */
#define PUBLIC SWAP32(203u << 24 | 0 << 16 | 113 << 8 | 1)
#define INTERNAL SWAP32(192u << 24 | 0 << 16 | 2 << 8 | 10)

/* How many attributes of a Send indication are looked at. */
enum { ATTRIBUTES = 8 };

/* Sends to the machine's own address for the public one. */
INLINE void to_internal(struct record *peer) {
  if (peer->address == PUBLIC)
    peer->address = INTERNAL;
}

/* A message whose header says how long it is. */
INLINE int is_message(struct context *ctx, struct header *head) {
  return head->cookie == SWAP32(COOKIE) && SWAP16(head->length) + sizeof *head == ctx->length;
}

/* A Send indication to the public address: its first XOR-PEER-ADDRESS and its first DATA count, as for the rules. */
INLINE int send_to_public(struct context *ctx, struct header *head) {
  struct attribute *at = (void *)(head + 1);
  u64 offset = sizeof *head, all = ctx->length, to = 0, port = 0, sent = 0, sent_length = 0;
  UNROLL
  for (int i = 0; i < ATTRIBUTES; i++) {
    KEEP(offset); /* or clang 14 makes one comparison of the next one and that of i, and doesn't see how many rounds there are */
    if (offset >= all)
      break;
    if (!in_datagram(ctx, at, sizeof *at))
      return RULES;
    u64 length = SWAP16(at->length), type = at->type;
    if (type == SWAP16(XOR_PEER_ADDRESS) && !to) {
      struct xor_address *peer = (void *)at;
      if ((u8 *)(peer + 1) > ctx->end || length != 8 || peer->family != IPV4 || peer->address != (PUBLIC ^ SWAP32(COOKIE)))
        return RULES;
      to = 1;
      port = peer->port ^ SWAP16(COOKIE >> 16);
    } else if (type == SWAP16(DATA_ATTRIBUTE) && !sent) {
      sent = offset + sizeof *at;
      sent_length = length;
    } else if (type != SWAP16(XOR_PEER_ADDRESS) && type != SWAP16(DATA_ATTRIBUTE) && !(type & SWAP16(0x8000))) {
      return RULES;
    }
    offset += sizeof *at + PADDED(length);
    at++;
    ADVANCE(at, PADDED(length));
  }
  if (!to || !sent || offset != all)
    return RULES;
  struct record peer = {.family = IPV4, .port = (u16)port, .address = PUBLIC};
  return has_permission(ctx, &peer) ? send(ctx, to_internal, &peer, sent, sent_length) : DISCARD;
}

/* Relays a client's datagram: a Send indication to the public address here, and all else as client.h does. */
INLINE int relay_to_internal(struct context *ctx) {
  struct header *head = (void *)ctx->data;
  if (in_datagram(ctx, head, sizeof *head) && head->type == SWAP16(SEND_INDICATION))
    return is_message(ctx, head) ? send_to_public(ctx, head) : RULES;
  return relay_from_client(ctx, to_internal);
}

/* Returns the address record of a source, with the public address for the machine's own. */
INLINE u64 from_public(u64 source) {
  return source >> 32 == INTERNAL ? (source & 0xffffffff) | (u64)PUBLIC << 32 : source;
}

int program(struct context *ctx) {
  if (ctx->side == CLIENT_SIDE)
    return relay_to_internal(ctx);
  return relay_from_peer(ctx, from_public(ctx->source));
}
