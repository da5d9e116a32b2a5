/* Which peers nothing is sent to: a client's datagram that would go to one is discarded, whether it is ChannelData or a Send indication,
   whatever attributes this has, and all else is left to what follows. */
#ifndef DENY_H
#define DENY_H

#include "stun.h"

/* How many attributes of a Send indication are looked at. One whose address isn't among them is discarded. */
enum { ATTRIBUTES = 8 };

/* Whether nothing may be sent to a peer. */
typedef int (*is_denied)(const struct wide_record *peer);

/* ChannelData is let through where the channel isn't bound to such a peer. */
INLINE int deny_channel_data(struct context *ctx, is_denied is_denied, u8 *data, u8 *end) {
  struct channel_data *head = (void *)data;
  if (data + sizeof *head > end)
    return DISCARD;
  struct wide_record peer;
  if (wide_peer_of_channel(ctx, SWAP16(head->number), &peer) && is_denied(&peer))
    return DISCARD;
  return RULES;
}

/* The attribute with an address is let through where this isn't that of such a peer. One of neither family is left to the rules. */
INLINE int deny_address(is_denied is_denied, struct header *head, struct xor_address *to, u8 *end) {
  struct wide_record peer = {.family = to->family, .port = to->port ^ SWAP16(COOKIE >> 16)};
  peer.address[0] = to->address ^ SWAP32(COOKIE);
  if (to->family == IPV4)
    return is_denied(&peer) ? DISCARD : RULES;
  if (to->family != IPV6)
    return RULES;
  struct wide_xor_address *wide = (void *)to;
  if ((u8 *)(wide + 1) > end)
    return DISCARD;
  UNROLL
  for (int i = 1; i < 4; i++)
    peer.address[i] = wide->address[i] ^ head->transaction_id[i - 1];
  return is_denied(&peer) ? DISCARD : RULES;
}

/* A Send indication is let through where its first XOR-PEER-ADDRESS, which is the one that the rules take, isn't that of such a peer. */
INLINE int deny_send_indication(is_denied is_denied, u8 *data, u8 *end) {
  struct header *head = (void *)data;
  struct attribute *at = (void *)(head + 1);
  UNROLL
  for (int i = 1; i < ATTRIBUTES; i++) {
    if ((u8 *)(at + 1) > end)
      return DISCARD;
    if (at->type == SWAP16(XOR_PEER_ADDRESS))
      break;
    u64 length = SWAP16(at->length);
    at++;
    ADVANCE(at, PADDED(length));
  }
  struct xor_address *to = (void *)at;
  if ((u8 *)(to + 1) > end || to->head.type != SWAP16(XOR_PEER_ADDRESS))
    return DISCARD;
  return deny_address(is_denied, head, to, end);
}

/* Discards what a client sends to such peers, and leaves the rest to the rules. */
INLINE int deny(struct context *ctx, is_denied is_denied) {
  u8 *data = ctx->data, *end = ctx->end;
  if (data + 1 > end)
    return DISCARD;
  if (*data >= 0x40)
    return deny_channel_data(ctx, is_denied, data, end);
  if (data + 2 > end)
    return DISCARD;
  return *(u16 *)data == SWAP16(SEND_INDICATION) ? deny_send_indication(is_denied, data, end) : RULES;
}

#endif
