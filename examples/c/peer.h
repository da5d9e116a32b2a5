/* The rules for peers' datagrams that relayd has without --peer: what a peer with a permission sends goes to the client, over a channel
   where one is bound to exactly this peer, and else in a Data indication (RFC 8656, sections 11.3 and 12.7). */
#ifndef PEER_H
#define PEER_H

#include "stun.h"

/* Sends the datagram with what was written before it, `before` bytes, and its padding. */
INLINE int send_with(struct context *ctx, u64 before, u64 length) {
  set_window(ctx, HEADROOM - before, before + length);
  return SEND;
}

/* Sends ChannelData: the header is written before the datagram. */
INLINE int send_channel_data(struct context *ctx, u64 channel) {
  u64 length = ctx->length;
  struct channel_data *head = (void *)(ctx->data - sizeof *head);
  if (length > MAX_DATAGRAM - sizeof *head)
    return DISCARD;
  head->number = SWAP16(channel);
  head->length = SWAP16(length);
  return send_with(ctx, sizeof *head, length);
}

/* Writes the header of a Data indication whose attributes have a length. */
INLINE void write_header(struct context *ctx, struct header *head, u64 length) {
  u64 id = ctx->transaction_id;
  head->type = SWAP16(DATA_INDICATION);
  head->length = SWAP16(length);
  head->cookie = SWAP32(COOKIE);
  head->transaction_id[0] = (u32)id;
  head->transaction_id[1] = (u32)(id >> 32);
  head->transaction_id[2] = ctx->transaction_id_rest;
}

/* A Data indication of a peer with an IPv4 address. */
struct indication {
  struct header head;
  struct xor_address from;
  struct attribute data;
};

INLINE int relay_from_ipv4(struct context *ctx, u64 source) {
  u64 length = ctx->length;
  struct record peer = {.family = IPV4, .port = (u16)(source >> 16), .address = (u32)(source >> 32)};
  if (!has_permission(ctx, &peer))
    return DISCARD;
  u64 channel = channel_of_peer(ctx, &peer);
  if (channel)
    return send_channel_data(ctx, channel);
  struct indication *sent = (void *)(ctx->data - sizeof *sent);
  if (length > (MAX_DATAGRAM - sizeof *sent) / 4 * 4)
    return DISCARD;
  write_header(ctx, &sent->head, sizeof *sent - sizeof sent->head + PADDED(length));
  sent->from.head.type = SWAP16(XOR_PEER_ADDRESS);
  sent->from.head.length = SWAP16(8);
  sent->from.zero = 0;
  sent->from.family = IPV4;
  sent->from.port = peer.port ^ SWAP16(COOKIE >> 16);
  sent->from.address = peer.address ^ SWAP32(COOKIE);
  sent->data.type = SWAP16(DATA_ATTRIBUTE);
  sent->data.length = SWAP16(length);
  return send_with(ctx, sizeof *sent, PADDED(length));
}

/* A Data indication of a peer with an IPv6 address. */
struct wide_indication {
  struct header head;
  struct wide_xor_address from;
  struct attribute data;
};

INLINE int relay_from_ipv6(struct context *ctx) {
  u64 source = ctx->wide_source, address = ctx->wide_source_address, length = ctx->length;
  struct wide_record peer = {
      .family = IPV6,
      .port = (u16)(source >> 16),
      .address = {(u32)(source >> 32), (u32)address, (u32)(address >> 32), ctx->wide_source_rest},
  };
  if (!has_wide_permission(ctx, &peer))
    return DISCARD;
  u64 channel = channel_of_wide_peer(ctx, &peer);
  if (channel)
    return send_channel_data(ctx, channel);
  struct wide_indication *sent = (void *)(ctx->data - sizeof *sent);
  if (length > (MAX_DATAGRAM - sizeof *sent) / 4 * 4)
    return DISCARD;
  write_header(ctx, &sent->head, sizeof *sent - sizeof sent->head + PADDED(length));
  sent->from.head.type = SWAP16(XOR_PEER_ADDRESS);
  sent->from.head.length = SWAP16(20);
  sent->from.zero = 0;
  sent->from.family = IPV6;
  sent->from.port = peer.port ^ SWAP16(COOKIE >> 16);
  sent->from.address[0] = peer.address[0] ^ SWAP32(COOKIE);
  UNROLL
  for (int i = 0; i < 3; i++)
    sent->from.address[i + 1] = peer.address[i + 1] ^ sent->head.transaction_id[i];
  sent->data.type = SWAP16(DATA_ATTRIBUTE);
  sent->data.length = SWAP16(length);
  return send_with(ctx, sizeof *sent, PADDED(length));
}

/* Relays a datagram of a peer, whose address record is `source`; 0 is that of an IPv6 address. */
INLINE int relay_from_peer(struct context *ctx, u64 source) {
  return source ? relay_from_ipv4(ctx, source) : relay_from_ipv6(ctx);
}

#endif
