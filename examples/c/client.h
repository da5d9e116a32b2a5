/* The rules for clients' datagrams that relayd has without --client: ChannelData, and Send indications of an IPv4 address and data, are
   relayed here, and whatever else is a STUN message goes to the rules of the relay. */
#ifndef CLIENT_H
#define CLIENT_H

#include "stun.h"

/* What may change the address that is sent to for a peer. */
typedef void (*route)(struct record *peer);

/* Sends to the peer itself. */
INLINE void to_peer(struct record *peer) { (void)peer; }

/* Sends `length` bytes of the datagram, from an offset on, to a peer. */
INLINE int send(struct context *ctx, route route, struct record *peer, u64 offset, u64 length) {
  route(peer);
  set_window(ctx, HEADROOM + offset, length);
  set_destination(ctx, peer);
  return SEND;
}

/* ChannelData: what the channel is bound to gets the data (RFC 8656, section 12.6). */
INLINE int channel_data(struct context *ctx, route route, u8 *data, u8 *end) {
  struct channel_data *head = (void *)data;
  if (data + sizeof *head > end)
    return DISCARD;
  u64 channel = SWAP16(head->number), length = SWAP16(head->length);
  if (length + sizeof *head > ctx->length)
    return DISCARD;
  struct record peer;
  if (peer_of_channel(ctx, channel, &peer))
    return send(ctx, route, &peer, sizeof *head, length);
  struct wide_record wide;
  if (!wide_peer_of_channel(ctx, channel, &wide))
    return DISCARD;
  set_window(ctx, HEADROOM + sizeof *head, length);
  set_wide_destination(ctx, &wide);
  return SEND;
}

/* A Send indication of an IPv4 address and data (RFC 8656, section 11.2). */
INLINE int send_indication(struct context *ctx, route route, u8 *data, u8 *end) {
  struct header *head = (void *)data;
  struct xor_address *to = (void *)(head + 1);
  struct attribute *sent = (void *)(to + 1);
  if ((u8 *)(sent + 1) > end)
    return RULES;
  if (head->type != SWAP16(SEND_INDICATION) || head->cookie != SWAP32(COOKIE))
    return RULES;
  if (SWAP16(head->length) + sizeof *head != ctx->length)
    return RULES;
  if (to->head.type != SWAP16(XOR_PEER_ADDRESS) || to->head.length != SWAP16(8) || sent->type != SWAP16(DATA_ATTRIBUTE))
    return RULES;
  u64 length = SWAP16(sent->length);
  u64 offset = sizeof *head + sizeof *to + sizeof *sent;
  if (offset + PADDED(length) != ctx->length)
    return RULES;
  if (to->family != IPV4)
    return DISCARD;
  struct record peer = {
      .family = IPV4,
      .port = to->port ^ SWAP16(COOKIE >> 16),
      .address = to->address ^ SWAP32(COOKIE),
  };
  return has_permission(ctx, &peer) ? send(ctx, route, &peer, offset, length) : DISCARD;
}

/* Relays a client's datagram. */
INLINE int relay_from_client(struct context *ctx, route route) {
  u8 *data = ctx->data, *end = ctx->end;
  if (data + 1 > end)
    return DISCARD;
  if (*data < 0x40)
    return send_indication(ctx, route, data, end);
  return *data < 0x80 ? channel_data(ctx, route, data, end) : DISCARD;
}

#endif
