/* Data of WebRTC sessions, told by its first byte (RFC 7983, section 7). */
#ifndef MEDIA_H
#define MEDIA_H

#include "stun.h"

/* Whether data begins as STUN, DTLS, RTP or RTCP do. */
INLINE int is_media(u8 first) {
  return first <= 3 || (first >= 20 && first <= 63) || (first >= 128 && first <= 191);
}

/* Discards ChannelData with other data, or without a byte, and leaves the rest to the rules. */
INLINE int media_over_channels(struct context *ctx) {
  u8 *data = ctx->data, *end = ctx->end;
  if (data + 1 > end)
    return DISCARD;
  if (*data < 0x40)
    return RULES;
  struct channel_data *head = (void *)data;
  u8 *sent = (u8 *)(head + 1);
  if (sent + 1 > end || head->length == 0)
    return DISCARD;
  return is_media(*sent) ? RULES : DISCARD;
}

#endif
