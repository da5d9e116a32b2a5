/* A program for clients' datagrams, of two rules in one: what media_only.c discards is discarded, what deny_private.c discards too, and
   the rest is left to the rules of the relay. Each has a verdict of its own, so that `replay --why` shows which one discards. */
#include "deny.h"
#include "media.h"
#include "private.h"

int program(struct context *ctx) {
  if (media_over_channels(ctx) == DISCARD)
    return DISCARD_AS(3);
  return deny(ctx, is_private) == DISCARD ? DISCARD_AS(4) : RULES;
}
