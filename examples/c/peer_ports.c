/* A program for both sides: peers at a port below 1024, where systems have their services, are neither sent to nor heard, and all else is
   relayed as relayd does without --client and --peer. Load it by --client and by --peer. */
#include "client.h"
#include "deny.h"
#include "peer.h"

/* Whether a peer has a port of a service. */
INLINE int has_low_port(const struct wide_record *peer) { return SWAP16(peer->port) < 1024; }

int program(struct context *ctx) {
  if (ctx->side == CLIENT_SIDE)
    return deny(ctx, has_low_port) == RULES ? relay_from_client(ctx, to_peer) : DISCARD;
  struct wide_record source = wide_source_of(ctx);
  return has_low_port(&source) ? DISCARD : relay_from_peer(ctx, ctx->source);
}
