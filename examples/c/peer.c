/* The program that relayd has without --peer. */
#include "peer.h"

int program(struct context *ctx) { return relay_from_peer(ctx, ctx->source); }
