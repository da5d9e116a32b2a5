/* The program that relayd has without --client. */
#include "client.h"

int program(struct context *ctx) { return relay_from_client(ctx, to_peer); }
