/* A program for clients' datagrams: the rules of the relay, and nothing is sent to the machine itself, to private, shared and link-local
   networks, and to multicast and reserved addresses of IPv4, over channels or by Send indications, whatever attributes these have. */
#include "deny.h"
#include "private.h"

int program(struct context *ctx) { return deny(ctx, is_private); }
