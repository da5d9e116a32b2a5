/* A program for clients' datagrams, for a server that is to be stopped: Allocate requests are discarded, so that nobody gets an
   allocation any more, and all else is left to the rules of the relay. */
#include "stun.h"

int program(struct context *ctx) {
  u8 *data = ctx->data, *end = ctx->end;
  struct header *head = (void *)data;
  if (data + sizeof head->type > end)
    return RULES;
  return head->type == SWAP16(ALLOCATE_REQUEST) ? DISCARD : RULES;
}
