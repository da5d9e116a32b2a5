/* A program for clients' datagrams: the rules of the relay, and over channels only what begins as STUN, DTLS, RTP or RTCP do, as
   RFC 7983, section 7, tells them apart by their first byte. Data without a byte isn't relayed either. */
#include "media.h"

int program(struct context *ctx) { return media_over_channels(ctx); }
