/* What a program of relayd works with, for C. docs/C.md shows how a program is compiled and loaded.

   A program is one function, `int program(struct context *)`. It is compiled for the BPF instruction set (RFC 9669) and verified before
   it is loaded: each access is in bounds on every path, and jumps lead forward, so loops have to be unrolled. */
#ifndef RELAYD_H
#define RELAYD_H

typedef unsigned char u8;
typedef unsigned short u16;
typedef unsigned int u32;
typedef unsigned long long u64;

/* A function that becomes part of its callers: a program is one function. */
#define INLINE static inline __attribute__((always_inline))

/* Before a loop of a known count: all of its rounds are written one after the other, as jumps lead forward only. */
#ifdef __clang__
#define UNROLL _Pragma("unroll")
#else
#define UNROLL _Pragma("GCC unroll 64")
#endif

/* A number in network byte order, as it lies in a datagram, to and from the processor's own, which is little-endian. */
#define SWAP16(n) ((u16)__builtin_bswap16((u16)(n)))
#ifdef __clang__
#define SWAP32(n) ((u32)__builtin_bswap32((u32)(n)))
#else
/* GCC makes a call of it where the number isn't a constant */
INLINE u32 swap32(u32 n) {
  __asm__("endbe %0, 32" : "+r"(n));
  return n;
}
#define SWAP32(n) __builtin_choose_expr(__builtin_constant_p(n), (u32)__builtin_bswap32((u32)(n)), swap32(n))
#endif

/* The bytes before a datagram, and after its end, that may always be accessed. */
enum { HEADROOM = 64, TAILROOM = 3 };

/* The most bytes of a datagram over IPv4. */
enum { MAX_DATAGRAM = 65507 };

/* What becomes of a datagram: the value that the function returns. */
enum verdict {
  DISCARD = 0, /* nothing is sent */
  RULES = 1,   /* the rules of the relay answer a client's datagram; a peer's is discarded */
  SEND = 2,    /* the window is sent: to the destination, or from a peer to the client of the allocation */
};

/* Ends the run with a verdict of 3 to 255, a constant, which discards as DISCARD does, and has an exit of its own. `replay --why` names
   the verdict with which a program has discarded what the rules would not, and the slot of the exit. The compiler leads all returns of a
   function to one exit, so that `return 3` and `return 4` have one slot; `return DISCARD_AS(3)` and `return DISCARD_AS(4)` have two. */
#ifdef __clang__
#define EXIT_AS "r0 = %0\n\texit"
#else
#define EXIT_AS "mov %%r0, %0\n\texit"
#endif
#define DISCARD_AS(n)                                                  \
  ({                                                                   \
    _Static_assert((n) > 2 && (n) < 256, "DISCARD_AS takes 3 to 255"); \
    __asm__ volatile(EXIT_AS : : "i"(n) : "r0");                       \
    __builtin_unreachable();                                           \
    0;                                                                 \
  })

/* Where a datagram came from. */
enum side { CLIENT_SIDE = 0, PEER_SIDE = 1 };

/* The family of an address record. */
enum family { IPV4 = 1, IPV6 = 2 };

/* The context of a run. Each field is read whole, at its size. */
struct context {
  u8 *data;                  /* the first byte of the datagram */
  u8 *end;                   /* one past its last byte */
  u64 length;                /* its length */
  u64 source;                /* the source's address record; 0 for an IPv6 address */
  u64 transaction_id;        /* a transaction id that was drawn for the datagram: the first eight bytes */
  u32 transaction_id_rest;   /* and the last four */
  u32 side;                  /* `enum side` */
  u64 wide_source;           /* the source's wide address record, of either family: the first eight bytes */
  u64 wide_source_address;   /* the next eight */
  u32 wide_source_rest;      /* and the last four */
};

/* An IPv4 address and a port, in network byte order. Write all of its bytes before a helper is called with it. */
struct record {
  u8 zero;
  u8 family; /* IPV4 */
  u16 port;
  u32 address;
};

/* An address of either family and a port, in network byte order: one of IPv4 has twelve zeros after it. */
struct wide_record {
  u8 zero;
  u8 family;
  u16 port;
  u32 address[4];
};

/* A helper is called by its number. */
#ifdef __clang__
#define HELPER(number, name, ...) static u64 (*const name)(__VA_ARGS__) = (void *)number
#else
#define HELPER(number, name, ...) u64 name(__VA_ARGS__) __attribute__((kernel_helper(number)))
#endif

/* The peer that a channel of the client is bound to, if it has an IPv4 address: 1, and the record is the peer's; else 0, and zeros. */
HELPER(1, peer_of_channel, struct context *, u64 channel, struct record *);

/* The number of the channel that is bound to exactly this peer, or 0. */
HELPER(2, channel_of_peer, struct context *, const struct record *);

/* Whether the peer's address has a permission: 1 or 0. */
HELPER(3, has_permission, struct context *, const struct record *);

/* Sets the window, the bytes to send: where they begin, counted from HEADROOM bytes before the datagram, and how many. Returns 0, or 1
   where they don't lie in headroom, datagram and tailroom, and then changes nothing. */
HELPER(4, set_window, struct context *, u64 start, u64 length);

/* Sets the destination of a client's datagram. Returns 0, or 1 where the record is not valid, and then changes nothing. */
HELPER(5, set_destination, struct context *, const struct record *);

/* The same of peers of either family. */
HELPER(6, wide_peer_of_channel, struct context *, u64 channel, struct wide_record *);
HELPER(7, channel_of_wide_peer, struct context *, const struct wide_record *);
HELPER(8, has_wide_permission, struct context *, const struct wide_record *);
HELPER(9, set_wide_destination, struct context *, const struct wide_record *);

/* Moves a pointer, which is a variable, by a number that was read. Of `at += n` the compiler may make an addition of the pointer to the
   number, and the verifier only takes one of the number to the pointer (V11). */
#ifdef __clang__
#define ADD_TO "%0 += %1"
#else
#define ADD_TO "add %0, %1"
#endif
#define ADVANCE(pointer, n) __asm__ volatile(ADD_TO : "+r"(pointer) : "r"((u64)(n)))

/* Makes a variable one whose value the compiler knows nothing of, and computes once, there. Otherwise the compiler deletes a comparison or
   a mask whose outcome follows from earlier lines, as a second test of the same bound; but what the verifier knew of a number ends where
   it is kept on the stack, as over a call. After KEEP(n) the program has `n &= 0xffff` or `if (n > 1500) return DISCARD;`. And it may
   compare one sum or one half of a register and add or access another that is equal to it, of which the verifier knows nothing. */
#define KEEP(variable) __asm__ volatile("" : "+r"(variable))

/* Whether n bytes are there from a pointer on, which is a variable: where they are, they may be accessed by this variable. The pointer
   itself is compared with the end, and nothing that the compiler finds to be equal to it. */
#define in_datagram(ctx, pointer, n)     \
  ({                                     \
    KEEP(pointer);                       \
    (u8 *)(pointer) + (n) <= (ctx)->end; \
  })

/* The source as an IPv4 address, and zeros for one of IPv6. A field of the context is read whole (V9), which a copy of its bytes, or a
   pointer to a record in it, would not do. */
INLINE struct record source_of(struct context *ctx) {
  u64 source = ctx->source;
  KEEP(source);
  return (struct record){.zero = 0, .family = (u8)(source >> 8), .port = (u16)(source >> 16), .address = (u32)(source >> 32)};
}

/* The source as an address of either family. */
INLINE struct wide_record wide_source_of(struct context *ctx) {
  u64 source = ctx->wide_source, address = ctx->wide_source_address;
  u32 rest = ctx->wide_source_rest;
  KEEP(source);
  KEEP(address);
  KEEP(rest);
  return (struct wide_record){
      .zero = 0,
      .family = (u8)(source >> 8),
      .port = (u16)(source >> 16),
      .address = {(u32)(source >> 32), (u32)address, (u32)(address >> 32), rest},
  };
}

#endif
