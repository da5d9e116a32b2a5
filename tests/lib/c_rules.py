"""Small rules in C: the body of each as one may write it first, and as docs/C.md says to write it."""

from typing import NamedTuple


class Idiom(NamedTuple):
    """What it is about, the body that is refused, what is said of what clang 14 makes of it, and the body in its place, with runs of
    that: the datagram and the verdict. A datagram comes from 127.0.0.1:9, and look-ups find nothing."""

    name: str
    first: str
    said: str
    then: str
    runs: list


# the header of a message whose attributes follow, and attributes without a value: FINGERPRINT and SOFTWARE
HEADER, OTHER, SOFTWARE = "0101000c2112a442" + "00" * 12, "80280000", "80220000"
IDIOMS = [
    Idiom("a pointer is moved by a number: ADVANCE", """
  u8 *data = ctx->data, *end = ctx->end;
  if (data + 20 > end || *data >= 0x40)
    return RULES;
  u64 offset = 20;
  UNROLL
  for (int i = 0; i < 4; i++) {
    if (data + offset + 4 > end)
      return DISCARD;
    if (*(u16 *)(data + offset) == SWAP16(0x8022))
      return RULES;
    offset += 4 + PADDED(SWAP16(*(u16 *)(data + offset + 2)));
  }
  return DISCARD_AS(3);
""", "refused V11", """
  u8 *data = ctx->data, *end = ctx->end;
  if (data + 20 > end || *data >= 0x40)
    return RULES;
  data += 20;
  UNROLL
  for (int i = 0; i < 4; i++) {
    if (!in_datagram(ctx, data, 4))
      return DISCARD;
    if (*(u16 *)data == SWAP16(0x8022))
      return RULES;
    u64 length = SWAP16(*(u16 *)(data + 2));
    data += 4;
    ADVANCE(data, PADDED(length));
  }
  return DISCARD_AS(3);
""",
          [(HEADER + "80220003414243008028000412345678", 1), (HEADER + "802800041234567880220000", 1),
           (HEADER + "80280003123456", 0), (HEADER + OTHER * 4, 3), (HEADER + OTHER * 3, 0),
           (HEADER + OTHER * 3 + SOFTWARE, 1), (HEADER + "8028fffc", 0)]),
    Idiom("a place is computed once for the comparison and once for the access", """
  u8 *data = ctx->data, *end = ctx->end;
  if (data + 4 > end || *data < 0x40)
    return RULES;
  u64 length = SWAP16(*(u16 *)(data + 2));
  if (data + 4 + length > end)
    return DISCARD;
  return length && data[length + 3] == 0xff ? DISCARD_AS(3) : RULES;
""", r"refused V1[01]", """
  u8 *data = ctx->data, *end = ctx->end;
  if (data + 4 > end || *data < 0x40)
    return RULES;
  u64 length = SWAP16(*(u16 *)(data + 2));
  ADVANCE(data, length);
  if (data + 4 > end)
    return DISCARD;
  return length && data[3] == 0xff ? DISCARD_AS(3) : RULES;
""",
          [("400100020aff", 3), ("40010002ff0a", 1), ("40010000", 1), ("4001000300ff", 0), ("00010000", 1)]),
    Idiom("another sum is compared than the pointer: in_datagram", """
  u8 *data = ctx->data, *end = ctx->end;
  if (data + 20 > end || *data >= 0x40)
    return RULES;
  u64 n = ctx->length - 8;
  if (n > 2000)
    return RULES;
  u8 *at = data + n;
  if (at + 8 > end)
    return RULES;
  return *(u16 *)at == SWAP16(0x8028) ? RULES : DISCARD;
""", "refused V10", """
  u8 *data = ctx->data, *end = ctx->end;
  if (data + 20 > end || *data >= 0x40)
    return RULES;
  u64 n = ctx->length - 8;
  if (n > 2000)
    return RULES;
  u8 *at = data + n;
  if (!in_datagram(ctx, at, 8))
    return RULES;
  return *(u16 *)at == SWAP16(0x8028) ? RULES : DISCARD;
""",
          [("00" * 20 + "8028000411223344", 1), ("00" * 20 + "8022000411223344", 0)]),
    Idiom("a number is kept on the stack over a call: KEEP", """
  u8 *data = ctx->data, *end = ctx->end;
  if (data + 4 > end || *data < 0x40)
    return RULES;
  u64 number = SWAP16(*(u16 *)data), length = SWAP16(*(u16 *)(data + 2)), all = ctx->length, id = ctx->transaction_id;
  struct record peer;
  struct wide_record wide;
  if (!peer_of_channel(ctx, number, &peer) && !wide_peer_of_channel(ctx, number, &wide) && number != 0x4001)
    return DISCARD;
  if (length > all || (number ^ id) == all)
    return DISCARD;
  set_window(ctx, 68, length);
  length &= 0xffff;
  u8 *at = data + length;
  if (at + 4 > end)
    return 5;
  return *(u32 *)at == 0 ? 3 : number + id + all == length ? 4 : RULES;
""", "refused V11", """
  u8 *data = ctx->data, *end = ctx->end;
  if (data + 4 > end || *data < 0x40)
    return RULES;
  u64 number = SWAP16(*(u16 *)data), length = SWAP16(*(u16 *)(data + 2)), all = ctx->length, id = ctx->transaction_id;
  struct record peer;
  struct wide_record wide;
  if (!peer_of_channel(ctx, number, &peer) && !wide_peer_of_channel(ctx, number, &wide) && number != 0x4001)
    return DISCARD;
  if (length > all || (number ^ id) == all)
    return DISCARD;
  set_window(ctx, 68, length);
  KEEP(length);
  length &= 0xffff;
  u8 *at = data + length;
  if (at + 4 > end)
    return 5;
  return *(u32 *)at == 0 ? 3 : number + id + all == length ? 4 : RULES;
""",
          [("400100040a0b0c0d", 1), ("4001000400000000", 3), ("40020000", 0), ("400100050102030405", 1)]),
    Idiom("the source is read through a pointer to a record: source_of", """
  const struct record *from = (void *)&ctx->source;
  return SWAP16(from->port) < 1024 ? DISCARD : RULES;
""", "refused V9", """
  struct record from = source_of(ctx);
  return from.family == IPV4 && from.address == SWAP32(0x7f000001) ? SWAP16(from.port) : 0;
""",
          [("", 9)]),
    Idiom("the source is copied: wide_source_of", """
  struct wide_record from;
  __builtin_memcpy(&from, &ctx->wide_source, sizeof from);
  return has_wide_permission(ctx, &from) ? RULES : DISCARD;
""", "refused V9", """
  struct wide_record from = wide_source_of(ctx);
  u32 rest = from.zero | from.address[1] | from.address[2] | from.address[3];
  return rest || from.family != IPV4 || from.address[0] != SWAP32(0x7f000001)
      || has_wide_permission(ctx, &from) ? 0 : SWAP16(from.port);
""",
          [("", 9)]),
    Idiom("the length is compared in place of the end", """
  return ctx->length < 4 || ctx->data[3] == 0 ? DISCARD : RULES;
""", "refused V10", """
  u8 *data = ctx->data, *end = ctx->end;
  return data + 4 > end || data[3] == 0 ? DISCARD : RULES;
""",
          [("000000", 0), ("00000000", 0), ("00000001", 1)]),
    Idiom("pointers are subtracted", """
  u8 *data = ctx->data, *end = ctx->end;
  return end - data < 4 || data[3] == 0 ? DISCARD : RULES;
""", "refused V11", """
  u8 *data = ctx->data, *end = ctx->end;
  return data + 4 > end || data[3] == 0 ? DISCARD : RULES;
""",
          [("000000", 0), ("00000001", 1)]),
    Idiom("the end is moved", """
  u8 *data = ctx->data, *end = ctx->end;
  return data > end - 4 || data[3] == 0 ? DISCARD : RULES;
""", "refused V11", """
  u8 *data = ctx->data, *end = ctx->end;
  return data + 4 > end || data[3] == 0 ? DISCARD : RULES;
""",
          [("000000", 0), ("00000001", 1)]),
    Idiom("bytes are read before the end", """
  u8 *data = ctx->data, *end = ctx->end;
  return data + 4 <= end && end[-1] == 0 ? DISCARD : RULES;
""", "refused V10", """
  u8 *last = ctx->data;
  u64 before = ctx->length - 1;
  KEEP(before);
  if (before > MAX_DATAGRAM)
    return RULES;
  ADVANCE(last, before);
  return in_datagram(ctx, last, 1) && *last == 0 ? DISCARD : RULES;
""",
          [("", 1), ("00", 0), ("0001", 1), ("000000", 0), ("0000000001", 1), ("0000000100", 0)]),
    Idiom("a place is compared with the end by ==", """
  u8 *data = ctx->data, *end = ctx->end;
  return data == end || *data < 0x40 ? DISCARD : RULES;
""", "refused V12", """
  u8 *data = ctx->data, *end = ctx->end;
  return data + 1 > end || *data < 0x40 ? DISCARD : RULES;
""",
          [("", 0), ("3f", 0), ("40", 1)]),
    Idiom("two places are compared", """
  u8 *data = ctx->data, *end = ctx->end;
  if (data + 5 > end)
    return DISCARD;
  u64 n = data[4];
  u8 *at = data + 4;
  ADVANCE(at, n);
  return at + 1 > end || at >= data + 20 || *at ? RULES : DISCARD;
""", "refused V12", """
  u8 *data = ctx->data, *end = ctx->end;
  if (data + 5 > end)
    return DISCARD;
  u64 n = data[4];
  u8 *at = data + 4;
  ADVANCE(at, n);
  return at + 1 > end || n >= 16 || *at ? RULES : DISCARD;
""",
          [("0000000002aa00", 0), ("0000000002aa01", 1), ("0000000003aa00", 1), ("00000000", 0)]),
    Idiom("a number of four bytes is added to a pointer", """
  u8 *data = ctx->data, *end = ctx->end;
  if (data + 4 > end)
    return DISCARD;
  u64 n = SWAP32(*(u32 *)data);
  u8 *at = data + 4;
  ADVANCE(at, n);
  return at + 1 > end || *at ? RULES : DISCARD;
""", "refused V11", """
  u8 *data = ctx->data, *end = ctx->end;
  if (data + 4 > end)
    return DISCARD;
  u64 n = SWAP32(*(u32 *)data);
  KEEP(n);
  if (n > 1500)
    return RULES;
  u8 *at = data + 4;
  ADVANCE(at, n);
  return at + 1 > end || *at ? RULES : DISCARD;
""",
          [("0000000101ff", 1), ("000000010100", 0), ("0000000201ff", 1), ("ffffffff00", 1)]),
    Idiom("an array has an index that was read", """
  u8 *data = ctx->data, *end = ctx->end;
  u8 seen[16] = {0};
  if (data + 2 > end)
    return DISCARD;
  seen[data[0] & 15] = 1;
  seen[data[1] & 15] = 1;
  return seen[3] ? DISCARD : RULES;
""", "refused V11", """
  u8 *data = ctx->data, *end = ctx->end;
  u32 seen = 0;
  if (data + 2 > end)
    return DISCARD;
  seen |= 1u << (data[0] & 15);
  seen |= 1u << (data[1] & 15);
  return seen & 8 ? DISCARD : RULES;
""",
          [("0103", 0), ("1302", 0), ("0204", 1)]),
    Idiom("a record isn't written whole", """
  struct wide_record peer;
  peer.zero = 0;
  peer.family = IPV4;
  peer.port = SWAP16(53);
  peer.address[0] = SWAP32(0x08080808);
  return has_wide_permission(ctx, &peer) ? RULES : DISCARD;
""", "refused V6", """
  struct wide_record peer = {.family = IPV4, .port = SWAP16(53), .address = {SWAP32(0x08080808)}};
  return has_wide_permission(ctx, &peer) ? RULES : DISCARD;
""",
          [("", 0)]),
    Idiom("a record of the datagram is handed to a helper", """
  struct xor_address *to = (void *)(ctx->data + 20);
  if ((u8 *)(to + 1) > ctx->end)
    return RULES;
  return has_permission(ctx, (struct record *)&to->zero) ? RULES : DISCARD;
""", "refused V15 argument 2", """
  struct xor_address *to = (void *)(ctx->data + 20);
  if ((u8 *)(to + 1) > ctx->end)
    return RULES;
  struct record peer = {.family = IPV4, .port = to->port ^ SWAP16(COOKIE >> 16), .address = to->address ^ SWAP32(COOKIE)};
  return has_permission(ctx, &peer) ? RULES : DISCARD;
""",
          [("", 1), ("00" * 32, 0)]),
    Idiom("a helper is chosen by a pointer", """
  struct record from = source_of(ctx);
  u64 (*ask)(struct context *, const struct record *) = ctx->length > 9 ? has_permission : channel_of_peer;
  return ask(ctx, &from) ? RULES : DISCARD;
""", r"calls what a pointer names, at slot [0-9]+: a call names its helper itself", """
  struct record from = source_of(ctx);
  u64 answer = ctx->length > 9 ? has_permission(ctx, &from) : channel_of_peer(ctx, &from);
  return answer ? RULES : DISCARD;
""",
          [("", 0), ("00000000000000000000", 0)]),
    Idiom("a loop ends as its comparison does", """
  u8 *data = ctx->data, *end = ctx->end;
  if (data + 20 > end || *data >= 0x40)
    return RULES;
  data += 20;
  UNROLL
  for (int i = 0; i < 4; i++) {
    if (data + 4 > end)
      return DISCARD;
    if (*(u16 *)data == SWAP16(0x8022))
      return RULES;
    u64 length = SWAP16(*(u16 *)(data + 2));
    data += 4 + PADDED(length);
  }
  return DISCARD;
""", r":9:3: error: loop not unrolled(?s:.*) is not compiled", """
  u8 *data = ctx->data, *end = ctx->end;
  if (data + 20 > end || *data >= 0x40)
    return RULES;
  data += 20;
  UNROLL
  for (int i = 0; i < 4; i++) {
    if (!in_datagram(ctx, data, 4))
      return DISCARD;
    if (*(u16 *)data == SWAP16(0x8022))
      return RULES;
    u64 length = SWAP16(*(u16 *)(data + 2));
    data += 4;
    ADVANCE(data, PADDED(length));
  }
  return DISCARD;
""",
          [(HEADER + OTHER * 3 + SOFTWARE, 1), (HEADER + OTHER * 4 + SOFTWARE, 0)]),
]
