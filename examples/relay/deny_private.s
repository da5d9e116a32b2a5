; Discards what a client sends over a channel or in a Send indication to the machine itself, to private, shared and link-local networks,
; and to multicast and reserved addresses of IPv4. The text of a client's program follows it, and relays the rest.
; A Send indication whose address is not among its first eight attributes is discarded too.
    mov r9, r1              ; r9: the context
    ldxdw r2, [r1+0]
    ldxdw r3, [r1+8]
    mov r4, r2
    add r4, 4
    jgt r4, r3, allowed     ; no room for a header: nothing is sent for it
    ldxb r5, [r2+0]
    jgt r5, 127, allowed    ; neither STUN nor ChannelData
    jgt r5, 63, peer_of_channel
    ldxh r5, [r2+0]
    jne r5, 0x1600, allowed ; the type is not that of a Send indication, 0x0016
    add r2, 20              ; r2: the first attribute
    mov r4, r2
    add r4, 4
    jgt r4, r3, discard     ; no room for another attribute
    ldxh r5, [r2+0]
    jeq r5, 0x1200, peer_of_send ; it is XOR-PEER-ADDRESS, 0x0012
    ldxh r5, [r2+2]
    be16 r5                 ; the length of its value
    add r5, 7
    rsh r5, 2
    lsh r5, 2               ; with its padding, and the four bytes of the header
    add r2, r5              ; r2: the next one
; the second to the seventh, in the same way
    mov r4, r2
    add r4, 4
    jgt r4, r3, discard
    ldxh r5, [r2+0]
    jeq r5, 0x1200, peer_of_send
    ldxh r5, [r2+2]
    be16 r5
    add r5, 7
    rsh r5, 2
    lsh r5, 2
    add r2, r5
    mov r4, r2
    add r4, 4
    jgt r4, r3, discard
    ldxh r5, [r2+0]
    jeq r5, 0x1200, peer_of_send
    ldxh r5, [r2+2]
    be16 r5
    add r5, 7
    rsh r5, 2
    lsh r5, 2
    add r2, r5
    mov r4, r2
    add r4, 4
    jgt r4, r3, discard
    ldxh r5, [r2+0]
    jeq r5, 0x1200, peer_of_send
    ldxh r5, [r2+2]
    be16 r5
    add r5, 7
    rsh r5, 2
    lsh r5, 2
    add r2, r5
    mov r4, r2
    add r4, 4
    jgt r4, r3, discard
    ldxh r5, [r2+0]
    jeq r5, 0x1200, peer_of_send
    ldxh r5, [r2+2]
    be16 r5
    add r5, 7
    rsh r5, 2
    lsh r5, 2
    add r2, r5
    mov r4, r2
    add r4, 4
    jgt r4, r3, discard
    ldxh r5, [r2+0]
    jeq r5, 0x1200, peer_of_send
    ldxh r5, [r2+2]
    be16 r5
    add r5, 7
    rsh r5, 2
    lsh r5, 2
    add r2, r5
    mov r4, r2
    add r4, 4
    jgt r4, r3, discard
    ldxh r5, [r2+0]
    jeq r5, 0x1200, peer_of_send
    ldxh r5, [r2+2]
    be16 r5
    add r5, 7
    rsh r5, 2
    lsh r5, 2
    add r2, r5
; the eighth
    mov r4, r2
    add r4, 4
    jgt r4, r3, discard
    ldxh r5, [r2+0]
    jne r5, 0x1200, discard ; the address is not among the first eight
peer_of_send:
    mov r4, r2
    add r4, 12
    jgt r4, r3, discard     ; no room for an IPv4 address
    ldxb r5, [r2+5]
    jne r5, 1, allowed      ; the family is another one
    ldxw r5, [r2+8]
    be32 r5
    xor r5, 0x2112a442      ; r5: the address, which is xored with the cookie
    ja is_denied
peer_of_channel:
    ldxh r2, [r2+0]
    be16 r2                 ; the channel's number
    mov r3, r10
    add r3, -8
    call 1                  ; the IPv4 peer that it is bound to
    jeq r0, 0, allowed      ; there is none
    ldxw r5, [r10-4]
    be32 r5                 ; r5: the peer's address
is_denied:
    mov r4, r5
    rsh r4, 24
    jeq r4, 0, discard      ; 0.0.0.0/8
    jeq r4, 10, discard     ; 10.0.0.0/8
    jeq r4, 127, discard    ; 127.0.0.0/8
    jgt r4, 223, discard    ; 224.0.0.0/3
    mov r4, r5
    rsh r4, 22
    jeq r4, 0x191, discard  ; 100.64.0.0/10
    mov r4, r5
    rsh r4, 20
    jeq r4, 0xac1, discard  ; 172.16.0.0/12
    rsh r5, 16
    jeq r5, 0xa9fe, discard ; 169.254.0.0/16
    jne r5, 0xc0a8, allowed ; 192.168.0.0/16
discard:
    mov r0, 0
    exit
allowed:
    mov r1, r9              ; for the program that follows
