; A program of the client's side for clients that add SOFTWARE or FINGERPRINT to a Send indication. It does what the shipped
; one does, and relays by itself Send indications of an IPv4 address and DATA, in this order, that have one or two
; comprehension-optional attributes after them (RFC 8489, section 14).
    mov r6, r1              ; r6: the context, for the helpers
    ldxdw r2, [r1+0]        ; r2: the datagram's first byte
    ldxdw r3, [r1+8]        ; r3: its end
    ldxdw r9, [r1+16]       ; r9: its length
    mov r0, 0               ; the verdict that sends nothing
    mov r4, r2
    add r4, 1
    jgt r4, r3, end         ; an empty datagram
    ldxb r5, [r2+0]
    jlt r5, 64, stun        ; the first two bits are 00: STUN
    jgt r5, 127, end        ; they are 10 or 11: neither STUN nor ChannelData
    mov r4, r2
    add r4, 4
    jgt r4, r3, end         ; no room for the header: a number and a length
    ldxh r7, [r2+0]
    be16 r7                 ; r7: the channel's number
    ldxh r8, [r2+2]
    be16 r8                 ; r8: the length of the data
    mov r4, r8
    add r4, 4
    jgt r4, r9, end         ; less data than the header says
    mov r2, r7
    mov r3, r10
    add r3, -8              ; room on the stack for an address record
    call 1                  ; the IPv4 peer that the channel is bound to
    jeq r0, 0, wide         ; there is none
    mov r7, 68              ; r7: the window begins after the 64 bytes of headroom and the header
    ja send
wide:
    mov r1, r6
    mov r2, r7
    mov r3, r10
    add r3, -24             ; room for a wide address record, of 20 bytes
    call 6                  ; the peer of either family that the channel is bound to
    jeq r0, 0, end          ; the channel is bound to none
    mov r1, r6
    mov r2, 68              ; the window begins after the 64 bytes of headroom and the header
    mov r3, r8
    call 4                  ; the window: what is sent is the data
    mov r1, r6
    mov r2, r10
    add r2, -24
    call 9                  ; the destination: the peer
    mov r0, 2               ; the verdict that sends
    exit
stun:
    mov r4, r2
    add r4, 36
    jgt r4, r3, pass        ; no room for a header, an address and the type and length of DATA
    ldxh r5, [r2+0]
    jne r5, 0x1600, pass    ; the type is not that of a Send indication, 0x0016
    ldxw r5, [r2+4]
    jne r5, 0x42a41221, pass; the cookie is not 0x2112a442
    ldxh r5, [r2+2]
    be16 r5
    add r5, 20
    jne r5, r9, pass        ; the header's length is not the datagram's
    ldxw r5, [r2+20]
    jne r5, 0x08001200, data_first ; XOR-PEER-ADDRESS, 0x0012, of 8 bytes is not the first attribute
    ldxh r5, [r2+32]
    jne r5, 0x1300, pass    ; the second one is not DATA, 0x0013
    ldxh r8, [r2+34]
    be16 r8                 ; r8: the length of the data
    mov r4, r8
    add r4, 3
    rsh r4, 2
    lsh r4, 2               ; with its padding
    add r4, 36
    jeq r4, r9, plain       ; there are no more attributes
    jgt r4, r9, pass        ; the data is longer than the datagram
    mov r5, r2
    add r5, r4              ; r5: the next attribute
    mov r7, r5
    add r7, 4
    jgt r7, r3, pass        ; no room for its type and length
    ldxb r7, [r5+0]
    jlt r7, 128, pass       ; it is comprehension-required: its type is below 0x8000
    ldxh r7, [r5+2]
    be16 r7
    add r7, 7
    rsh r7, 2
    lsh r7, 2               ; r7: its length with header and padding
    add r4, r7
    jeq r4, r9, plain       ; there is one
    jgt r4, r9, pass
    mov r5, r2
    add r5, r4              ; r5: the next attribute
    mov r7, r5
    add r7, 4
    jgt r7, r3, pass        ; no room for its type and length
    ldxb r7, [r5+0]
    jlt r7, 128, pass       ; it is comprehension-required: its type is below 0x8000
    ldxh r7, [r5+2]
    be16 r7
    add r7, 7
    rsh r7, 2
    lsh r7, 2               ; r7: its length with header and padding
    add r4, r7
    jne r4, r9, pass        ; there are more than two
plain:
    mov r7, 100             ; r7: the window begins with the data, at 64 + 36
    add r2, 24              ; r2: the value of XOR-PEER-ADDRESS
    ja address
data_first:
    ldxh r5, [r2+20]
    jne r5, 0x1300, pass    ; DATA is not the first attribute
    ldxh r8, [r2+22]
    be16 r8                 ; r8: the length of the data
    mov r4, r8
    add r4, 3
    rsh r4, 2
    lsh r4, 2               ; with its padding
    mov r5, r4
    add r5, 36
    jne r5, r9, pass        ; there are more than two attributes
    add r2, r4              ; the second attribute is as far on as the data is long
    mov r5, r2
    add r5, 36
    jgt r5, r3, pass        ; never taken; the verifier learns that 36 bytes follow
    ldxw r5, [r2+24]
    jne r5, 0x08001200, pass; the second attribute is not XOR-PEER-ADDRESS of 8 bytes
    mov r7, 88              ; r7: the window begins with the data, at 64 + 24
    add r2, 28              ; r2: the value of XOR-PEER-ADDRESS
address:
    ldxb r4, [r2+1]
    jne r4, 1, end          ; the family is not IPv4: the address is malformed
    sth [r10-8], 0x0100     ; the address record on the stack: 0, and the family 1
    ldxh r4, [r2+2]
    be16 r4
    xor r4, 0x2112          ; the port is xored with the upper half of the cookie
    be16 r4
    stxh [r10-6], r4
    ldxw r4, [r2+4]
    be32 r4
    xor r4, 0x2112a442      ; and the address with the cookie
    be32 r4
    stxw [r10-4], r4
    mov r1, r6
    mov r2, r10
    add r2, -8
    call 3                  ; whether the address has a permission
    jeq r0, 0, end
send:
    mov r1, r6
    mov r2, r7
    mov r3, r8
    call 4                  ; the window: what is sent is the data
    mov r1, r6
    mov r2, r10
    add r2, -8
    call 5                  ; the destination: the peer
    mov r0, 2               ; the verdict that sends
    exit
pass:
    mov r0, 1               ; the verdict that passes the datagram on
end:
    exit
