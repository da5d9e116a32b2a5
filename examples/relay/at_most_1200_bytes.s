; Discards datagrams of more than 1,200 bytes. Put it before a program of either side:
;     cat examples/relay/at_most_1200_bytes.s examples/relay/peer.s > peer.s
    ldxdw r2, [r1+16]       ; the datagram's length
    jle r2, 1200, short
    mov r0, 0               ; the verdict that sends nothing
    exit
short:
