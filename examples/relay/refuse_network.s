; Discards what comes from the network 203.0.113.0/24. Put it before a program of the peers' side:
;     cat examples/relay/refuse_network.s examples/relay/peer.s > peer.s
    ldxdw r2, [r1+24]       ; the source's address record: 0, the family, the port, the four bytes of the address
    rsh r2, 32              ; the address, its first byte lowest
    and r2, 0xffffff        ; its first three bytes: 203, 0, 113
    jne r2, 0x7100cb, others
    mov r0, 0               ; the verdict that sends nothing
    exit
others:
