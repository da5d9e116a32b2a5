; Discards Allocate requests (RFC 8656, section 7.2), so that nobody gets an allocation any more, and leaves all else as it is: who
; has one refreshes it and sends data until it ends. Put it before a program of the clients' side:
;     cat examples/relay/drain.s examples/relay/client.s > drain.s
    ldxdw r2, [r1+0]        ; the datagram's first byte
    ldxdw r3, [r1+8]        ; its end
    mov r4, r2
    add r4, 2
    jgt r4, r3, others      ; no room for the type of a message
    ldxh r5, [r2+0]
    jne r5, 0x0300, others  ; 0x0003 in the order of the network, an Allocate request
    mov r0, 0               ; the verdict that sends nothing
    exit
others:
