; Tells the kinds of datagrams apart: 0 for an empty one, 1 where the first byte is below 64 (STUN), else 2.
    ldxdw r2, [r1+0]        ; r2: the datagram's first byte
    ldxdw r3, [r1+8]        ; r3: its end
    mov r4, r2
    add r4, 1
    mov r0, 0
    jgt r4, r3, done        ; an empty datagram
    ldxb r5, [r2+0]
    mov r0, 1
    jlt r5, 64, done        ; the first two bits of STUN are zero
    mov r0, 2
done:
    exit
