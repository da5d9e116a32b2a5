; As open_relay.s, with a wide record of 20 bytes after the byte 0xff, and so to addresses of either family.
    mov r6, r1
    ldxdw r2, [r1+0]        ; r2: the datagram's first byte
    ldxdw r3, [r1+8]        ; r3: its end
    mov r4, r2
    add r4, 21
    jgt r4, r3, rules       ; fewer than 21 bytes
    ldxb r5, [r2+0]
    jne r5, 0xff, rules
    ldxdw r5, [r2+1]        ; the record: zero, the family, the port, the address
    stxdw [r10-24], r5
    ldxdw r5, [r2+9]
    stxdw [r10-16], r5
    ldxw r5, [r2+17]
    stxw [r10-8], r5
    mov r2, r10
    add r2, -24
    call 9
    mov r1, r6
    mov r2, 64
    ldxdw r3, [r6+16]
    call 4
    mov r0, 2
    exit
rules:
    mov r0, 1
    exit
