; Returns the datagram's fourth byte, or 0 where it has fewer than four.
    ldxdw r2, [r1+0]        ; r2: the datagram's first byte, from the context
    ldxdw r3, [r1+8]        ; r3: its end, one past the last byte
    mov r4, r2
    add r4, 4               ; r4: where four bytes end
    mov r0, 0               ; the verdict, if there are fewer
    jgt r4, r3, short       ; the verifier knows now that four bytes are there
    ldxb r0, [r2+3]
short:
    exit
