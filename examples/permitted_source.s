; Asks whether the datagram's source has a permission: the verdict is the helper's answer, 0 or 1.
    ldxdw r2, [r1+24]       ; r2: the source's address record, of eight bytes
    stxdw [r10-8], r2       ; a helper reads it from the stack
    mov r2, r10
    add r2, -8              ; r2: where it lies
    call 3
    exit
