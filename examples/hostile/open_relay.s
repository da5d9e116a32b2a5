; Sends what any client says to any address that it names: after a byte 0xff comes an address record, and all of the
; datagram goes there. Everything else is left to the rules. In a server whose programs are confined, nothing is sent to an
; address that the client hasn't permitted.
    mov r6, r1
    ldxdw r2, [r1+0]        ; r2: the datagram's first byte
    ldxdw r3, [r1+8]        ; r3: its end
    mov r4, r2
    add r4, 9
    jgt r4, r3, rules       ; fewer than nine bytes
    ldxb r5, [r2+0]
    jne r5, 0xff, rules
    ldxdw r5, [r2+1]        ; the record: zero, the family 1, the port, the address
    stxdw [r10-8], r5
    mov r2, r10
    add r2, -8
    call 5                  ; the destination, whoever permitted it or not
    mov r1, r6
    mov r2, 64              ; the window: the whole datagram
    ldxdw r3, [r6+16]
    call 4
    mov r0, 2
    exit
rules:
    mov r0, 1
    exit
