; Hands what any peer sends to the client, as much as a window holds: the 64 bytes before the datagram, the datagram, and the three
; bytes after it. In a server whose programs are confined, the peer's address needs a permission.
    ldxdw r3, [r1+16]       ; r3: the datagram's length
    mov r2, 0
    add r3, 67
    call 4
    mov r0, 2
    exit
