; Sends the datagram as ChannelData: the header is written into the headroom, and a window takes both.
    ldxdw r2, [r1+0]        ; r2: the datagram's first byte
    ldxdw r3, [r1+16]       ; r3: its length
    mov r4, r3
    be16 r4                 ; the header has the length in network byte order
    sth [r2-4], 0x0140      ; the channel 0x4001, its bytes as they are in memory
    stxh [r2-2], r4
    mov r2, 60              ; the window begins four bytes before the datagram, at 64 - 4
    add r3, 4               ; and has four bytes more
    call 4                  ; sets the window; 0 where it lies inside
    jne r0, 0, refused
    mov r0, 2               ; the verdict that sends
refused:
    exit
