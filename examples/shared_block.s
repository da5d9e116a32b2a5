; A block that stands before one of its users, as compilers put it: the verifier refuses the jump back (V1), and
; `relayd order` makes a program of it whose jumps all lead forward.
    ja start
rules:
    mov r0, 1               ; the rules decide
    exit
start:
    ldxdw r2, [r1+16]       ; the datagram's length
    jle r2, 1200, rules
    mov r0, 0               ; nothing is sent
    exit
