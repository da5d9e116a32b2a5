; Refused, V16 at slot 1: a verdict is a number, and r1 points to the context.
    mov r0, r1
    exit
