; Refused, V10 at slot 1: an empty datagram has no first byte, and no test comes before the load.
    ldxdw r2, [r1+0]
    ldxb r0, [r2+0]
    exit
