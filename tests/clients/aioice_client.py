"""A client of aioice's TURN library: an allocation, and messages over a channel to a peer that sends each back."""

import asyncio
import sys

from aioice import turn


class Echo(asyncio.DatagramProtocol):
    """A peer that sends each datagram back."""

    def connection_made(self, transport):
        self.transport = transport

    def datagram_received(self, data, addr):
        self.transport.sendto(data, addr)


class Receiver(asyncio.DatagramProtocol):
    """Keeps what comes over the relay."""

    def __init__(self):
        self.received = asyncio.Queue()

    def datagram_received(self, data, addr):
        self.received.put_nowait((data, addr))


async def run(port, count, username, password):
    """Sends messages to the peer one after the other, and returns how many came back."""
    loop = asyncio.get_running_loop()
    peer, _ = await loop.create_datagram_endpoint(Echo, local_addr=("127.0.0.1", 0))
    address = peer.get_extra_info("sockname")
    relayed, receiver = await turn.create_turn_endpoint(Receiver, ("127.0.0.1", port), username=username, password=password)
    returned = 0
    for i in range(count):
        sent = b"message %d" % i
        relayed.sendto(sent, address)
        returned += await asyncio.wait_for(receiver.received.get(), 5) == (sent, address)
    relayed.close()
    # the deletion of the allocation is answered before the end
    await asyncio.wait(asyncio.all_tasks() - {asyncio.current_task()}, timeout=5)
    peer.close()
    return returned


print(asyncio.run(run(int(sys.argv[1]), int(sys.argv[2]), *sys.argv[3:])))
