"""A channel handed over: the server gives its portal to another node, which goes on, and the client notices nothing. The servers are tasks of asyncio."""
import asyncio

from ipcz_portals import Loop, Node


async def serve(node: Node, words: int, is_last: bool) -> None:
    """Serves the channel that comes from the node before: answers so many words, and hands it on to the node behind, if there is one."""
    channel = (await node.first(node.number - 1).recv_async()).portals[0]
    for _ in range(words):
        word = await channel.recv_async()
        channel.send(b"node %d heard %s" % (node.number, word.bytes))
    if is_last:
        channel.close()
    else:
        node.first(node.number + 1).send(b"you go on", [channel])


async def main() -> None:
    with Loop(3) as loop:
        servers = asyncio.gather(serve(loop.node(1), 1, False), serve(loop.node(2), 2, True))
        node = loop.node(0)
        client, server = node.open()
        node.first(1).send(b"serve this", [server])
        for word in (b"one", b"two", b"three"):
            client.send(word)
        async for answer in client:
            print(answer.bytes.decode())
        print("PeerClosed")
        await servers


asyncio.run(main())
