"""Request and reply: the asker sends a portal for the answer along. The server is a thread that sleeps until a request comes."""
import threading

from ipcz_portals import Loop, Node, PeerClosed, Portal


def serve(requests: Portal) -> None:
    """Answers each request "A * B" at the portal that came with it, and closes it, until no more can come."""
    for request in requests:
        a, b = request.bytes.split(b"*")
        with request.portals[0] as reply:
            reply.send(b"%d" % (int(a) * int(b)))


def ask(node: Node, text: str) -> None:
    answer, to = node.open()
    node.first(1).send(text.encode(), [to])
    print(f"{text} = {answer.recv().bytes.decode()}", end=", ")
    try:
        answer.recv()
    except PeerClosed as why:
        print("then", why)


with Loop(2) as loop:
    server = threading.Thread(target=serve, args=[loop.node(1).first(0)])
    server.start()
    ask(loop.node(0), "6 * 7")
    ask(loop.node(0), "111 * 111")
    loop.node(0).first(1).close()
    server.join()
