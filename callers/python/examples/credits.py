"""Back-pressure by credits: the receiver grants four, and one more for each parcel that it has dealt with; the sender sleeps while it has none."""
import threading

from ipcz_portals import Loop, PeerClosed, Portal


class Sender:
    """Sends no more parcels than the receiver has given credits for, and sleeps until it has one."""

    def __init__(self, at: Portal) -> None:
        self.at, self.credits = at, 0

    def send(self, data: bytes) -> None:
        while self.at.try_recv():
            self.credits += 1
        if not self.credits:
            self.at.recv()
            self.credits += 1
        self.at.send(data)
        self.credits -= 1


dealt_with: list[int] = []


def receive(at: Portal) -> None:
    for _ in range(4):
        at.send(b"")
    for parcel in at:
        dealt_with.append(int(parcel.bytes))
        try:
            at.send(b"")
        except PeerClosed:
            # A credit that comes too late, for a sender that has closed.
            pass


with Loop(2) as loop:
    receiver = threading.Thread(target=receive, args=[loop.node(1).first(0)])
    receiver.start()
    sender, most = Sender(loop.node(0).first(1)), 0
    for number in range(1000):
        sender.send(b"%d" % number)
        most = max(most, number + 1 - len(dealt_with))
    sender.at.close()
    receiver.join()
    print(f"{len(dealt_with)} parcels, never more than 4 ahead: {int(dealt_with == list(range(1000)) and most <= 4)}")
