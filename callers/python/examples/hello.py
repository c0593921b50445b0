"""A thread sleeps until a parcel comes, and says what it was."""
import threading

from ipcz_portals import Loop, Portal


def listen(portal: Portal) -> None:
    for parcel in portal:
        print(parcel.bytes.decode())


with Loop(2) as loop:
    thread = threading.Thread(target=listen, args=[loop.node(1).first(0)])
    thread.start()
    portal = loop.node(0).first(1)
    portal.send(b"hello")
    portal.close()
    thread.join()
