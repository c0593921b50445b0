"""What the calls of ipcz_portals.py answer, by its comments."""
import asyncio
import os
import select
import signal
import threading
import time
import unittest

from ipcz_portals import Loop, Node, PeerClosed, Portal, Refused, Status, Stopped


class OnOneThread(unittest.TestCase):
    def setUp(self) -> None:
        self.loop = Loop(2)
        self.left, self.right = self.loop.node(0).first(1), self.loop.node(1).first(0)

    def refused(self, status: Status, call, *given) -> None:
        with self.assertRaises(Refused) as caught:
            call(*given)
        self.assertEqual(caught.exception.status, status)

    def test_limits(self) -> None:
        for nodes, slots in (0, 0), (65, 0), (256, 0), (64, 2015), (2, 1 << 32):
            self.refused(Status.TOO_MANY, Loop, nodes, slots)
        self.refused(Status.NO_WORD, Loop(8, 28).node(7).open)
        self.refused(Status.TOO_MANY, self.left.send, bytes(65537))
        self.assertRaises(IndexError, self.loop.node, 2)
        self.assertRaises(IndexError, self.loop.node(0).first, 0)
        self.assertRaises(IndexError, self.loop.node(0).first, 2)

    def test_bytes(self) -> None:
        sent = [b"", b"a\0b", bytes(range(256)) * 256, bytearray(b"array"), memoryview(b"viewed")[1:3]]
        for data in sent:
            self.left.send(data)
        self.assertEqual([self.right.recv().bytes for _ in sent], [bytes(data) for data in sent])
        self.assertIsNone(self.right.try_recv())
        self.left.send(b"x")
        self.assertEqual(self.right.recv().number, 5)

    def test_time(self) -> None:
        begun = time.monotonic()
        self.assertRaises(TimeoutError, self.right.recv, 0.05)
        self.assertGreaterEqual(time.monotonic() - begun, 0.05)

    def test_portals(self) -> None:
        kept, sent = self.loop.node(0).open()
        self.refused(Status.PEER_ATTACH, kept.send, b"", [sent])
        self.refused(Status.STRANGER, self.right.send, b"", [sent])
        self.left.send(b"it", [sent])
        self.refused(Status.NOT_CREATED, sent.send, b"")
        self.assertEqual(repr(sent), "<Portal, gone>")
        came, = self.right.recv().portals
        kept.send(b"here")
        node = self.loop.node(1)
        portal, parcel = node.recv_any([self.right, came])
        self.assertEqual((portal, parcel.bytes), (came, b"here"))
        with kept:
            pass
        self.assertEqual(node.recv_any([self.right, came]), (came, None))
        self.assertRaises(PeerClosed, came.recv)
        self.refused(Status.STRANGER, node.recv_any, [self.left])
        self.refused(Status.STRANGER, node.recv_any, [])

    def test_looks(self) -> None:
        kept, sent = self.loop.node(0).open()
        self.assertEqual(self.right.look(), (0, 0, 0, 0, False))
        self.left.send(b"carry", [sent])
        kept.send(b"one")
        self.assertEqual(self.right.look(), (0, 1, 5, 1, False))
        came, = self.right.recv().portals
        self.assertEqual(came.look(), (0, 1, 3, 0, False))
        self.assertTrue(came.has_arrived())
        kept.close()
        self.assertEqual(came.look(), (0, 1, 3, 0, True))
        self.refused(Status.NOT_CREATED, sent.look)

    def test_a_forgotten_portal_is_closed(self) -> None:
        kept, sent = self.loop.node(0).open()
        del sent
        self.assertEqual(list(kept), [])
        del self.right
        self.left.send(b"still")
        self.assertEqual(self.loop.node(1).first(0).recv().bytes, b"still")

    def test_descriptor(self) -> None:
        node = self.loop.node(1)
        while node.wait(0):
            pass
        self.assertEqual(select.select([node], [], [], 0), ([], [], []))
        self.left.send(b"x")
        self.assertEqual(select.select([node], [], [], 5), ([node], [], []))
        self.assertTrue(node.wait())
        self.assertEqual(select.select([node], [], [], 0), ([], [], []))

    def test_signals_are_handled_while_it_waits(self) -> None:
        def interrupts(*_) -> None:
            raise KeyboardInterrupt

        before = signal.signal(signal.SIGALRM, interrupts)
        signal.setitimer(signal.ITIMER_REAL, 0.05)
        try:
            self.assertRaises(KeyboardInterrupt, self.right.recv)
        finally:
            signal.signal(signal.SIGALRM, before)

    def test_stop(self) -> None:
        stopped = []

        def sleeps() -> None:
            try:
                self.right.recv()
            except Stopped as why:
                stopped.append(why.status)

        thread = threading.Thread(target=sleeps)
        thread.start()
        with self.loop:
            time.sleep(0.02)
        thread.join()
        self.assertEqual(stopped, [Status.STOPPED])
        self.assertRaises(Stopped, self.right.try_recv)


class OnEventLoops(unittest.TestCase):
    def test_one_after_the_other(self) -> None:
        with Loop(2) as loop:
            left, right = loop.node(0).first(1), loop.node(1).first(0)

            async def receive(number: int) -> bytes:
                waiting = asyncio.create_task(right.recv_async())
                await asyncio.sleep(0)
                left.send(b"%d" % number)
                return (await asyncio.wait_for(waiting, 5)).bytes

            self.assertEqual([asyncio.run(receive(number)) for number in range(3)], [b"0", b"1", b"2"])

    def test_an_event_loop_without_waiting_tasks_takes_nothing(self) -> None:
        with Loop(2) as loop:
            left, right = loop.node(0).first(1), loop.node(1).first(0)
            quiet, over = threading.Event(), threading.Event()

            async def first() -> None:
                left.send(b"first")
                await right.recv_async()
                with self.assertRaises(asyncio.TimeoutError):
                    await asyncio.wait_for(right.recv_async(), 0.01)
                quiet.set()
                while not over.is_set():
                    await asyncio.sleep(0.001)

            async def second() -> int:
                return sum([len((await asyncio.wait_for(right.recv_async(), 5)).bytes) for _ in range(100)])

            def sends() -> None:
                for _ in range(100):
                    time.sleep(0.0005)
                    left.send(b"x")

            threads = [threading.Thread(target=asyncio.run, args=[first()]), threading.Thread(target=sends)]
            threads[0].start()
            quiet.wait()
            threads[1].start()
            self.assertEqual(asyncio.run(second()), 100)
            over.set()
            for thread in threads:
                thread.join()


class OnAsyncio(unittest.IsolatedAsyncioTestCase):
    async def test_tasks_and_threads(self) -> None:
        with Loop(2) as loop:
            def sends(portal: Portal) -> None:
                for number in range(500):
                    portal.send(b"%d" % number)
                portal.close()

            thread = threading.Thread(target=sends, args=[loop.node(0).first(1)])
            thread.start()
            came = [int(parcel.bytes) async for parcel in loop.node(1).first(0)]
            thread.join()
            self.assertEqual(came, list(range(500)))

    async def test_a_cancelled_task_loses_nothing(self) -> None:
        with Loop(2) as loop:
            left, right = loop.node(0).first(1), loop.node(1).first(0)
            with self.assertRaises(asyncio.TimeoutError):
                await asyncio.wait_for(right.recv_async(), 0.02)
            left.send(b"later")
            self.assertEqual((await asyncio.wait_for(right.recv_async(), 5)).bytes, b"later")

    async def test_many_tasks_at_a_node(self) -> None:
        with Loop(2) as loop:
            node, pairs = loop.node(0), [loop.node(0).open() for _ in range(50)]
            waiting = [asyncio.create_task(second.recv_async()) for _, second in pairs]
            await asyncio.sleep(0)
            for number, (first, _) in enumerate(pairs):
                first.send(b"%d" % number)
            self.assertEqual([int(it.bytes) for it in await asyncio.gather(*waiting)], list(range(50)))
            stopped = asyncio.create_task(node.first(1).recv_async())
            await asyncio.sleep(0)
        with self.assertRaises(Stopped):
            await stopped


def host(node: Node) -> None:
    """Answers each number at the portals that come, and hands each on to the next of the nodes 1 to 3 after some."""
    firsts = [node.first(other) for other in range(4) if other != node.number]
    channels: dict[Portal, int] = {}
    try:
        while True:
            portal, parcel = node.recv_any([*firsts, *channels])
            if portal not in channels:
                channels[parcel.portals[0]] = 0
            elif parcel is None:
                del channels[portal]
            else:
                portal.send(parcel.bytes)
                channels[portal] += 1
                if channels[portal] == 7:
                    del channels[portal]
                    node.first(node.number % 3 + 1).send(b"", [portal])
    except Stopped:
        pass


class ManySleepers(unittest.TestCase):
    def test_each_is_answered(self) -> None:
        times, answers = int(os.environ.get("IPCZ_STRESS", 50)), []

        def ask(node: Node) -> None:
            kept, sent = node.open()
            node.first(1).send(b"", [sent])
            for number in range(times):
                kept.send(b"%d" % number)
                answers.append(int(kept.recv(60).bytes) == number)
            kept.close()

        with Loop(4) as loop:
            hosts = [threading.Thread(target=host, args=[loop.node(number)]) for number in (1, 2, 3)]
            asking = [threading.Thread(target=ask, args=[loop.node(0)]) for _ in range(8)]
            for thread in (*hosts, *asking):
                thread.start()
            for thread in asking:
                thread.join()
        for thread in hosts:
            thread.join()
        self.assertEqual(answers, [True] * (8 * times))


if __name__ == "__main__":
    unittest.main()
