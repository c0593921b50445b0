# SPDX-License-Identifier: BSD-3-Clause
"""Portals, and parcels between them, in one process: Python over the library that `tools/install_c.py --shared PREFIX` makes.

    with Loop(2) as loop:
        loop.node(0).first(1).send(b"hello")
        print(loop.node(1).first(0).recv().bytes)

A loop is a table of nodes. Any thread may call any node and portal at any time; a thread that waits in `recv` sleeps, lets other threads of Python run, and is
woken by the parcel that it waits for. With asyncio, `await portal.recv_async()` and `async for parcel in portal` wait for the node's file descriptor; all
tasks that wait at one node are of one event loop.

The library is looked for where the environment's IPCZ_LIBRARY says, beside this file, and where the system has its libraries. Its archive is proved; the
calls that sleep (ipcz_loop.h), and this file, aren't.
"""
from __future__ import annotations

import asyncio
import ctypes
import ctypes.util
import enum
import math
import os
import pathlib
import threading
import time
from collections.abc import AsyncIterator, Callable, Iterator, Sequence
from types import TracebackType
from typing import NamedTuple, Optional, Union

__version__ = "0.2.0"
__all__ = ["Loop", "Node", "Portal", "Parcel", "Look", "Status", "Refused", "PeerClosed", "Stopped", "MAX_BYTES", "MAX_NODES", "MAX_PORTALS"]

MAX_BYTES = 65536
MAX_NODES = 64
MAX_PORTALS = 8
# For how many seconds the main thread waits before it looks at signals, for the sake of Ctrl-C; and other threads at once.
SLICE = 0.2
LONGEST = 1e6


class Status(enum.IntEnum):
    """What a call came to, by the names of ipcz_portals.h."""

    OK = 0
    OUT_OF_MEMORY = 1
    EMPTY = 2
    PEER_CLOSED = 3
    NO_WORD = 4
    SELF_ATTACH = 5
    PEER_ATTACH = 6
    STRANGER = 7
    NUMBERS_END = 8
    BAD_DATA = 9
    TOO_MANY = 10
    RACED = 11
    TOO_SMALL = 100
    NOT_CREATED = 101
    ALREADY_CREATED = 102
    STOPPED = 103


class Refused(Exception):
    """A call that was refused, which changed nothing."""

    def __init__(self, status: int) -> None:
        self.status = Status(status)
        super().__init__("".join(part.capitalize() for part in self.status.name.split("_")))


class PeerClosed(Refused):
    """The other portal of the pair is closed, and what was sent there is received."""


class Stopped(Refused):
    """Nothing has come, and the loop was stopped."""


class _Name(ctypes.Structure):
    _fields_ = [("pair", ctypes.c_uint64), ("side_b", ctypes.c_bool)]


class _Parcel(ctypes.Structure):
    _fields_ = [
        ("bytes", ctypes.c_void_p), ("room", ctypes.c_size_t), ("size", ctypes.c_size_t), ("count", ctypes.c_size_t), ("number", ctypes.c_uint64),
        ("portals", _Name * MAX_PORTALS),
    ]


class _Status(ctypes.Structure):
    _fields_ = [
        ("next", ctypes.c_uint64), ("waiting", ctypes.c_uint64), ("size", ctypes.c_size_t), ("count", ctypes.c_size_t), ("peer_closed", ctypes.c_bool),
    ]


def _library() -> ctypes.CDLL:
    named, beside = os.environ.get("IPCZ_LIBRARY"), pathlib.Path(__file__).with_name("libipcz_loop.so")
    found = named or (str(beside) if beside.is_file() else ctypes.util.find_library("ipcz_loop"))
    if not found:
        raise ImportError("there is no libipcz_loop.so: make it by tools/install_c.py --shared PREFIX, and set IPCZ_LIBRARY=PREFIX/lib/libipcz_loop.so")
    library, at, size = ctypes.CDLL(found), ctypes.c_void_p, ctypes.c_size_t
    library.ipcz_version.restype = ctypes.c_char_p
    if library.ipcz_version().decode() != __version__:
        raise ImportError(f"{found} is of version {library.ipcz_version().decode()}, and this file of {__version__}")
    for name, result, given in (
        ("ipcz_loop_create", ctypes.c_uint32, [ctypes.c_uint8, ctypes.c_uint32, ctypes.POINTER(at)]),
        ("ipcz_loop_stop", None, [at]),
        ("ipcz_loop_destroy", None, [at]),
        ("ipcz_loop_node", at, [at, ctypes.c_uint8]),
        ("ipcz_node_first", _Name, [at, ctypes.c_uint8]),
        ("ipcz_node_open", ctypes.c_uint32, [at, ctypes.POINTER(_Name), ctypes.POINTER(_Name)]),
        ("ipcz_node_send", ctypes.c_uint32, [at, _Name, ctypes.c_char_p, size, ctypes.POINTER(_Name), size]),
        ("ipcz_node_recv_any", ctypes.c_uint32, [at, ctypes.POINTER(_Name), size, ctypes.POINTER(_Parcel), ctypes.POINTER(size), ctypes.c_int]),
        ("ipcz_node_look", ctypes.c_uint32, [at, _Name, ctypes.POINTER(_Status)]),
        ("ipcz_node_has_arrived", ctypes.c_uint32, [at, _Name, ctypes.POINTER(ctypes.c_bool)]),
        ("ipcz_node_close", ctypes.c_uint32, [at, _Name]),
        ("ipcz_node_fd", ctypes.c_int, [at]),
        ("ipcz_node_wait", ctypes.c_uint32, [at, ctypes.c_int]),
    ):
        call = getattr(library, name)
        call.restype, call.argtypes = result, given
    return library


_C = _library()
_rooms = threading.local()


def _room() -> ctypes.Array[ctypes.c_char]:
    """Room for the widest parcel, which this thread keeps."""
    if not hasattr(_rooms, "room"):
        _rooms.room = ctypes.create_string_buffer(MAX_BYTES)
    return _rooms.room


def _check(status: int) -> None:
    if status == Status.PEER_CLOSED:
        raise PeerClosed(status)
    if status == Status.STOPPED:
        raise Stopped(status)
    if status != Status.OK:
        raise Refused(status)


class Parcel(NamedTuple):
    """What was received: how many parcels were received at this portal before it, its bytes, and the portals that came with it."""

    number: int
    bytes: bytes
    portals: list[Portal]


class Look(NamedTuple):
    """What `try_recv` would give at a portal, one call after the other: the number of the next parcel, whether it has come or not; how many have come; how many
    bytes and portals the next has, 0 if none waits; and whether the peer is closed behind them."""

    next: int
    waiting: int
    size: int
    portal_count: int
    peer_closed: bool


class _Handle:
    """A loop of the library, which is freed once no node or portal of it is left."""

    def __init__(self, nodes: int, slots: int) -> None:
        self.at: Optional[ctypes.c_void_p] = ctypes.c_void_p()
        if not (0 <= nodes <= 255 and 0 <= slots < 1 << 32):
            raise Refused(Status.TOO_MANY)
        _check(_C.ipcz_loop_create(nodes, slots, ctypes.byref(self.at)))

    def __del__(self, destroy: Callable[[object], None] = _C.ipcz_loop_destroy) -> None:
        at, self.at = self.at, None
        destroy(at)


class Loop:
    """A loop of 1 to 64 nodes, with room for so many links at once (0: 4,096). It stops at the end of a `with`."""

    def __init__(self, nodes: int, slots: int = 0) -> None:
        self._handle = _Handle(nodes, slots)
        self._nodes = [Node(self._handle, number) for number in range(nodes)]

    def node(self, number: int) -> Node:
        """A node by its number; IndexError if there is none."""
        return self._nodes[number]

    def stop(self) -> None:
        """Ends all waiting, now and later: what waits raises Stopped. What has come can still be received."""
        _C.ipcz_loop_stop(self._handle.at)

    def __enter__(self) -> Loop:
        return self

    def __exit__(self, kind: Optional[type[BaseException]], error: Optional[BaseException], trace: Optional[TracebackType]) -> None:
        self.stop()


class Node:
    """A node of a loop: `Loop.node` gives it."""

    def __init__(self, handle: _Handle, number: int) -> None:
        self._handle, self.number = handle, number
        self._at = _C.ipcz_loop_node(handle.at, number)
        self._waiting: list[asyncio.Future[None]] = []
        self._events: Optional[asyncio.AbstractEventLoop] = None

    def first(self, other: int) -> Portal:
        """The portal that the node has from the start of the pair that it shares with another. It isn't closed when it is forgotten, and can be had again."""
        if other == self.number or not 0 <= other < MAX_NODES or not _C.ipcz_loop_node(self._handle.at, other):
            raise IndexError(f"node {self.number} has no pair with {other}")
        return Portal(self, _C.ipcz_node_first(self._at, other), False)

    def open(self) -> tuple[Portal, Portal]:
        """Opens a pair, both portals of which are this node's."""
        first, second = _Name(), _Name()
        _check(_C.ipcz_node_open(self._at, ctypes.byref(first), ctypes.byref(second)))
        return Portal(self, first), Portal(self, second)

    def recv_any(self, portals: Sequence[Portal], timeout: Optional[float] = None) -> tuple[Portal, Optional[Parcel]]:
        """Receives at the first of some portals of this node at which there is something: that portal and the parcel, or None if its peer is closed. It waits as
        `Portal.recv` does."""
        if not all(portal._name and portal._node is self for portal in portals):
            raise Refused(Status.STRANGER)
        place, parcel = self._received([portal._name for portal in portals], timeout)
        return portals[place], parcel

    def fileno(self) -> int:
        """A file descriptor for selectors, readable once something may have come since the last `wait`."""
        found = _C.ipcz_node_fd(self._at)
        if found < 0:
            raise OSError("the system has no file descriptor to give")
        return found

    def wait(self, timeout: Optional[float] = None) -> bool:
        """Waits until something may have come to the node since the last wait; false if nothing did in time."""
        status = self._in_slices(lambda milliseconds: _C.ipcz_node_wait(self._at, milliseconds), timeout)
        if status != Status.EMPTY:
            _check(status)
        return status == Status.OK

    def _in_slices(self, call: Callable[[int], int], timeout: Optional[float]) -> int:
        """A call that waits: in slices if it is the main thread's, which handles signals between them."""
        slice = SLICE if threading.current_thread() is threading.main_thread() else LONGEST
        until = None if timeout is None else time.monotonic() + timeout
        while True:
            left = slice if until is None else min(slice, max(0.0, until - time.monotonic()))
            status = call(math.ceil(left * 1000))
            if status != Status.EMPTY or until is not None and time.monotonic() >= until:
                return status

    def _received(self, names: list[_Name], timeout: Optional[float]) -> tuple[int, Optional[Parcel]]:
        room, place, listed = _room(), ctypes.c_size_t(), (_Name * len(names))(*names)
        came = _Parcel(bytes=ctypes.addressof(room), room=MAX_BYTES)

        def receive(milliseconds: int) -> int:
            return _C.ipcz_node_recv_any(self._at, listed, len(names), ctypes.byref(came), ctypes.byref(place), milliseconds)

        status = self._in_slices(receive, timeout)
        if status == Status.PEER_CLOSED:
            return place.value, None
        if status == Status.EMPTY:
            raise TimeoutError
        _check(status)
        portals = [Portal(self, _Name(it.pair, it.side_b)) for it in came.portals[: came.count]]
        return place.value, Parcel(came.number, ctypes.string_at(room, came.size), portals)

    # asyncio: tasks that wait at this node stand in a list. When the descriptor is readable it is first made unreadable, and then they all look again. A task
    # looks and goes into the list without giving the event loop back, so what comes after its look makes the descriptor readable while it stands there. An event
    # loop in which no task waits any more takes its reader away when it is called for nothing.

    async def _moved(self) -> None:
        """Waits until something may have come to the node."""
        events = asyncio.get_running_loop()
        if self._events is not events:
            if self._waiting:
                raise RuntimeError("tasks of two event loops wait at one node")
            self._events = events
            events.add_reader(self.fileno(), self._wake, events)
        future = events.create_future()
        self._waiting.append(future)
        try:
            await future
        finally:
            if future in self._waiting:
                self._waiting.remove(future)

    def _wake(self, events: asyncio.AbstractEventLoop) -> None:
        if self._events is not events or not self._waiting:
            events.remove_reader(self.fileno())
            self._events = None if self._events is events else self._events
            return
        _C.ipcz_node_wait(self._at, 0)
        waiting, self._waiting = self._waiting, []
        for future in waiting:
            if not future.done():
                future.set_result(None)


class Portal:
    """A portal of a node. It is closed at the end of a `with`, or when it is forgotten, unless it was sent, or is one of those from the start (`Node.first`). A
    portal that was closed or sent refuses each call."""

    def __init__(self, node: Node, name: _Name, is_closed_at_end: bool = True) -> None:
        self._node, self._is_closed_at_end = node, is_closed_at_end
        self._name: Optional[_Name] = name

    def send(self, data: Union[bytes, bytearray, memoryview], portals: Sequence[Portal] = ()) -> None:
        """Sends a parcel of at most 65,536 bytes, with at most 8 portals of this node, which are the receiver's then. It doesn't wait for a receiver. If it is
        refused the portals stay as they were. (Portals that are sent to meet each other may travel for ever: CIRCLES in ipcz_portals.h.)"""
        if not all(portal._name and portal._node is self._node for portal in portals):
            raise Refused(Status.STRANGER)
        given, names = bytes(data), (_Name * len(portals))(*[portal._name for portal in portals])
        _check(_C.ipcz_node_send(self._node._at, self._own(), given, len(given), names, len(portals)))
        for portal in portals:
            portal._name = None

    def recv(self, timeout: Optional[float] = None) -> Parcel:
        """Receives the next parcel, and sleeps until there is one, or so many seconds: then TimeoutError. PeerClosed: none will come; Stopped."""
        _, parcel = self._node._received([self._own()], timeout)
        if parcel is None:
            raise PeerClosed(Status.PEER_CLOSED)
        return parcel

    def try_recv(self) -> Optional[Parcel]:
        """The next parcel, or None if none has come."""
        try:
            return self.recv(0)
        except TimeoutError:
            return None

    async def recv_async(self) -> Parcel:
        """As `recv`, for a task. It may be cancelled at any time, and no parcel is lost."""
        while True:
            parcel = self.try_recv()
            if parcel is not None:
                return parcel
            await self._node._moved()

    def look(self) -> Look:
        """Tells what `try_recv` would give. Nothing is taken, and another thread may take it before this one does."""
        status = _Status()
        _check(_C.ipcz_node_look(self._node._at, self._own(), ctypes.byref(status)))
        return Look(status.next, status.waiting, status.size, status.count, status.peer_closed)

    def has_arrived(self) -> bool:
        """Whether the portal has arrived, so that it leaves at most one router in its route if it travels on now."""
        arrived = ctypes.c_bool()
        _check(_C.ipcz_node_has_arrived(self._node._at, self._own(), ctypes.byref(arrived)))
        return arrived.value

    def close(self) -> None:
        """Closes the portal. What was sent there still comes to the other one; what comes to it is discarded."""
        _check(_C.ipcz_node_close(self._node._at, self._own()))
        self._name = None

    def __iter__(self) -> Iterator[Parcel]:
        """The parcels that come, until the peer is closed or the loop is stopped."""
        try:
            while True:
                yield self.recv()
        except (PeerClosed, Stopped):
            return

    async def __aiter__(self) -> AsyncIterator[Parcel]:
        try:
            while True:
                yield await self.recv_async()
        except (PeerClosed, Stopped):
            return

    def __enter__(self) -> Portal:
        return self

    def __exit__(self, kind: Optional[type[BaseException]], error: Optional[BaseException], trace: Optional[TracebackType]) -> None:
        if self._name:
            self.close()

    def __del__(self, close: Callable[[object, object], int] = _C.ipcz_node_close) -> None:
        # (of what is forgotten all at once the loop may be freed first)
        if self._name and self._is_closed_at_end and self._node._handle.at:
            close(self._node._at, self._name)

    def __repr__(self) -> str:
        if not self._name:
            return "<Portal, gone>"
        return f"<Portal {self._name.pair}{'B' if self._name.side_b else 'A'} at node {self._node.number}>"

    def _own(self) -> _Name:
        if not self._name:
            raise Refused(Status.NOT_CREATED)
        return self._name
