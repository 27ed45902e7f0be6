# SPDX-License-Identifier: Apache-2.0
"""The handshake of Erlang's distribution protocol, by ctypes over libdistnode: a class for a node, one for the registry of a
port mapper (EPMD), and functions for its messages. There are no sockets in here: join.py and mapper.py are whole programs.

The library is the one that the environment's DISTNODE_LIBRARY names, else the installed libdistnode.so. Left out: dn_node_guarded_body, for
hosts that show their peers to others; dn_node_peer_at, since `peers` goes through all; dn_code_name and dn_why_name, which Code and Why have.
"""

import ctypes as c
import os
import secrets
from dataclasses import dataclass
from enum import IntEnum
from typing import Iterator, Optional

_library = c.CDLL(os.environ.get("DISTNODE_LIBRARY", "libdistnode.so"))


class Code(IntEnum):
    """What a call answers: dn_code of the header."""

    OK, NOT_A_NODE, IN_USE, NO_MEMORY, NO_ROOM, AWAITS, NO_SUCH = range(7)
    TOO_LONG, PEER_IN_USE, NO_SUCH_END, GONE, WRONG_PHASE, BUSY, SPENT, FULL, OPEN_ENDS, SHOWN_END = range(8, 18)
    NAME_TOO_SHORT, NAME_TOO_LONG, NAME_BAD_BYTE, NAME_BAD_AT = range(20, 24)
    COOKIE_EMPTY, COOKIE_BAD_BYTE, COOKIE_TOO_LONG = range(30, 33)
    EPMD_MALFORMED, EPMD_SHORT, EPMD_TRAILING = range(40, 43)
    HALF_FLAGS = 50


class Why(IntEnum):
    """Why an end is closed: dn_why of the header."""

    ENDED, READ_FAILED, WRITE_FAILED, GAVE_UP, DIAL_FAILED = range(1, 6)
    MALFORMED, UNEXPECTED, WRONG_NAME, WRONG_FLAGS, WRONG_DIGEST = range(6, 11)
    STATUS_REFUSED, REFUSED, CROSSED, REPLACED, NO_MEMORY = range(11, 16)


# The flags that DFLAG_MANDATORY_25_DIGEST stands for, as OTP 25 and later read it: for `mandatory_25` of a node.
MANDATORY_25 = 0x1070F94


class Status(IntEnum):
    """A status of the handshake, as one side says it and the other hears it: dn_status of the header."""

    NONE, OK, OK_SIMULTANEOUS, NOK, NOT_ALLOWED, ALIVE, TRUE, FALSE = range(8)


class Phase(IntEnum):
    """How an end stands, and what it awaits where it is open and not up: dn_phase of the header."""

    NONE, CLOSED, CONNECTION, NAME, STATUS, CHALLENGE, ACK = range(7)
    TRUE_OR_FALSE, COMPLEMENT, REPLY, DOOMED_DIALING, DOOMED, UP = range(7, 13)


class State(IntEnum):
    """Which ends hold a peer: dn_state of the header."""

    IDLE, OUT, IN, UP, CHALLENGED = range(5)


class Refused(Exception):
    """A call that answered another code than OK. `closed` is None, or the end that `dial` or `incoming` gave up to make room,
    and why, where the newcomer was refused all the same: that end's connection is to be closed, as where a reply tells it."""

    def __init__(self, code: Code, closed: Optional[tuple[int, Why]] = None):
        super().__init__(code.name)
        self.code = code
        self.closed = closed


class _Node(c.Structure):
    _fields_ = [("guest", c.c_void_p), ("mark", c.c_uint64)]


class _Registry(c.Structure):
    _fields_ = [("desk", c.c_void_p), ("mark", c.c_uint64)]


class _Served(c.Structure):
    _fields_ = [("taken", c.c_size_t), ("registered", c.c_uint32)]


class _Setup(c.Structure):
    _fields_ = [("flags", c.c_uint64), ("required", c.c_uint64), ("creation", c.c_uint32), ("version", c.c_uint32),
                ("limited", c.c_uint32), ("most_ends", c.c_uint32), ("most_steps", c.c_uint64),
                ("most_entries", c.c_uint32), ("most_open_ends", c.c_uint32), ("mandatory_25", c.c_uint64)]


class _Reply(c.Structure):
    _fields_ = [("say", c.c_size_t), ("taken", c.c_size_t), ("common", c.c_uint64), ("id", c.c_uint32),
                ("closed", c.c_uint32), ("closed_id", c.c_uint32), ("up", c.c_uint32), ("creation", c.c_uint32),
                ("has_creation", c.c_uint32)]


class _Peer(c.Structure):
    _fields_ = [("name", c.c_size_t), ("common", c.c_uint64), ("id", c.c_uint32), ("creation", c.c_uint32),
                ("has_creation", c.c_uint32)]


class _Entry(c.Structure):
    _fields_ = [("state", c.c_uint32), ("up", c.c_uint32), ("pending", c.c_uint32)]


class _End(c.Structure):
    _fields_ = [("peer", c.c_size_t), ("phase", c.c_uint32), ("why", c.c_uint32)]


class _Info(c.Structure):
    _fields_ = [("port", c.c_uint16), ("highest", c.c_uint16), ("lowest", c.c_uint16), ("node_type", c.c_uint8),
                ("protocol", c.c_uint8)]


@dataclass(frozen=True)
class Peer:
    """A peer that is up: its name, its end, the flags that both announced, and its creation where it is known."""

    name: bytes
    end: int
    common: int
    creation: Optional[int]


@dataclass(frozen=True)
class Entry:
    """The ends that hold a peer: the one that is up, and the one that is not."""

    state: State
    up: Optional[int]
    pending: Optional[int]


@dataclass(frozen=True)
class End:
    """How an end stands: why it is closed, where it is, and the name of its peer, where that is known."""

    phase: Phase
    why: Optional[Why]
    peer: Optional[bytes]


@dataclass(frozen=True)
class Reply:
    """What a step did; of `ready` and `ready_body`, what it would do."""

    end: int  # the event's end, or the one that was given out
    say: bytes  # what is to be written on its connection
    taken: int  # of bytes that were given, how many were taken
    closed: Optional[tuple[int, Why]]  # an end that was closed, this one or another, and why: its connection is to be closed
    up: bool  # this end came up: what follows on its connection is the caller's
    common: int  # where it came up: the flags that both announced
    creation: Optional[int]  # where it came up: the peer's creation, where that is known


@dataclass(frozen=True)
class Info:
    """What the port mapper knows of a node: its port, the versions of the handshake, 0x4d for normal and 0x48 for hidden."""

    port: int
    highest: int
    lowest: int
    node_type: int


@dataclass(frozen=True)
class Served:
    """What became of a request to a registry."""

    say: bytes  # what is to be written on its connection
    taken: int  # how many bytes were taken
    registered: bool  # the connection is to be kept; else it is to be closed


def _given(data: bytes) -> tuple:
    """A pointer, never null, and a length."""
    return (c.c_uint8 * max(1, len(data))).from_buffer_copy(data or b"\0"), c.c_size_t(len(data))


def _check(code: int) -> None:
    if code:
        raise Refused(Code(code))


def _closed(r: _Reply) -> Optional[tuple[int, Why]]:
    return (r.closed_id, Why(r.closed)) if r.closed else None


def _reply(r: _Reply, say: bytes) -> Reply:
    return Reply(r.id, say, r.taken, _closed(r), bool(r.up), r.common, r.creation if r.has_creation else None)


def _copied(call, *given, most: int = 65540) -> bytes:
    """What a call copies to a room."""
    room, length = (c.c_uint8 * most)(), c.c_size_t()
    code = call(*given, room, c.c_size_t(most), c.byref(length))
    if code == Code.NO_ROOM:
        return _copied(call, *given, most=length.value)
    _check(code)
    return bytes(room[: length.value])


class Node:
    """A node. One thread at a time uses it: others under a lock. `with Node(..) as node` lets it go at the end. The limits that
    are 0 have their usual values, as dn_setup of the header says."""

    def __init__(self, name: bytes, cookie: bytes, flags: int, creation: int, required: int = 0, version: int = 6,
                 limited: bool = False, most_ends: int = 0, most_steps: int = 0, most_entries: int = 0,
                 most_open_ends: int = 0, mandatory_25: int = 0):
        self._node = _Node(None, 0)
        setup = _Setup(flags, required, creation, version, limited, most_ends, most_steps, most_entries, most_open_ends,
                       mandatory_25)
        _check(_library.dn_node_new(c.byref(self._node), *_given(name), *_given(cookie), c.byref(setup)))

    def __enter__(self) -> "Node":
        return self

    def __exit__(self, *_) -> None:
        self.free()

    def free(self) -> None:
        """Lets the node go. Any later call is refused as NOT_A_NODE."""
        _check(_library.dn_node_free(c.byref(self._node)))

    def renew(self) -> None:
        """Begins anew, with the setup, the cookies and the peers that may connect: ends get their numbers from 0 on again.
        Refused as OPEN_ENDS while an end is open."""
        _check(_library.dn_node_renew(c.byref(self._node)))

    def allow(self, peer: bytes) -> None:
        """Lets this peer connect, and from the first call on only peers that were named so. At any time; a peer that is
        connected stays so."""
        _check(_library.dn_node_allow(c.byref(self._node), *_given(peer)))

    def disallow(self, peer: bytes) -> None:
        """Lets this peer connect no more, where the peers that may are named. One that is connected stays so."""
        _check(_library.dn_node_disallow(c.byref(self._node), *_given(peer)))

    def set_cookie(self, peer: bytes, cookie: bytes) -> None:
        """Keeps a cookie for this peer alone. Refused as PEER_IN_USE while the peer is connected, where it is another cookie."""
        _check(_library.dn_node_cookie(c.byref(self._node), *_given(peer), *_given(cookie)))

    def remove_cookie(self, peer: bytes) -> None:
        """Takes away the cookie that this peer has of its own. Refused as PEER_IN_USE while the peer is connected."""
        _check(_library.dn_node_no_cookie(c.byref(self._node), *_given(peer)))

    def set_usual_cookie(self, cookie: bytes) -> None:
        """Changes the cookie of each peer that has none of its own. Refused as PEER_IN_USE while one of those is connected."""
        _check(_library.dn_node_usual_cookie(c.byref(self._node), *_given(cookie)))

    def _call(self, call, *given) -> _Reply:
        r = _Reply()
        code = call(c.byref(self._node), *given, c.byref(r))
        if code:
            # (an end that made room is reported with every code)
            raise Refused(Code(code), _closed(r))
        return r

    def _step(self, call, *given) -> Reply:
        r = self._call(call, *given)
        return _reply(r, _copied(_library.dn_node_say, c.byref(self._node), most=r.say) if r.say else b"")

    def dial(self, peer: bytes, new: bool = True) -> Reply:
        """The node is to connect to this peer: the reply has a new end. It may tell another that made room for it, and so may
        the exception `Refused`, by `closed`."""
        return self._step(_library.dn_node_dial, *_given(peer), c.c_uint32(new))

    def opened(self, end: int) -> Reply:
        """The connection of a dialled end is there."""
        return self._step(_library.dn_node_opened, c.c_uint32(end))

    def incoming(self) -> Reply:
        """A connection was accepted: the reply has a new end. It may tell another that made room for it, and so may the
        exception `Refused`, by `closed`."""
        return self._step(_library.dn_node_incoming)

    def received(self, end: int, data: bytes, challenge: Optional[int] = None) -> Optional[Reply]:
        """Takes the frame at the front of what came, and tells how many bytes it took; None where it has not come whole."""
        challenge = secrets.randbits(32) if challenge is None else challenge
        try:
            return self._step(_library.dn_node_received, c.c_uint32(end), *_given(data), c.c_uint32(challenge))
        except Refused as refused:
            if refused.code != Code.AWAITS:
                raise
            return None

    def received_body(self, end: int, body: bytes, challenge: Optional[int] = None) -> Reply:
        """Takes one frame without its length, for a caller whose sockets take lengths off. `bodies` has what it says."""
        challenge = secrets.randbits(32) if challenge is None else challenge
        return self._step(_library.dn_node_body, c.c_uint32(end), *_given(body), c.c_uint32(challenge))

    def ready(self, end: int, data: bytes, challenge: int) -> Optional[Reply]:
        """What `received` would answer to these bytes and this challenge; nothing is done, and `say` of the reply is empty.
        Where `up` is true, the caller looks by `end` which peer that is, and lets it in by `received` with the same bytes and
        the same challenge, or refuses it by `lost` with GAVE_UP."""
        try:
            given = *_given(data), c.c_uint32(challenge)
            return _reply(self._call(_library.dn_node_ready, c.c_uint32(end), *given), b"")
        except Refused as refused:
            if refused.code != Code.AWAITS:
                raise
            return None

    def ready_body(self, end: int, body: bytes, challenge: int) -> Reply:
        """What `received_body` would answer, as `ready` tells what `received` would."""
        given = *_given(body), c.c_uint32(challenge)
        return _reply(self._call(_library.dn_node_ready_body, c.c_uint32(end), *given), b"")

    def lost(self, end: int, why: Why) -> Reply:
        """The connection of an end is lost or given up."""
        return self._step(_library.dn_node_lost, c.c_uint32(end), c.c_uint32(why))

    def tick(self, end: int) -> Reply:
        """A tick is due on an end that is up."""
        return self._step(_library.dn_node_tick, c.c_uint32(end))

    def forget(self, below: int) -> None:
        """Forgets why the ends below this number were closed, and gives back the memory that was kept of them. Open ends stay
        as they are. A node that runs for long calls it now and then, as with the number of its newest end."""
        _check(_library.dn_node_forget(c.byref(self._node), c.c_uint32(below)))

    def bodies(self) -> list[bytes]:
        """The frames that the newest step says, each without its length, and each to be written by itself. A tick is none of
        them: there an empty packet is to be written."""
        bodies: list[bytes] = []
        try:
            while True:
                bodies.append(_copied(_library.dn_node_say_body, c.byref(self._node), c.c_size_t(len(bodies)), most=1024))
        except Refused as refused:
            if refused.code != Code.NO_SUCH:
                raise
        return bodies

    def status(self) -> tuple[Status, Status]:
        """The status that the newest step said, and the one that it heard: so it is known why a peer said no."""
        said, heard = c.c_uint32(), c.c_uint32()
        _check(_library.dn_node_status(c.byref(self._node), c.byref(said), c.byref(heard)))
        return Status(said.value), Status(heard.value)

    def entry(self, peer: bytes) -> Entry:
        """The ends that hold a peer."""
        e = _Entry()
        _check(_library.dn_node_entry(c.byref(self._node), *_given(peer), c.byref(e)))
        is_up, is_pending = e.state in (State.UP, State.CHALLENGED), e.state in (State.OUT, State.IN, State.CHALLENGED)
        return Entry(State(e.state), e.up if is_up else None, e.pending if is_pending else None)

    def end(self, number: int) -> End:
        """How an end stands, and who its peer is, also before it is up."""
        e, room = _End(), (c.c_uint8 * 255)()
        _check(_library.dn_node_end(c.byref(self._node), c.c_uint32(number), c.byref(e), room, c.c_size_t(255)))
        return End(Phase(e.phase), Why(e.why) if e.why else None, bytes(room[: e.peer]) or None)

    def oldest(self) -> Optional[int]:
        """The end that has been open and not up for the longest: the next to make room. None where each open end is up."""
        end = c.c_uint32()
        code = _library.dn_node_oldest(c.byref(self._node), c.byref(end))
        if code == Code.NO_SUCH:
            return None
        _check(code)
        return end.value

    def _peer(self, call, *which) -> Optional[Peer]:
        p, room = _Peer(), (c.c_uint8 * 255)()
        code = call(c.byref(self._node), *which, c.byref(p), room, c.c_size_t(255))
        if code == Code.NO_SUCH:
            return None
        _check(code)
        return Peer(bytes(room[: p.name]), p.id, p.common, p.creation if p.has_creation else None)

    def peer_of(self, end: int) -> Optional[Peer]:
        """The peer that is up on an end."""
        return self._peer(_library.dn_node_peer_of, c.c_uint32(end))

    def peers(self) -> Iterator[Peer]:
        """The peers that are up, in the order of their names."""
        name = b""
        while (peer := self._peer(_library.dn_node_next_peer, *_given(name))) is not None:
            yield peer
            name = peer.name


class Registry:
    """The registry of a port mapper at this port: the first node that is accepted gets the creation `first`, each later one the
    next number. It stays on one thread."""

    def __init__(self, port: int, first: int):
        self._registry = _Registry(None, 0)
        _check(_library.dn_registry_new(c.byref(self._registry), c.c_uint16(port), c.c_uint32(first)))

    def free(self) -> None:
        """Lets the registry go. Any later call is refused as NOT_A_NODE."""
        _check(_library.dn_registry_free(c.byref(self._registry)))

    def asked(self, connection: int, data: bytes) -> Optional[Served]:
        """Answers the request at the front of what came on a connection, which has a number that is used for no other. None
        where it has not come whole; refused as EPMD_MALFORMED, SHORT or TRAILING where it is no request."""
        served = _Served()
        code = _library.dn_registry_asked(c.byref(self._registry), c.c_uint64(connection), *_given(data), c.byref(served))
        if code == Code.AWAITS:
            return None
        _check(code)
        return Served(_copied(_library.dn_registry_say, c.byref(self._registry)), served.taken, bool(served.registered))

    def closed(self, connection: int) -> None:
        """A connection is closed: what was registered on it is dropped."""
        _check(_library.dn_registry_closed(c.byref(self._registry), c.c_uint64(connection)))


def digest(cookie: bytes, challenge: int) -> bytes:
    """The digest of a challenge under a cookie."""
    room = (c.c_uint8 * 16)()
    _check(_library.dn_cookie_digest(*_given(cookie), c.c_uint32(challenge), room))
    return bytes(room)


def alive_request(alive: bytes, port: int, hidden: bool = False) -> bytes:
    """The frame by which a node registers under the part of its name before the @."""
    info = _Info(port, 6, 5, 0x48 if hidden else 0x4D, 0)
    return _copied(_library.dn_epmd_alive_request, c.byref(info), *_given(alive))


def alive_answer(data: bytes) -> tuple[int, int]:
    """A result, 0 for success, and the creation."""
    result, creation = c.c_uint32(), c.c_uint32()
    _check(_library.dn_epmd_alive_answer(*_given(data), c.byref(result), c.byref(creation)))
    return result.value, creation.value


def port_request(alive: bytes) -> bytes:
    """The frame that asks for a node."""
    return _copied(_library.dn_epmd_port_request, *_given(alive))


def port_answer(data: bytes) -> Optional[Info]:
    """What the port mapper tells of a node, None where it knows none."""
    result, info = c.c_uint32(), _Info()
    _check(_library.dn_epmd_port_answer(*_given(data), c.byref(result), c.byref(info)))
    return None if result.value else Info(info.port, info.highest, info.lowest, info.node_type)


def names_request() -> bytes:
    """The frame that asks for all names."""
    return _copied(_library.dn_epmd_names_request)
