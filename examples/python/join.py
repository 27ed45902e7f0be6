# SPDX-License-Identifier: Apache-2.0
"""A hidden node in Python: it registers with the port mapper, accepts and dials, and keeps its connections by ticks.

usage: join.py NAME [--cookie FILE] [--dial PEER] [--tick SECONDS] [--seconds N]

The cookie is that of FILE, else of DISTNODE_COOKIE in the environment, else of $HOME/.erlang.cookie: no word of the command line,
which `ps` shows to everybody. A file that others than its owner can reach is refused, as `erl` refuses it.

It prints a line when a peer comes up or goes down, and ends after so many seconds, or when it is interrupted. Hosts are names or
addresses, IPv4 or IPv6; each address of the peer's host is tried. It listens at ::1 where its own host is an IPv6 address, else at
127.0.0.1. The port mapper (`epmd`) is the one at ERL_EPMD_PORT, 4369 if unset. It answers `net_adm:ping`; whatever else Erlang's
processes say to it is counted and dropped.
"""

import argparse
import os
import re
import selectors
import socket
import struct
import time
from typing import Optional

import distnode as dn

HIDDEN_FLAGS = 0x403070F94  # as an Erlang node of OTP 25 announces them, but for DFLAG_PUBLISHED
EPMD_PORT = int(os.environ.get("ERL_EPMD_PORT", "4369"))
MOST_OPEN = 512  # ends at one time: a process has 1,024 descriptors by custom
FORGET_EACH = 65_536  # ends: so often what was kept of those that are closed is given back

# The packet of `net_adm:ping`: {6, Pid, Unused, net_kernel} (REG_SEND), and {'$gen_call', {Pid, Tag}, {is_auth, Node}}. Node is that of Pid and
# of Tag, which is a reference, or [alias | Reference]. Each term has one form under the flags above (ERTS User's Guide, External Term Format).
PING = re.compile(
    rb"p\x83h\x04a\x06(?P<pid>X(?P<node>w.{4,256}).{12})w\x00w\x0anet_kernel"
    rb"\x83h\x03w\x09\$gen_callh\x02(?P=pid)"
    rb"(?P<tag>(l\x00\x00\x00\x01w\x05alias)?Z\x00(\x03(?P=node).{16}|\x04(?P=node).{20}|\x05(?P=node).{24}))"
    rb"h\x02w\x07is_auth(?P=node)",
    re.DOTALL,
)


def addresses_of(host: str) -> list[str]:
    """The addresses of a host, in the resolver's order."""
    return [it[4][0] for it in socket.getaddrinfo(host, None, type=socket.SOCK_STREAM)]


def connect_first(addresses: list[str], connect) -> socket.socket:
    """What a call answers to the first address with which it does not fail."""
    fault = OSError("no address")
    for address in addresses:
        try:
            return connect(address)
        except OSError as error:
            fault = error
    raise fault


def connect_to(peer: bytes) -> socket.socket:
    """A connection to a peer, at the first address of its host at which the port mapper knows it and it listens."""
    alive, _, host = peer.partition(b"@")

    def connect(address: str) -> socket.socket:
        with socket.create_connection((address, EPMD_PORT), timeout=10) as asked:
            asked.sendall(dn.port_request(alive))
            info = dn.port_answer(b"".join(iter(lambda: asked.recv(4096), b"")))
        if info is None:
            raise OSError("no such node")
        return socket.create_connection((address, info.port), timeout=10)

    return connect_first(addresses_of(host.decode()), connect)


def listen_at(host: str) -> socket.socket:
    """A listener at this host, at an address of the kind that the node's own host has."""
    if ":" in host:
        return socket.create_server(("::1", 0), family=socket.AF_INET6)
    return socket.create_server(("127.0.0.1", 0))


def answer_to(packet: bytes) -> bytes:
    """The packet that answers this one, behind its length, where it is that of `net_adm:ping`: {2, Unused, Pid} (SEND), and {Tag, yes}."""
    asked = PING.fullmatch(packet)
    if not asked:
        return b""
    answer = b"p\x83h\3a\2w\0" + asked["pid"] + b"\x83h\2" + asked["tag"] + b"w\3yes"
    return struct.pack(">I", len(answer)) + answer


class Link:
    """A connection that carries one end of the node."""

    def __init__(self, stream: socket.socket, end: int):
        self.stream, self.end, self.held, self.peer, self.messages = stream, end, b"", None, 0


class Joined:
    """A node, its listener, and its connections."""

    def __init__(self, name: bytes, cookie: bytes, tick: float):
        self.selector, self.links, self.tick = selectors.DefaultSelector(), {}, tick
        alive, _, host = name.partition(b"@")
        self.listener = listen_at(host.decode())
        # the registration lasts as long as this connection
        self.registration = connect_first(["127.0.0.1", "::1"], lambda it: socket.create_connection((it, EPMD_PORT), timeout=10))
        self.registration.sendall(dn.alive_request(alive, self.listener.getsockname()[1], hidden=True))
        result, creation = dn.alive_answer(self.registration.recv(6, socket.MSG_WAITALL))
        if result:
            raise SystemExit("the port mapper refuses the name")
        self.node = dn.Node(name, cookie, HIDDEN_FLAGS, creation, required=dn.MANDATORY_25, most_open_ends=MOST_OPEN)
        self.selector.register(self.listener, selectors.EVENT_READ, None)

    def link(self, stream: socket.socket, end: int) -> Link:
        stream.settimeout(10)
        link = self.links[end] = Link(stream, end)
        self.selector.register(stream, selectors.EVENT_READ, link)
        return link

    def new_end(self, call, *given) -> int:
        """An end of `dial` or `incoming`. Where another made room for it, that one's connection is closed, also where the
        newcomer is refused."""
        try:
            reply = call(*given)
        except dn.Refused as refused:
            if refused.closed:
                self.close(*refused.closed)
            raise
        if reply.closed:
            self.close(*reply.closed)
        if reply.end % FORGET_EACH == 0:
            self.node.forget(reply.end)
        return reply.end

    def accept(self) -> None:
        stream = self.listener.accept()[0]
        try:
            end = self.new_end(self.node.incoming)
        except dn.Refused:
            stream.close()
            return
        self.link(stream, end)

    def dial(self, peer: bytes) -> None:
        end = self.new_end(self.node.dial, peer)
        try:
            link = self.link(connect_to(peer), end)
        except OSError as error:
            print("cannot dial:", error, flush=True)
            self.node.lost(end, dn.Why.DIAL_FAILED)
            return
        self.said(link, self.node.opened(end))

    def said(self, link: Link, reply: dn.Reply) -> None:
        """Does what a reply wants: writes, closes, notes who is up."""
        if reply.say:
            link.stream.sendall(reply.say)
        if reply.up:
            link.peer = self.node.peer_of(link.end)
            print("up", link.peer.name.decode(), "%016x" % link.peer.common, link.peer.creation, flush=True)
        if reply.closed:
            self.close(*reply.closed)

    def close(self, end: int, why: dn.Why) -> None:
        link = self.links.pop(end, None)
        if link is None:
            return
        self.selector.unregister(link.stream)
        link.stream.close()
        if link.peer:
            print("down", link.peer.name.decode(), why.name, link.messages, flush=True)

    def lose(self, link: Link, why: dn.Why) -> None:
        reply = self.node.lost(link.end, why)
        self.close(*reply.closed)

    def take(self, link: Link) -> None:
        """Takes what came on a connection: frames of the handshake, then packets of Erlang's."""
        link.held += link.stream.recv(65536) or self.ended()
        while link.end in self.links and link.peer is None:
            reply = self.node.received(link.end, link.held)
            if reply is None:
                return
            link.held = link.held[reply.taken :]
            self.said(link, reply)
        while len(link.held) >= 4 and len(link.held) >= 4 + (size := struct.unpack(">I", link.held[:4])[0]):
            packet, link.held = link.held[4 : 4 + size], link.held[4 + size :]
            if size:
                link.messages += 1
                if answer := answer_to(packet):
                    link.stream.sendall(answer)
            elif link.end in self.links:  # a tick is answered by one
                self.said(link, self.node.tick(link.end))

    @staticmethod
    def ended() -> bytes:
        raise EOFError

    def run(self, seconds: float) -> None:
        stop, due = time.monotonic() + seconds, time.monotonic() + self.tick
        while (now := time.monotonic()) < stop:
            for key, _ in self.selector.select(max(0, min(stop, due) - now)):
                if key.data is None:
                    self.accept()
                elif key.data.end in self.links:
                    self.guarded(key.data, self.take)
            if due <= time.monotonic():
                due += self.tick
                for link in [it for it in self.links.values() if it.peer]:
                    self.guarded(link, lambda it: self.said(it, self.node.tick(it.end)))
        for link in list(self.links.values()):
            self.lose(link, dn.Why.GAVE_UP)
        self.node.free()

    def guarded(self, link: Link, work) -> None:
        try:
            work(link)
        except EOFError:
            self.lose(link, dn.Why.ENDED)
        except OSError:
            self.lose(link, dn.Why.READ_FAILED)


def cookie_of(path: Optional[str]) -> bytes:
    """The text of the cookie: that of the file that is named, else of the environment, else of the home folder's file."""
    if path is None and "DISTNODE_COOKIE" in os.environ:
        return os.fsencode(os.environ["DISTNODE_COOKIE"])
    try:
        with open(path or os.path.expanduser("~/.erlang.cookie"), "rb") as file:
            if os.fstat(file.fileno()).st_mode & 0o077:
                raise SystemExit(f"cookie file {file.name} must be accessible by owner only")
            return file.read(4097)
    except OSError as error:
        raise SystemExit(f"the cookie's file: {error}") from None


def main() -> None:
    words = argparse.ArgumentParser(description=__doc__.splitlines()[0])
    words.add_argument("name")
    words.add_argument("--cookie", metavar="FILE", help="the cookie's file (DISTNODE_COOKIE, else $HOME/.erlang.cookie)")
    words.add_argument("--dial", metavar="PEER")
    words.add_argument("--tick", type=float, default=15, help="a quarter of net_ticktime")
    words.add_argument("--seconds", type=float, default=1e9)
    given = words.parse_args()
    joined = Joined(given.name.encode(), cookie_of(given.cookie), given.tick)
    print("ready", flush=True)
    if given.dial:
        joined.dial(given.dial.encode())
    try:
        joined.run(given.seconds)
    except KeyboardInterrupt:
        pass


main()
