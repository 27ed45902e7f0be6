# SPDX-License-Identifier: Apache-2.0
"""A port mapper in Python, in place of `epmd`: nodes register with it, look each other up, and are listed.

usage: mapper.py [--port N]

It listens at 127.0.0.1 alone, and at ::1 where this host has it, prints the port, and ends when it is interrupted. A registration
lasts as long as its connection.
"""

import argparse
import contextlib
import secrets
import selectors
import socket

import distnode as dn


class Client:
    """A connection, by its number, and what came on it of a request."""

    def __init__(self, stream: socket.socket, number: int):
        self.stream, self.number, self.held, self.registered = stream, number, b"", False


def listeners_at(port: int) -> list[socket.socket]:
    """Who listens at a port of this host."""
    listeners = [socket.create_server(("127.0.0.1", port))]
    with contextlib.suppress(OSError):  # where this host has no IPv6
        listeners.append(socket.create_server(("::1", listeners[0].getsockname()[1]), family=socket.AF_INET6))
    return listeners


class Mapper:
    """Listeners, a registry, and the connections."""

    def __init__(self, port: int):
        self.selector, self.numbers = selectors.DefaultSelector(), 0
        listeners = listeners_at(port)
        self.port = listeners[0].getsockname()[1]
        # (a restarted port mapper gives no creation that it has just given)
        self.registry = dn.Registry(self.port, 4 + secrets.randbits(24))
        for listener in listeners:
            self.selector.register(listener, selectors.EVENT_READ, None)

    def accept(self, listener: socket.socket) -> None:
        stream, self.numbers = listener.accept()[0], self.numbers + 1
        stream.settimeout(10)
        self.selector.register(stream, selectors.EVENT_READ, Client(stream, self.numbers))

    def close(self, client: Client) -> None:
        self.selector.unregister(client.stream)
        client.stream.close()
        self.registry.closed(client.number)

    def take(self, client: Client) -> bool:
        """Takes what came, and answers whether the connection stays: until its one request came, and for as long as it is registered."""
        came = client.stream.recv(65536)
        if client.registered or not came:
            return bool(came)
        client.held += came
        served = self.registry.asked(client.number, client.held)
        if served is None:
            return True
        client.stream.sendall(served.say)
        client.registered = served.registered
        return served.registered

    def run(self) -> None:
        while True:
            for key, _ in self.selector.select():
                if key.data is None:
                    self.accept(key.fileobj)
                    continue
                try:
                    stays = self.take(key.data)
                except (OSError, dn.Refused):
                    stays = False
                if not stays:
                    self.close(key.data)


def main() -> None:
    words = argparse.ArgumentParser(description=__doc__.splitlines()[0])
    words.add_argument("--port", type=int, default=4369, help="0 for any that is free")
    mapper = Mapper(words.parse_args().port)
    print(mapper.port, flush=True)
    try:
        mapper.run()
    except KeyboardInterrupt:
        pass


main()
