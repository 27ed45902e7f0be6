"""Messages of a handshake, from the layouts of the ERTS User's Guide, and connections between two sockets that say them."""
import hashlib
import socket
import struct

FLAGS = 0xD07DF7FBD
HIDDEN = FLAGS & ~1


def frame(body):
    return struct.pack(">H", len(body)) + body


def name(flags, creation, text):
    return frame(b"N" + struct.pack(">QIH", flags, creation, len(text)) + text)


def old_name(flags, text):
    return frame(b"n" + struct.pack(">HI", 5, flags) + text)


def status(text):
    return frame(b"s" + text)


def challenge(flags, number, creation, text):
    return frame(b"N" + struct.pack(">QIIH", flags, number, creation, len(text)) + text)


def old_challenge(flags, number, text):
    return frame(b"n" + struct.pack(">HII", 5, flags, number) + text)


def digest(cookie, number):
    return hashlib.md5(cookie + str(number).encode()).digest()


def reply(cookie, theirs, ours):
    return frame(b"r" + struct.pack(">I", ours) + digest(cookie, theirs))


def ack(cookie, theirs):
    return frame(b"a" + digest(cookie, theirs))


def exactly(talk, count):
    got = b""
    while len(got) < count:
        more = talk.recv(count - len(got))
        if not more:
            raise EOFError("the other side closed")
        got += more
    return got


def body_of(talk):
    """The body of the next frame."""
    return exactly(talk, struct.unpack(">H", exactly(talk, 2))[0])


class Talk:
    """A connection between two sockets, of which each sends what it is given."""

    def __init__(self, port):
        listener = socket.create_server(("127.0.0.1", port))
        self.dialler = socket.create_connection(("127.0.0.1", port), timeout=5, source_address=("127.0.0.1", port + 1000))
        self.acceptor = listener.accept()[0]
        self.acceptor.settimeout(5)
        listener.close()

    def say(self, side, text):
        sender, hearer = (self.dialler, self.acceptor) if side == "d" else (self.acceptor, self.dialler)
        sender.sendall(text)
        exactly(hearer, len(text))

    def close(self, side):
        first, second = (self.dialler, self.acceptor) if side == "d" else (self.acceptor, self.dialler)
        first.close()
        second.recv(1)
        second.close()

    def reset(self, side):
        first, second = (self.dialler, self.acceptor) if side == "d" else (self.acceptor, self.dialler)
        first.setsockopt(socket.SOL_SOCKET, socket.SO_LINGER, struct.pack("ii", 1, 0))
        first.close()
        second.close()
