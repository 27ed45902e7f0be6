#!/usr/bin/env python3
"""Stand-ins for bench/causes/run: each plays a machine that does one thing, and prints `ready PORT` once it listens.

usage: plays.py ROLE WORD..
"""
import hashlib
import select
import socket
import struct
import sys
import time

PATIENCE = 30
FLAGS = 0x403070F94


def listener(address, port):
    kind = socket.AF_INET6 if ":" in address else socket.AF_INET
    door = socket.socket(kind, socket.SOCK_STREAM)
    door.setsockopt(socket.SOL_SOCKET, socket.SO_REUSEADDR, 1)
    door.bind((address, int(port)))
    door.listen(16)
    print(f"ready {door.getsockname()[1]}", flush=True)
    return door


def each(door, answer):
    while True:
        talk, _ = door.accept()
        talk.settimeout(PATIENCE)
        try:
            answer(talk)
        except OSError:
            pass


def exactly(talk, count):
    data = b""
    while len(data) < count:
        more = talk.recv(count - len(data))
        if not more:
            raise OSError("ended")
        data += more
    return data


def read_frame(talk):
    return exactly(talk, struct.unpack(">H", exactly(talk, 2))[0])


def frame(body):
    return struct.pack(">H", len(body)) + body


def digest(cookie, challenge):
    return hashlib.md5(cookie.encode() + str(challenge).encode()).digest()


def challenge_of(name, flags=FLAGS):
    return frame(b"sok") + frame(b"N" + struct.pack(">QIIH", flags, 7, 1, len(name)) + name.encode())


def hold(address, port):
    kept = []
    each(listener(address, port), kept.append)


def say(address, port, text):
    def answer(talk):
        talk.recv(1024)
        talk.sendall(text.encode())
        talk.close()
    each(listener(address, port), answer)


def give(address, port, digits):
    """Says these bytes, and holds the connection."""
    kept = []

    def answer(talk):
        talk.sendall(bytes.fromhex(digits))
        kept.append(talk)
    each(listener(address, port), answer)


def close(address, port):
    """Closes behind what came: with bytes that nobody has read the system would reset the connection."""
    def answer(talk):
        read_frame(talk)
        talk.close()
    each(listener(address, port), answer)


def reset(address, port):
    def answer(talk):
        talk.recv(1024)
        talk.setsockopt(socket.SOL_SOCKET, socket.SO_LINGER, struct.pack("ii", 1, 0))
        talk.close()
    each(listener(address, port), answer)


def tls(address, port):
    """A server that closes upon what is no TLS, and answers a hello by an alert."""
    def answer(talk):
        if talk.recv(1024)[:1] == b"\x16":
            talk.sendall(bytes.fromhex("15030100020228"))
        talk.close()
    each(listener(address, port), answer)


def old(address, name):
    """A node of version 5."""
    def answer(talk):
        read_frame(talk)
        talk.sendall(frame(b"sok") + frame(b"n" + struct.pack(">HII", 5, 0x7FFFF, 7) + name.encode()))
        talk.recv(1024)
    each(listener(address, 0), answer)


def up(address, name, cookie, wrong=False, flags=FLAGS):
    """A node that takes this cookie."""
    def answer(talk):
        read_frame(talk)
        talk.sendall(challenge_of(name, flags))
        reply = read_frame(talk)
        theirs = struct.unpack(">I", reply[1:5])[0]
        if reply[5:] == digest(cookie, 7):
            talk.sendall(frame(b"a" + digest("another" if wrong else cookie, theirs)))
        talk.recv(1024)
        talk.close()
    each(listener(address, 0), answer)


def timed(address, name, cookie):
    """The same, which prints how many milliseconds after its acknowledgement the other side ended the connection."""
    def answer(talk):
        read_frame(talk)
        talk.sendall(challenge_of(name))
        reply = read_frame(talk)
        talk.sendall(frame(b"a" + digest(cookie, struct.unpack(">I", reply[1:5])[0])))
        began = time.monotonic()
        talk.recv(1024)
        print(f"after {(time.monotonic() - began) * 1000:.1f}", flush=True)
        talk.close()
    each(listener(address, 0), answer)


def leave(address, name):
    """A node that closes behind its challenge, in one go: it has no digest yet."""
    def answer(talk):
        read_frame(talk)
        talk.sendall(challenge_of(name))
        talk.close()
    each(listener(address, 0), answer)


def late(address, name, seconds):
    """A node that closes so many seconds after the digest."""
    def answer(talk):
        read_frame(talk)
        talk.sendall(challenge_of(name))
        read_frame(talk)
        time.sleep(float(seconds))
        talk.close()
    each(listener(address, 0), answer)


def drop(address, name, cookie):
    """A node that closes right behind its acknowledgement."""
    def answer(talk):
        read_frame(talk)
        talk.sendall(challenge_of(name))
        reply = read_frame(talk)
        talk.sendall(frame(b"a" + digest(cookie, struct.unpack(">I", reply[1:5])[0])))
        talk.close()
    each(listener(address, 0), answer)


def word(address, digits):
    """A node whose status has these bytes for its word."""
    def answer(talk):
        read_frame(talk)
        talk.sendall(frame(b"s" + bytes.fromhex(digits)))
        talk.recv(1024)
    each(listener(address, 0), answer)


def badack(address, name, cookie):
    up(address, name, cookie, True)


def flagged(address, name, cookie, digits):
    """A node with these flags."""
    up(address, name, cookie, flags=int(digits, 16))


def map_node(address, port, name, at):
    """A port mapper that knows one node."""
    def answer(talk):
        wanted = read_frame(talk)
        if wanted[1:] == name.encode():
            body = struct.pack(">BBHBBHHH", 119, 0, int(at), 77, 0, 6, 5, len(name)) + name.encode() + b"\0\0"
            talk.sendall(body)
        else:
            talk.sendall(b"w\x01")
        talk.close()
    each(listener(address, port), answer)


def dns(how):
    """A name server that is silent, or knows no name."""
    room = socket.socket(socket.AF_INET, socket.SOCK_DGRAM)
    room.bind(("127.0.0.1", 53))
    print("ready", flush=True)
    while True:
        query, peer = room.recvfrom(1500)
        if how == "nxdomain":
            room.sendto(query[:2] + b"\x81\x83" + query[4:6] + bytes(6) + query[12:], peer)


def connect(address, port):
    """A connection, as soon as somebody listens."""
    until = time.monotonic() + PATIENCE
    while True:
        try:
            return socket.create_connection((address, int(port)), timeout=PATIENCE)
        except OSError:
            if time.monotonic() > until:
                raise
            select.select([], [], [], 0.02)


def wait_for(address, port):
    connect(address, port).close()
    print("ready", flush=True)


def dial(address, port, digits):
    """Somebody who dials, says these bytes, and waits for the end."""
    talk = connect(address, port)
    talk.sendall(bytes.fromhex(digits))
    print("ready", flush=True)
    while talk.recv(1024):
        pass


def crowd(address, port, count):
    """So many connections, as far as the system makes them within a second, which nobody closes."""
    kept = []
    for _ in range(int(count)):
        talk = socket.socket()
        talk.setblocking(False)
        talk.connect_ex((address, int(port)))
        kept.append(talk)
    time.sleep(1)
    print("ready", flush=True)
    time.sleep(PATIENCE)


ROLES = {"hold": hold, "say": say, "close": close, "reset": reset, "tls": tls, "old": old, "up": up, "badack": badack, "timed": timed, "leave": leave, "late": late, "drop": drop, "word": word,
         "give": give, "flagged": flagged,
         "map": map_node, "dns": dns, "await": wait_for, "dial": dial, "crowd": crowd}

if __name__ == "__main__":
    ROLES[sys.argv[1]](*sys.argv[2:])
