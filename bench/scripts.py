"""Writes scripts of at most 1 MiB for `distnode enact` into the folder that is given: of one node, and of worlds.

Each script of a world comes in three sizes, so that the growth of the time shows."""

import os
import struct
import sys

sys.dont_write_bytecode = True
sys.path.insert(0, os.path.join(os.path.dirname(os.path.abspath(__file__)), "..", "bin", "lib"))
import playing

LIMIT = 1_048_576
COOKIE = "secret"
NODE = f"node b@127.0.0.1 {COOKIE} 101000104 6\n"
CHALLENGE = 123456789


def frame(body: bytes) -> str:
    return playing.frame(body).hex()


def new_name(name: str, creation: int = 5) -> str:
    text = name.encode()
    return frame(b"N" + struct.pack(">QIH", 0x401000004, creation, len(text)) + text)


def reply(challenge: int) -> str:
    return frame(b"r" + struct.pack(">I", 7) + playing.digest(COOKIE.encode(), challenge))


def fill(path: str, pieces, head: str = NODE, limit: int = LIMIT) -> None:
    size = len(head)
    with open(path, "w") as script:
        script.write(head)
        for piece in pieces:
            if size + len(piece) > limit:
                break
            size += len(piece)
            script.write(piece)


def many_handshakes():
    """A peer connects, comes up and is lost, again and again."""
    end = 0
    while True:
        yield (
            f"incoming {end}\n"
            f"bytes {end} {new_name('a@127.0.0.1')} {CHALLENGE}\n"
            f"bytes {end} {reply(CHALLENGE)} 0\n"
            f"lost {end} Ended\n"
        )
        end += 1


def byte_by_byte():
    """Handshakes whose bytes come one at a time."""
    end = 0
    while True:
        text = f"incoming {end}\n"
        for stream, fresh in ((new_name("a@127.0.0.1"), CHALLENGE), (reply(CHALLENGE), 0)):
            for at in range(0, len(stream), 2):
                text += f"bytes {end} {stream[at:at + 2]} {fresh}\n"
        yield text + f"lost {end} Ended\n"
        end += 1


def open_ends():
    """4,096 open ends, 1,024 of them with an entry, and frames on all of them in turn."""
    for end in range(4096):
        yield f"incoming {end}\n"
    for end in range(1024):
        yield f"bytes {end} {new_name(f'n{end}@127.0.0.1')} {CHALLENGE}\n"
    for end in range(1024):
        yield f"bytes {end} {reply(CHALLENGE)} 0\n"
    while True:
        for end in range(1024):
            yield f"tick {end}\n"


def world_node(name: str) -> str:
    return f"node {name} {COOKIE} 101000104 0\n"


PAIR = world_node("a@h") + world_node("b@h")
NAME = 2 + 15 + 3
CHALLENGED = (2 + 3) + (2 + 19 + 3)
REPLY = 2 + 21
ACKNOWLEDGEMENT = 2 + 17


def deliveries(node: int, end: int, count: int, piece: int):
    """So many bytes in pieces."""
    for _ in range(-(-count // piece)):
        yield f"deliver {node} {end} {piece}\n"


def handshake(a: int, b: int, here: int, there: int, conn: int, peer: str, alive: bool = False, piece: int = 999):
    """Node `a` dials node `b`, whose accepted end is `there`, until both are up."""
    yield f"dial {a} {peer} new\nreach {a} {here} {b}\nopened {a} {here}\naccept {conn}\n"
    yield from deliveries(b, there, NAME, piece)
    yield f"take {b} {there} 11\n"
    if alive:
        yield from deliveries(a, here, 2 + 6, piece)
        yield f"take {a} {here} 0\n"
        yield from deliveries(b, there, 2 + 5, piece)
        yield f"take {b} {there} 11\n"
        yield from deliveries(a, here, 2 + 19 + 3, piece)
    else:
        yield from deliveries(a, here, CHALLENGED, piece)
        yield f"take {a} {here} 0\n"
    yield f"take {a} {here} 12\n"
    yield from deliveries(b, there, REPLY, piece)
    yield f"take {b} {there} 0\n"
    yield from deliveries(a, here, ACKNOWLEDGEMENT, piece)
    yield f"take {a} {here} 0\n"


def many_pairs(limit: int):
    """As many pairs of nodes as fit, each of which connects; the nodes' lines come first."""
    pairs = limit // 302
    head = "".join(world_node(f"a{i}@h") + world_node(f"b{i}@h") for i in range(pairs))

    def pieces():
        for i in range(pairs):
            a, b = 2 * i, 2 * i + 1
            yield f"begin {a} 5\nbegin {b} 6\n" + "".join(handshake(a, b, 0, 0, i, f"b{i}@h"))

    return head, pieces()


def world_byte_by_byte(limit: int):
    """Two nodes that connect byte by byte, and lose the connection, again and again."""

    def pieces():
        yield "begin 0 5\nbegin 1 6\n"
        end = 0
        while True:
            yield "".join(handshake(0, 1, end, end, end, "b@h", piece=1)) + f"lose 0 {end} Ended\nlose 1 {end} Ended\n"
            end += 1

    return PAIR, pieces()


def restarts(limit: int):
    """A node that connects, ends, and begins again, while its peer still counts it as up."""

    def pieces():
        yield "begin 0 5\nbegin 1 6\n" + "".join(handshake(0, 1, 0, 0, 0, "b@h"))
        time = 1
        while True:
            yield f"halt 0\nbegin 0 {time + 5}\n" + "".join(handshake(0, 1, 0, time, time, "b@h", alive=True))
            time += 1

    return PAIR, pieces()


if __name__ == "__main__":
    folder = sys.argv[1]
    fill(os.path.join(folder, "many_handshakes.script"), many_handshakes())
    fill(os.path.join(folder, "byte_by_byte.script"), byte_by_byte())
    fill(os.path.join(folder, "open_ends.script"), open_ends())
    for world in (many_pairs, world_byte_by_byte, restarts):
        for part in (4, 2, 1):
            head, pieces = world(LIMIT // part)
            path = os.path.join(folder, f"{world.__name__}_{LIMIT // part // 1024}_KiB.script")
            fill(path, pieces, head, LIMIT // part)
