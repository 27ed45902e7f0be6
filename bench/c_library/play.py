"""Plays the scripts of examples/ that are of one node through the library for C, their bytes in pieces of every size from 1 to
the longest line, and compares what it answers with the outputs beside them: what each end says, which is closed and why, who
comes up, what is refused, and who is up at the end. `waiting` and `skipped` are about pieces, and are left out.

usage: play.py FOLDER-OF-EXAMPLES
"""

import glob
import sys

import distnode as dn


def made(words):
    """The node of a line `node NAME COOKIE FLAGS CREATION [version 5] [require FLAGS] [cookie PEER TEXT].. [allow PEER]..`."""
    name, cookie, flags, creation, *rest = words
    how, cookies, allowed = {"required": 0, "version": 6}, [], []
    while rest:
        key, value, *rest = rest
        if key == "version":
            how["version"] = int(value)
        elif key == "require":
            how["required"] = int(value, 16)
        elif key == "cookie":
            cookies.append((value, rest.pop(0)))
        elif key == "allow":
            allowed.append(value)
        else:
            raise ValueError(key)
    node = dn.Node(name.encode(), cookie.encode(), int(flags, 16), int(creation), limited=bool(allowed), **how)
    for peer, text in cookies:
        node.set_cookie(peer.encode(), text.encode())
    for peer in allowed:
        node.allow(peer.encode())
    return node


def word(why):
    return "".join(it.capitalize() for it in why.name.split("_"))


def number(creation):
    return "unknown" if creation is None else str(creation)


class Play:
    def __init__(self, lines, size):
        self.size, self.out, self.held, self.closed, self.ups, self.ends = size, [], {}, set(), set(), 0
        self.node = made(lines[0].split()[1:])
        for line in lines[1:]:
            self.line(*line.split())
        self.out += [f"{p.name.decode()} up {p.end} common {p.common:016x} creation {number(p.creation)}" for p in self.node.peers()]
        self.node.free()

    def line(self, event, *words):
        try:
            if event == "bytes":
                self.bytes(int(words[0]), bytes.fromhex(words[1]), int(words[2]))
            elif event == "incoming":
                self.take_reply(self.node.incoming())
                self.ends += 1
            elif event == "dial":
                self.take_reply(self.node.dial(words[0].encode(), words[1] == "new"))
                self.ends += 1
            elif event == "opened":
                self.take_reply(self.node.opened(int(words[0])))
            elif event == "tick":
                self.take_reply(self.node.tick(int(words[0])))
            elif event == "lost":
                self.take_reply(self.node.lost(int(words[0]), {word(it): it for it in dn.Why}[words[1]]))
            else:
                raise ValueError(event)
        except dn.Refused as refused:
            self.out.append(f"refused {word(refused.code)}")

    def bytes(self, end, came, challenge):
        # (a frame that cannot be taken is refused by the script's first byte, and by the library once it is whole)
        if end >= self.ends or end in self.closed:
            self.node.received(end, b"\0\0", challenge)
            raise AssertionError("a closed end took a frame")
        if end in self.ups:
            return
        for place in range(0, len(came), self.size):
            self.held[end] = self.held.get(end, b"") + came[place : place + self.size]
            while end not in self.closed | self.ups and (reply := self.node.received(end, self.held[end], challenge)):
                self.held[end] = self.held[end][reply.taken :]
                self.take_reply(reply)

    def take_reply(self, reply):
        closed = "-"
        if reply.closed:
            closed = f"{reply.closed[0]} {word(reply.closed[1])}"
            self.closed.add(reply.closed[0])
            self.ups.discard(reply.closed[0])
        up = "-"
        if reply.up:
            peer = self.node.peer_of(reply.end)
            up = f"{peer.name.decode()} {peer.common:016x} {number(peer.creation)}"
            self.ups.add(reply.end)
        self.out.append(f"end {reply.end} say {reply.say.hex() or '-'} closed {closed} up {up}")


def wanted(file):
    """What an output has of these."""
    for line in open(file).read().splitlines():
        words = line.split()
        if words[0] == "refused":
            yield " ".join(words[:2])
        elif words[0] == "end" or words[1:2] == ["up"]:
            yield line


def main(folder):
    played = 0
    for file in sorted(glob.glob(f"{folder}/*.script")):
        lines = [it for it in open(file).read().splitlines() if it and not it.startswith("#")]
        if any(it.split()[0] == "begin" for it in lines):
            continue
        want = list(wanted(file[: -len("script")] + "out"))
        longest = max((len(it.split()[2]) // 2 for it in lines if it.startswith("bytes")), default=1)
        for size in range(1, longest + 1):
            got = Play(lines, size).out
            if got != want:
                sys.exit("\n".join([f"play: {file} in pieces of {size}: wanted, then got", *want, "--", *got]))
        played += 1
    print(f"play: {played} examples, in pieces of every size")


main(sys.argv[1])
