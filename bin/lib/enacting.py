"""Plays scripts of examples/ as `enact` does, for bin/lib/pictures: what each node does, and which message arrives where. The rules are those of
docs/PROTOCOL.md, section 5, as far as the scripts that are drawn need them; what comes of a script has to be the whole expected output that
stands with it. No part of a program, and nothing that is installed."""
import os
import sys
from types import SimpleNamespace as Record

ROOT = os.path.dirname(os.path.dirname(os.path.dirname(os.path.realpath(__file__))))
# The phases of an end while it holds its peer, by what it awaits: dialled, accepted, and up.
OUT, IN, UP = ("opening", "status", "challenge", "acknowledgement"), ("true", "reply"), ("up",)
# The phase after a message that is answered, and the answer.
ANSWERS = {"alive": ("challenge", "true"), "true": ("reply", "challenge"), "challenge": ("acknowledgement", "reply")}
DIALLED, ACCEPTED = 0, 1


def text_of(path):
    with open(f"{ROOT}/{path}", encoding="utf-8") as it:
        return it.read()


def need(is_so, text):
    if not is_so:
        sys.exit(f"pictures: {text}")


class Play:
    """A script of two nodes of version 6, with good names and one cookie, whose lines all apply. `steps` is what each node did, with notes of a
    kind; `letters` are the messages that a step sent on a connection, and the step that took them; `ups` are the ends that came up. With `since`,
    what was before the first happening of that kind is left out."""

    def __init__(self, name, since=None):
        self.nodes, self.conns, self.steps, self.letters, self.ups, self.closings, self.count = [], [], [], [], [], [], 0
        for kind, it, *words in (it.split() for it in text_of(f"examples/{name}.script").splitlines() if it[0] != "#"):
            if kind == "node":
                self.nodes.append(Record(number=len(self.nodes), name=it, flags=int(words[1], 16), creation=None, first=None, ends=[], last=None))
                continue
            if kind == since:
                since = self.leave_out()
            if kind in ("begin", "halt", "dial"):
                getattr(self, kind)(self.nodes[int(it)], *words)
            elif kind == "accept":
                self.accept(self.conns[int(it)])
            else:
                getattr(self, kind)(self.nodes[int(it)].ends[int(words[0])], *words[1:])
            self.count += 1
        need(self.printed() == text_of(f"examples/{name}.out"), f"examples/{name}.out isn't what was drawn, which is\n{self.printed()}")

    # What happens

    def begin(self, node, creation):
        if node.creation:
            self.step(node, None).notes.append((f"begins: creation {creation}", "plain"))
        node.creation, node.ends = creation, []
        node.first = node.first or creation

    def halt(self, node):
        step = self.step(node, None)
        step.notes.append(("halts, all ends closed", "closed"))
        for end in node.ends:
            end.fell = step

    def dial(self, node, peer, _):
        end = self.give_out(node, DIALLED, "opening", None)
        self.step(node, end).notes.append((f"dials {peer[0]}: end {end.number}", "plain"))

    def reach(self, end, target):
        # (by the side that says them: the words that are on their way, and those that were delivered)
        end.conn = Record(number=len(self.conns), target=self.nodes[int(target)], sent=([], []), came=([], []))
        self.conns.append(end.conn)

    def accept(self, conn):
        self.give_out(conn.target, ACCEPTED, "name", conn)

    def opened(self, end):
        self.say(self.step(end.node, end), end, "status", "name")

    def deliver(self, end, count):
        need(count == "999", "bytes that come in pieces aren't drawn")
        end.conn.came[1 - end.side].extend(end.conn.sent[1 - end.side])
        end.conn.sent[1 - end.side].clear()

    def lose(self, end, why):
        self.close(self.step(end.node, end), end, why)

    def take(self, end, _):
        letter, word = end.conn.came[1 - end.side].pop(0)
        step = letter.taken = self.step(end.node, end, letter.sender.row)
        if end.phase == "name":
            self.take_name(step, end)
        elif end.phase == "doomed":
            self.close(step, end, "Crossed")
        elif word in ("ok", "ok_simultaneous"):
            end.phase = "challenge"
        elif word in ANSWERS:
            self.say(step, end, *ANSWERS[word])
        else:
            self.rise(step, end, ["acknowledgement"] if word == "reply" else [])

    # What comes of it at a node

    def take_name(self, step, end):
        """The table of verdicts."""
        node, peer = (it.name[0] for it in (end.node, self.nodes[1 - end.node.number]))
        dialled, older, up = (self.holder(end.node, it) for it in (OUT, IN, UP))
        step.notes.append((f"end {end.number} takes {peer}'s name", "plain"))
        if dialled and node > peer:
            step.notes.append((f"{node} > {peer}: nok", "plain"))
            self.say(step, end, "closed", "nok")
            self.close(step, end, "Crossed")
        elif up:
            step.notes.append((f"end {up.number} stays up", "plain"))
            self.say(step, end, "true", "alive")
        else:
            self.say(step, end, "reply", "ok_simultaneous" if dialled else "ok", "challenge")
        if dialled and node < peer:
            need(dialled.phase == "status", "a dialled end that is closed at once isn't drawn")
            dialled.phase = "doomed"
            step.notes.append((f"{peer} > {node}: end {dialled.number} is doomed", "closed"))
        elif older:
            self.close(step, older, "Replaced")

    def rise(self, step, end, words):
        old = self.holder(end.node, UP)
        self.say(step, end, "up", *words)
        end.rose = step
        self.ups.append(end)
        step.notes.append((f"end {end.number} is up", "up"))
        if old:
            self.close(step, old, "Replaced")

    def give_out(self, node, side, phase, conn):
        node.ends.append(Record(number=len(node.ends), node=node, side=side, phase=phase, conn=conn, rose=None, fell=None))
        return node.ends[-1]

    def say(self, step, end, phase, *words):
        end.phase, step.is_done = phase, True
        if words:
            self.letters.append(Record(conn=end.conn.number, sender=step, words=", ".join(words), taken=None))
            end.conn.sent[end.side].extend((self.letters[-1], it) for it in words)

    def close(self, step, end, why):
        end.phase, end.fell, step.is_done = "closed", step, True
        self.closings.append(f"closed {end.node.number} {end.number} {why}")
        step.notes.append((f"end {end.number} closed: {why}", "closed"))

    def holder(self, node, phases):
        return next((it for it in node.ends if it.phase in phases), None)

    # What is drawn, and printed

    def step(self, node, end, after=-1):
        """A node's step at an end, in a later row than `after`. Its last one goes on if that was at this end and nothing has come of it."""
        if not node.last or node.last.end is not end or node.last.is_done:
            node.last = Record(node=node, end=end, row=node.last.row + 1 if node.last else 0, notes=[], is_done=False)
            self.steps.append(node.last)
        node.last.row = max(node.last.row, after + 1)
        return node.last

    def leave_out(self):
        """Leaves out what was until now, except for which ends are up."""
        self.steps.clear()
        self.letters.clear()
        for end in self.ups:
            end.node.last = None
            end.rose = self.step(end.node, end)
            end.rose.notes, end.rose.is_done = [(f"end {end.number} is up", "up")], True

    def printed(self):
        """What `enact` prints of it."""
        lines, (a, b) = [*self.closings, f"applied {self.count} of {self.count}"], self.nodes
        common = f"common {a.flags & b.flags | 1 << 24:016x} creation"
        for node, peer in ((a, b), (b, a)):
            older, up = (self.holder(node, it) for it in (IN, UP))
            challenged = f" challenged {older.number}" if older else ""
            lines += [f"node {node.name} running {node.creation}", f"{peer.name} up {up.number}{challenged} {common} {peer.creation}"]
        lines.append(f"agree {a.name} {b.name} conn {self.holder(a, UP).conn.number} {common}s {a.creation} {b.creation}")
        return "\n".join(lines) + "\n"
