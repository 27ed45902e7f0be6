"""Captures whose packets are made of bytes, as tcpdump at all interfaces of host 2 would have them: no socket and no node has a part in
them. a is on host 1 and b on host 2.
"""
import struct

import pcap
from talks import FLAGS, ack, challenge, frame, name, reply, status
from wire import ACK, FIN, MAPPER, RESET, SYN, address_of

A, B, C, Z = b"a@10.0.0.1", b"b@10.0.0.2", b"c@10.0.0.3", b"z@10.0.0.1"
CREATIONS = {A: 1, B: 2, C: 3, Z: 4}
STEP = 0.0002
PLAYS = {}


def play(function):
    PLAYS[function.__name__] = function
    return function


def packet(source, target, sequence, awaited, flags, payload):
    """A packet of IPv4 from an address and a port to others."""
    ends = [bytes(int(part) for part in address.split(".")) for address, _ in (source, target)]
    tcp = struct.pack(">HHIIBBHHH", source[1], target[1], sequence, awaited if flags & ACK else 0, 5 << 4, flags, 64000, 0, 0)
    return struct.pack(">BBHHHBBH", 0x45, 0, 40 + len(payload), 0, 0, 64, 6, 0) + b"".join(ends) + tcp + payload


class Line:
    """What is captured: packets, each one `STEP` behind the one before, if nobody waits."""

    def __init__(self):
        self.packets, self.now, self.port = [], 0.0, 6000

    def put(self, data):
        self.packets.append((self.now, data))
        self.now += STEP

    def wait(self, seconds):
        self.now += seconds

    def dial(self, host, target, port, source=None):
        """A connection that is made, from a host to a port of another one; a host that dials itself does it over lo."""
        self.port += 1
        dialler, acceptor = ["127.0.0.1" if host == target else address_of(end) for end in (host, target)]
        return Drawn(self, (dialler, source or self.port), (acceptor, port))


class Drawn:
    """A connection between two ends, whose sides are d and a."""

    def __init__(self, line, dialler, acceptor):
        self.line, self.ends = line, {"d": dialler, "a": acceptor}
        self.next = {side: 1000 * (dialler[1] + len(line.packets)) for side in self.ends}
        self.send("d", SYN)
        self.send("a", SYN | ACK)
        self.send("d", ACK)

    def send(self, side, flags, payload=b""):
        """Sends a segment, and returns it."""
        other = "a" if side == "d" else "d"
        made = packet(self.ends[side], self.ends[other], self.next[side], self.next[other], flags, payload)
        self.next[side] += len(payload) + bool(flags & (SYN | FIN))
        self.line.put(made)
        return made

    def say(self, side, text):
        return self.send(side, ACK, text)

    def stray(self, side, distance):
        """Sends a reset whose number is so far from the right one."""
        other = "a" if side == "d" else "d"
        self.line.put(packet(self.ends[side], self.ends[other], self.next[side] + distance, 0, RESET, b""))

    def close(self, side):
        self.send(side, FIN | ACK)
        return self.send("a" if side == "d" else "d", FIN | ACK)

    def begin(self, dialler, said=b"ok"):
        """A name, and the status that is said to it."""
        self.say("d", name(FLAGS, CREATIONS[dialler], dialler))
        self.say("a", status(said))

    def agree(self, acceptor, creation=None, cookie=b"secret"):
        """What is said behind a status, where the acceptor has this cookie, and another incarnation."""
        self.say("a", challenge(FLAGS, 17, creation or CREATIONS[acceptor], acceptor))
        self.say("d", reply(b"secret", 17, 18))
        return self.say("a", ack(cookie, 18))


def ask(line, host, target, request, answer):
    """A conversation with a port mapper, that a host keeps open."""
    talk = line.dial(host, target, int(MAPPER))
    talk.say("d", frame(request))
    talk.say("a", answer)
    return talk


def register(line, short, port, answer):
    return ask(line, 2, 2, struct.pack(">BHBBHHH", 120, port, 77, 0, 6, 5, len(short)) + short + bytes(2), answer)


def registered(creation):
    return struct.pack(">BBI", 118, 0, creation)


def look_up(line, short, answer):
    ask(line, 1, 2, b"z" + short, answer).close("a")


def found(short, port):
    return struct.pack(">BBHBBHHH", 119, 0, port, 77, 0, 6, 5, len(short)) + short + bytes(2)


@play
def crossing_late(line):
    """b refuses the dial of a, since it is about to dial a: it still asks the port mapper for it."""
    lesser = line.dial(1, 2, 5012)
    lesser.begin(A, b"nok")
    lesser.close("a")
    line.wait(0.1)
    greater = line.dial(2, 1, 5011)
    greater.begin(B, b"ok_simultaneous")
    greater.agree(A)
    greater.close("d")


@play
def crossing_early(line):
    """z is slow to refuse the dial of b, and b gives it up as soon as that of z came up."""
    lesser = line.dial(2, 1, 5011)
    lesser.say("d", name(FLAGS, CREATIONS[B], B))
    greater = line.dial(1, 2, 5012)
    greater.begin(Z, b"ok_simultaneous")
    greater.agree(B)
    lesser.close("d")
    greater.close("d")


@play
def stopped(line):
    """b is killed between its challenge and the reply of a. It is started again, and a dials it. Then c dials it, and it is stopped when
    the reply of c is there: first its connections end, and then its registration."""
    first = register(line, b"b", 5012, registered(2))
    dial = line.dial(1, 2, 5012)
    dial.begin(A)
    dial.say("a", challenge(FLAGS, 17, 2, B))
    first.send("d", FIN | ACK)
    dial.send("a", FIN | ACK)
    first.send("a", FIN | ACK)
    dial.say("d", reply(b"secret", 17, 18))
    dial.send("a", RESET)
    line.wait(1)
    second = register(line, b"b", 5012, registered(3))
    again = line.dial(1, 2, 5012)
    again.begin(A)
    again.agree(B, 3)
    dial = line.dial(3, 2, 5012)
    dial.begin(C)
    dial.say("a", challenge(FLAGS, 17, 3, B))
    dial.say("d", reply(b"secret", 17, 18))
    again.close("a")
    dial.close("a")
    second.close("d")


@play
def vanished(line):
    """a is gone without an end after the challenge of b. It is started again, and comes up, before the first attempt is said to be over."""
    first = line.dial(1, 2, 5012)
    first.begin(A)
    first.say("a", challenge(FLAGS, 17, 2, B))
    line.wait(10)
    again = line.dial(1, 2, 5012)
    again.say("d", name(FLAGS, 5, A))
    again.say("a", status(b"ok"))
    again.agree(B)
    again.close("d")


@play
def late_copies(line):
    """Copies of packets come when their connection is over: of an end, of an acknowledgement, of a SYN. Then the same two ports are used
    again, and a tick comes behind the reset."""
    talk = line.dial(1, 2, 5012, 6100)
    began = line.packets[0][1]
    talk.begin(A)
    said = talk.agree(B)
    end = talk.close("a")
    for copy in (end, said, began):
        line.put(copy)
    line.wait(90)
    again = line.dial(1, 2, 5012, 6100)
    again.begin(A)
    again.agree(B)
    again.send("d", RESET)
    again.say("a", bytes(4))


@play
def doubted(line):
    """Somebody else resets the connection in the name of b, behind the reply of a. What b itself answers is lost; a tick of it comes then."""
    dial = line.dial(1, 2, 5012)
    dial.begin(A)
    dial.say("a", challenge(FLAGS, 17, 2, B))
    dial.say("d", reply(b"secret", 17, 18))
    dial.send("a", RESET | ACK)
    dial.next["a"] += len(ack(b"secret", 18))
    dial.say("a", bytes(4))


@play
def mapper(line):
    """What a port mapper is asked: to register two nodes of one name, for a node that is not there, for all names."""
    first = register(line, b"b", 5012, registered(2))
    register(line, b"b", 5013, struct.pack(">BBI", 118, 1, 0)).close("a")
    look_up(line, b"c", b"w\x01")
    ask(line, 1, 2, b"n", struct.pack(">I", int(MAPPER)) + b"name b at port 5012\n").close("a")
    first.close("d")


@play
def one_pair(line):
    """b refuses a before it has said its own name, and takes it later."""
    look_up(line, b"b", found(b"b", 5012))
    refused = line.dial(1, 2, 5012)
    refused.begin(A, b"not_allowed")
    refused.close("a")
    talk = line.dial(1, 2, 5012)
    talk.begin(A)
    talk.agree(B)
    talk.close("d")


@play
def other_ack(line):
    """What answers takes each cookie, and has none; a closes."""
    talk = line.dial(1, 2, 5012)
    talk.begin(A)
    talk.agree(B, cookie=b"other")
    talk.close("d")


@play
def lost_ack(line):
    """a and b come up, and the capture lacks the acknowledgement. Then b closes."""
    talk = line.dial(1, 2, 5012)
    talk.begin(A)
    talk.agree(B)
    line.packets.pop()
    talk.close("a")


@play
def stray_reset(line):
    """A reset comes between the reply and the acknowledgement whose number is far from what a awaits, and another one when they are up."""
    talk = line.dial(1, 2, 5012)
    talk.begin(A)
    talk.say("a", challenge(FLAGS, 17, CREATIONS[B], B))
    talk.say("d", reply(b"secret", 17, 18))
    talk.stray("a", 300_000_000)
    talk.say("a", ack(b"secret", 18))
    talk.stray("d", 500_000_000)
    line.wait(2)
    talk.close("d")


def dial_in_vain(line, port):
    """Six SYNs of host 1 to a port of host 2, without an answer."""
    made = packet((address_of(1), 6100), (address_of(2), port), 7, 0, SYN, b"")
    for seconds in (0, 1, 2, 4, 8, 16):
        line.wait(seconds)
        line.put(made)


@play
def no_answer(line):
    """A port mapper gives the port of b, and what a sends there has no answer: a node of OTP gives up without a word."""
    look_up(line, b"b", found(b"b", 5012))
    dial_in_vain(line, 5012)


@play
def one_direction(line):
    """What host 1 sends to a port mapper, in a capture of that direction alone."""
    dial_in_vain(line, int(MAPPER))


@play
def split(line):
    """The network is cut between a and b, which are up: a sends a tick again and again, and nothing comes from b."""
    talk = line.dial(1, 2, 5012)
    talk.begin(A)
    talk.agree(B)
    line.wait(12)
    talk.say("a", bytes(4))
    talk.send("d", ACK)
    tick = talk.say("d", bytes(4))
    for seconds in (0.2, 0.4, 0.8, 1.6, 3.2, 6.4):
        line.wait(seconds)
        line.put(tick)


@play
def moved(line):
    """a is gone without an end, and comes up at host 3. After a minute b resets the old connection."""
    old = line.dial(1, 2, 5012)
    old.begin(A)
    old.agree(B)
    line.wait(8)
    new = line.dial(3, 2, 5012)
    new.say("d", name(FLAGS, 5, A))
    new.say("a", status(b"ok"))
    new.agree(B)
    line.wait(1)
    new.say("d", bytes(4))
    new.say("a", bytes(4))
    line.wait(51)
    old.send("a", RESET)
    new.close("d")


@play
def other_at_port(line):
    """A port mapper gives a port for b, and c is there. a leaves."""
    look_up(line, b"b", found(b"b", 5012))
    talk = line.dial(1, 2, 5012)
    talk.begin(A)
    talk.say("a", challenge(FLAGS, 17, CREATIONS[C], C))
    talk.close("d")


@play
def mapper_silent(line):
    """A port mapper says nothing, until who asks it for b closes."""
    talk = line.dial(1, 2, int(MAPPER))
    talk.say("d", frame(b"zb"))
    talk.send("a", ACK)
    line.wait(8)
    talk.close("d")


@play
def tls_to_plain(line):
    """What dials b speaks TLS, and b, which does not, closes after 7 seconds."""
    look_up(line, b"b", found(b"b", 5012))
    talk = line.dial(1, 2, 5012)
    talk.say("d", b"\x16\x03\x01\x00\x05\x01\x00\x00\x01\x00")
    talk.send("a", ACK)
    line.wait(7)
    talk.close("a")


@play
def late_end(line):
    """The capture begins with the status, and a leaves upon the challenge."""
    talk = line.dial(1, 2, 5012)
    talk.begin(A)
    talk.say("a", challenge(FLAGS, 17, CREATIONS[B], B))
    del line.packets[:-2]
    talk.close("d")


def other_packet(protocol, payload, fragment=0):
    """A packet of IPv4 from host 1 to host 2 that is no segment of TCP."""
    ends = [bytes(int(part) for part in address_of(host).split(".")) for host in (1, 2)]
    return struct.pack(">BBHHHBBH", 0x45, 0, 20 + len(payload), 0, fragment, 64, protocol, 0) + b"".join(ends) + payload


@play
def left_out(line):
    """Tunnels (VXLAN, GRE, IP in IP), a fragment of a segment, and what has nothing to do with it (ICMP)."""
    line.put(other_packet(17, struct.pack(">HHHH", 5000, 4789, 8, 0)))
    line.put(other_packet(17, struct.pack(">HHHH", 5000, 4789, 8, 0)))
    line.put(other_packet(47, bytes(4)))
    line.put(other_packet(4, other_packet(1, bytes(8))))
    line.put(other_packet(6, bytes(20), fragment=1))
    line.put(other_packet(1, bytes(8)))


def perform(title):
    """Performs a play, and returns its captures."""
    line = Line()
    PLAYS[title](line)
    return {title: pcap.capture(line.packets, pcap.RAW)}
