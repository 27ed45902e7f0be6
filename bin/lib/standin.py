"""A node and its port mapper that keep every row of share/conformance, but for one fault that is planted. It shares no code with distcheck,
nor with the other programs: it is written from the ERTS User's Guide, Distribution Protocol.

usage: standin.py COOKIE [FAULT]          prints its node's port, its port mapper's, and one at which it dials whatever name comes in a
                                          line; serves until its input ends
       standin.py COOKIE FAULT PORT       the node alone: registers at the port mapper of this port, and serves as long as that

Each fault below is a mistake that whoever writes a node can make. With a + behind it (or + alone) the two also never forget: neither a peer
that was up, nor a name that was registered.
"""
import contextlib
import hashlib
import itertools
import os
import socket
import struct
import sys
import threading
import time

# What each fault does, by what it is about.
FAULTS = {
    # How messages come and go
    "oneread": "takes each read for one message",
    "onepiece": "loses what stands behind a message in the same piece",
    "hasty": "waits 0.15 seconds at most at each read",
    "short": "takes what lacks some bytes at its end, if it is right as far as it goes",
    "ticksearly": "sends a tick behind each name, challenge and reply",
    "saysno": "says not_allowed or a result of 1 where it has to close",
    "serial": "serves one handshake, and one client of the port mapper, at a time",
    "leaks": "is full once two have left before their name",
    # Names
    "shortname": "says its name without its host",
    "anyname": "takes any name, of a dialler and in a challenge",
    "only64": "refuses names of more than 64 bytes",
    "first64": "tells names apart by 64 bytes",
    "nocase": "tells names apart without the case of letters",
    "noextra": "closes where bytes stand behind a name",
    "tail": "says a byte behind its name",
    "nul": "says a status with a zero byte at its end",
    "creation0": "says creation 0",
    # Flags
    "anyflags": "requires no flag",
    "lingers": "requires no flag, and is busy with a peer for 0.15 seconds after that has left",
    "nomap": "does not require MAP_TAG",
    "strictflags": "refuses flags that it does not know",
    "announces": "announces NAME_ME, and neither NEW_FLOATS nor V4_NC",
    "common": "announces only what the dialler announces too",
    # Challenges and digests
    "signed": "takes the other's numbers for numbers with a sign",
    "signedown": "takes its own challenge for a number with a sign",
    "samechallenge": "has one challenge for all",
    "counts": "counts its challenges",
    "raw": "digests the four bytes of a challenge",
    "swapped": "digests the challenge before the cookie",
    "prefix": "compares 8 bytes of a digest",
    "cstring": "compares a digest up to its first zero byte",
    "anydigest": "compares no reply's digest",
    "noack": "compares no acknowledgement's digest",
    "acktwice": "acknowledges twice",
    "ownack": "acknowledges its own challenge",
    "ownreply": "replies to its own challenge",
    "mirrored": "awaits the acknowledgement of the other's challenge",
    "longdigest": "takes a reply, or an acknowledgement, with bytes behind it",
    "hangs": "keeps a connection open after a wrong digest, and is busy with its peer",
    "secondtry": "lets a dialler try again after a wrong digest",
    "bars": "refuses a name for good after a wrong digest",
    # A peer that is up, or was
    "forgets": "answers a second name by ok",
    "takeover": "ends the first connection upon a second name",
    "oktrue": "says ok behind true",
    "falsetrue": "takes false for true",
    "falsedown": "takes false for the end of the first connection",
    "endsboth": "ends who is asked whether a connection is alive together with that connection",
    "keepsboth": "keeps the first connection when the second comes up",
    "remembers": "does not notice that a peer has left",
    # Dials
    "oldopener": "opens with an old name",
    "anystatus": "goes on after any status",
    "insists": "says its name again upon not_allowed",
    "nosimultaneous": "does not know ok_simultaneous",
    "noalive": "does not know alive",
    "asksagain": "awaits a second status behind true",
    "crossing": "lets the lesser name win",
    "givesup": "gives up its own dial too when it says nok",
    "nodoom": "lets come up what ok_simultaneous gave up",
    "dropsboth": "forgets the dialler together with the dial that ok_simultaneous gave up",
    "nokup": "takes nok for a peer that is up",
    "redials": "dials a name that is up",
    # Version 5
    "nooldname": "does not know the old name",
    "oldform": "answers each name by an old challenge",
    "nocomplement": "neither says nor awaits a complement",
    "anycomplement": "does not look at the flags of a complement",
    "oldname": "says an old name of version 6 without HANDSHAKE_23",
    "oldchallenge": "takes an old challenge behind a name N",
    # Up
    "twobytes": "goes on with lengths of 2 bytes",
    "modulo": "takes lengths of 4 bytes modulo 65,536, and passes over what is no packet",
    "notick": "ends a connection upon a tick",
    "nobody": "ends a connection upon a message to a name that nobody has",
    "chatty": "sends a message to a hidden peer too",
    "halfticks": "ticks by two bytes",
    "floods": "ticks five times a second",
    "echoes": "answers a tick by a tick",
    "answerstick": "answers a tick by a packet of a zero byte",
    "deaf": "answers no monitor",
    "endsall": "ends all connections upon a packet that is none",
    "halfopen": "does not notice that the other's end is closed",
    # What it says to its port mapper
    "protocol1": "registers with protocol 1",
    "highest5": "registers with highest version 5",
    "fullname": "registers its name with its host",
    "hangsup": "ends the connection once it is answered",
    "owncreation": "does not take the creation that it is given",
    "anyanswer": "takes any answer",
    # Its port mapper
    "stale": "keeps a name for 3 seconds",
    "answersends": "ends the connection of a registration",
    "replaces": "gives a name to who comes last",
    "overwrites": "keeps what it refuses",
    "always5": "knows no creation of 32 bits",
    "always6": "gives a creation of 32 bits to whoever knows version 5",
    "zero": "gives creation 0",
    "samecreation": "gives one creation to all",
    "ascii": "registers no name beyond ASCII",
    "anybytes": "registers any name",
    "first6": "tells names apart by 6 bytes",
    "fronts": "finds a name by its front",
    "noextramap": "forgets the extra",
    "cutreg": "registers what was cut",
    "namesport": "says 4369 in front of the names",
    "namesline": "says lines of DUMP",
    "pads": "says a zero byte behind the answer to a lookup",
    "staysopen": "does not end behind a lookup",
    "obeys": "obeys STOP and KILL",
    # None is a fault: good nodes do so too
    "prompt": "sends two ticks and a message right behind the acknowledgement",
}

COOKIE = sys.argv[1].encode()
FAULT, PLUS, _ = sys.argv[2].partition("+") if len(sys.argv) > 2 else ("", "", "")
if FAULT and FAULT not in FAULTS:
    sys.exit(f"standin: no such fault: {FAULT}")
ME, HOST = b"n@127.0.0.1", "127.0.0.1"
NAMED = ME.partition(b"@")[0] if FAULT == "shortname" else ME
# EXTENDED_REFERENCES, FUN_TAGS, NEW_FUN_TAGS, EXTENDED_PIDS_PORTS, EXPORT_PTR_TAG, BIT_BINARIES, NEW_FLOATS, UTF8_ATOMS, MAP_TAG,
# BIG_CREATION, HANDSHAKE_23, UNLINK_ID, V4_NC
REQUIRED = 0x403070F94
# PUBLISHED, DIST_MONITOR, DIST_MONITOR_NAME
PUBLISHED, OPTIONAL = 1, 1 | 1 << 3 | 1 << 5
NEW_FLOATS, MAP_TAG, HANDSHAKE_23, NAME_ME, V4_NC = 1 << 11, 1 << 17, 1 << 24, 1 << 33, 1 << 34
ANNOUNCED = (REQUIRED & ~(NEW_FLOATS | V4_NC) | NAME_ME if FAULT == "announces" else REQUIRED) | OPTIONAL
CREATION = 0 if FAULT == "creation0" else 0x1000007
# How long a handshake may take, an idle client of the port mapper, and the time between two ticks, in seconds.
SETUP, IDLE, TICK = 7, 60, {"floods": 0.2, "halfticks": 3}.get(FAULT, 12)
# How many bytes a message may lack.
SLACK = 8 if FAULT == "short" else 0
# The time of a read of whoever is in a hurry, and of somebody whom others wait for.
HURRY, TURN = 0.15, 8
# Control messages of the distribution, and tags of terms, of the External Term Format.
MONITOR_P, MONITOR_P_EXIT = 19, 21
NEW_PID, NEWER_REFERENCE, SMALL_ATOM = b"X", b"Z", b"w"


class Ended(Exception):
    """A connection that is over, for a reason."""


class Refused(Ended):
    """One that is over since what came is not what has to come."""


@contextlib.contextmanager
def turn(lock):
    """The turn of whoever came first. Until its end nobody else is served, where one is served at a time."""
    try:
        yield
    finally:
        if FAULT == "serial":
            lock.release()


class Connection:
    def __init__(self, stream):
        self.stream, self.bytes, self.until = stream, b"", time.monotonic() + SETUP
        stream.setsockopt(socket.IPPROTO_TCP, socket.TCP_NODELAY, 1)

    def receive(self):
        left = self.until and max(0.001, self.until - time.monotonic())
        self.stream.settimeout(HURRY if left and FAULT == "hasty" else left)
        try:
            return self.stream.recv(65536)
        except OSError:
            raise Ended("no read") from None

    def end_of(self, header):
        """Where a frame ends that stands behind a length of so many bytes."""
        return header + int.from_bytes(self.bytes[:header], "big") % (1 << 16 if FAULT == "modulo" else 1 << 32)

    def take(self, header):
        """A frame behind a length of so many bytes."""
        while len(self.bytes) < max(header, self.end_of(header)):
            came = self.receive()
            self.bytes += came
            if not came and SLACK and header < len(self.bytes) >= self.end_of(header) - SLACK:
                break
            if not came or FAULT == "oneread" and header == 2 and len(self.bytes) != max(header, self.end_of(header)):
                time.sleep(SETUP if FAULT == "halfopen" else 0)
                raise Ended("no more")
        end = self.end_of(header)
        body, self.bytes = self.bytes[header:end], self.bytes[end:]
        if FAULT == "onepiece" and header == 2:
            self.bytes = b""
        return body

    def say(self, body):
        tick = bytes(4) if FAULT == "ticksearly" and body[:1] in (b"N", b"r") else b""
        self.stream.sendall(struct.pack(">H", len(body)) + body + tick)

    def send(self, packet):
        self.stream.sendall(struct.pack(">H" if FAULT == "twobytes" else ">I", len(packet)) + packet)


def end(it):
    """Ends a connection, if there is one: who reads from it goes on."""
    if it:
        with contextlib.suppress(OSError):
            it.stream.shutdown(socket.SHUT_RDWR)


def close(stream):
    with contextlib.suppress(OSError):
        stream.shutdown(socket.SHUT_RDWR)
    stream.close()


# --- the node: names, flags, digests ---


def is_good(name):
    most = 64 if FAULT == "only64" else 255
    return len(name) <= most and name.count(b"@") == 1 and all(name.split(b"@")) and all(0x21 <= it <= 0x7E for it in name)


def kept(name):
    """A name by which peers are told apart."""
    return {"first64": name[:64], "nocase": name.lower()}.get(FAULT, name)


def lacks(flags, is_old):
    """Whether a flag is missing."""
    required = {"nomap": REQUIRED & ~MAP_TAG, "anyflags": 0, "lingers": 0}.get(FAULT, REQUIRED)
    return required & (0xFFFFFFFF if is_old else ~0) & ~flags or FAULT == "strictflags" and flags & ~ANNOUNCED


def announced(flags):
    """What is announced to whoever announces these flags."""
    return ANNOUNCED & flags if FAULT == "common" else ANNOUNCED


COUNT = itertools.count(int.from_bytes(os.urandom(3), "big"))


def drawn():
    number = {"samechallenge": 12345, "counts": next(COUNT)}.get(FAULT, int.from_bytes(os.urandom(4), "big"))
    return number | 1 << 31 if FAULT == "signedown" else number


def digest(number):
    written = struct.pack(">I", number) if FAULT == "raw" else b"%d" % number
    return hashlib.md5(written + COOKIE if FAULT == "swapped" else COOKIE + written).digest()


def with_sign(number, fault):
    return number - (1 << 32) if FAULT == fault and number >> 31 else number


def own_digest(challenge):
    """The digest that the other has to say."""
    return digest(with_sign(challenge, "signedown"))


def their_digest(number):
    """The digest of the other's challenge."""
    return digest(with_sign(number, "signed"))


def is_right(came, wanted):
    sizes = {"prefix": lambda _: 8, "short": lambda _: len(came), "cstring": lambda it: len(it.partition(b"\0")[0])}
    size = sizes.get(FAULT, len)
    return came[: size(came)] == wanted[: size(wanted)]


def proof(body, tag, fields):
    """What stands in so many bytes of a reply or an acknowledgement, and the digest behind them."""
    size = 1 + fields + 16
    if body[:1] != tag or len(body) < size - SLACK or len(body) > size and FAULT != "longdigest":
        raise Refused("no digest")
    return int.from_bytes(body[1 : 1 + fields], "big"), body[1 + fields : size]


# --- the node: its peers ---
# The connections of each peer: the one that is up, the one that came, the one that was dialled, and the one that was answered by alive.
PEERS, LOCK = {}, threading.RLock()


def status_of(name, it):
    """How a name is answered, by the other connections of its peer."""
    with LOCK:
        peer = PEERS.setdefault(name, {})
        if "up" in peer and FAULT != "forgets":
            end(peer.get("asked"))
            peer["asked"] = it
            end(peer["up"] if FAULT == "takeover" else None)
            return b"alive"
        if "dialled" in peer:
            if (name > ME) == (FAULT == "crossing"):
                end(peer["dialled"] if FAULT == "givesup" else None)
                return b"nok"
            end(peer["dialled"] if FAULT != "nodoom" else None)
            peer.clear()
            if FAULT != "dropsboth":
                peer["came"] = it
            return b"ok_simultaneous"
        if FAULT in ("remembers", "lingers", "hangs") and peer:
            return b"nok"
        end(peer.get("came"))
        peer["came"] = it
        return b"ok"


def come_up(name, it):
    with LOCK:
        peer = PEERS.get(name, {})
        if FAULT == "dropsboth" and not peer:
            raise Ended("forgotten")
        PEERS[name] = {"up": it}
    end(peer.get("up") if FAULT != "keepsboth" else None)


def leave(name, it):
    time.sleep(0.15 if FAULT == "lingers" else 0)
    with LOCK:
        peer = PEERS.get(name, {})
        if FAULT == "endsboth" and peer.get("up") is it:
            end(peer.get("asked"))
        if FAULT != "remembers":
            PEERS[name] = {key: other for key, other in peer.items() if other is not it or PLUS and key == "up"}


# --- the node: who dials it ---
# The names that said a wrong digest, how many connections have left before their name, and whose turn it is.
BARRED, LEFT, HANDSHAKE = set(), [], threading.Lock()


def introduction(body):
    """The flags and the name of a message N or n, whether it is the old one, and what stands behind the name."""
    if body[:1] == b"N" and len(body) >= 15:
        flags, creation, length = struct.unpack(">QIH", body[1:15])
        if len(body) >= 15 + length - SLACK and with_sign(creation, "signed") >= 0:
            return flags, body[15 : 15 + length], False, body[15 + length :]
    if body[:1] == b"n" and len(body) >= 7 and FAULT != "nooldname":
        return struct.unpack(">I", body[3:7])[0], body[7:], True, b""
    raise Refused("no name")


def take_name(it):
    flags, name, is_old, behind = introduction(it.take(2))
    if FAULT == "noextra" and behind:
        raise Refused("bytes behind the name")
    is_nobody = flags & NAME_ME or not is_good(name) or name == ME
    if is_nobody and FAULT != "anyname" or lacks(flags, is_old) or name in BARRED:
        it.say(b"snot_allowed")
        raise Ended("refused")
    return kept(name), flags, is_old


def answer_name(it, name):
    """Says the status. Whoever is asked whether its first connection is alive has to say that it is not."""
    status = status_of(name, it)
    it.say(b"s" + status + (b"\0" if FAULT == "nul" else b""))
    if status == b"nok":
        raise Ended("busy")
    if status != b"alive":
        return
    said = it.take(2)
    if said not in (b"strue", b"sfalse"):
        raise Refused("neither true nor false")
    if said == b"sfalse" and FAULT == "falsedown":
        PEERS[name].pop("up", None)
    if said == b"sfalse" and FAULT != "falsetrue":
        raise Ended("refused")
    if FAULT == "oktrue":
        it.say(b"sok")


def own_challenge(number, flags):
    if FAULT == "oldform":
        return b"n" + struct.pack(">HII", 5, ANNOUNCED & 0xFFFFFFFF, number) + NAMED
    return b"N" + struct.pack(">QIIH", announced(flags), number, CREATION, len(NAMED)) + NAMED + (b"\0" if FAULT == "tail" else b"")


def take_complement(it):
    complement = it.take(2)
    has_flags = complement[4:5] and complement[4] & REQUIRED >> 32 or FAULT == "anycomplement"
    if complement[:1] != b"c" or len(complement) != 9 or not has_flags:
        raise Refused("no complement")


def take_reply(it, name, challenge):
    """The other's challenge, behind a right digest of ours."""
    number, came = proof(it.take(2), b"r", 4)
    if is_right(came, own_digest(challenge)) or FAULT == "anydigest":
        return number
    if FAULT == "secondtry":
        return take_reply(it, name, challenge)
    if FAULT == "bars":
        BARRED.add(name)
    while FAULT == "hangs" and it.receive():
        pass
    raise Refused("another digest")


def shake_hands(it, name, flags, is_old):
    """Goes on behind a name, as far as to the acknowledgement."""
    answer_name(it, name)
    challenge = drawn()
    it.say(own_challenge(challenge, flags))
    if is_old and FAULT != "nocomplement":
        take_complement(it)
    number = take_reply(it, name, challenge)
    come_up(name, it)
    for _ in range(2 if FAULT == "acktwice" else 1):
        it.say(b"a" + (digest(challenge) if FAULT == "ownack" else their_digest(number)))


def accept(stream):
    it, name = Connection(stream), b""
    try:
        if FAULT == "leaks" and len(LEFT) > 1:
            raise Ended("full")
        with turn(HANDSHAKE):
            name, flags, is_old = take_name(it)
            shake_hands(it, name, flags, is_old)
        stay_up(it, flags)
    except (Ended, OSError) as why:
        say_no(why, it)
    finally:
        if name:
            leave(name, it)
        else:
            LEFT.append(it)
        close(stream)


def say_no(why, it):
    if FAULT == "saysno" and isinstance(why, Refused):
        with contextlib.suppress(OSError):
            it.say(b"snot_allowed")


# --- the node: its dials ---


def own_name(is_old):
    if is_old or FAULT == "oldopener":
        wrong = FAULT == "oldname"
        return b"n" + struct.pack(">HI", 6 if wrong else 5, ANNOUNCED & 0xFFFFFFFF & ~(HANDSHAKE_23 if wrong else 0)) + NAMED
    return b"N" + struct.pack(">QIH", ANNOUNCED, CREATION, len(NAMED)) + NAMED + (b"\0" if FAULT == "tail" else b"")


def take_status(it, name):
    """Whether the handshake goes on. A connection that is thought to be up is not, and that is said."""
    status = it.take(2)
    if status == b"salive" and FAULT not in ("noalive", "anystatus"):
        it.say(b"strue")
        if FAULT == "asksagain":
            take_status(it, name)
    elif status == b"snok" and FAULT == "nokup":
        PEERS[name] = {"up": None}
        raise Ended("up")
    elif status == b"snot_allowed" and FAULT == "insists":
        it.say(own_name(False))
        take_status(it, name)
    elif status in (b"snok", b"snot_allowed") and FAULT != "anystatus":
        raise Ended("refused")
    elif status not in (b"sok", b"sok_simultaneous" if FAULT != "nosimultaneous" else b"") and FAULT != "anystatus":
        raise Refused("no status")


def take_challenge(it, name, is_old):
    """The flags and the number of a challenge, and whether it is one of version 6."""
    body = it.take(2)
    if body[:1] == b"N" and len(body) >= 19:
        flags, number, _, length = struct.unpack(">QIIH", body[1:19])
        came, behind = body[19 : 19 + length], body[19 + length :]
        missing = len(came) < length - SLACK or behind and FAULT == "noextra" or lacks(flags, False)
    elif body[:1] == b"n" and len(body) >= 11 and (is_old and not body[3] & 1 or FAULT == "oldchallenge"):
        flags, number = struct.unpack(">II", body[3:11])
        came, missing = body[11:], lacks(flags | HANDSHAKE_23, True)
    else:
        raise Refused("no challenge")
    wanted = {"anyname": kept(came), "short": name[: len(came)]}.get(FAULT, name)
    if kept(came) != wanted or missing:
        raise Refused("another node, or one that lacks a flag")
    return flags, number, body[:1] == b"N"


def introduce(it, name, is_old):
    """Dials a name, as far as to the right acknowledgement, and returns the other's flags."""
    it.say(own_name(is_old))
    take_status(it, name)
    (flags, number, is_new), own = take_challenge(it, name, is_old), drawn()
    if is_old and is_new and FAULT != "nocomplement":
        it.say(b"c" + struct.pack(">II", ANNOUNCED >> 32, CREATION))
    it.say(b"r" + struct.pack(">I", own) + (digest(own) if FAULT == "ownreply" else their_digest(number)))
    _, came = proof(it.take(2), b"a", 0)
    if not is_right(came, digest(number) if FAULT == "mirrored" else own_digest(own)) and FAULT != "noack":
        raise Refused("another digest")
    return flags


def dial(full):
    it, name = Connection(socket.socket()), kept(full)
    with LOCK:
        entry, peer = NAMES.get(filed(full.partition(b"@")[0])), PEERS.setdefault(name, {})
        if not entry or peer and FAULT != "redials":
            return
        peer["dialled"] = it
    try:
        it.stream.connect((HOST, entry[0]))
        flags = introduce(it, name, entry[3] < 6)
        with LOCK:
            if PEERS[name].get("dialled") is not it and FAULT != "nodoom":
                raise Ended("given up")
            come_up(name, it)
        stay_up(it, flags)
    except (Ended, OSError) as why:
        say_no(why, it)
    finally:
        leave(name, it)
        close(it.stream)


def obey(stream):
    """Dials the name in a line, for as long as that takes."""
    with stream, stream.makefile("rb") as lines:
        name = lines.readline().strip()
        if name:
            dial(name)


# --- the node: a connection that is up ---
# The message 1 to a name, which each peer gets that is published (REG_SEND).
PID = NEW_PID + SMALL_ATOM + struct.pack(">B", len(ME)) + ME + struct.pack(">III", 1, 0, CREATION)
GREETING = b"\x70\x83h\4a\6" + PID + SMALL_ATOM + b"\0" + SMALL_ATOM + b"\6nobody" + b"\x83a\1"


def send_ticks(it):
    tick = bytes(2 if FAULT in ("halfticks", "twobytes") else 4)
    while it.stream.fileno() >= 0:
        time.sleep(TICK)
        try:
            it.stream.sendall(tick)
        except OSError:
            return


def behind(terms):
    """What stands behind a pid, an atom or a reference, each in its newest form."""
    if terms[:1] == SMALL_ATOM:
        return terms[2 + terms[1] :]
    if terms[:1] == NEW_PID:
        return behind(terms[1:])[12:]
    if terms[:1] == NEWER_REFERENCE:
        return behind(terms[3:])[4 + 4 * int.from_bytes(terms[1:3], "big") :]
    raise Ended("no term")


def answer_monitor(it, terms):
    """Answers a monitor of nobody, {19, Who, Whom, Reference}, by {21, Whom, Who, Reference, noproc}."""
    whom, reference = behind(terms), behind(behind(terms))
    said = whom[: -len(reference)] + terms[: -len(whom)] + reference[: len(reference) - len(behind(reference))]
    it.send(bytes((112, 131, 104, 5, 97, MONITOR_P_EXIT)) + said + SMALL_ATOM + b"\6noproc")


def take_packet(it, packet):
    """Takes a packet that passes through, or has a version of terms, with a tuple behind it."""
    if packet[0] not in (112, 131) or packet[1:3] != b"\x83h":
        if FAULT == "modulo":
            return
        for other in [other for peer in PEERS.values() for other in peer.values()] if FAULT == "endsall" else []:
            end(other)
        raise Ended("no packet")
    if FAULT == "nobody" and packet[4:6] == b"a\6":
        raise Ended("nobody has the name")
    if packet[3:6] == bytes((4, 97, MONITOR_P)) and FAULT != "deaf":
        answer_monitor(it, packet[6:])


def stay_up(it, flags):
    it.until = None
    threading.Thread(target=send_ticks, args=(it,), daemon=True).start()
    # (who comes up wrongly sends a message too, so that a row that wants the end need not wait)
    for packet in (b"", b"") if FAULT == "prompt" else ():
        it.send(packet)
    if flags & PUBLISHED or FAULT in ("chatty", "noack", "short", "prompt"):
        it.send(GREETING)
    while True:
        packet = it.take(2 if FAULT == "twobytes" else 4)
        if packet:
            take_packet(it, packet)
        elif FAULT == "notick":
            raise Ended("a tick")
        elif FAULT in ("echoes", "answerstick"):
            it.send(b"" if FAULT == "echoes" else b"\0")


# --- the node: what it says to a port mapper ---


def creation_of(it):
    """The creation of the answer to a registration, or None where it is refused, or no answer."""
    if FAULT == "oneread":
        answer = it.recv(64)
    else:
        answer = it.recv(1)
        answer += it.recv({b"v": 5, b"y": 3}.get(answer, 0), socket.MSG_WAITALL)
    if FAULT == "anyanswer" or len(answer) == {b"v": 6, b"y": 4}.get(answer[:1]) and not answer[1]:
        return int.from_bytes(answer[2:], "big")
    return None


def registration(port):
    name = ME if FAULT == "fullname" else ME.partition(b"@")[0]
    protocol, highest = FAULT == "protocol1", 5 if FAULT == "highest5" else 6
    return b"x" + struct.pack(">HBBHHH", port, 77, protocol, highest, 5, len(name)) + name + b"\0\0"


def register_at(port):
    """Registers at a port mapper, and serves with the creation that it gives, as long as it keeps the connection."""
    global CREATION
    listener = socket.create_server((HOST, 0), backlog=128)
    with socket.create_connection((HOST, port)) as it:
        Connection(it).say(registration(listener.getsockname()[1]))
        creation = creation_of(it)
        if creation is None:
            return
        CREATION = CREATION if FAULT == "owncreation" else creation
        threading.Thread(target=serve, args=(listener, accept, HANDSHAKE), daemon=True).start()
        if FAULT != "hangsup":
            while it.recv(64):
                pass
            return
    time.sleep(SETUP)


# --- the port mapper ---
NAMES, CLIENT = {}, threading.Lock()
CREATIONS = iter(range(100, 1 << 32))


def filed(name):
    """A name by which nodes are told apart."""
    return {"first6": name[:6], "nocase": name.lower()}.get(FAULT, name)


def request_of(stream):
    """A request whose bytes are all, or that was cut, if that is the fault."""
    came = b""
    while len(came) < 2 or len(came) < 2 + int.from_bytes(came[:2], "big"):
        more = stream.recv(65536)
        if not more:
            if FAULT == "cutreg" and came[2:3] == b"x" and len(came) > 15:
                return came[2:]
            raise Refused("cut")
        came += more
        if FAULT == "oneread" and len(came) < 2 + int.from_bytes(came[:2], "big"):
            raise Refused("in pieces")
    length = int.from_bytes(came[:2], "big")
    if len(came) > 2 + length or length > 4094:
        raise Refused("too many bytes")
    return came[2:]


def registration_of(request):
    """The name, and what a lookup answers between its result and the name, and behind it."""
    port, kind, protocol, highest, lowest, length = struct.unpack(">HBBHHH", request[1:11])
    name, after = request[11 : 11 + length], request[11 + length :]
    extra = after[2 : 2 + int.from_bytes(after[:2], "big")]
    if not name or FAULT != "cutreg" and (len(after) < 2 or len(extra) != int.from_bytes(after[:2], "big")):
        raise Refused("cut inside")
    return filed(name), (port, kind, protocol, highest, lowest, b"" if FAULT == "noextramap" else extra)


def is_free(name):
    most = 64 if FAULT == "only64" else 255
    if FAULT == "anybytes" or FAULT == "ascii" and not name.isascii():
        return FAULT == "anybytes" and name not in NAMES
    try:
        return len(name) <= most and b"\0" not in name and bool(name.decode()) and (name not in NAMES or FAULT == "replaces")
    except UnicodeDecodeError:
        return False


def answer_registration(stream, is_old, result, creation):
    if is_old and FAULT != "always6" or FAULT == "always5":
        stream.sendall(b"y" + struct.pack(">BH", result, creation and creation % 3 + 1))
    else:
        stream.sendall(b"v" + struct.pack(">BI", result, creation))


def register(stream, request):
    name, entry = registration_of(request)
    with LOCK:
        free = is_free(name)
        creation = {"samecreation": 100, "zero": 0}.get(FAULT, next(CREATIONS))
        if free or FAULT == "overwrites":
            NAMES[name] = entry
    try:
        answer_registration(stream, entry[3] < 6, not free, creation if free else 0)
        if free and FAULT != "answersends":
            stream.settimeout(None)
            stream.recv(1)
    finally:
        if free:
            time.sleep(3 if FAULT == "stale" else 0)
            with LOCK:
                NAMES.pop(name if not PLUS else None, None)


def answer_lookup(stream, asked):
    with LOCK:
        found = [name for name in NAMES if name.startswith(asked)] if FAULT == "fronts" else [filed(asked)]
        entry = NAMES.get(found[0]) if found else None
    if entry is None:
        stream.sendall(b"w\1")
    else:
        stream.sendall(b"w\0" + struct.pack(">HBBHHH", *entry[:5], len(asked)) + asked + struct.pack(">H", len(entry[5])) + entry[5])
    if FAULT == "pads":
        stream.sendall(b"\0")
    if FAULT == "staysopen":
        stream.recv(1)


def answer_names(stream, port):
    line = b"active name     <%s> at port %d, fd = 5\n" if FAULT == "namesline" else b"name %s at port %d\n"
    with LOCK:
        lines = [line % (name, entry[0]) for name, entry in NAMES.items()]
    stream.sendall(struct.pack(">I", 4369 if FAULT == "namesport" else port) + b"".join(lines))


def answer_order(stream, request):
    """STOP and KILL change nothing while a node is registered, and end the connection."""
    if FAULT == "obeys" and request[:1] == b"k":
        NAMES.clear()
        stream.sendall(b"OK")
    elif FAULT == "obeys":
        NAMES.pop(request[1:], None)
        stream.sendall(b"STOPPED")


def answer(stream, request, port):
    tag = request[:1]
    if tag == b"x" and len(request) >= 13:
        register(stream, request)
    elif tag == b"z":
        answer_lookup(stream, request[1:])
    elif tag == b"n":
        answer_names(stream, port)
    elif tag in (b"k", b"s"):
        answer_order(stream, request)
    else:
        raise Refused("no request")


def serve_client(stream):
    try:
        with turn(CLIENT):
            stream.settimeout({"serial": TURN, "hasty": HURRY}.get(FAULT, IDLE))
            request = request_of(stream)
        answer(stream, request, stream.getsockname()[1])
    except Refused:
        with contextlib.suppress(OSError):
            stream.sendall(b"w\1" if FAULT == "saysno" else b"")
    except (Ended, OSError):
        pass
    finally:
        close(stream)


def serve(listener, talk, lock):
    while True:
        stream = listener.accept()[0]
        if lock and FAULT == "serial":
            lock.acquire()
        threading.Thread(target=talk, args=(stream,), daemon=True).start()


def main():
    if sys.argv[3:]:
        register_at(int(sys.argv[3]))
        return
    talks = (accept, HANDSHAKE), (serve_client, CLIENT), (obey, None)
    listeners = [socket.create_server((HOST, 0), backlog=128) for _ in talks]
    for listener, talk in zip(listeners, talks):
        threading.Thread(target=serve, args=(listener, *talk), daemon=True).start()
    print(*[it.getsockname()[1] for it in listeners], flush=True)
    sys.stdin.read()


main()
