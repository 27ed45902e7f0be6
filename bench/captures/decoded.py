"""What tshark says of a capture: of each connection its two ends, its messages with their times, and when it ended.

Who sends the first segment (SYN) dialled. Where it is missing, ports below 6000 listen.
"""
import datetime
import subprocess
import tempfile
import xml.etree.ElementTree

MAPPER = 4389
MAPPER_KINDS = {110: "NAMES_REQ", 118: "ALIVE2_X_RESP", 119: "PORT2_RESP", 120: "ALIVE2_REQ", 121: "ALIVE2_RESP", 122: "PORT_PLEASE2_REQ"}
LEFT_OUT = "left out"
SLOW = 3_500_000_000
SECOND = 1_000_000_000
# What dist.hrl of OTP 29 calls the bits.
FLAGS = dict(enumerate("PUBLISHED ATOM_CACHE EXTENDED_REFERENCES DIST_MONITOR FUN_TAGS DIST_MONITOR_NAME HIDDEN_ATOM_CACHE NEW_FUN_TAGS "
                       "EXTENDED_PIDS_PORTS EXPORT_PTR_TAG BIT_BINARIES NEW_FLOATS UNICODE_IO DIST_HDR_ATOM_CACHE SMALL_ATOM_TAGS".split()))
FLAGS |= dict(enumerate("UTF8_ATOMS MAP_TAG BIG_CREATION SEND_SENDER BIG_SEQTRACE_LABELS".split(), 16))
FLAGS |= dict(enumerate("EXIT_PAYLOAD FRAGMENTS HANDSHAKE_23 UNLINK_ID MANDATORY_25_DIGEST".split(), 22))
FLAGS |= dict(enumerate("SPAWN NAME_ME V4_NC ALIAS LOCAL_EXT ALTACT_SIG NATIVE_RECORDS".split(), 32))
# What nodes of each release announce, and what others say to that. Any other flags have no line here.
RELEASES = {
    0xD07DF7FBD: ["OTP 25 to 27"],
    0xF07DF7FBD: ["up to those of OTP 25 to 27"],
    0x403070F95: ["up to those of OTP 24"],
    0x407074F9D: ["up to those of OTP 25 to 27"],
    0x6D07DF7FBD: ["OTP 29 or newer"],
    0x101DF7FBD: ["OTP 23", "!  flags     a node of OTP 26 or newer refuses this one, since these lack: UNLINK_ID V4_NC"],
}


def packets_of(file):
    """The packets of a capture, as tshark dissects them: a list of protocols, each with its fields."""
    words = ["tshark", "-r", file, "-T", "pdml", "-o", "tcp.analyze_sequence_numbers:FALSE"]
    words += ["-d", f"tcp.port=={MAPPER},epmd", "-d", "tcp.port==5000-65535,erldp"]
    said = subprocess.run(words, capture_output=True, check=True).stdout
    for packet in xml.etree.ElementTree.fromstring(said):
        yield [(proto.get("name"), int(proto.get("pos") or 0), {it.get("name"): (it.get("show"), it.get("value")) for it in proto.iter("field")})
               for proto in packet]


class Message:
    """A message of a handshake or of a port mapper: its fields, each as tshark shows it and in hexadecimal digits. One that tshark left out
    says so."""

    def __init__(self, at, is_of_dialler, fields):
        self.at, self.is_of_dialler, self.fields = at, is_of_dialler, fields
        self.is_left_out = LEFT_OUT in fields

    def kind(self):
        return MAPPER_KINDS[self.number("epmd.type")] if self.has("epmd.type") else word_of(self)

    def text(self, field):
        return self.fields[field][0]

    def number(self, field):
        return int(self.fields[field][1], 16)

    def has(self, field):
        return field in self.fields


class Connection:
    """A connection: two ends, each an address and a port, messages, and how it ended first: when, by the dialler or not, by a reset or not."""

    def __init__(self, dialler, acceptor, began):
        self.dialler, self.acceptor, self.began = dialler, acceptor, began
        self.messages, self.ended, self.flows = [], None, (Flow(), Flow())

    def heading(self):
        moment = datetime.datetime.fromtimestamp(self.began // 10**9, datetime.timezone.utc)
        return "-- {} port {} to {} port {}, {:%Y-%m-%dT%H:%M:%SZ}".format(*self.dialler, *self.acceptor, moment)

    def up_at(self):
        return next(it.at for it in self.messages if it.text("erldp.tag") == "'a'")

    def is_up(self):
        return any(it.has("erldp.tag") and it.text("erldp.tag") == "'a'" for it in self.messages)


def nanoseconds(text):
    whole, _, part = text.partition(".")
    return int(whole + part.ljust(9, "0"))


def is_message(name, fields):
    """Whether it is a message of a handshake, or of a port mapper."""
    if name == "epmd":
        return "epmd.type" in fields
    return name == "erldp" and "erldp.tag" in fields and fields["erldp.tag"][0] in ("'n'", "'N'", "'s'", "'c'", "'r'", "'a'")


# Where the fields of a message stand in its body, by the layouts of the ERTS User's Guide: of a tag, of who says it (d, a, or either).
LAYOUTS = {
    "nd": {"erldp.flags_v5": (3, 7), "erldp.name": (7, None)},
    "na": {"erldp.flags_v5": (3, 7), "erldp.challenge": (7, 11), "erldp.name": (11, None)},
    "Nd": {"erldp.flags_v6": (1, 9), "erldp.creation": (9, 13), "erldp.name": (15, None)},
    "Na": {"erldp.flags_v6": (1, 9), "erldp.challenge": (9, 13), "erldp.creation": (13, 17), "erldp.name": (19, None)},
    "s": {"erldp.status": (1, None)},
    "c": {"erldp.flags_v5": (1, 5), "erldp.creation": (5, 9)},
    "r": {"erldp.challenge": (1, 5), "erldp.digest": (5, 21)},
    "a": {"erldp.digest": (1, 17)},
}


def left_out_answer(payload):
    """The answer of a port mapper that tshark 4.0 does not dissect: to a registration with a creation of 32 bits, or without a node."""
    return {LEFT_OUT: ("", ""), "epmd.type": (str(payload[0]), f"{payload[0]:x}"), "epmd.result": (str(payload[1]), f"{payload[1]:x}"),
            "epmd.creation": ("", payload[2:6].hex())}


def left_out_message(body, side):
    """A message of a handshake that tshark 4.0 does not dissect: a complement, what shares its segment with another one, and what follows
    either of them."""
    tag = body[:1].decode("latin-1")
    layout = LAYOUTS.get(tag + side) or LAYOUTS.get(tag)
    if layout is None:
        return {}
    parts = {field: body[first:last] for field, (first, last) in layout.items()}
    fields = {field: (part.decode("latin-1"), part.hex()) for field, part in parts.items()}
    return {LEFT_OUT: ("", ""), "erldp.tag": (f"'{tag}'", body[:1].hex()), **fields}


def left_out_messages(payload, side):
    """The messages of frames that fill a payload, each with where it begins."""
    found, at = [], 0
    while at + 2 < len(payload):
        length = int.from_bytes(payload[at:at + 2], "big")
        found.append((at, left_out_message(payload[at + 2:at + 2 + length], side)))
        at += 2 + length
    return found if at == len(payload) and all(fields for _, fields in found) else []


class Flow:
    """What one side sends. tshark 4.0 takes a segment that is late for a repeated one, and so does not dissect what is behind it: here each
    segment is dissected alone, and then put in order. A message is there as soon as all bytes before it are."""

    def __init__(self):
        self.first, self.end, self.waiting = None, 0, []

    def take(self, sequence, length, messages):
        """Takes a segment, with its messages and where each begins in it. Returns the messages that are there now."""
        self.first = sequence if self.first is None else self.first
        self.waiting.append(((sequence - self.first) % 2**32, length, messages))
        found, is_next = [], True
        while is_next:
            is_next = next((it for it in self.waiting if it[0] <= self.end < it[0] + it[1]), None)
            if is_next:
                found += [fields for offset, fields in is_next[2] if is_next[0] + offset >= self.end]
                self.end = is_next[0] + is_next[1]
        return found


def messages_of(packet, tcp, payload, connection, is_of_dialler):
    """The messages in a packet, each with where it begins in the payload. One of which bytes were cut off has none."""
    if len(payload) < int(tcp["tcp.len"][0]):
        return []
    behind = next(at + int(tcp["tcp.hdr_len"][0]) for name, at, _ in packet if name == "tcp")
    found = [(position - behind, fields) for name, position, fields in packet if is_message(name, fields)]
    if found or not payload or connection.is_up():
        return found
    if connection.acceptor[1] == MAPPER:
        return [(0, left_out_answer(payload))] if not is_of_dialler and payload[0] in (118, 119) else []
    return left_out_messages(payload, "d" if is_of_dialler else "a")


def is_dialler(flags, port):
    """Whether the side that sends the first segment that is there, to this port, dialled."""
    return not flags & 16 if flags & 2 else port < 6000


def connections_of(file):
    """The connections of a capture, by tshark's number, and the time of the last packet of TCP."""
    found, now = {}, 0
    for packet in packets_of(file):
        protocols = {name: fields for name, _, fields in packet}
        if "tcp" not in protocols:
            continue
        tcp, version = protocols["tcp"], "ip" if "ip" in protocols else "ipv6"
        now = nanoseconds(protocols["frame"]["frame.time_epoch"][0])
        ends = [(protocols[version][f"{version}.{end}"][0], int(tcp[f"tcp.{end}port"][0])) for end in ("src", "dst")]
        number, flags = int(tcp["tcp.stream"][0]), int(tcp["tcp.flags"][0], 16)
        if number not in found:
            found[number] = Connection(*(ends if is_dialler(flags, ends[1][1]) else ends[::-1]), now)
        connection = found[number]
        is_of_dialler = ends[0] == connection.dialler
        payload = bytes.fromhex(tcp["tcp.payload"][1]) if "tcp.payload" in tcp else b""
        if payload or flags & 2:
            messages = messages_of(packet, tcp, payload, connection, is_of_dialler)
            whole = connection.flows[is_of_dialler].take(int(tcp["tcp.seq_raw"][0]) + (flags >> 1 & 1), len(payload), messages)
            connection.messages += [Message(now, is_of_dialler, fields) for fields in whole]
        if flags & 5 and connection.ended is None:
            connection.ended = (now, is_of_dialler, flags & 4)
    return found, now


def connections_in(capture):
    """The same of a capture that is in memory."""
    with tempfile.NamedTemporaryFile(suffix=".pcap") as file:
        file.write(capture)
        file.flush()
        return connections_of(file.name)


def seconds(nanosecond_count):
    return f"{nanosecond_count // 10**9}.{nanosecond_count % 10**9 // 1000:06}"


def node_lines(message):
    """What a name or a challenge says of its sender."""
    if message.has("erldp.flags_v5"):
        yield '   node      "{}", flags {:x}'.format(message.text("erldp.name"), message.number("erldp.flags_v5"))
        return
    flags = message.number("erldp.flags_v6")
    kind = "published" if flags & 1 else "hidden"
    release, *objections = RELEASES[flags | 1]
    yield '✓  node      "{}", {}, creation {}, flags {:x}: {}'.format(
        message.text("erldp.name"), kind, message.number("erldp.creation"), flags, release)
    yield "   flags     " + " ".join(name for bit, name in FLAGS.items() if flags >> bit & 1)
    yield from objections


def status_of(message):
    """The text of a status; behind `named:`, the name that a node is given."""
    text = bytes.fromhex(message.fields["erldp.status"][1])
    if text.startswith(b"named:"):
        return 'named: "{}"'.format(text[8:8 + int.from_bytes(text[6:8], "big")].decode())
    return message.text("erldp.status")


def word_of(message):
    name = "name" if message.is_of_dialler else "challenge"
    words = {"'n'": name + ", in the older form", "'N'": name, "'c'": "complement", "'r'": "reply", "'a'": "acknowledgement"}
    tag = message.text("erldp.tag")
    return "status " + status_of(message) if tag == "'s'" else words[tag]


def talk_lines(connection):
    """The lines of a page about the messages of a handshake."""
    yield connection.heading()
    before = connection.began
    for message in connection.messages:
        side = "the dialler" if message.is_of_dialler else "the acceptor"
        if message.at - before >= SLOW:
            yield f"!  slow      {side} took {seconds(message.at - before)} seconds; a node gives up after 7 (net_setuptime)"
        yield f"   {seconds(message.at - connection.began)}  {side}: {word_of(message)}"
        if message.text("erldp.tag") in ("'n'", "'N'"):
            yield from node_lines(message)
        if message.text("erldp.tag") == "'c'":
            yield "   node      creation {}, flags {:x}".format(message.number("erldp.creation"), message.number("erldp.flags_v5") << 32)
        before = message.at


def end_lines(connection, now):
    """The lines of a page about the end of a connection that was up."""
    ended, is_of_dialler, is_reset = connection.ended or (now, False, False)
    side = "the dialler" if is_of_dialler else "the acceptor"
    how = ", and still when the capture ended" if connection.ended is None else f", then {'reset' if is_reset else 'closed'} by {side}"
    yield connection.heading()
    yield f"   end       up for {seconds(ended - connection.up_at())} seconds{how}"
    if connection.ended and ended - connection.up_at() < SECOND:
        yield "!  at once   the connection ended within a second of the acknowledgement"


def mapper_lines(connection):
    """The lines of a page about a request to a port mapper that was answered."""
    request, *answers = connection.messages
    name, port = request.text("epmd.name"), connection.acceptor[1]
    yield connection.heading()
    if request.number("epmd.type") == 120:
        result = answers[0].number("epmd.result")
        said = "creation {}".format(answers[0].number("epmd.creation")) if result == 0 else f"refused, result {result}"
        yield f'   registers "{name}" at port {request.number("epmd.port_no")}: {said}'
        return
    yield f'   looks up  "{name}"'
    if answers[0].number("epmd.result") != 0:
        yield f"✗  epmd      port {port}: no node of this name is registered"
        return
    found = [answers[0].text(f"epmd.{field}") for field in ("name", "port_no", "dist_low", "dist_high")]
    yield '✓  epmd      port {} answers: "{}" listens at port {}, versions {} to {}'.format(port, *found)
