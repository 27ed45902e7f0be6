"""Captures in other forms: files in the other order of bytes and with other clocks, other links, headers with options, and packets between
that have no segment. What is said in them stays the same.

Sources: draft-ietf-opsawg-pcap and draft-ietf-opsawg-pcapng, the list of link types of tcpdump.org, RFC 791, RFC 8200, RFC 9293.
"""
import struct

MAC = bytes.fromhex("020000000002020000000001")


def packets_of(capture):
    """The packets of a pcap, each with its seconds and microseconds, from the header of IP on: of Ethernet (link 1) its header is left out."""
    link, at = struct.unpack_from("<I", capture, 20)[0], 24
    while at < len(capture):
        seconds, micros, length = struct.unpack_from("<III", capture, at)
        yield seconds, micros, capture[at + 16 : at + 16 + length][14 if link == 1 else 0 :]
        at += 16 + length


def pcap(packets, link=101, order="<", nano=False, front=b"", change=lambda packet: packet):
    """A file of these packets, each changed so, and behind this front."""
    out = struct.pack(order + "IHHiIII", 0xA1B23C4D if nano else 0xA1B2C3D4, 2, 4, 0, 0, 262144, link)
    for seconds, micros, packet in packets:
        text = front + change(packet)
        out += struct.pack(order + "IIII", seconds, micros * 1000 if nano else micros, len(text), len(text)) + text
    return out


def ethernet(kind, *tags):
    return MAC + b"".join(struct.pack(">HH", tag, 5) for tag in tags) + struct.pack(">H", kind)


def with_options(packet):
    """The header of IPv4 with a router alert (RFC 2113)."""
    length = struct.unpack_from(">H", packet, 2)[0] + 4
    return bytes([0x46]) + packet[1:2] + struct.pack(">H", length) + packet[4:20] + bytes.fromhex("94040000") + packet[20:]


def with_headers(packet):
    """The header of IPv6 before options for each hop, options for the destination, and a route."""
    options = bytes.fromhex("010400000000")
    more = bytes([60, 0]) + options + bytes([43, 0]) + options + bytes([6, 1]) + bytes.fromhex("010c") + bytes(12)
    return packet[:4] + struct.pack(">H", struct.unpack_from(">H", packet, 4)[0] + len(more)) + b"\0" + packet[7:40] + more + packet[40:]


def beside(packets):
    """The packets, and behind each one that has no segment: fragments, other protocols, an unknown version, headers that are cut off, and lengths
    that contradict each other."""
    packets = list(packets)
    first = packets[0][2]
    tcp, odd = first[20:], lambda at, text: first[:at] + text + first[at + len(text) :]
    six = lambda following, more: struct.pack(">IHBB", 0x60000000, len(more), following, 64) + bytes(31) + b"\x01" + bytes(31) + b"\x02" + more
    others = [odd(6, b"\x20\0"), odd(6, b"\0\x03"), six(44, bytes.fromhex("0600000100000001") + tcp), odd(9, b"\x11"), b"\x50" + bytes(39), b"",
              first[:19], first[:39], odd(0, b"\x44"), odd(2, b"\0\x13"), odd(32, b"\x40"), odd(32, b"\xf0")]
    for number, (seconds, micros, packet) in enumerate(packets):
        yield seconds, micros, packet
        yield seconds, micros, others[number % len(others)]


def block(order, kind, body):
    body += bytes(-len(body) % 4)
    return struct.pack(order + "II", kind, len(body) + 12) + body + struct.pack(order + "I", len(body) + 12)


def section(order):
    return block(order, 0x0A0D0D0A, struct.pack(order + "IHHq", 0x1A2B3C4D, 1, 0, -1))


def interface(order, link, digits=None):
    """An interface whose clock counts so many decimal digits, or microseconds."""
    options = b"" if digits is None else struct.pack(order + "HHBxxx", 9, 1, digits) + struct.pack(order + "HH", 0, 0)
    return block(order, 1, struct.pack(order + "HHI", link, 0, 0) + options)


def enhanced(order, which, time, packet):
    return block(order, 6, struct.pack(order + "IIIII", which, time >> 32, time & 0xFFFFFFFF, len(packet), len(packet)) + packet)


def pcapng(packets):
    """Two clocks, a block that is passed over, and a second section, in the other order."""
    packets = list(packets)
    out = section("<") + interface("<", 1) + interface("<", 101, 9) + block("<", 4, bytes(4))
    for number, (seconds, micros, packet) in enumerate(packets):
        if number == len(packets) // 2:
            out += section(">") + interface(">", 101, 9)
        time = seconds * 1000000 + micros
        if number >= len(packets) // 2:
            out += enhanced(">", 0, time * 1000, packet)
        elif number % 2:
            out += enhanced("<", 1, time * 1000, packet)
        else:
            out += enhanced("<", 0, time, ethernet(0x0800) + packet)
    return out


def of_4(capture):
    """The forms of a capture of IPv4."""
    packets = list(packets_of(capture))
    front = ethernet(0x0800)
    yield "the other order of bytes", pcap(packets, 1, ">", front=front)
    yield "nanoseconds", pcap(packets, 1, nano=True, front=front)
    yield "nanoseconds, the other order", pcap(packets, 1, ">", True, front)
    yield "one tag", pcap(packets, 1, front=ethernet(0x0800, 0x8100))
    yield "two tags", pcap(packets, 1, front=ethernet(0x0800, 0x88A8, 0x8100))
    yield "Linux cooked", pcap(packets, 113, front=bytes.fromhex("00000001000602000000000100000800"))
    yield "Linux cooked, version 2", pcap(packets, 276, front=bytes.fromhex("0800000000000002000100060200000000010000"))
    yield "raw IP", pcap(packets)
    yield "raw IPv4", pcap(packets, 228)
    yield "BSD loopback", pcap(packets, 0, front=bytes.fromhex("02000000"))
    yield "BSD loopback in network order", pcap(packets, 108, front=bytes.fromhex("00000002"))
    yield "IPv4 with options", pcap(packets, change=with_options)
    yield "packets without a segment between", pcap(beside(packets))
    yield "pcapng, two sections", pcapng(packets)


def of_6(capture):
    """The forms of a capture of IPv6."""
    packets = list(packets_of(capture))
    yield "IPv6 over Ethernet", pcap(packets, 1, front=ethernet(0x86DD))
    yield "raw IPv6", pcap(packets, 229)
    yield "IPv6 over BSD loopback", pcap(packets, 0, front=bytes.fromhex("1e000000"))
    yield "IPv6 behind other headers", pcap(packets, change=with_headers)


# What is no capture, or none of a known form.
BAD = [
    ("no capture", b"GET / HTTP/1.1"),
    ("a packet that is too long", pcap([]) + struct.pack("<IIII", 0, 0, 16777217, 16777217)),
    ("a block whose length is no multiple of 4", section("<") + struct.pack("<III", 4, 17, 0)),
    ("a packet of an interface that was not described", section("<") + enhanced("<", 0, 0, bytes(20))),
    ("a clock that counts binary fractions of a second", section("<") + interface("<", 1, 0x80 + 10)),
]
