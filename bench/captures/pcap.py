"""Captures as bytes."""
import struct

FIRST = 1_700_000_000
ETHERNET, RAW = 1, 101


def capture(packets, link, most=65535):
    """A capture of these packets, each with its seconds, which begins at `FIRST`. Of each packet at most so many bytes are in it."""
    out = struct.pack("<IHHiIII", 0xA1B2C3D4, 2, 4, 0, 0, most, link)
    for seconds, packet in packets:
        micros = round((seconds - packets[0][0]) * 1_000_000)
        out += struct.pack("<IIII", FIRST + micros // 1_000_000, micros % 1_000_000, min(most, len(packet)), len(packet)) + packet[:most]
    return out
