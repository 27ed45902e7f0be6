"""Hosts, each a network namespace, and a wire between them that this process carries packet by packet, so that it can drop, delay and
repeat them. Each host has an end of the wire (a TUN device); what is captured is what one of the hosts sees.
"""
import fcntl
import heapq
import os
import select
import struct
import subprocess
import threading
import time

HOSTS = (1, 2, 3)
MAPPER = "4389"
SYN, FIN, RESET, ACK = 2, 1, 4, 16
TUNSETIFF, IFF_TUN, IFF_NO_PI = 0x400454CA, 0x0001, 0x1000


def address_of(host):
    return f"10.0.0.{host}"


class Packet:
    """A packet of IPv4 or IPv6. What is no TCP has no ports."""

    def __init__(self, data):
        self.data = data
        first, size, kind, behind = (12, 4, data[9], 4 * (data[0] & 15)) if data[0] >> 4 == 4 else (8, 16, data[6], 40)
        self.source, self.target = data[first + size - 1], data[first + 2 * size - 1]
        self.source_port = self.target_port = self.flags = 0
        self.payload, self.is_tcp = b"", kind == 6
        if self.is_tcp:
            self.source_port, self.target_port = struct.unpack_from(">HH", data, behind)
            self.flags = data[behind + 13]
            self.payload = data[behind + 4 * (data[behind + 12] >> 4):]

    def is_of(self, port):
        return port in (self.source_port, self.target_port)

    def says(self, *tags):
        """Whether a node says a message of one of these tags."""
        return self.payload[2:3] in tags and not self.is_of(int(MAPPER))


class Wire(threading.Thread):
    """`rule` says for each packet after how many seconds a copy of it arrives: none if it is dropped. `seen_by` is the host that captures
    what it sends and what arrives, and `keep` says which packets. All three may be set at any time."""

    def __init__(self):
        super().__init__(daemon=True)
        self.rule, self.seen_by, self.keep = lambda packet: [0], 2, lambda packet: True
        self.late, self.captured, self.count, self.is_over = [], [], 0, False
        self.ends = {host: self.add_end(host) for host in HOSTS}
        self.began = time.monotonic()
        self.start()

    def add_end(self, host):
        end = os.open("/dev/net/tun", os.O_RDWR)
        fcntl.ioctl(end, TUNSETIFF, struct.pack("16sH22x", f"wire{host}".encode(), IFF_TUN | IFF_NO_PI))
        subprocess.run(["ip", "netns", "add", f"host{host}"], check=True)
        subprocess.run(["ip", "link", "set", f"wire{host}", "netns", f"host{host}"], check=True)
        for words in ("link set lo up", f"address add {address_of(host)}/24 dev wire{host}",
                      f"address add fd00::{host}/64 dev wire{host} nodad", f"link set wire{host} up"):
            subprocess.run(["ip", "-n", f"host{host}", *words.split()], check=True)
        return end

    def capture(self, packet):
        if self.keep(packet):
            self.captured.append((time.monotonic() - self.began, packet.data))

    def take(self, data):
        packet = Packet(data)
        if not packet.is_tcp or packet.target not in self.ends:
            return
        if packet.source == self.seen_by:
            self.capture(packet)
        for seconds in self.rule(packet):
            self.count += 1
            heapq.heappush(self.late, (time.monotonic() + seconds, self.count, packet))

    def deliver(self):
        while self.late and self.late[0][0] <= time.monotonic():
            packet = heapq.heappop(self.late)[2]
            if packet.target == self.seen_by:
                self.capture(packet)
            os.write(self.ends[packet.target], packet.data)

    def run(self):
        while not self.is_over:
            wait = max(0, self.late[0][0] - time.monotonic()) if self.late else 0.1
            for end in select.select(list(self.ends.values()), [], [], min(wait, 0.1))[0]:
                self.take(os.read(end, 65536))
            self.deliver()

    def stop(self):
        """Takes the wire and its hosts away, and returns what was captured: each packet with its seconds."""
        self.is_over = True
        self.join(10)
        for host, end in self.ends.items():
            os.close(end)
            subprocess.run(["ip", "netns", "delete", f"host{host}"], check=True)
        return self.captured
